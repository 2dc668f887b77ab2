"""The package where it is installed, from its installation to its removal."""
from __future__ import annotations

from typing import ClassVar

from checks.containerd import CONFIG
from checks.engines import PODMAN_CONFIG
from checks.images import TOP
from checks.machine import Ended, until

from .base import Check
from .root import Root, unmount

HELLO = "hello, feulgama\n"
COUNTS = TOP / "clients/oci/test/counts.wat"
DOCS = "/usr/share/doc/feulgama"
UNITS = ("feulgama.socket", "feulgama@.service", "feulgama-fifo.service")
PAGES = {"wasm-shim": "1", "wasm-shim-serve": "1", "feulgama": "1", "feulgama-oci": "8", "containerd-shim-feulgama-v1": "8"}
# What the man page of a program has to say: of its help, and of the page about its commands.
SAID = {"wasm-shim": ("serve", "replay", "Why a file is refused"), "wasm-shim-serve": ("--caller", "When an end is logged"),
        "feulgama": ("debug", "--shim"),
        "feulgama-oci": ("FEULGAMA_RUNC", "supervise"),
        "containerd-shim-feulgama-v1": ("-publish-binary", "-namespace")}
LOADED = """. /usr/share/bash-completion/bash_completion
for name in wasm-shim feulgama; do _completion_loader $name; complete -p $name; done"""
FOUND = "autoload -Uz compinit; compinit -D; print $_comps[wasm-shim] $_comps[feulgama]"


class Installed(Check):
    """The installed package. Each check goes on where the one before it ended."""

    root: ClassVar[Root]
    before: ClassVar[set[str]]

    @classmethod
    def setUpClass(cls) -> None:
        cls.root = Root(cls.setting.machine, cls.setting.base)
        cls.before = cls.root.files()

    @classmethod
    def tearDownClass(cls) -> None:
        cls.setting.machine.end_daemons()
        unmount(cls.setting.machine)

    def test_1_install(self) -> None:
        """dpkg installs it, and has nothing to say against it"""
        self.root.must("dpkg", "--install", self.root.put(self.setting.package, self.setting.package.name))
        self.assertEqual(self.root.must("dpkg-query", "-W", "-f", "${db:Status-Status}", "feulgama"), "installed")
        self.assertEqual(self.root.must("dpkg", "--verify", "feulgama"), "")

    def test_2_hello(self) -> None:
        """a module runs"""
        ended = self.root.run("wasm-shim", "run", f"{DOCS}/examples/hello.wat")
        self.assertEqual((ended.status, ended.out, ended.err), (0, HELLO, ""))

    def test_3_debugger(self) -> None:
        """the library and the debugger run the installed program"""
        said = self.root.put("run\nquit\n", "commands")
        ended = self.root.run("feulgama", "debug", "--commands", said, f"{DOCS}/examples/hello.wat")
        self.assertEqual(ended.status, 0, ended.err)
        self.assertIn(HELLO, ended.out)
        where = self.root.must("python3", "-c", "import feulgama; print(feulgama.__file__)")
        self.assertEqual(where, "/usr/lib/python3/dist-packages/feulgama/__init__.py\n")

    def test_4_man(self) -> None:
        """man shows a page of each program"""
        for name, section in PAGES.items():
            ended = self.root.run("man", section, name)
            self.assertEqual((ended.status, ended.err), (0, ""))
            for word in SAID[name]:
                self.assertIn(word, ended.out)

    def test_5_completions(self) -> None:
        """bash and zsh find the completions"""
        loaded = self.root.must("bash", "-c", LOADED)
        self.assertEqual([line.split()[-3:] for line in loaded.splitlines()],
                         [["-F", "_wasm_shim", "wasm-shim"], ["-F", "_feulgama", "feulgama"]])
        self.assertEqual(self.root.must("zsh", "-c", FOUND), "_wasm-shim _feulgama\n")

    def test_6_units(self) -> None:
        """the units are there, their program too, and none is enabled"""
        for name in UNITS:
            text = (self.root.at / "lib/systemd/system" / name).read_text()
            started = [line.partition("=")[2].split()[0] for line in text.splitlines() if line.startswith("Exec")]
            self.assertEqual([path for path in started if not (self.root.at / path.lstrip("/")).is_file()], [])
        wanted = [path for path in self.root.at.glob("etc/systemd/system/**/*") if "feulgama" in path.name]
        self.assertEqual(wanted, [])

    def image(self, name: str = "hello", text: str = f"{DOCS}/examples/hello.wat") -> str:
        """The archive of an image of a module, made by installed programs."""
        self.root.must("wasm-shim", "asm", "-o", f"/trial/{name}.wasm", text)
        self.root.must("sh", "-c", f"cd /trial && {DOCS}/examples/image {name}.wasm {name}:1")
        return f"/trial/{name}.tar"

    def attached(self, ctr: tuple[str, ...], options: tuple[str, ...]) -> Ended:
        """What the debugger writes on a container that runs, which is ended then."""
        self.root.must(*ctr, "images", "import", self.image("counts", self.root.put(COUNTS, "counts.wat")))
        self.root.must(*ctr, "run", "-d", *options, "--log-uri=file:///trial/counts.log", "localhost/counts:1", "counts")
        said = self.root.put("stepi 5\nbacktrace\nquit\n", "commands")
        written = self.root.run("feulgama", "attach", "--state", "/trial/containerd/state", "--commands", said, "counts")
        self.root.must(*ctr, "tasks", "kill", "counts")
        until("it has ended", lambda: "exit code 143" in self.root.run(*ctr, "tasks", "delete", "counts").err)
        return written

    def test_7_ctr(self) -> None:
        """ctr run runs a module by the installed shim, and the installed debugger is attached to one that runs"""
        config = self.root.put(CONFIG.format(at="/trial/containerd"), "config.toml")
        machine = self.setting.machine
        machine.daemon(self.root.words("containerd", "--config", config), machine.folder / "containerd.log")
        ctr = ("ctr", "--address=/trial/containerd/socket")
        until("an answer of containerd", lambda: self.root.run(*ctr, "version").status == 0)
        self.root.must(*ctr, "images", "import", self.image())
        options = ("--rm", "--runtime=io.containerd.feulgama.v1", f"--cgroup=/{machine.name}/ctr")
        ended = self.root.run(*ctr, "run", *options, "localhost/hello:1", "first")
        attached = self.attached(ctr, options[1:])
        machine.end_daemons()
        self.assertEqual((ended.status, ended.out), (0, HELLO), ended.err)
        shown = r"(?s)stepi 5\nturn \d+ at 1:\d+ <_start>.*#0 1:\d+ <_start>.*\ncounts runs on from turn \d+\n\Z"
        self.assertRegex(attached.out, shown, attached.err)

    def test_8_podman(self) -> None:
        """podman run runs a module by the installed runtime"""
        config = self.root.put(PODMAN_CONFIG.format(runtime="/usr/bin/feulgama-oci"), "containers.conf")
        places = [f"--{place}=/trial/podman/{place}" for place in ("root", "runroot", "tmpdir")]
        podman = ("env", f"CONTAINERS_CONF={config}", "podman", *places, "--storage-driver=vfs")
        self.root.must(*podman, "load", "-q", "-i", self.image())
        options = ("--rm", "--network=none", f"--cgroup-parent=/{self.setting.machine.name}")
        ended = self.root.run(*podman, "run", *options, "localhost/hello:1")
        self.assertEqual((ended.status, ended.out), (0, HELLO), ended.err)

    def test_9_remove(self) -> None:
        """dpkg removes it, and nothing is left"""
        self.assertIn("usr/bin/wasm-shim", self.root.files())
        self.root.must("dpkg", "--purge", "feulgama")
        self.assertEqual(sorted(self.root.files() - self.before), [])
        self.assertEqual(self.root.run("dpkg-query", "-W", "feulgama").status, 1)
