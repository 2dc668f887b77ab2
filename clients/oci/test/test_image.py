"""Tests of tools/image: what is in the archive, that its bytes are always the same, and what is refused."""
from __future__ import annotations

import hashlib
import io
import json
import os
import subprocess
import tarfile
import tempfile
import unittest
from pathlib import Path
from typing import Any

TOOL = Path(__file__).resolve().parents[3] / "tools" / "image"
MODULE = b"\0asm\1\0\0\0" + bytes(range(200))


class ImageTest(unittest.TestCase):
    """Runs the tool in a folder of its own."""

    def setUp(self) -> None:
        kept = tempfile.TemporaryDirectory()
        self.addCleanup(kept.cleanup)
        self.folder = Path(kept.name)
        self.module = self.folder / "m.wasm"
        self.module.write_bytes(MODULE)

    def tool(self, *words: str) -> subprocess.CompletedProcess[bytes]:
        """What the tool writes for these words, and its status."""
        return subprocess.run([TOOL, *words], cwd=self.folder, capture_output=True, timeout=60)

    def archive(self, *words: str) -> dict[str, bytes]:
        """The files of the archive that is made for these words."""
        made = self.tool(str(self.module), *words, "-o", "-")
        self.assertEqual((made.returncode, made.stderr), (0, b""))
        return read(made.stdout)

    def refused(self, *words: str) -> str:
        """Why the tool refuses these words, after it has been seen that it writes nothing."""
        made = self.tool(*words)
        self.assertEqual((made.returncode, made.stdout), (1, b""))
        self.assertEqual([path.name for path in self.folder.glob("*.tar*")], [])
        return made.stderr.decode()


def read(archive: bytes) -> dict[str, bytes]:
    """The files of a tar file."""
    files = {}
    with tarfile.open(fileobj=io.BytesIO(archive)) as opened:
        for about in opened:
            part = opened.extractfile(about)
            if part is not None:
                files[about.name] = part.read()
    return files


def at(files: dict[str, bytes], descriptor: dict[str, Any]) -> bytes:
    """The content that a descriptor names, whose digest and size have to be right."""
    algorithm, name = descriptor["digest"].split(":")
    content = files[f"blobs/{algorithm}/{name}"]
    assert hashlib.sha256(content).hexdigest() == name and len(content) == descriptor["size"]
    return content


class Contents(ImageTest):
    """What is in an archive, as the OCI image specification and docker's archive have it."""

    def test_the_layout_leads_to_the_module(self) -> None:
        files = self.archive("hello:2")
        self.assertEqual(json.loads(files["oci-layout"]), {"imageLayoutVersion": "1.0.0"})
        (entry,) = json.loads(files["index.json"])["manifests"]
        self.assertEqual(entry["platform"], {"os": "linux", "architecture": "amd64"})
        self.assertEqual(set(entry["annotations"].values()), {"localhost/hello:2"})
        manifest = json.loads(at(files, entry))
        config = json.loads(at(files, manifest["config"]))
        (layer,) = manifest["layers"]
        self.assertEqual(read(at(files, layer)), {"m.wasm": MODULE})
        self.assertEqual(config["rootfs"], {"type": "layers", "diff_ids": [layer["digest"]]})
        self.assertEqual(config["config"], {"Entrypoint": ["/m.wasm"], "WorkingDir": "/"})

    def test_the_archive_of_docker_names_the_same_parts(self) -> None:
        files = self.archive("r.example:5000/a/b_c:v1")
        (image,) = json.loads(files["manifest.json"])
        manifest = json.loads(at(files, json.loads(files["index.json"])["manifests"][0]))
        self.assertEqual(image["RepoTags"], ["r.example:5000/a/b_c:v1"])
        self.assertEqual(files[image["Config"]], at(files, manifest["config"]))
        self.assertEqual([files[name] for name in image["Layers"]], [at(files, manifest["layers"][0])])

    def test_other_platforms(self) -> None:
        for text, want in {
            "wasi/wasm": {"os": "wasi", "architecture": "wasm"},
            "linux/arm/v7": {"os": "linux", "architecture": "arm", "variant": "v7"},
        }.items():
            files = self.archive("x", "--platform", text)
            (entry,) = json.loads(files["index.json"])["manifests"]
            config = json.loads(at(files, json.loads(at(files, entry))["config"]))
            self.assertEqual(entry["platform"], want)
            self.assertEqual({key: config.get(key) for key in want}, want)

    def test_arguments_and_environment(self) -> None:
        files = self.archive("x", "--arg", "one", "--arg=-two", "--env", "A=B=C", "--env", "D=")
        (image,) = json.loads(files["manifest.json"])
        run = json.loads(files[image["Config"]])["config"]
        self.assertEqual((run["Cmd"], run["Env"]), (["one", "-two"], ["A=B=C", "D="]))

    def test_names_are_made_whole(self) -> None:
        for name, want in {
            "hello": "localhost/hello:latest", "a/b": "localhost/a/b:latest", "localhost/a:1": "localhost/a:1",
            "docker.io/library/a": "docker.io/library/a:latest", "h:5000/a": "h:5000/a:latest",
        }.items():
            self.assertEqual(json.loads(self.archive(name)["manifest.json"])[0]["RepoTags"], [want])


class Bytes(ImageTest):
    """The file that is written."""

    def test_the_same_bytes_again(self) -> None:
        self.assertEqual(self.tool(str(self.module), "hello").returncode, 0)
        first = (self.folder / "m.tar").read_bytes()
        other = self.folder / "elsewhere" / "m.wasm"
        other.parent.mkdir()
        other.write_bytes(MODULE)
        self.assertEqual(self.tool(str(other), "hello", "-o", "again.tar").returncode, 0)
        self.assertEqual(first, (self.folder / "again.tar").read_bytes())
        with tarfile.open(self.folder / "m.tar") as opened:
            self.assertEqual({(about.mtime, about.uid, about.gid, about.uname) for about in opened}, {(0, 0, 0, "")})

    def test_what_is_no_regular_file_stays_what_it_is(self) -> None:
        pipe = self.folder / "pipe"
        os.mkfifo(pipe)
        # Both ends are open, so that nothing waits for the other. The archive fits into a pipe.
        with open(os.open(pipe, os.O_RDWR | os.O_NONBLOCK), "rb", buffering=0) as reader:
            self.assertEqual(self.tool(str(self.module), "x", "-o", str(pipe)).stderr, b"")
            self.assertTrue(pipe.is_fifo())
            self.assertEqual(read(reader.read(1 << 16) or b""), self.archive("x"))
        made = self.tool(str(self.module), "x", "-o", "/dev/fd/1")  # a file that another program has opened
        self.assertEqual((made.returncode, made.stderr, read(made.stdout)), (0, b"", self.archive("x")))

    def test_a_link_stays_a_link(self) -> None:
        link, target = self.folder / "link", self.folder / "elsewhere" / "a.tar"
        target.parent.mkdir()
        link.symlink_to(target)
        for before in (None, b"before"):
            if before is not None:
                target.write_bytes(before)
            self.assertEqual(self.tool(str(self.module), "x", "-o", str(link)).returncode, 0)
            self.assertEqual(link.readlink(), target)
            self.assertEqual(read(target.read_bytes()), self.archive("x"))

    def test_a_long_file_name(self) -> None:
        long = self.folder / ("n" * 200 + ".wasm")
        long.write_bytes(MODULE)
        made = self.tool(str(long), "x", "-o", "-")
        files = read(made.stdout)
        layer = json.loads(files["manifest.json"])[0]["Layers"][0]
        self.assertEqual(read(files[layer]), {long.name: MODULE})


class Refusals(ImageTest):
    """What is no module, no name and no platform."""

    def test_modules(self) -> None:
        text = self.folder / "m.wat"
        text.write_text("(module)")
        large = self.folder / "large.wasm"
        large.write_bytes(MODULE[:4] + bytes(262_141))
        odd = self.folder / "m\n.wasm"
        odd.write_bytes(MODULE)
        self.assertIn("wasm-shim asm", self.refused(str(text), "x"))
        self.assertIn("262144", self.refused(str(large), "x"))
        self.assertIn("another name", self.refused(str(odd), "x"))
        self.assertIn("none.wasm", self.refused("none.wasm", "x"))
        large.write_bytes(MODULE[:4] + bytes(262_140))
        self.assertEqual(self.tool(str(large), "x").returncode, 0)

    def test_names_platforms_and_entries(self) -> None:
        module = str(self.module)
        for name in ("", "A", "a:", "a/", "/a", "a b", "a@sha256:1", "localhost/a:-"):
            self.assertIn("localhost/hello:1", self.refused(module, name))
        for platform in ("", "linux", "linux/", "Linux/amd64", "a/b/c/d"):
            self.assertIn("wasi/wasm", self.refused(module, "x", "--platform", platform))
        for entry in ("A", "=B"):
            self.assertIn("NAME=VALUE", self.refused(module, "x", "--env", entry))

    def test_the_command_line(self) -> None:
        self.assertEqual(self.tool().returncode, 2)
        told = self.tool("--help")
        self.assertEqual(told.returncode, 0)
        self.assertIn(b"podman load", told.stdout)

    def test_an_output_that_cannot_be_written(self) -> None:
        self.assertIn("nowhere", self.refused(str(self.module), "x", "-o", "nowhere/x.tar"))


if __name__ == "__main__":
    unittest.main()
