"""The two ways in which tools/build proves the crates of a program: from nothing, or from what was kept."""
from __future__ import annotations

import fcntl
import hashlib
import os
import shutil
import subprocess
from dataclasses import dataclass
from pathlib import Path
from typing import Protocol

TOP = Path(__file__).resolve().parent.parent
PROGRAM = "wasm_shim"
# The parts of a crate that a check of it reads.
READ = ("src", "specs", "proofs")


@dataclass
class Crate:
    """A crate, what it uses of the repository, all that it needs so, and about how many processor minutes it takes, alone and
    with the longest chain of those above it."""
    name: str
    uses: list[str]
    below: list[str]
    minutes: float
    chain: float = 0


class Way(Protocol):
    """How crates are proved. A crate is begun once all that it uses are done."""

    # How many processor minutes a crate takes for each job that it gets.
    for_a_job: float
    # The most jobs of the crate with the most work above it.
    of_urgent: int
    # The crates that gain nothing from a second job.
    alone: frozenset[str]

    def is_done(self, crate: Crate) -> bool:
        """Whether a crate is proved already, with the files that it has now."""

    def begin(self, crate: Crate, jobs: int) -> tuple[list[str], Path]:
        """The command that proves a crate, and the folder to run it in."""

    def end(self, crate: Crate, proved: bool) -> str:
        """Keeps what was made of a crate. Why it is not done although its command ended well; empty if it is."""

    def leave(self) -> None:
        """Takes back what a build that did not end has left."""


def said_of_crates() -> dict[str, str]:
    """The line of each crate in crates.txt."""
    lines = [line.split("#")[0].strip() for line in (TOP / "crates.txt").read_text().splitlines()]
    return {line.split(":")[0].split()[0]: line for line in lines if ":" in line}


def used_by(line: str) -> list[str]:
    """The libraries that a line of crates.txt says a crate uses, the kit's among them."""
    return line.partition(":")[2].split()


def out_of(name: str) -> Path:
    """The folder of what is made of a crate."""
    return TOP / "crates" / name / "out"


def statements_of(name: str) -> Path:
    """The folder of a crate's statements."""
    return out_of(name) / "statements"


def locked(folder: Path) -> int:
    """A lock on a folder, as rt takes it on a crate's."""
    lock = os.open(folder, os.O_RDONLY)
    fcntl.flock(lock, fcntl.LOCK_EX)
    return lock


def link_or_copy(source: str, target: str) -> None:
    """The same file in another place: a link, where the file system has links."""
    try:
        os.link(source, target)
    except OSError:
        shutil.copy2(source, target)


def move(source: Path, target: Path) -> None:
    """Moves a folder to another place, which is not there."""
    if source.is_dir():
        target.parent.mkdir(parents=True, exist_ok=True)
        shutil.move(source, target)


class Kept:
    """Proves crates by `rt lib`, which keeps its work: after an edit it proves anew only what changed, and so does `rt check`.

    rt locks a crate and all that it uses while it works, so that two crates over a third wait for each other. So each is
    proved in a folder of its own, crates/wasm_shim/out/scratch/NAME, with links to the files of those that it uses, and what
    was made is moved to crates/NAME/out. rt takes it there, since it goes by the contents of files.
    """

    # Each job reads all libraries for itself.
    for_a_job, of_urgent = 2.5, 4
    alone = frozenset[str]()
    scratch = out_of(PROGRAM) / "scratch"

    def __init__(self) -> None:
        self.locks: dict[str, int] = {}
        self.leave()

    def is_done(self, crate: Crate) -> bool:
        """rt itself looks whether something has changed."""
        return False

    def begin(self, crate: Crate, jobs: int) -> tuple[list[str], Path]:
        if crate.name == PROGRAM:
            return ["rt", "run", "--jobs", str(jobs), "--", "--version"], TOP / "crates" / PROGRAM
        self.locks[crate.name] = locked(TOP / "crates" / crate.name)
        return ["rt", "lib", "--jobs", str(jobs)], self._root_of(crate) / "crates" / crate.name

    def end(self, crate: Crate, proved: bool) -> str:
        if crate.name != PROGRAM:
            self._take_back(crate.name)
            os.close(self.locks.pop(crate.name))
        return ""

    def leave(self) -> None:
        """Moves back what is left in the folders of single crates, as after a build that was killed."""
        for root in sorted(self.scratch.glob("*")):
            self._take_back(root.name)

    def _root_of(self, crate: Crate) -> Path:
        """A folder with a crate, what was kept of its last check, and the built crates that it uses."""
        root, said = self.scratch / crate.name, said_of_crates()
        root.mkdir(parents=True)
        link_or_copy(str(TOP / "HANDLES"), str(root / "HANDLES"))
        (root / "crates.txt").write_text("".join(f"{said[name]}\n" for name in [crate.name, *crate.below]))
        for name in [crate.name, *crate.below]:
            source, target = TOP / "crates" / name, root / "crates" / name
            shutil.copytree(source, target, copy_function=link_or_copy, ignore=shutil.ignore_patterns("out"))
            if name != crate.name:
                shutil.copytree(source / "out/rlib", target / "out/rlib", copy_function=link_or_copy)
        move(out_of(crate.name), root / "crates" / crate.name / "out")
        return root

    def _take_back(self, name: str) -> None:
        """Moves what was made of a crate to where rt looks for it, and removes the folder where that was done."""
        made, kept = self.scratch / name / "crates" / name / "out", out_of(name)
        if made.is_dir():
            shutil.rmtree(kept, ignore_errors=True)
            move(made, kept)
        shutil.rmtree(self.scratch / name, ignore_errors=True)


class Anew:
    """Proves crates from nothing. As `rt ci` does, it writes what the crates above can cite of a crate, and not its checked
    proofs, which they would only load. The prover keeps no work so.

    The statements are in crates/NAME/out/statements, with a checksum of all that they were made from. They stay there until
    others are proved.
    """

    for_a_job, of_urgent = 1.5, 3
    # With two jobs, and with three, it takes twice the processor time.
    alone = frozenset({"flat_code"})

    def __init__(self, kit: Path) -> None:
        self.kit = kit
        self.version = subprocess.run(["rt", "version"], stdout=subprocess.PIPE, check=True).stdout
        self.said = said_of_crates()
        # The checksums of the crates that are done, and of those that were begun.
        self.sums: dict[str, str] = {}
        self.begun: dict[str, str] = {}

    def is_done(self, crate: Crate) -> bool:
        kept, made = statements_of(crate.name) / "sum", self._made(crate.name)
        if not (self.sums.keys() >= set(crate.uses) and kept.is_file() and made.exists()):
            return False
        if kept.read_text() != self._sum(crate):
            return False
        self.sums[crate.name] = kept.read_text()
        return True

    def begin(self, crate: Crate, jobs: int) -> tuple[list[str], Path]:
        shutil.rmtree(self._new(crate.name), ignore_errors=True)
        self._new(crate.name).mkdir(parents=True)
        self.begun[crate.name] = self._sum(crate)
        return self._words(crate, jobs), TOP / "crates" / crate.name

    def end(self, crate: Crate, proved: bool) -> str:
        if not proved:
            return ""
        if self._sum(crate) != self.begun[crate.name]:
            return "its files changed while it was proved; begin again"
        if crate.name == PROGRAM:
            why = self._link()
            if why:
                return why
        self.sums[crate.name] = self.begun.pop(crate.name)
        (self._new(crate.name) / "sum").write_text(self.sums[crate.name])
        shutil.rmtree(statements_of(crate.name), ignore_errors=True)
        self._new(crate.name).rename(statements_of(crate.name))
        return ""

    def leave(self) -> None:
        for name in self.begun:
            shutil.rmtree(self._new(name), ignore_errors=True)

    def _words(self, crate: Crate, jobs: int) -> list[str]:
        """The command by which rt checks a crate and writes its statements or, of the program, its object file."""
        kit, uses = self.kit, [one for one in used_by(self.said[crate.name]) if one not in self.said]
        root = "src/main.rt" if crate.name == PROGRAM else "src/lib.rt"
        words = [str(kit / "bin/rattle"), "build", "--crate-name", crate.name, root]
        for name in ["std", *uses]:
            words += ["--extern", f"{name}={kit / 'rlibs' / name}.rlib"]
        words += ["-L", f"dependency={kit / 'rlibs'}"]
        for name in crate.uses:
            words += ["--extern", f"{name}={self._made(name)}"]
        for name in crate.below:
            words += ["-L", f"dependency={statements_of(name)}"]
        words += ["--antt-project", str(kit / "rattle/logic/antt-project.json"), "--logic-built", str(kit / "logic_built")]
        words += ["--links", f"{crate.name}=", "--jobs", str(jobs)]
        if crate.name == PROGRAM:
            return [*words, "--toolchain", str(kit / "toolchain"), "--backend", "llvm", "-o", str(self._object())]
        return [*words, "--statements", "-o", str(self._new(crate.name) / f"{crate.name}.rlib")]

    def _link(self) -> str:
        """Links the program. Why that failed; empty if it did not."""
        new = self._new(PROGRAM) / PROGRAM
        kit, target = self.kit, "x86_64-unknown-linux-gnu"
        words = [kit / "bin/rattle-link", "--target", target, "--toolchain", kit / "toolchain", "-o", new, self._object(),
                 kit / "c/libos_c.a", kit / "c/liblibc_c.a"]
        done = subprocess.run([str(word) for word in words], stdin=subprocess.DEVNULL, stdout=subprocess.PIPE,
                              stderr=subprocess.STDOUT, text=True, check=False)
        if done.returncode != 0:
            return f"it cannot be linked: {done.stdout.strip()}"
        new.replace(self._made(PROGRAM))
        self._object().unlink()
        return ""

    def _object(self) -> Path:
        return self._new(PROGRAM) / f"{PROGRAM}.o"

    def _made(self, name: str) -> Path:
        """What is made of a crate."""
        return out_of(name) / name if name == PROGRAM else statements_of(name) / f"{name}.rlib"

    def _new(self, name: str) -> Path:
        """Where statements are until they are proved."""
        return out_of(name) / "statements.new"

    def _sum(self, crate: Crate) -> str:
        """A checksum of all that a crate is made from: the kit, its line in crates.txt, its files, and what it uses."""
        sums = hashlib.sha256(self.version + self.said[crate.name].encode())
        for name in crate.uses:
            sums.update(self.sums[name].encode())
        for part in READ:
            for path in sorted((TOP / "crates" / crate.name / part).rglob("*")):
                if path.is_file():
                    sums.update(f"{path.relative_to(TOP)} {hashlib.sha256(path.read_bytes()).hexdigest()}\n".encode())
        return sums.hexdigest()


def writes_statements(kit: Path) -> bool:
    """Whether this kit can write a library with its statements alone."""
    done = subprocess.run([str(kit / "bin/rattle"), "build", "--help"], stdin=subprocess.DEVNULL, stdout=subprocess.PIPE,
                          check=False)
    return b"--statements" in done.stdout


def way_for(crates: list[Crate], keep: bool) -> Way:
    """How to prove these crates: with kept work if that is wanted, or if rt has built one of them here and no build from
    nothing was made since."""
    if keep:
        for crate in crates:
            shutil.rmtree(statements_of(crate.name), ignore_errors=True)
        return Kept()
    anew = any(statements_of(crate.name).is_dir() for crate in crates)
    kept = any((out_of(crate.name) / "rlib").is_dir() for crate in crates)
    kit = Path(shutil.which("rt") or "").resolve().parent.parent
    if (kept and not anew) or not writes_statements(kit):
        return Kept()
    return Anew(kit)
