"""The files of a repository, as a check reads them."""
from __future__ import annotations

import fnmatch
import functools
import subprocess
from dataclasses import dataclass
from pathlib import Path

TOP = Path(__file__).resolve().parents[3]


@dataclass(frozen=True)
class Tree:
    """A repository's working tree: its root, and the files that git tracks or would track."""
    root: Path

    @functools.cached_property
    def files(self) -> list[str]:
        """All files by path from the root, sorted. A file that was removed without git is not there."""
        command = ["git", "-c", "safe.directory=*", "ls-files", "-z", "--cached", "--others", "--exclude-standard"]
        run = subprocess.run(command, cwd=self.root, check=True, stdout=subprocess.PIPE)
        names = {name for name in run.stdout.decode().split("\0") if name}
        return sorted(name for name in names if (self.root / name).is_file())

    def matching(self, *patterns: str) -> list[str]:
        """The files whose whole path fits one of the patterns; in a pattern `*` also stands for `/`."""
        return [name for name in self.files if any(fnmatch.fnmatchcase(name, pattern) for pattern in patterns)]

    def text(self, name: str) -> str:
        """A file's text, its line ends as they are."""
        return self.bytes(name).decode()

    def bytes(self, name: str) -> bytes:
        return (self.root / name).read_bytes()

    def has(self, name: str) -> bool:
        return (self.root / name).is_file()
