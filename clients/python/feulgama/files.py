"""Files that are written whole, or stay as they were."""
from __future__ import annotations

import contextlib
import os
import secrets
from pathlib import Path

DEVICES = (Path("/dev"), Path("/proc"))


def write_whole(path: Path, data: bytes) -> None:
    """Writes a file. If that fails, as on a full disk, what was there stays: a new file is written beside the old one, with
    its mode and if possible its owner, and takes its place. What is no regular file, as /dev/stdout, or may not be replaced,
    is written in place. Raises OSError, and ValueError if the name has a NUL."""
    target = Path(os.path.realpath(path))
    if not is_replaceable(path, target):
        path.write_bytes(data)
        return
    new = target.with_name(f".feulgama-{secrets.token_hex(8)}")
    with new.open("xb") as file:
        try:
            if target.exists():
                take_rights(file.fileno(), target.stat())
            file.write(data)
            file.close()
            os.replace(new, target)
        except BaseException:
            new.unlink(missing_ok=True)
            raise


def is_replaceable(path: Path, target: Path) -> bool:
    """Whether another file may take the place of the one that a path leads to: it is not there, or regular and writable."""
    if any(device in path.absolute().parents for device in DEVICES) or not os.access(target.parent, os.W_OK | os.X_OK):
        return False
    return not target.exists() or target.is_file() and os.access(target, os.W_OK)


def take_rights(descriptor: int, old: os.stat_result) -> None:
    """Gives an open file the mode of another one, and its owner and group if that is allowed."""
    with contextlib.suppress(OSError):
        os.fchown(descriptor, old.st_uid, old.st_gid)
    os.fchmod(descriptor, old.st_mode & 0o777)
