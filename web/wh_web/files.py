"""A warehouse's file and the log beside it: whether they changed, whether somebody holds them, and copies."""

import fcntl
import os
import shutil
import struct
import tempfile
from pathlib import Path

# Where SQLite locks a file, and how a lock is asked for: type, whence, start, length, process.
_LOCKED_FROM, _LOCKED = 1 << 30, 512
_LOCK = "hhqqi4x"
# A longer log may hold commands.
_EMPTY_LOG = 41

Signature = tuple[tuple[int, int, int], ...]


class Changing(Exception):
    """The file was written while it was copied."""


def log_of(path: Path) -> Path:
    """The log that lies beside a file."""
    return path.with_name(path.name + "-wal")


def signature(path: Path) -> Signature:
    """What changes whenever a command is kept in the file."""
    found = []
    for part in (path, log_of(path)):
        if part.exists():
            told = part.stat()
            if part == path or told.st_size > _EMPTY_LOG:
                found.append((told.st_ino, told.st_size, told.st_mtime_ns))
    return tuple(found)


def write_whole(path: Path, content: bytes) -> None:
    """Writes a file that others may read meanwhile: they see what it held before, or all of this."""
    with tempfile.NamedTemporaryFile(dir=path.parent, prefix=".new-", delete=False) as new:
        new.write(content)
    os.replace(new.name, path)


def is_held(path: Path) -> bool:
    """Whether another process has locked the file. No lock is taken for this."""
    with path.open("rb") as file:
        asked = struct.pack(_LOCK, fcntl.F_RDLCK, os.SEEK_SET, _LOCKED_FROM, _LOCKED, 0)
        told = fcntl.fcntl(file, fcntl.F_GETLK, asked)
    return bool(struct.unpack(_LOCK, told)[0] != fcntl.F_UNLCK)


def copy_files(path: Path, folder: Path) -> tuple[Path, Signature]:
    """Copies a file and its log; also says of which state of the file it is a copy."""
    before = signature(path)
    copy = folder / path.name
    shutil.copyfile(path, copy)
    if log_of(path).exists():
        shutil.copyfile(log_of(path), log_of(copy))
    if signature(path) != before:
        raise Changing(f"{path} was written while it was copied")
    return copy, before
