"""Writes new files whole or not at all, and in the place of no other."""

import contextlib
import errno
import os
import tempfile

from stops import stops_held


def write_all_new(contents: dict[str, bytes]) -> None:
    """Writes a new file at each of these paths, or none: a fault or a stop takes back what has its name already."""
    written: list[str] = []
    try:
        for path, content in contents.items():
            # A stop comes before a file has its name, or once that is noted.
            with stops_held():
                write_new(path, content)
                written.append(path)
    except BaseException:
        with stops_held():
            for path in written:
                os.unlink(path)
        raise


def write_new(path: str, content: bytes) -> None:
    """A FileExistsError where a file has the name already. Each fault names the path, and not the part of the file."""
    folder = os.path.dirname(path) or "."
    try:
        handle, part = tempfile.mkstemp(prefix=".part-", dir=folder)
        try:
            with open(handle, "wb") as file:
                file.write(content)
                file.flush()
                os.fsync(file.fileno())
            give_name(part, path)
        finally:
            with contextlib.suppress(FileNotFoundError):
                os.unlink(part)
    except OSError as why:
        raise OSError(why.errno, why.strerror, path) from None
    # The file stands. Where its folder can't be read, the file system keeps the name in its time.
    with contextlib.suppress(OSError):
        sync_folder(folder)


def give_name(part: str, path: str) -> None:
    """Unlike a rename, a second name takes the place of no file that came meanwhile. Where the file system has no
    second names, as on a USB stick, the file is renamed."""
    try:
        os.link(part, path)
    except FileExistsError:
        raise
    except OSError:
        if os.path.lexists(path):
            raise FileExistsError(errno.EEXIST, os.strerror(errno.EEXIST), path) from None
        os.rename(part, path)


def sync_folder(folder: str) -> None:
    handle = os.open(folder, os.O_RDONLY)
    try:
        os.fsync(handle)
    finally:
        os.close(handle)
