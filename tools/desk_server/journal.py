"""The desk's folder: the numbers that were taken, the one request that has no answer yet, and the log.

`numbers.jsonl` and `pending.json` are written to the disk before a request is sent, `log.jsonl` once it
has an answer, and `pending.json` goes last. So after a crash at any moment either nothing was sent, or
what was sent stands in `pending.json` and is sent again under its number.

Where the disk takes no more of `log.jsonl`, the answer holds all the same: it is told, the entry waits in
front of the next number, and no further request is sent before it is written. Until then `pending.json`
stays.
"""

import contextlib
import datetime
import fcntl
import json
import os
from pathlib import Path
from typing import Any

from .commands import Command, Numbered, numbered_of
from .faults import StartFault
from .history import History
from .numbers import next_number

# What ends a request. A refusal ends it too, unless it says that nothing is decided.
SETTLED = ("done", "repeated", "refused", "given-up")


def now() -> datetime.datetime:
    return datetime.datetime.now().astimezone()


def time_text() -> str:
    return now().isoformat(timespec="seconds")


def read_entry(text: bytes) -> dict[str, Any] | None:
    """The entry of a line, or None. The first part of an entry is none: its last brace isn't there."""
    try:
        entry = json.loads(text)
    except ValueError:
        return None
    return entry if isinstance(entry, dict) and type(entry.get("number")) is int else None


class Lines:
    """A file of JSON objects, one a line, to which lines are added; each is on the disk when `append`
    returns."""

    def __init__(self, path: Path):
        self.path = path
        self.file = os.open(path, os.O_RDWR | os.O_CREAT | os.O_APPEND | os.O_CLOEXEC, 0o600)
        # Where the last line went, if it was cut off.
        self.aside: Path | None = None

    def read(self) -> list[dict[str, Any]]:
        """All lines. The last one has no end where the desk stopped while it was written, or where an editor took
        the end away: whole it is kept, and cut off put aside, as what it was for isn't settled."""
        *lines, last = self.path.read_bytes().split(b"\n")
        if read_entry(last) is not None:
            lines.append(last)
            self.add(b"\n")
        elif last:
            self.put_aside(last)
        return [self.entry(place, text) for place, text in enumerate(lines, 1)]

    def put_aside(self, last: bytes) -> None:
        """Moves the last line into a file beside this one, behind those that went there before."""
        self.aside = self.path.with_suffix(".cut")
        with open(self.aside, "ab", opener=private) as file:
            file.write(last + b"\n")
            file.flush()
            os.fsync(file.fileno())
        sync_folder(self.path.parent)
        os.ftruncate(self.file, os.fstat(self.file).st_size - len(last))

    def entry(self, place: int, text: bytes) -> dict[str, Any]:
        entry = read_entry(text)
        if entry is None:
            raise StartFault(f"{self.path}: line {place} is none of the desk's")
        return entry

    def append(self, entry: dict[str, Any]) -> None:
        self.add(json.dumps(entry, ensure_ascii=False).encode() + b"\n")

    def add(self, content: bytes) -> None:
        end = os.fstat(self.file).st_size
        try:
            while content:
                content = content[os.write(self.file, content):]
            os.fsync(self.file)
        except OSError:
            os.ftruncate(self.file, end)
            raise


def lock(folder: Path) -> int:
    """The lock of the folder, which is held as long as the desk runs."""
    file = os.open(folder / "lock", os.O_RDWR | os.O_CREAT | os.O_CLOEXEC, 0o600)
    try:
        fcntl.flock(file, fcntl.LOCK_EX | fcntl.LOCK_NB)
    except BlockingIOError:
        raise StartFault(f"{folder}: another desk works with this folder") from None
    return file


def make_folder(folder: Path) -> None:
    """The folder, which nobody else may write: what stands in it is sent with the clerk's key."""
    if not folder.exists():
        folder.mkdir(mode=0o700, parents=True)
        sync_folder(folder.parent)
    status = folder.stat()
    if status.st_uid != os.getuid() or status.st_mode & 0o022:
        raise StartFault(f"{folder}: others may write this folder")


def sync_folder(folder: Path) -> None:
    descriptor = os.open(folder, os.O_RDONLY | os.O_DIRECTORY | os.O_CLOEXEC)
    try:
        os.fsync(descriptor)
    finally:
        os.close(descriptor)


class Journal:
    def __init__(self, folder: Path, desk: int, first: int | None):
        self.folder = folder
        self.desk = desk
        self.first = first
        make_folder(folder)
        self.lock = lock(folder)
        self.numbers = Lines(folder / "numbers.jsonl")
        self.log = Lines(folder / "log.jsonl")
        sync_folder(folder)
        taken, logged = self.numbers.read(), self.log.read()
        # One of the two files may be an older copy.
        self.last = max((entry["number"] for entry in (*taken, *logged)), default=0)
        self.history = History()
        # Entries that the disk didn't take.
        self.unwritten: list[dict[str, Any]] = []
        self.pending = self.read_pending(self.learn(logged))

    def learn(self, logged: list[dict[str, Any]]) -> set[int]:
        """Learns what the desk did before. The numbers of the requests that are settled."""
        settled = set()
        for place, entry in enumerate(logged, 1):
            try:
                self.history.add(entry)
            except (KeyError, TypeError, AttributeError):
                raise StartFault(f"{self.log.path}: line {place} is none of the desk's") from None
            if is_settled(entry):
                settled.add(entry["number"])
        return settled

    @property
    def pending_path(self) -> Path:
        return self.folder / "pending.json"

    def read_pending(self, settled: set[int]) -> Numbered | None:
        """The request that has no answer. The desk may have stopped between its log entry and its end."""
        try:
            pending = numbered_of(self.pending_path.read_bytes())
        except FileNotFoundError:
            return None
        except (ValueError, KeyError, TypeError):
            raise StartFault(f"{self.pending_path}: no request of the desk") from None
        if pending.number in settled:
            self.pending_path.unlink()
            return None
        self.last = max(self.last, pending.number)
        return pending

    def next_number(self) -> int:
        return next_number(self.last, now().date(), self.desk, self.first)

    def take(self, command: Command) -> Numbered:
        """Gives the command the next number, and writes both down. OSError if that fails, or if an entry
        still can't be written: then it isn't to be sent."""
        self.write_log()
        numbered = Numbered(self.next_number(), time_text(), command)
        self.numbers.append(numbered.entry())
        self.last = numbered.number
        part = self.folder / "pending.part"
        with open(part, "wb", opener=private) as file:
            file.write(numbered.to_json())
            file.flush()
            os.fsync(file.fileno())
        part.replace(self.pending_path)
        self.pending = numbered
        sync_folder(self.folder)
        return numbered

    def note(self, numbered: Numbered, outcome: str, reply: dict[str, Any]) -> tuple[dict[str, Any], bool]:
        """Logs what became of a request, and drops it where that settles it. The entry, and whether the
        disk took it."""
        entry = entry_of(numbered, outcome, reply)
        self.history.add(entry)
        self.unwritten.append(entry)
        with contextlib.suppress(OSError):
            self.write_log()
        if is_settled(entry):
            self.drop_pending()
        return entry, not self.unwritten

    def give_up(self, numbered: Numbered) -> dict[str, Any]:
        """Logs that a request is given up, and drops it. The entry; OSError where the disk doesn't take it,
        and the request stays."""
        self.write_log()
        entry = entry_of(numbered, "given-up", {})
        self.log.append(entry)
        self.history.add(entry)
        self.drop_pending()
        return entry

    def write_log(self) -> None:
        while self.unwritten:
            self.log.append(self.unwritten[0])
            del self.unwritten[0]

    def drop_pending(self) -> None:
        """Its file goes once the log has the entry, or a desk that is started anew would know of neither. One
        that can't be removed is known by the entry then."""
        self.pending = None
        if not self.unwritten:
            with contextlib.suppress(OSError):
                self.pending_path.unlink(missing_ok=True)


def entry_of(numbered: Numbered, outcome: str, reply: dict[str, Any]) -> dict[str, Any]:
    told = numbered.command
    return {"time": time_text(), "number": numbered.number, "outcome": outcome, "kind": told.kind,
            "words": told.words, "values": told.values, "reply": reply}


def is_settled(entry: dict[str, Any]) -> bool:
    return entry.get("outcome") in SETTLED


def private(path: str, flags: int) -> int:
    return os.open(path, flags, 0o600)
