"""The firms that were opened at this desk, the last one first: the page offers them, since the office
lists no firms."""

import contextlib
import json
import threading
from pathlib import Path

MOST = 200


class Recent:
    def __init__(self, folder: Path):
        self.path = folder / "firms.json"
        self.firms: dict[int, str] = {}
        # Two windows may open firms at once.
        self.adding = threading.Lock()
        # It is a convenience: a file that can't be read is made anew.
        with contextlib.suppress(OSError, ValueError, TypeError):
            self.firms = {int(number): str(name) for number, name in json.loads(self.path.read_bytes())}

    def add(self, employer: int, name: str) -> None:
        with self.adding:
            if next(iter(self.firms.items()), None) != (employer, name):
                others = {number: it for number, it in self.firms.items() if number != employer}
                self.firms = dict([(employer, name), *others.items()][:MOST])
                self.write()

    def write(self) -> None:
        part = self.path.with_suffix(".part")
        with contextlib.suppress(OSError):
            part.write_text(json.dumps(list(self.firms.items()), ensure_ascii=False), encoding="utf-8")
            part.replace(self.path)

    def told(self) -> list[dict[str, str]]:
        return [{"employer": str(number), "name": name} for number, name in self.firms.items()]
