"""A command to the office: what the clerk's forms come to, with the words and values by which log and
page tell of it."""

import base64
import json
from dataclasses import dataclass, field
from typing import Any

Values = dict[str, Any]

# The commands that can't be taken back: the page tells so, and the desk sends them only when that was
# confirmed.
FINAL = frozenset(("assign", "bank", "end", "payouts", "rates", "register", "release", "reminders", "withdraw"))
# The members of each command's reply: what has others comes from no office.
DONE = frozenset(("done",))
REPLIES = {
    "register": DONE, "end": DONE, "rates": DONE, "assign": DONE, "withdraw": DONE,
    "report": frozenset(("charge", "version")), "correct": frozenset(("charge", "version")),
    "claim": frozenset(("claim",)), "release": frozenset(("paid", "to_contributions", "to_interest")),
    "bank": frozenset(("new", "repeats")), "payouts": frozenset(("items", "list", "total")),
    "reminders": frozenset(("firms", "run")),
}


@dataclass(frozen=True)
class Command:
    kind: str
    method: str
    path: str
    body: bytes
    values: Values = field(default_factory=dict)

    @property
    def words(self) -> str:
        return " ".join([self.kind, *map(str, self.values.values())])


def command(kind: str, path: str, members: Values | None, values: Values, method: str = "POST") -> Command:
    """A command whose body is a JSON object of these members, or empty where there are none."""
    text = "" if members is None else json.dumps(members, ensure_ascii=False, separators=(",", ":"))
    return Command(kind, method, path, text.encode(), values)


@dataclass(frozen=True)
class Numbered:
    """A command under its number, as it is written down before it is sent."""

    number: int
    time: str
    command: Command

    def entry(self) -> dict[str, Any]:
        return {"time": self.time, "number": self.number, "words": self.command.words}

    def to_json(self) -> bytes:
        told = self.command
        members = {
            "number": self.number, "time": self.time, "kind": told.kind, "method": told.method,
            "path": told.path, "values": told.values, "body": base64.b64encode(told.body).decode(),
        }
        return json.dumps(members, ensure_ascii=False).encode() + b"\n"


def numbered_of(content: bytes) -> Numbered:
    """What `to_json` wrote. ValueError or KeyError for anything else."""
    read = json.loads(content)
    body = base64.b64decode(read["body"], validate=True)
    told = Command(read["kind"], read["method"], read["path"], body, dict(read["values"]))
    return Numbered(int(read["number"]), str(read["time"]), told)
