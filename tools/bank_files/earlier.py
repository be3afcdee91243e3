"""Bank files made before.

The firm, the purpose and the note are part of a line. So where the clerk's table or words have changed,
the office would refuse a line that comes again as a conflict, unless it is written as it was.
"""

from __future__ import annotations

import re
from collections.abc import Iterable
from dataclasses import dataclass, replace

from .tables import read_rows
from .texts import Fault, shown

HEADER = ("reference", "value_date", "employer", "cents", "purpose", "note")
# How the office has the fields before the note.
WRITTEN = ("[!-~]{1,35}", "[0-9]{4}-[0-9]{2}-[0-9]{2}", "([1-9][0-9]{0,7})?", "[1-9][0-9]{0,11}", "[CI]?")

ROUNDED = re.compile(r"[0-9](?:\.[0-9]+)?E\+[0-9]{2}")


@dataclass(frozen=True)
class EarlierLine:
    value: str
    employer: str
    cents: str
    purpose: str
    note: str

    def meant(self) -> EarlierLine:
        """The line with its purpose, as the office takes it."""
        return replace(self, purpose=self.purpose or "C")


def read_earlier(paths: Iterable[str]) -> dict[str, EarlierLine]:
    """The lines of bank files by their references. The office has taken one of a reference alone, so files that
    disagree on it weren't all imported."""
    lines: dict[str, tuple[str, EarlierLine]] = {}
    for path in paths:
        for place, fields in read_rows(path, HEADER):
            check_fields(place, fields)
            line = EarlierLine(*fields[1:])
            first, known = lines.setdefault(fields[0], (place, line))
            if line.meant() != known.meant():
                raise Fault(f"{place}: {shown(fields[0])} is another line than in {first}, so the office took one of "
                            "the two at most; give the files that were imported")
    return {reference: line for reference, (_, line) in lines.items()}


def check_fields(place: str, fields: list[str]) -> None:
    """Refuses a line that was written anew, as by a spreadsheet: it wouldn't be known again."""
    for name, written, field in zip(HEADER, WRITTEN, fields):
        if not re.fullmatch(written, field):
            raise Fault(f"{place}: {name} is {shown(field) or 'empty'}, which the office doesn't take; "
                        "give the file as it was imported")
    if ROUNDED.fullmatch(fields[0]):
        raise Fault(f"{place}: reference is {fields[0]}, as a spreadsheet writes a long number; "
                    "give the file as it was imported")
