"""Tables in files: CSV in UTF-8 with a header of its own."""

from __future__ import annotations

import csv
import io
from collections.abc import Iterator

from .texts import Fault

MOST_BYTES = 4_194_304


def read_rows(path: str, header: tuple[str, ...]) -> Iterator[tuple[str, list[str]]]:
    """Each line's place, for what is told of it, and its fields, which are as many as those of the header."""
    rows = csv.reader(io.StringIO(read_text(path), newline=""), strict=True)
    try:
        if tuple(next(rows, ())) != header:
            raise Fault(f"{path}: the first line isn't {','.join(header)}")
        # Empty lines count for nothing.
        for fields in filter(None, rows):
            place = f"{path}, line {rows.line_num}"
            if len(fields) != len(header):
                raise Fault(f"{place}: {len(fields)} fields in place of {len(header)}")
            yield place, fields
    except csv.Error as why:
        raise Fault(f"{path}, line {rows.line_num}: {why}") from None


def read_text(path: str) -> str:
    with open(path, "rb") as file:
        content = file.read(MOST_BYTES + 1)
    if len(content) > MOST_BYTES:
        raise Fault(f"{path}: larger than {MOST_BYTES} bytes")
    try:
        return content.decode("utf-8-sig")
    except UnicodeDecodeError:
        raise Fault(f"{path}: no text in UTF-8") from None
