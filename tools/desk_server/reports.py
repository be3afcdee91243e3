"""Reads a report of gross wages from CSV: the header `worker,gross`, then a line a worker, gross amounts
in cents."""

import csv
import io
import re
from dataclasses import dataclass, field

from .amounts import MOST_WORKER

MOST_LINES = 500
MOST_GROSS = 10_000_000
# So many of the faults are told.
MOST_TOLD = 20
DIGITS = re.compile(r"[0-9]{1,18}")
# What stands in the messages of the csv module, by which alone it tells its faults apart, and their reasons.
CSV_REASONS = {"unexpected end": "csv", "expected after": "quote", "new-line": "return", "field limit": "long"}


@dataclass
class Report:
    """The gross wages by worker, in the order of the file, and what is wrong with it: line, reason and
    word."""

    wages: dict[int, int] = field(default_factory=dict)
    faults: list[dict] = field(default_factory=list)

    @property
    def gross(self) -> int:
        return sum(self.wages.values())

    @property
    def lines(self) -> list[dict[str, int]]:
        return [{"gross": gross, "worker": worker} for worker, gross in self.wages.items()]

    def add(self, fields: list[str]) -> tuple[str, str] | None:
        """Adds a line, or tells why it can't be: the reason, and the word that is wrong."""
        if len(fields) != 2:
            return "fields", str(len(fields))
        worker, gross = (it.strip() for it in fields)
        if not DIGITS.fullmatch(worker) or not 1 <= int(worker) <= MOST_WORKER:
            return "worker", worker[:40]
        if not DIGITS.fullmatch(gross) or int(gross) > MOST_GROSS:
            return "gross", gross[:40]
        if int(worker) in self.wages:
            return "twice", worker
        if len(self.wages) == MOST_LINES:
            return "lines", str(MOST_LINES)
        self.wages[int(worker)] = int(gross)
        return None


def csv_reason(why: csv.Error) -> str:
    return next((reason for words, reason in CSV_REASONS.items() if words in str(why)), "unread")


def read_report(text: str) -> Report:
    """A spreadsheet may put a byte order mark in front, and semicolons in the place of the commas, or tabs where its
    cells are copied. What stands in the header parts all lines."""
    report = Report()
    text = text.removeprefix("\ufeff")
    header = text.partition("\n")[0].strip("\r ").replace('"', "")
    separator = next((it for it in ";\t" if it in header), ",")
    if header != f"worker{separator}gross":
        report.faults.append({"line": 1, "reason": "header", "word": header[:40]})
        return report
    rows = csv.reader(io.StringIO(text), strict=True, delimiter=separator)
    try:
        next(rows)
        for fields in filter(None, rows):
            wrong = report.add(fields)
            if wrong and len(report.faults) < MOST_TOLD:
                report.faults.append({"line": rows.line_num, "reason": wrong[0], "word": wrong[1]})
    except csv.Error as why:
        report.faults.append({"line": rows.line_num, "reason": csv_reason(why), "word": ""})
    return report
