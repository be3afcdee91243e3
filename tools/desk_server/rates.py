"""The rates of a rate file, by which the desk tells beforehand what a report will be charged
(`docs/rules.md`)."""

import tomllib
from dataclasses import dataclass
from pathlib import Path
from typing import Any

from .amounts import YEAR_FIRST
from .faults import StartFault

RANGES = {
    "contribution": (0, 10_000), "report_day": (1, 28), "due_day": (1, 28), "interest": (0, 1_000),
    "entitlement": (0, 10_000),
}


@dataclass(frozen=True)
class RateRow:
    """A contribution rate in hundredths of a percent, and the first month for which it holds."""

    first: str
    contribution: int


def rate_in_force(rows: list[RateRow], month: str) -> RateRow | None:
    """The row with the greatest first month that isn't after this one. Months compare as texts."""
    return max((row for row in rows if row.first <= month), key=lambda row: row.first, default=None)


def contribution_of(base: int, rate: int) -> int:
    """The base at the rate, rounded half up to whole cents."""
    return (base * rate + 5_000) // 10_000


def row_fault(row: Any, before: str) -> str | None:
    if not isinstance(row, dict) or set(row) != {"from", *RANGES}:
        return "other members than from, " + ", ".join(RANGES)
    if not isinstance(row["from"], str) or not YEAR_FIRST.fullmatch(row["from"]):
        return "from is no month"
    for name, (least, most) in RANGES.items():
        if type(row[name]) is not int or not least <= row[name] <= most:
            return f"{name} isn't from {least} to {most}"
    return None if row["from"] > before else "from isn't after that of the row before"


def read_rates(path: Path) -> list[RateRow]:
    """The rows of a rate file, which is read as the office reads it when a store is made."""
    try:
        content = tomllib.loads(path.read_text(encoding="utf-8"))
    except (ValueError, RecursionError):
        raise StartFault(f"{path}: no TOML in UTF-8") from None
    rows = content.get("rate")
    if set(content) != {"rate"} or not isinstance(rows, list) or not rows:
        raise StartFault(f"{path}: no rate file, which has blocks [[rate]] and nothing else")
    before = ""
    for place, row in enumerate(rows, 1):
        if fault := row_fault(row, before):
            raise StartFault(f"{path}: block {place}: {fault}")
        before = row["from"]
    return [RateRow(row["from"], row["contribution"]) for row in rows]
