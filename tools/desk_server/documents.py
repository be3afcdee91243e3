"""Reads the office's documents (`docs/formats.md`) into what the page shows. Amounts are cents, written
as digits, since a browser's numbers hold no more than 2^53. The office's text stays beside them as it
came."""

import re
from typing import Any

DAY = r"[0-9]{4}-[0-9]{2}-[0-9]{2}"
MONTH = r"[0-9]{4}-[0-9]{2}"
AMOUNT = r" +([0-9]+\.[0-9]{2})"
NUMBER = "([0-9]+)"


class NotUnderstood(ValueError):
    """A line is none of the document's."""


def line(pattern: str) -> re.Pattern[str]:
    return re.compile(pattern)


STATEMENT = line(rf"statement {NUMBER} ({DAY})")
NAME = line(r"name (.+)")
MEMBER = line(rf"member ({MONTH}) ({MONTH}|-)")
CHARGE = line(rf"charge ({MONTH}) due ({DAY}) version {NUMBER}{AMOUNT}{AMOUNT}{AMOUNT}")
PAID = line(rf"  paid ({DAY}){AMOUNT} ([!-~]+|set-off [0-9]+)")
INTEREST_PAID = line(rf"interest-paid ({DAY}){AMOUNT} ([!-~]+|set-off [0-9]+)")
MISSING = line(rf"missing ({MONTH})")
PREPAID, ARREARS, INTEREST = (line(f"{word}{AMOUNT}") for word in ("prepaid", "arrears", "interest"))
PAYOUT = line(rf"payout {NUMBER} ({DAY})")
PAYOUT_CLAIM = line(rf"claim {NUMBER} employer {NUMBER} worker {NUMBER}{AMOUNT}")
ITEMS, FIRMS, LINES = (line(f"{word} {NUMBER}") for word in ("items", "firms", "lines"))
TOTAL = line(f"total{AMOUNT}")
WORKER = line(rf"worker {NUMBER} ({DAY})")
EARNED = line(rf"earned {NUMBER} ({MONTH}){AMOUNT}")
WORKER_CLAIM = line(rf"claim {NUMBER} employer {NUMBER} (open|released){AMOUNT}")
BALANCE = line(f"balance{AMOUNT}")
REMINDERS = line(rf"reminders {NUMBER} ({DAY})")
REMINDED = line(rf"employer {NUMBER} level ([123]) missing {NUMBER} ({MONTH}|-){AMOUNT}{AMOUNT}")
SUSPENSE = line(rf"suspense ({DAY})")
# A note may hold any sign but control characters.
IN_SUSPENSE = line(rf"line ([!-~]+) ({DAY}) ([CI]) ([0-9]+|-){AMOUNT}(?: ([^\n]*))?")


def cents(euros: str) -> str:
    """`2000.00` as the digits of its cents, `200000`."""
    return str(int(euros.replace(".", "")))


def some(word: str) -> str | None:
    return None if word == "-" else word


class Reader:
    """The lines of a document, of which each is read once and in order."""

    def __init__(self, text: str):
        # A name or note may hold what `splitlines` takes for the end of a line.
        self.lines = text.split("\n")
        if self.lines.pop() != "":
            raise NotUnderstood("the last line has no end")
        self.place = 0

    def find(self, form: re.Pattern[str]) -> re.Match[str] | None:
        """The next line, where it has this form."""
        if self.place == len(self.lines):
            return None
        found = form.fullmatch(self.lines[self.place])
        self.place += found is not None
        return found

    def take(self, form: re.Pattern[str]) -> re.Match[str]:
        found = self.find(form)
        if found is None:
            raise NotUnderstood(f"line {self.place + 1}")
        return found

    def take_all(self, form: re.Pattern[str]) -> list[re.Match[str]]:
        found = []
        while (next_one := self.find(form)) is not None:
            found.append(next_one)
        return found

    def end(self) -> None:
        if self.place != len(self.lines):
            raise NotUnderstood(f"line {self.place + 1}")


def payment(found: re.Match[str]) -> dict[str, str]:
    return {"day": found[1], "cents": cents(found[2]), "reference": found[3]}


def charges(reader: Reader) -> list[dict[str, Any]]:
    read = []
    while (found := reader.find(CHARGE)) is not None:
        month, due, version, contribution, still_open, interest = found.groups()
        paid = int(cents(contribution)) - int(cents(still_open))
        read.append({
            "month": month, "due": due, "version": int(version), "contribution": cents(contribution),
            "open": cents(still_open), "paid": str(paid), "interest": cents(interest),
            "payments": [payment(it) for it in reader.take_all(PAID)],
        })
    return read


def read_statement(text: str) -> dict[str, Any]:
    reader = Reader(text)
    employer, day = reader.take(STATEMENT).groups()
    name = reader.take(NAME)[1]
    start, last = reader.take(MEMBER).groups()
    months = charges(reader)
    interest_payments = [payment(it) for it in reader.take_all(INTEREST_PAID)]
    missing = [it[1] for it in reader.take_all(MISSING)]
    prepaid, arrears, interest = (cents(reader.take(it)[1]) for it in (PREPAID, ARREARS, INTEREST))
    reader.end()
    charged = sum(int(it["contribution"]) for it in months)
    paid = sum(int(it["paid"]) for it in months)
    return {
        "employer": int(employer), "day": day, "name": name, "start": start, "last": some(last),
        "charges": months, "interest_payments": interest_payments, "missing": missing, "prepaid": prepaid,
        "arrears": arrears, "interest": interest, "charged": str(charged),
        "credited": str(paid + int(prepaid)), "open": str(charged - paid),
    }


def read_payout(text: str) -> dict[str, Any]:
    reader = Reader(text)
    number, day = reader.take(PAYOUT).groups()
    claims = [{"claim": int(it[1]), "employer": int(it[2]), "worker": int(it[3]), "cents": cents(it[4])}
              for it in reader.take_all(PAYOUT_CLAIM)]
    items = int(reader.take(ITEMS)[1])
    total = cents(reader.take(TOTAL)[1])
    reader.end()
    return {"list": int(number), "day": day, "claims": claims, "items": items, "total": total}


def read_worker(text: str) -> dict[str, Any]:
    reader = Reader(text)
    worker, day = reader.take(WORKER).groups()
    earned = [{"employer": int(it[1]), "month": it[2], "cents": cents(it[3])}
              for it in reader.take_all(EARNED)]
    claims = [{"claim": int(it[1]), "employer": int(it[2]), "state": it[3], "cents": cents(it[4])}
              for it in reader.take_all(WORKER_CLAIM)]
    balance = cents(reader.take(BALANCE)[1])
    reader.end()
    return {"worker": int(worker), "day": day, "earned": earned, "claims": claims, "balance": balance}


def read_reminders(text: str) -> dict[str, Any]:
    reader = Reader(text)
    number, day = reader.take(REMINDERS).groups()
    reminded = [{"employer": int(it[1]), "level": int(it[2]), "missing": int(it[3]), "first": some(it[4]),
                 "arrears": cents(it[5]), "interest": cents(it[6])} for it in reader.take_all(REMINDED)]
    firms = int(reader.take(FIRMS)[1])
    reader.end()
    return {"run": int(number), "day": day, "reminded": reminded, "firms": firms}


def read_suspense(text: str, first: int = 0, most: int = 200) -> dict[str, Any]:
    """The lines in suspense from this one on, at most so many; all are counted and summed by the office."""
    reader = Reader(text)
    day = reader.take(SUSPENSE)[1]
    found = reader.take_all(IN_SUSPENSE)
    count = int(reader.take(LINES)[1])
    total = cents(reader.take(TOTAL)[1])
    reader.end()
    lines = [{"reference": it[1], "day": it[2], "purpose": it[3], "employer": some(it[4]),
              "cents": cents(it[5]), "note": it[6] or ""} for it in found[first:first + most]]
    return {"day": day, "lines": lines, "first": first, "count": count, "total": total}
