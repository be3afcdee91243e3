"""Values of the clearing machine of machine.py, and how texts, bank files among them, say them: docs/rules.md and
docs/formats.md have their ranges. It shares no code with the program.

Days are numbers from 1970-01-01 on, months count from 2000-01, amounts are cents, rates hundredths of a percent.
"""

import csv
import io
import re
from collections import namedtuple
from datetime import date, timedelta

EPOCH = date(1970, 1, 1)
LAST_MONTH = 199 * 12 + 11
MOST_EMPLOYER, MOST_WORKER, MOST_CENTS, MOST_CLAIM = 99_999_999, 999_999_999, 100_000_000_000, 50_000_000
MOST_RECORDS = 10_000
HEADER = ["reference", "value_date", "employer", "cents", "purpose", "note"]

Rate = namedtuple("Rate", "first contribution report_day due_day interest entitlement")
# A record of a bank file.
Record = namedtuple("Record", "reference value named cents purpose note")


class Refused(Exception):
    """A rule refuses a request, and carries a detail."""

    def __init__(self, rule, detail=""):
        super().__init__(rule, detail)
        self.rule, self.detail = rule, str(detail)


def day_number(text):
    return (date.fromisoformat(text) - EPOCH).days


def day_text(day):
    return str(EPOCH + timedelta(day))


def month_text(month):
    return f"{2000 + month // 12}-{month % 12 + 1:02}"


def month_of(day):
    found = EPOCH + timedelta(day)
    return (found.year - 2000) * 12 + found.month - 1


def day_of_month(day):
    return (EPOCH + timedelta(day)).day


def day_in(month, place):
    return (date(2000 + month // 12, month % 12 + 1, place) - EPOCH).days


def number_in(text, most):
    """A number from 1 on in decimal, without leading zeros."""
    return int(text) if re.fullmatch("[1-9][0-9]*", text) and int(text) <= most else None


def month_in(text):
    found = re.fullmatch("(2[01][0-9]{2})-(0[1-9]|1[0-2])", text)
    return (int(found[1]) - 2000) * 12 + int(found[2]) - 1 if found else None


def day_in_text(text):
    try:
        return day_number(text) if re.fullmatch("2(0|1|2(?=00))[0-9]{2}-[0-9]{2}-[0-9]{2}", text) else None
    except ValueError:
        return None


def plain_text(text, least, most):
    """A text of so many bytes of UTF-8, without control characters."""
    try:
        fits = least <= len(text.encode()) <= most
    except UnicodeEncodeError:
        return None
    return text if fits and not re.search("[\x00-\x1f\x7f]", text) else None


def reference_in(text):
    return text if re.fullmatch("[!-~]{1,35}", text) else None


# ---- bank files


def records_of(content):
    """The records of a bank file by their numbers, of which that of the header is 1."""
    content = content.removeprefix(b"\xef\xbb\xbf")
    if not content.startswith(b"r"):
        raise Refused(20, "1:1")
    text = io.StringIO(content.decode("utf-8", "surrogateescape"), newline="")
    # Empty lines are no records.
    rows = list(filter(None, csv.reader(text)))
    if len(rows) - 1 > MOST_RECORDS:
        raise Refused(18, "file")
    check_header(rows[0])
    return {number: record_of(number, row) for number, row in enumerate(rows[1:], 2)}


def check_header(row):
    if len(row) != len(HEADER):
        raise Refused(20, "1:0")
    for place, (field, name) in enumerate(zip(row, HEADER), 1):
        if field != name:
            raise Refused(20, f"1:{place}")


def record_of(number, row):
    if len(row) != len(HEADER):
        raise Refused(20, f"{number}:0")
    reference, value, named, cents, purpose, note = row
    fields = (
        reference_in(reference),
        day_in_text(value),
        number_in(named, MOST_EMPLOYER) if named else 0,
        number_in(cents, MOST_CENTS),
        {"": "C", "C": "C", "I": "I"}.get(purpose),
        plain_text(note, 0, 140),
    )
    for place, field in enumerate(fields, 1):
        if field is None:
            raise Refused(20, f"{number}:{place}")
    return Record(*fields)._replace(named=fields[2] or None)
