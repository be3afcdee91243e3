"""Sends an office each strange value at each place, one thing at a time: in the members of each body, in the fields of
a bank file, in paths, methods, keys and request numbers. Answers and tables are compared with those of machine.py.

    python3 tests/strange_requests.py [PROGRAM]

PROGRAM is crates/clear_app/out/clear_app where it isn't given, as `rt ci` leaves it.
"""

import itertools
import json
import sys

# No __pycache__ is left beside the sources.
sys.dont_write_bytecode = True
import strange_values as strange  # noqa: E402
from compared_offices import ComparedOffices  # noqa: E402
from machine import Book  # noqa: E402
from machine_values import HEADER, Rate, day_number, month_in  # noqa: E402
from program_under_test import run_tests  # noqa: E402

DAY = day_number("2024-04-30")
KEYS = {"desk": 0, "k1001": 1001, "k1002": 1002}
MONTH = month_in("2024-01")
RATES = {"contribution": 1_900, "due_day": 20, "entitlement": 1_425, "from": "2024-06", "interest": 90,
         "report_day": 15}
LINES = [{"gross": 1_000_000, "worker": 7}, {"gross": 5_000, "worker": 8}]
# Commands that are accepted in this order.
RIGHT = [
    ("POST", "/employers", {"employer": 1001, "name": "Bau Nord", "start": "2024-01"}),
    ("POST", "/employers/1001/reports/2024-01", {"lines": LINES}),
    ("PUT", "/employers/1001/reports/2024-01", {"lines": LINES, "version": 1}),
    ("POST", "/employers/1001/claims", {"cents": 1, "worker": 7}),
    ("POST", "/rates", RATES),
    ("POST", "/assign", {"employer": 1001, "reference": "B0"}),
    ("POST", "/employers/1001/end", {"last": "2024-12"}),
]
# Commands that are refused behind these, most of them by two rules, of which the first is told.
REFUSED = [
    ("POST", "/employers", {"employer": 1001, "name": "Bau Nord", "start": "2023-12"}),
    ("POST", "/employers/1001/end", {"last": "2023-12"}),
    ("POST", "/employers/1009/reports/2024-05", {"lines": LINES}),
    ("POST", "/employers/1001/reports/2025-01", {"lines": LINES}),
    ("PUT", "/employers/1001/reports/2025-01", {"lines": LINES * 2, "version": 1}),
    ("POST", "/employers/1001/claims", {"cents": 10**11, "worker": 9}),
    ("POST", "/assign", {"employer": 1009, "reference": "none"}),
]
WITHOUT_BODY = [("POST", "/employers/1001/claims/1/withdraw"), ("POST", "/claims/1/release"), ("POST", "/payouts"),
                ("POST", "/reminders")]
QUESTIONS = [("GET", target) for target in (
    "/employers/1001/owed", "/employers/1001/statement", "/workers/7", "/suspense", "/payouts/1", "/reminders/1")]
SUSPENDED = ["B0", "2024-04-01", "", "5", "", ""]
RECORD = ["2024-04-01", "1001", "100", "C", "rest"]


# ---- bodies


def written(members):
    return json.dumps(members, ensure_ascii=False).encode()


def bodies(right):
    """Bodies like a right one, in their bytes."""
    yield from map(written, objects(right))
    yield from map(written, strange.NO_OBJECTS)
    text = json.dumps(right)
    for found, number in itertools.product(strange.numbers_in(text), strange.NUMBERS):
        yield strange.with_number(text, found, number)
    yield from (strange.with_sign(text, sign) for sign in strange.SIGNS)
    for name in right:
        yield from strange.with_member_twice(text, name, None)
    yield from strange.with_other_bytes(text)
    yield from (b"", b" ", b"x")


def objects(right):
    for name in right:
        yield {it: value for it, value in right.items() if it != name}
        for value in strange.VALUES + (strange.LINES if name == "lines" else []):
            yield right | {name: value}
    for names in itertools.combinations(strange.MEMBERS, 2):
        yield right | dict.fromkeys(names, 1)


# ---- bank files


def bank_files():
    """Files of lines that are new each time."""
    header = ",".join(HEADER)
    records = ([f"B{number}", *RECORD] for number in itertools.count(1))
    for place, field in itertools.product(range(len(HEADER)), strange.FIELDS):
        # As it is, in quotes, and with one quotation mark too few or too many, if it has one.
        for form in dict.fromkeys([field, strange.csv_field(field), f'"{field}"']):
            record = next(records)
            record[place] = form
            yield strange.bank_file(header, [record])
    yield from (strange.bank_file(other, [next(records)]) for other in strange.HEADERS)
    for count in range(8):
        yield strange.bank_file(header, [next(records), (next(records) + ["", ""])[:count], ["x"]])
    for places in itertools.combinations(range(len(HEADER)), 2):
        yield from with_two_faults(header, next(records), next(records), places)
    yield from with_other_bytes(strange.bank_file(header, [next(records), next(records)], end="\r"))
    yield from conflicts(header, next(records))


def with_two_faults(header, one, other, places):
    """Two fields are wrong, of one record or of two."""
    for place in places:
        one[place] = other[places[1]] = "\x7f"
    yield strange.bank_file(header, [one])
    yield strange.bank_file(header, [SUSPENDED, other, one])


def with_other_bytes(file):
    # What is no UTF-8 comes first, since the lines are new only once.
    yield from (file.replace(text, b"\xff") for text in (b"rest", b"100", b"B"))
    yield from (b"\xef\xbb\xbf" * marks + file for marks in range(3))
    yield from (file.rstrip(), file + b'"', file + b" ", b"\n" + file, file.replace(b"\r", b"\r\r\n\n"), b"",
                ",".join(HEADER).encode())


def conflicts(header, record):
    """Files of a line with one field of it changed, where it stands and where it is new, and of that line twice."""
    yield strange.bank_file(header, [record, record])
    for place, field in enumerate(["2024-04-02", "1002", "101", "I", "rest."], 1):
        other = record[:place] + [field] + record[place + 1:]
        yield strange.bank_file(header, [other])
        yield strange.bank_file(header, [[f"{place}", *record[1:]], [f"{place}", *other[1:]]])
    yield strange.bank_file(header, [record[:4] + [""] + record[5:]])


# ---- requests


def commands(book):
    """Requests without a key and a number. A correction names the version that stands."""
    yield "POST", "/bank", strange.bank_file(",".join(HEADER), [SUSPENDED])
    yield from ((method, target, written(members)) for method, target, members in RIGHT + REFUSED)
    for method, target, right in RIGHT:
        for body in bodies(right):
            version = len(book.reports[1001, MONTH])
            yield method, target, body.replace(b'"version": 1', f'"version": {version}'.encode())
    yield from ((*of, body) for of in WITHOUT_BODY for body in (b"{}", b" ", b"null"))
    yield from (("POST", "/bank", file) for file in bank_files())
    paths = [*strange.TARGETS, "/bank", *(it[1] for it in RIGHT + WITHOUT_BODY + QUESTIONS)]
    yield from ((method, target, b"") for target in paths for method in strange.METHODS)


def requests(book):
    for number, (method, target, body) in enumerate(commands(book), 1):
        yield method, target, "desk", str(number), body
    # The right ones once more, as other bytes and with their lines in another order.
    for number, (method, target, right) in enumerate(RIGHT, 2):
        for body in (right, dict(reversed(right.items())), right | {"lines": LINES[::-1]}):
            yield method, target, "desk", str(number), json.dumps(body, indent=1).encode()
    right = [(method, target, written(members)) for method, target, members in RIGHT]
    for method, target, body in [*right, *((*of, b"") for of in WITHOUT_BODY + QUESTIONS)]:
        yield from ((method, target, "desk", number, body) for number in strange.REQUEST_NUMBERS)
        # One thing is wrong, or several.
        yield from itertools.product((method, "DELETE"), (target, f"{target}/"), ("desk", "none", "k1001", "k1002"),
                                     ("1", "0", None), (body, b"x"))


class StrangeRequests(ComparedOffices):
    def test_answers_and_tables(self):
        book = Book([Rate(MONTH, 2_000, 15, 20, 100, 1_425)])
        self.begin(book, KEYS, "strange.db")
        self.compare(book, KEYS, DAY, requests(book), "strange.db")
        self.compare_tables(book, "strange.db")


if __name__ == "__main__":
    run_tests()
