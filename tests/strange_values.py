"""Values at the ends of what the office takes, and beyond; and how one of them is written into the text of a JSON
object or of a bank file.
"""

import json
import re

VALUES = [
    None, 0, -1, 29, 1_001, 10_001, 10**8, 10**9, 10**11, 10**11 + 1, 2**32, 2**64 - 1, 10**20, "", [], {}, True, 1.5,
    "2024-13", "2024-1", "2200-01", "1999-12", "x" * 35, "x" * 36, "x" * 60, "x" * 61, "ü" * 30, "ü" * 31, "a b", " ",
    "a\x1fb", "a\x7fb", "\x80",
]
LINES = [
    [], [{"worker": 0, "gross": 1}], [{"worker": 1}], [{"gross": 1, "worker": 1, "x": 1}], [{"worker": 1, "gross": -1}],
    [{"worker": 1, "gross": 1.5}], [5], [{"worker": 10**9, "gross": 1}], [{"worker": 999_999_999, "gross": 2**64 - 1}],
    [{"worker": 9, "gross": 10_000_001}], [{"worker": 1 + at, "gross": 1} for at in range(501)],
    [{"worker": 8, "gross": 10_000_001}] * 2, [{"worker": 7, "gross": 1}] * 501,
    [{"worker": 1 + at, "gross": 10_000_001} for at in range(501)],
    [{"worker": 1 + at, "gross": 1} for at in range(500)], [{"worker": it, "gross": 1} for it in (5, 6, 6, 5, 4, 4)],
]
MEMBERS = ["zz", "a", "ä", "note", "😀", "~"]
NO_OBJECTS = [[], 5, "x", None]
# What stands in the place of a number, which `{}` is.
NUMBERS = ["-0", "-{}", "{}.0", "{}e0", "{}E+1", "{}.", "0{}", "+{}", "{}_0", "1e400", "NaN", "-Infinity", "9" * 308,
           "9" * 310]
# What stands in a text.
SIGNS = ["\\ud83d\\ude00", "\\ud800", "\\ude00", "\\ud800\\ud800", "\\u0000", "\\u00e4", "\\u00E", "\\/", "\\x41",
         "\x01", "\n", "\x7f", "\u2028"]

FIELDS = ["", "0", "x", "D", "c", "i", "I", "2024-02-30", "2000-01-01", "1999-12-31", "2200-12-31", "2201-01-01", "01",
          "100000000", "100000000000", "100000000001", "a b", " B1", "1001 ", " C", "x" * 35, "x" * 36, "x" * 140,
          "x" * 141, "ü" * 70, "ü" * 71, '"', 'a"b', "a\nb", "a\rb", "\x01", "a\x7fb", "\x80"]
HEADERS = ["", "reference,value_date", "reference,value_date,employer,cents,purpose,note,returns",
           "reference,value_date,employer,cents,purpose,Note", "reference,value_date,employer,cents, purpose,notes",
           "Reference,value_date,employer,cents,purpose,note", "r",
           '"reference",value_date,employer,cents,purpose,note', 'reference,value_date,employer,"cents",purpose,note']

METHODS = ["GET", "POST", "PUT", "HEAD", "DELETE", "get"]
TARGETS = [
    "/", "/payouts", "/employers/01/owed", "/employers/1001/owed", "/employers/1001/reports/2024-01", "/reminders/0",
    "/payouts/50000001", "/payouts/50000000", "/workers/1000000000", "/suspense?x", "/suspense/", "//suspense",
    "/employers/1001/reports/2024-13", "/employers/1001/reports/1999-12", "/employers/1001/reports/2200-01",
    "/employers/1001/reports/2199-12", "/employers/99999999/owed", "/employers/100000000/owed", "/workers/999999999",
    "/claims/1/release", "/claims/0/release", "/claims/50000000/release", "/claims/50000001/release",
    "/claims/1/Release", "/employers/1001/claims/+1/withdraw",
]
REQUEST_NUMBERS = [None, "", "0", "01", "1000000000000000000", "999999999999999999", "x", " 5 ", "5\t", "-1", "+1",
                   "1 2"]


# ---- the text of a JSON object


def numbers_in(text):
    return list(re.finditer("(?<=: )[0-9]+", text))


def with_number(text, found, number):
    """A text in which another number stands in the place of one that was found."""
    return f"{text[:found.start()]}{number.format(found[0])}{text[found.end():]}".encode()


def with_sign(text, sign):
    """A text with a sign in the first text that is a value, else in the first name."""
    place = '": "' if '": "' in text else '{"'
    return text.replace(place, place + sign, 1).encode()


def with_member_twice(text, name, value):
    """A text with a member once more, before the others and behind them."""
    member = f"{json.dumps(name)}: {json.dumps(value)}"
    return f"{{{member}, {text[1:]}".encode(), f"{text[:-1]}, {member}}}".encode()


def with_other_bytes(text):
    """A text with something around it, in it or behind it."""
    depths = [f'{text[:-1]}, "zz": {"[" * depth}{"]" * depth}}}' for depth in (125, 126, 127, 200)]
    texts = [f" \r\n\t{text} \n", f"{text}x", text + text, f"{text[:-1]},}}", f"\ufeff{text}", text + "\x00",
             text.replace('"', "'"), *depths]
    return [*map(str.encode, texts), text.encode("utf-16"), b"\xe4" + text.encode()]


# ---- the text of a bank file


def in_quotes(field):
    return '"' + field.replace('"', '""') + '"'


def csv_field(field):
    return in_quotes(field) if set(field) & set(',"\r\n') else field


def bank_file(header, records, end="\n"):
    """A bank file of fields that are written already."""
    return end.join([header, *map(",".join, records), ""]).encode()
