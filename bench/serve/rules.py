"""What the peer's requests are judged by: the numbered rules, the calendar, and bank files."""
import csv
import io
import json
import re
from datetime import date

RULES = {
    1: ("BadHead", 400), 2: ("TooLarge", 413), 3: ("BadFraming", 400), 4: ("NoRoute", 404),
    5: ("BadMethod", 405), 6: ("UnknownKey", 401), 7: ("NotYours", 403), 8: ("BadBody", 400),
    9: ("NumberReused", 409), 10: ("DayBack", 409), 11: ("UnknownEmployer", 409),
    12: ("EmployerExists", 409), 13: ("MonthOutside", 409), 14: ("MonthAhead", 409),
    15: ("ReportExists", 409), 16: ("StaleVersion", 409), 17: ("WorkerTwice", 409),
    18: ("OverLimit", 409), 20: ("BadCsv", 409), 21: ("RefConflict", 409), 22: ("ValueAhead", 409),
    24: ("NotEmployed", 409), 25: ("OverBalance", 409), 26: ("UnknownClaim", 409),
    27: ("ClaimNotOpen", 409), 28: ("MissingReport", 409), 29: ("NothingToPay", 409),
    32: ("NoRate", 409), 33: ("UnknownDocument", 409),
}
HEADER = ("reference", "value_date", "employer", "cents", "purpose", "note")
is_reference = re.compile("[!-~]{1,35}").fullmatch
is_firm_or_none = re.compile("([1-9][0-9]{0,7})?").fullmatch
is_amount = re.compile("[1-9][0-9]{0,10}|100000000000").fullmatch
has_control = re.compile("[\0-\x1f\x7f\ud800-\udfff]").search


class Refusal(Exception):
    """A rule that applies, its detail, and another status or a further field where it has one."""

    def __init__(self, rule, detail="", status=None, extra=""):
        self.rule, self.extra, self.status = rule, extra, status or RULES[rule][1]
        self.text = compact({"detail": str(detail), "name": RULES[rule][0], "rule": rule})


def compact(value):
    return json.dumps(value, ensure_ascii=False, separators=(",", ":"))


def month_number(text):
    return (int(text[:4]) - 2000) * 12 + int(text[5:7]) - 1


def month_text(month):
    return f"{2000 + month // 12}-{month % 12 + 1:02}"


def day_after(month, day):
    """This day of the month after the month."""
    return f"{month_text(month + 1)}-{day:02}"


def begun_months(due, day):
    """How many of due, due plus 1 month, .. lie before day."""
    return max(0, month_number(day) - month_number(due) + (day[8:] > due[8:]))


def euros(cents):
    return f"{cents // 100}.{cents % 100:02}".rjust(14)


def is_day(text):
    try:
        return len(text) == 10 and "2000-01-01" <= text <= "2200-12-31" and date.fromisoformat(text)
    except ValueError:
        return False


def read_file(body):
    """The lines of a bank file, each as reference, value date, firm, cents, purpose and note."""
    text = body.removeprefix(b"\xef\xbb\xbf").decode(errors="surrogateescape")
    if not text.startswith("r"):
        raise Refusal(20, "1:1")
    records = [record for record in csv.reader(io.StringIO(text, newline="")) if record]
    if len(records) > 10_001:
        raise Refusal(18, "file")
    check_record(1, records[0], lambda *names: map(str.__eq__, names, HEADER))
    return [read_line(place, record) for place, record in enumerate(records[1:], 2)]


def check_record(place, record, judge):
    """Refuses a record at the first of its fields that isn't right."""
    rights = list(judge(*record)) if len(record) == 6 else [False]
    if not all(rights):
        raise Refusal(20, f"{place}:{rights.index(False) + 1 if len(record) == 6 else 0}")


def read_line(place, record):
    check_record(place, record, lambda reference, value, named, cents, purpose, note: map(bool, (
        is_reference(reference), is_day(value), is_firm_or_none(named), is_amount(cents),
        purpose in ("", "C", "I"),
        len(note.encode(errors="replace")) <= 140 and not has_control(note))))
    reference, value, named, cents, purpose, note = record
    return reference, value, int(named) if named else None, int(cents), purpose or "C", note


def check_lines(lines, version):
    """The rules on the lines of a report, or of a correction of the version."""
    seen = set()
    for worker, _ in lines:
        if worker in seen:
            raise Refusal(17, worker)
        seen.add(worker)
    if version >= 10_000:
        raise Refusal(18, "versions")
    if len(lines) > 500:
        raise Refusal(18, "lines")
    if any(gross > 10_000_000 for _, gross in lines):
        raise Refusal(18, "gross")
