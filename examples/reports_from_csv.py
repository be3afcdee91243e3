"""Usage: python3 examples/reports_from_csv.py ADDRESS KEYFILE NUMBER FILE [VERSION]

Reports months from a CSV file with the header `employer,month,worker,gross`, gross amounts in
cents. Lines that are empty, or have empty fields alone, count for nothing. The lines of one firm and
month are one report. The reports have the numbers from NUMBER on, in the order in which they first
appear. If a line is wrong, nothing is sent. Each report that is done is told with its contribution and
the sum of its gross amounts in euros. The same file may be sent again under the same NUMBER, also after
it broke off: each report is done once. With VERSION the file has one report, all lines of its month,
which is sent as the correction of this version.
"""

import csv
import io
import json
import re

from office import (
    AGAIN, Fault, Office, check_numbers, command_line, euros, read_text, request_number, run, stops, tell)

HEADER = ["employer", "month", "worker", "gross"]
MONTH = re.compile(r"2[01][0-9]{2}-(0[1-9]|1[0-2])")
DIGITS = re.compile(r"[0-9]{1,18}")
IN_CENTS = "gross is in cents, 1 to 18 digits alone: 123450 for 1.234,50 euros"
MOST_LINES = 500
NO_LINES = "no lines; a month in which nobody worked is reported by hand (docs/clerk.md, section 3)"
RANGES = {"employer": (1, 99_999_999), "worker": (1, 999_999_999), "gross": (0, 10_000_000)}
# Behind this one a request may have been done (docs/http.md).
RECORDS_FAILED = 41
# Of a header that is none so much is told.
MOST_TOLD = 60


def fault_of(line):
    """What is wrong with a line by itself, or None."""
    for name in HEADER:
        if not line[name]:
            return f"{name} is empty"
    for name, (least, most) in RANGES.items():
        if not DIGITS.fullmatch(line[name]):
            return IN_CENTS if name == "gross" else f"{name} has other signs than 1 to 18 digits"
        if not least <= int(line[name]) <= most:
            return f"{name} isn't from {least} to {most}"
    if not MONTH.fullmatch(line["month"]):
        return "month isn't YYYY-MM from 2000-01 to 2199-12"
    return None


def add(reports, fields):
    """Adds a line to the report of its firm and month. What is wrong with it, or None."""
    if len(fields) != len(HEADER):
        # As of an amount with a comma.
        more = f"; {IN_CENTS}" if len(fields) > len(HEADER) else ""
        return f"{len(fields)} fields in place of {len(HEADER)}{more}"
    line = dict(zip(HEADER, fields))
    if fault := fault_of(line):
        return fault
    worker = int(line["worker"])
    wages = reports.setdefault((int(line["employer"]), line["month"]), {})
    if worker in wages:
        return f"worker {worker} stands twice in this firm's month"
    if len(wages) == MOST_LINES:
        return f"more than {MOST_LINES} lines in this firm's month"
    wages[worker] = int(line["gross"])
    return None


def header_fault(text):
    stands = text.splitlines()[0][:MOST_TOLD] if text else ""
    return f"line 1: the header isn't {','.join(HEADER)} with commas between and nothing behind: {stands!r}"


def read_reports(text):
    """The reports by firm and month, each its workers with their gross amounts; and the faults."""
    reports, faults = {}, []
    rows = csv.reader(io.StringIO(text), strict=True)
    try:
        if next(rows, None) != HEADER:
            return reports, [header_fault(text)]
        for fields in rows:
            # Empty lines count for nothing, nor do those of empty fields, as spreadsheets leave them.
            if any(map(str.strip, fields)) and (fault := add(reports, fields)):
                faults.append(f"line {rows.line_num}: {fault}")
    except csv.Error as why:
        faults.append(f"line {rows.line_num}: {why}")
    if not reports and not faults:
        faults.append(NO_LINES)
    return reports, faults


def to_send_again(number, count, may_be_done):
    """What is told where the report of this number, the first of so many, has no answer, or one that ends all."""
    doubt = f"number {number} may have been done; " if may_be_done else ""
    return f"{doubt}reports to be sent again, from number {number} on: {count}"


def send(office, first, reports, version):
    """Sends the reports, or the correction of a version, and tells each answer. How many are refused."""
    refused = 0
    for number, ((employer, month), wages) in enumerate(reports.items(), first):
        left = len(reports) - (number - first)
        body = {"lines": [{"gross": gross, "worker": worker} for worker, gross in wages.items()]}
        if version:
            body["version"] = version
        path = f"/employers/{employer}/reports/{month}"
        try:
            answer = office.ask("PUT" if version else "POST", path, number, json.dumps(body))
            rule = answer.rule
        except Fault as fault:
            raise Fault(f"{fault}\n{to_send_again(number, left, True)}", fault.status) from fault
        if rule:
            told = answer.refusal
            refused += 1
        else:
            reported, gross = answer.members, euros(sum(wages.values()))
            told = f"{euros(reported['charge'])} euros for {gross} euros gross, version {reported['version']}"
        print(f"{number} {employer} {month}: {told}")
        if stops(answer.status):
            again = to_send_again(number, left, rule == RECORDS_FAILED or office.asked_again)
            raise Fault(f"{again}\nonce the cause is gone, {AGAIN}", 1)
    return refused


def main():
    words = command_line(
        __doc__,
        ("number", {"type": request_number, "help": "the caller's next number"}),
        ("file", {"help": "the CSV file"}),
        ("version", {"type": request_number, "nargs": "?", "help": "the version that is corrected"}),
    )
    reports, faults = read_reports(read_text(words.file))
    if words.version and len(reports) != 1 and not faults:
        faults.append(f"{len(reports)} reports; a correction is of one")
    if faults:
        tell(*faults, f"{words.file}: nothing is sent")
        return 2
    check_numbers(words.number, len(reports))
    refused = send(Office(words.address, words.key), words.number, reports, words.version)
    print(f"reports: {len(reports)}, refused: {refused}")
    return 1 if refused else 0


if __name__ == "__main__":
    run(main)
