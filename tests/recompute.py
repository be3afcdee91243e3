"""What examples/recompute.sql tells of stores of the built program in which something was made wrong.

    python3 tests/recompute.py [PROGRAM]

PROGRAM is crates/clear_app/out/clear_app where it isn't given, as `rt ci` leaves it.
"""

import json
import shutil
import subprocess
import sys
import unittest
from collections import Counter

# No __pycache__ is left beside the sources.
sys.dont_write_bytecode = True
from office_under_test import (DAY_SERVED, FEBRUARY, HEADER, Office, OfficeUnderTest, bank, correction,  # noqa: E402
                               register, report)
from program_under_test import ROOT, run_tests  # noqa: E402

RUN = "POST", "/reminders", ""
PAYOUTS = "POST", "/payouts", ""
RATE = "rate 2026-01 1950 15 20 90 142"
ADDED_RATES = "POST", "/rates", json.dumps({"from": "2026-01", "contribution": 1950, "report_day": 15, "due_day": 20,
                                            "interest": 90, "entitlement": 142})
# What is told of a store to which `requests_of_each_kind` were sent, by what is made wrong in it.
SAID = {
    "UPDATE claims SET employer = 1002 WHERE no = 1": {
        ("said", "kept", "claim 1002 1001 100000: 1"), ("said", "requested", "claim 1001 1001 100000: 1")},
    "UPDATE claims SET worker = 7 WHERE no = 3": {
        ("said", "kept", "claim 1001 7 2000: 3"), ("said", "requested", "claim 1001 1001 2000: 3")},
    "UPDATE bank SET employer = NULL WHERE reference = 'B9'": {("said", "requested", "assign B9 1001")},
    "UPDATE bank SET employer = 1002 WHERE reference = 'B9'": {
        ("said", "kept", "assign B9 1002"), ("said", "requested", "assign B9 1001")},
    "DELETE FROM rates WHERE first = 312": {("rates", "requested", RATE)},
    "UPDATE rates SET interest = 91 WHERE first = 312": {("rates", "requested", RATE)},
    "UPDATE employers SET name = 'Bau Süd'": {
        ("said", "kept", "employer 1001 2024-01 Bau Süd"), ("said", "requested", "employer 1001 2024-01 Bau")},
    "UPDATE employers SET last = last + 1": {
        ("said", "kept", "end 1001 2024-07"), ("said", "requested", "end 1001 2024-06")},
    "UPDATE wages SET worker = 7 WHERE month = 288": {("wages", 1001, "2024-01")},
    "UPDATE wages SET gross = gross + 1 WHERE month = 288": {("wages", 1001, "2024-01")},
    "DELETE FROM wages WHERE month = 289": {("wages", 1001, "2024-02")},
}
# Files with each line end, with quotes in many places, with a mark in front and with a quotation that is never closed. A
# line comes twice in one file, another one in two files, some have no firm.
FILES = (
    '\ufeffreference,"value_date",employer,cents,purpose,note\r\n\r\n'
    'B1,2024-02-25,1001,150000,,"a ""b"", c"\r\nB2,"2024-04-21","",5,"I",say "x"\r\n',
    HEADER + '"B\\3",2024-04-22,9999,7,C,"a"b"c\nB2,2024-04-21,,5,I,"say ""x"""\n'
    '"B,4",2024-04-22,,8,,\n"B,4",2024-04-22,,8,C,""\nB5,2024-04-20,,9,,Grüße',
    HEADER.strip().replace("note", '"note"') + '\rB6,2024-04-22,,10,,""""\rB7,2024-04-22,,11,,"never, ""closed')


def requests_of_each_kind(office, firm):
    """The line of no firm is given to it; something of 600,000 cents stays open, so that the firm is reminded."""
    office.bank([(firm, "2024-02-20", 550_000, "C")])
    office.done("POST", "/bank", HEADER + "B9,2024-04-25,,5000,C,\n")
    office.done("POST", "/assign", '{"employer":1001,"reference":"B9"}')
    office.done(*RUN)
    for cents in (100_000, 1_000, 2_000):
        office.done(*claim(cents, worker=1001))
    for path in ("/claims/1/release", "/employers/1001/claims/2/withdraw", "/payouts"):
        office.done("POST", path)
    office.done("POST", "/employers/1001/end", '{"last":"2024-06"}')
    office.done(*ADDED_RATES)


def claim(cents, worker=7):
    return "POST", "/employers/1001/claims", json.dumps({"cents": cents, "worker": worker})


def release(number):
    return "POST", f"/claims/{number}/release", ""


class Recompute(OfficeUnderTest):
    def test_what_is_told_from_outside(self):
        """Whatever is wrong in a store is told by firm and by month or day: what is kept, what is recomputed, or both."""
        self.one_firm(
            lambda office, firm: office.report(firm, 1, 1_000_000),
            lambda office, firm: office.report(firm, 2, 500_050),
            lambda office, firm: office.bank([(firm, "2024-02-25", 150_000, "C"), (firm, "2024-04-21", 100_000, "C")]),
            lambda office, firm: office.bank([(firm, "2024-04-21", 700, "I")]))
        self.assertEqual(self.recomputed(), [])
        whole = (self.folder / "fund.db").read_bytes()
        january, february, late = "2024-01", "2024-02", "2024-04-21"
        for statement, told in {
            "UPDATE wages SET gross = gross + 100 WHERE month = 288": {("contribution", january): 2},
            "UPDATE charges SET due = due + 1 WHERE month = 288": {("contribution", january): 2, ("paid", january): 2},
            "UPDATE charges SET open = 1 WHERE month = 288": {("paid", january): 2},
            "UPDATE charges SET weight = weight - 1 WHERE month = 289": {("paid", february): 2},
            "UPDATE pieces SET cents = cents - 1 WHERE ref = 'B1'": {("piece", january): 2, ("paid", january): 2},
            "DELETE FROM pieces WHERE month = 288 AND ref = 'B2'": {("piece", january): 1, ("paid", january): 2},
            "DELETE FROM pieces": {
                ("piece", january): 2, ("piece", february): 1, ("paid", january): 2, ("paid", february): 2},
            "DELETE FROM charges WHERE month = 289": {("contribution", february): 1, ("piece", february): 1},
            "INSERT INTO reports VALUES (1001, 280, 1)": {("contribution", "2023-05"): 1},
            "UPDATE bank SET cents = cents + 1 WHERE reference = 'B2'": {("payment", late): 2},
            "UPDATE credits SET cents = cents + 1 WHERE purpose = 'I'": {("payment", late): 2},
            "DELETE FROM credits WHERE ref = 'B2'": {
                ("payment", late): 1, ("piece", january): 1, ("piece", february): 1},
        }.items():
            with self.subTest(statement):
                self.write("fund.db", whole)
                self.change(statement)
                rows = [row for row in self.recomputed() if row[0] in ("contribution", "payment", "piece", "paid")]
                self.assertEqual({row[1] for row in rows}, {1001})
                self.assertEqual(Counter((kind, when) for kind, _, when, *_ in rows), told)

    def test_what_is_told_of_releases_and_lists(self):
        """Two claims on one list, the first of which pays first what is owed."""
        def end_the_month(office, firm):
            # (contributions of 600,000 cents are due; a worker is entitled to 427,500)
            office.bank([(firm, "2024-02-20", 550_000, "C")])
            for cents in (100_000, 1_000):
                office.done(*claim(cents, worker=1001))
            for path in ("/claims/1/release", "/claims/2/release", "/payouts"):
                office.done("POST", path)

        reports = [lambda office, firm, month=month: office.report(firm, month, 1_000_000) for month in (1, 2, 3)]
        self.one_firm(*reports, end_the_month)
        self.assertEqual(self.recomputed(), [])
        whole = (self.folder / "fund.db").read_bytes()
        for statement, told in {
            "UPDATE claims SET paid = paid + 1 WHERE no = 1": {("release", 1001), ("list", 1)},
            "UPDATE claims SET cents = cents + 1 WHERE no = 2": {("release", 1001)},
            "UPDATE claims SET state = 1 WHERE no = 1": {
                ("release", 1001), ("requests", "releases"), ("requests", "withdrawals"), ("requests", "last serial")},
            "UPDATE claims SET paid = paid + 1, to_interest = to_interest - 1 WHERE no = 2": {
                ("payment", 1001), ("list", 1)},
            "UPDATE claims SET released = NULL WHERE no = 2": {("release", 1001)},
            "UPDATE claims SET state = 3 WHERE no = 2": {
                ("release", 1001), ("requests", "releases"), ("requests", "last serial")},
            "UPDATE claims SET list = NULL WHERE no = 2": {("list", 1)},
            "UPDATE claims SET list = 2 WHERE no = 2": {("list", 1), ("list", 2)},
            "UPDATE lists SET no = 2": {("list", 1), ("list", 2), ("requests", "last list")},
            "DELETE FROM lists": {("list", 1), ("requests", "lists"), ("requests", "last list")},
            "UPDATE lists SET items = 3": {("list", 1)},
            "UPDATE lists SET total = total + 100000": {("list", 1)},
        }.items():
            with self.subTest(statement):
                self.write("fund.db", whole)
                self.change(statement)
                self.assertEqual({row[:2] for row in self.recomputed() if row[0] != "said"}, told)

    def test_what_is_told_of_the_requests(self):
        """What the tables count is set beside what the accepted requests come to."""
        self.one_firm(
            lambda office, firm: office.report(firm, 1, 1_000_000),
            lambda office, firm: office.bank([(firm, "2024-02-25", 150_000, "C")]),
            lambda office, firm: office.done("POST", "/reminders"),
            lambda office, firm: office.done("POST", "/employers/1001/end", '{"last":"2024-06"}'))
        self.assertEqual(self.recomputed(), [])
        whole = (self.folder / "fund.db").read_bytes()
        for statement, told in {
            "UPDATE meta SET entries = entries + 1": {("requests", 6, 5)},
            "UPDATE meta SET day = day - 1": {("ledger day", "2024-04-29", DAY_SERVED)},
            "UPDATE meta SET serial = serial + 1": {("last serial", 2, 1)},
            "DELETE FROM meta": {
                ("requests", None, 5), ("schema", None, "1"), ("ledger day", None, DAY_SERVED),
                ("last serial", None, 1), ("last claim", None, 0), ("last list", None, 0), ("last run", None, 1)},
            "INSERT INTO meta SELECT 2, schema, day, entries, serial, claims, lists, runs FROM meta":
                {("schema", "1,2", "1")},
            "INSERT INTO employers VALUES (1002, 'Bau', 288, NULL)": {("firms", 2, 1)},
            "UPDATE employers SET last = NULL": {("ends", 0, 1)},
            "UPDATE reports SET version = 2": {("reports", 2, 1)},
            "DELETE FROM requests WHERE kind = 2": {("requests", 5, 4), ("reports", 1, 0)},
            "INSERT INTO bank VALUES ('B7', 7, 0, NULL, NULL, 1, 'C', '')": {("bank lines", 2, 1), ("last serial", 1, 2)},
            "INSERT INTO claims VALUES (1, 1001, 7, 1, 0, 0, NULL, 0, 0, 0, NULL)": {("claims", 1, 0), ("last claim", 0, 1)},
            "INSERT INTO requests SELECT caller, 9, day, command, kind, a, b, c FROM requests WHERE number = 1": {
                ("requests", 5, 6), ("firms", 1, 2)},
            "DELETE FROM runs": {("runs", 0, 1), ("last run", 1, 0)},
            "DELETE FROM reminders": {("reminders", 0, 1)},
        }.items():
            with self.subTest(statement):
                self.write("fund.db", whole)
                self.change(statement)
                rows = [row for row in self.recomputed() if row[0] == "requests"]
                self.assertEqual({(what, kept, other) for _, what, _, kept, _, other in rows}, told)

    def test_what_is_told_of_what_requests_say(self):
        """What an accepted request says, and answered, is set beside the row that it made."""
        reports = [lambda office, firm, month=month: office.report(firm, month, 1_000_000) for month in (1, 2, 3)]
        self.one_firm(*reports, requests_of_each_kind)
        self.assertEqual(self.recomputed(), [])
        whole = (self.folder / "fund.db").read_bytes()
        for statement, told in SAID.items():
            with self.subTest(statement):
                self.write("fund.db", whole)
                self.change(statement)
                rows = self.recomputed()
                self.assertEqual({row[:3] for row in rows if row[0] in ("said", "rates", "wages")}, told)
        for table, day in {"lists": "day", "runs": "day", "claims": "released"}.items():
            with self.subTest(table):
                self.write("fund.db", whole)
                self.change(f"UPDATE {table} SET {day} = {day} + 1 WHERE no = 1")
                days = {(row[1], row[3]) for row in self.recomputed() if row[0] == "said"}
                self.assertEqual(days, {("kept", "2024-05-01"), ("requested", "2024-04-30")})

    def told_of(self, changes, *kinds):
        """Each change of a store that is right tells these rows of these kinds."""
        self.assertEqual(self.recomputed(), [])
        whole = (self.folder / "fund.db").read_bytes()
        for statement, told in changes.items():
            with self.subTest(statement):
                self.write("fund.db", whole)
                self.change(statement)
                self.assertEqual({row for row in self.recomputed() if row[0] in kinds}, told)
        self.write("fund.db", whole)

    def test_what_is_told_of_bank_files(self):
        """Each field of a line is told, and the number of records and the serials."""
        self.one_firm(lambda office, firm: [office.done("POST", "/bank", file.encode()) for file in FILES])

        def told(*records):
            return {("line", side, json.dumps(record, ensure_ascii=False, separators=(",", ":")))
                    for side, record in zip(("sent", "kept"), records)}

        first = ["B1", "2024-02-25", "1001", "150000", "C", 'a "b", c']
        second = ["B2", "2024-04-21", "", "5", "I", 'say "x"']
        third = ["B\\3", "2024-04-22", "9999", "7", "C", 'ab"c']
        last = ["B7", "2024-04-22", "", "11", "C", 'never, "closed']
        self.told_of({
            "UPDATE bank SET reference = 'B9' WHERE reference = 'B7'": told(last, ["B9", *last[1:]]),
            "UPDATE bank SET value = value + 1 WHERE reference = 'B2'": told(second, ["B2", "2024-04-22", *second[2:]]),
            "UPDATE bank SET named = NULL WHERE reference = 'B\\3'": told(third, [*third[:2], "", *third[3:]]),
            "UPDATE bank SET named = 1001 WHERE reference = 'B7'": told(last, [*last[:2], "1001", *last[3:]]),
            "UPDATE bank SET cents = 12 WHERE reference = 'B7'": told(last, [*last[:3], "12", *last[4:]]),
            "UPDATE bank SET purpose = 'C' WHERE reference = 'B2'": told(second, [*second[:4], "C", second[5]]),
            "UPDATE bank SET purpose = 'I' WHERE reference = 'B7'": told(last, [*last[:4], "I", last[5]]),
            "UPDATE bank SET note = 'a' WHERE reference = 'B1'": told(first, [*first[:5], "a"]),
            "DELETE FROM bank WHERE reference = 'B1'": told(first),
            "UPDATE requests SET command = CAST(replace(command, ',9999,7,', ',9999,8,') AS BLOB)":
                told([*third[:3], "8", *third[4:]], third),
            # The files have two records, five, of which two repeat others, and two.
            "UPDATE requests SET b = b + 1 WHERE b = 2": {("file", 3, DAY_SERVED, "answered", 6, "recomputed", 5)},
            # 1 and 2 are the first file's, 3 to 5 the second one's, 6 and 7 the last one's.
            "UPDATE bank SET serial = 8 WHERE reference = 'B5'": {
                ("serial", "B5", "kept", 8, "recomputed", 5), ("serial", "B5", "kept", 8)},
            "UPDATE bank SET serial = 0 WHERE reference = 'B1'": {
                ("serial", "B2", "kept", 2, "recomputed", 1), ("serial", "B1", "kept", 0)},
            "UPDATE bank SET serial = 8 WHERE reference = 'B6'": {
                ("serial", "B6", "kept", 8, "recomputed", 7), ("serial", "B7", "kept", 7, "recomputed", 8),
                ("serial", "B6", "kept", 8)},
        }, "line", "file", "serial")

    def test_what_is_told_of_lines_that_came_twice(self):
        """The second file has a line of the first one again, and says so in its answer."""
        self.worked((DAY_SERVED, [bank("B1,2024-04-01,,1,C,", "B2,2024-04-01,,2,C,"),
                                  bank("B1,2024-04-01,,1,C,", "B3,2024-04-01,,3,C,")]))
        self.told_of({
            "UPDATE requests SET a = 2, b = 0 WHERE b = 1": {("new", "B1", "files", 2)},
            "UPDATE requests SET a = 1, b = 1 WHERE b = 0": {("new", "B1", "files", 0)},
        }, "new")

    def test_what_is_told_of_claims_on_another_list(self):
        """Two claims of one amount, each released before a list of its own, and an open one."""
        self.worked(
            ("2024-04-30", [register(1001), report(1001, "2024-01", 1_000_000), bank("B1,2024-02-20,1001,200000,C,"),
                            report(1001, "2024-02", 0), report(1001, "2024-03", 0), *[claim(1_000)] * 3, release(1)]),
            ("2024-05-01", [PAYOUTS]), ("2024-05-02", [release(2)]), ("2024-05-03", [PAYOUTS]))

        def told(number, kept, released, paid=1_000):
            return "listed", 1001, number, "kept", kept, released, paid

        first, second = "2024-04-30", "2024-05-02"
        self.told_of({
            "UPDATE claims SET list = 3 - list": {told(1, 2, first), told(2, 1, second)},
            "UPDATE claims SET list = NULL": {told(1, None, first), told(2, None, second)},
            "UPDATE claims SET list = 2 WHERE no = 3": {told(3, 2, None, 0)},
            # What is wholly set off comes on none.
            "UPDATE claims SET list = NULL, paid = 0": set(),
            # A list of the day of a release may have come before it.
            "UPDATE lists SET day = day - 1": set(),
        }, "listed")

    def test_what_is_told_of_requests_that_a_rule_would_have_refused(self):
        """All is sent on the days on which it may be; then a day is changed, or what is to be there before."""
        reports = [report(1001, f"2024-0{month}", gross) for month, gross in ((1, 1_000_000), (2, 0), (3, 0))]
        self.worked(
            ("2024-01-10", [register(1001)]),
            ("2024-04-20", [*reports, bank("B1,2024-02-19,1001,200000,C,", "B2,2024-04-19,,1,C,"), *[claim(1_000)] * 2]),
            ("2024-04-22", [("POST", "/assign", '{"employer":1001,"reference":"B2"}'),
                            ("POST", "/employers/1001/claims/1/withdraw", ""), release(2)]),
            ("2024-04-25", [("POST", "/employers/1001/end", '{"last":"2024-06"}'), ADDED_RATES]))

        def told(rule, *what, day="2024-04-20"):
            return {("rule", rule, it, day) for it in what}

        day = "UPDATE requests SET day = day {} WHERE CAST(command AS TEXT) LIKE '{}%'".format
        first, *others = "report 1001 2024-01", "report 1001 2024-02", "report 1001 2024-03"
        assigned = "2024-04-22"
        self.told_of({
            day("+ 200", "employer"): {
                *told(11, first, *others, "claim 1", "claim 2", "payment 1"), *told(11, "payment 2", day=assigned),
                *told(11, "end 1001", day="2024-04-25")},
            "UPDATE employers SET start = start + 1": told(13, first),
            "UPDATE employers SET last = 288": told(13, *others),
            day("- 60", "report 1001 2024-03"): told(14, others[1], day="2024-02-20"),
            day("+ 615", "rate"): set(),
            day("+ 616", "rate"): told(19, RATE, day="2026-01-01"),
            "UPDATE requests SET day = day - 1 WHERE kind = 3": set(),
            "UPDATE requests SET day = day - 2 WHERE kind = 3": told(22, "line B2", day="2024-04-18"),
            "UPDATE requests SET day = day + 2 WHERE kind = 3": set(),
            "UPDATE requests SET day = day + 3 WHERE kind = 3": told(23, "assign B2", day=assigned),
            "UPDATE claims SET made = made + 2": set(),
            "UPDATE claims SET made = made + 3": told(26, "withdraw 1", "release 2", day=assigned),
            "UPDATE rates SET first = 289 WHERE first = 288": told(32, "employer 1001", day=None),
        }, "rule")

    def test_what_is_told_of_claims_beyond_the_balance(self):
        """January earns worker 7 142.50 with the first firm, and 14.25 with the second one until it is corrected to nothing.
        Claims 1 and 3 are of 100.00 and 40.00, one of 50.00 between them is withdrawn."""
        self.worked(
            ("2024-02-01", [register(1001), register(1002), report(1001, "2024-01", 100_000),
                            report(1002, "2024-01", 10_000)]),
            ("2024-02-02", [claim(10_000), claim(5_000)]),
            ("2024-02-03", [("POST", "/employers/1001/claims/2/withdraw", ""), correction(1002, "2024-01", 0)]),
            ("2024-02-04", [claim(4_000)]))

        def told(number, day, claimed, earned):
            return {("balance", 1001, number, day, "claimed", claimed, "earned", earned)}

        self.told_of({
            "UPDATE claims SET cents = 4250 WHERE no = 3": set(),
            "UPDATE claims SET cents = 4251 WHERE no = 3": told(3, "2024-02-04", 14_251, 14_250),
            "UPDATE claims SET cents = 15675 WHERE no = 1": {
                *told(2, "2024-02-02", 20_675, 15_675), *told(3, "2024-02-04", 19_675, 14_250)},
            "UPDATE requests SET day = day + 2 WHERE CAST(command AS TEXT) LIKE 'withdraw %'": told(
                3, "2024-02-04", 19_000, 14_250),
            "UPDATE claims SET employer = 1002 WHERE no = 3": {
                ("balance", 1002, 3, "2024-02-04", "claimed", 14_000, "earned", 14_250)},
            # Before the correction the second firm had the worker, and on its day perhaps.
            "UPDATE claims SET employer = 1002 WHERE no = 2": set(),
            "UPDATE claims SET cents = 9999999, made = made - 1 WHERE no = 3": set(),
        }, "balance")

    def test_what_is_told_of_the_firm_of_a_line(self):
        """Lines that came before their firm was registered, and behind it, and of one that never was: what is told where
        the accounts follow."""
        early, late, never = "B1,2024-04-01,1002,100,I,", "B2,2024-04-01,1002,100,I,", "B3,2024-04-01,9999,100,I,"
        self.worked(("2024-04-01", [bank(early)]), ("2024-04-02", [register(1002)]),
                    ("2024-04-03", [bank(late), bank(never)]))
        self.told_of({
            "UPDATE bank SET employer = 1002 WHERE reference = 'B1'": {("firm", "B1", "kept", 1002, "named", 1002)},
            "UPDATE bank SET employer = NULL WHERE reference = 'B2'": {("firm", "B2", "kept", None, "named", 1002)},
            "UPDATE bank SET employer = 9999 WHERE reference = 'B3'": {("firm", "B3", "kept", 9999, "named", 9999)},
        }, "firm")

    def test_what_is_told_of_reports(self):
        """A report with two corrections, of which the latest is in the tables."""
        method, path, body = correction(1001, "2024-01", 300)
        self.worked((DAY_SERVED, [register(1001), report(1001, "2024-01", 100), correction(1001, "2024-01", 200),
                                  (method, path, body.replace('"version": 1', '"version": 2'))]))
        command = "UPDATE requests SET command = CAST(replace(command, {}) AS BLOB)".format
        self.told_of({
            "UPDATE requests SET b = 21 WHERE b = 20": {
                ("report", 1001, "2024-01", 1, "answered", 21, "recomputed", 20)},
            "UPDATE requests SET a = 4 WHERE a = 3": {
                ("report", 1001, "2024-01", 4, "answered", 60, "recomputed", 0), ("wages", 1001, "2024-01")},
            "UPDATE requests SET day = day + 1 WHERE a = 1": {
                ("report", 1001, "2024-01", 2, "answered", 40, "recomputed", 40)},
            command("'1 7:200', '1 7:210'"): {("report", 1001, "2024-01", 2, "answered", 40, "recomputed", 42)},
            command("'1 7:200', '2 7:200'"): {("report", 1001, "2024-01", 2, "answered", 40, "recomputed", 0)},
            command("'-01 7:100', '-02 7:100'"): {
                ("report", 1001, "2024-01", 2, "answered", 40, "recomputed", 40),
                ("report", 1001, "2024-01", 3, "answered", 60, "recomputed", 60)},
            "INSERT INTO wages VALUES (1001, 290, 7, 1)": {("wages", 1001, "2024-03")},
            "UPDATE requests SET caller = 1002 WHERE a = 2": {("request", 1002, 3, "correct 1001 2024-01 1 7:200")},
            "UPDATE requests SET c = 1 WHERE a = 2": {("request", 0, 3, "correct 1001 2024-01 1 7:200")},
        }, "report", "wages", "request")

    def test_what_is_told_of_reminders(self):
        """January owes 2,000.00 from 2024-02-20 on; the other months are missing from the 16th of the next one on. One
        per cent is borne for each month begun. The figures are reckoned by hand."""
        reported = [report(1001, "2024-02", 0), report(1001, "2024-03", 0)]
        self.worked(
            ("2024-03-20", [register(1001), report(1001, "2024-01", 1_000_000)]),
            ("2024-04-10", [RUN]),
            # Of 2,000.00 1,500.00 were paid in the first month.
            ("2024-04-22", [bank("B1,2024-02-25,1001,150000,C,")]), ("2024-04-24", [RUN]),
            # On the day itself, by one file: before it 500.00 were open, and no interest was paid.
            ("2024-05-08", [bank("B2,2024-05-08,1001,50000,C,", "B3,2024-05-08,1001,1000,I,"), RUN]),
            # Two requests of the firm on the day itself.
            ("2024-05-22", [*reported, RUN]),
            ("2024-07-22", [RUN]))
        rows = [(1, 1001, 1, 1, 289, 200_000, 4_000), (2, 1001, 2, 2, 289, 50_000, 3_000),
                (3, 1001, 3, 2, 289, 0, 2_000), (4, 1001, 3, 1, 291, 0, 2_000), (5, 1001, 1, 3, 291, 0, 2_000)]
        self.assertEqual(self.rows("SELECT * FROM reminders"), rows)

        def told(number, *kept):
            return {("reminder", 1001, number, "kept", *kept, "recomputed", *rows[number - 1][3:])}

        self.told_of({
            "UPDATE reminders SET missing = 2 WHERE run = 1": told(1, 2, 289, 200_000, 4_000),
            "UPDATE reminders SET first = 288 WHERE run = 1": told(1, 1, 288, 200_000, 4_000),
            "UPDATE reminders SET arrears = arrears + 1 WHERE run = 2": told(2, 2, 289, 50_001, 3_000),
            "UPDATE reminders SET interest = interest - 1 WHERE run = 5": told(5, 3, 291, 0, 1_999),
            "UPDATE reminders SET level = 3 WHERE run = 1": {("level", 1001, 1, "kept", 3, "recomputed", 1),
                                                             ("level", 1001, 2, "kept", 2, "recomputed", 3)},
            "UPDATE reminders SET level = 2 WHERE run = 5": {("level", 1001, 5, "kept", 2, "recomputed", 1)},
            # The figures before the file of that day, and what they were at no moment.
            "UPDATE reminders SET arrears = 50000, interest = 3000 WHERE run = 3": set(),
            "UPDATE reminders SET missing = 4 WHERE run = 4": set(),
            "UPDATE reminders SET first = NULL WHERE run = 4": {("level", 1001, 4, "kept", 3, "recomputed", 3)},
            "UPDATE reminders SET missing = 0, first = NULL, interest = 0 WHERE run = 4": {
                ("level", 1001, 4, "kept", 3, "recomputed", 3)},
            "UPDATE runs SET firms = 2 WHERE no = 4": {("run", 4, "kept", 2, "recomputed", 1)},
            "DELETE FROM reminders WHERE run = 5": {("run", 5, "kept", 1, "recomputed", 0), ("left out", 1001, 5)},
            # Without it the file of that day may have come first.
            "DELETE FROM reminders WHERE run = 3": {("run", 3, "kept", 1, "recomputed", 0)},
        }, "reminder", "level", "run", "left out")

    def test_what_is_told_of_firms_that_a_run_left_out(self):
        """The first firm owes the contribution of January alone, of the others January is missing; the last one was
        registered on the day of the run, perhaps behind it. The second run is of the fourth firm alone."""
        self.worked(
            ("2024-03-10", [register(1001), report(1001, "2024-01", 1_000_000), report(1001, "2024-02", 0), register(1002)]),
            ("2024-03-12", [register(1003), RUN]), ("2024-03-13", [register(1004)]), ("2024-03-14", [RUN]))
        self.told_of({
            "DELETE FROM reminders WHERE employer = 1001": {("left out", 1001, 1), ("left out", 1001, 2)},
            "DELETE FROM reminders WHERE employer = 1002": {("left out", 1002, 1), ("left out", 1002, 2)},
            "DELETE FROM reminders WHERE employer = 1003": {("left out", 1003, 2)},
            "DELETE FROM reminders WHERE employer = 1004": {("left out", 1004, 2)},
            # As if it had been registered behind the second run, or had its report in time.
            "UPDATE requests SET day = day + 1 WHERE CAST(command AS TEXT) LIKE 'employer 1004 %'": set(),
        }, "left out")


    def test_what_is_told_of_set_offs(self):
        """January owes 2,000.00, of which 1,900.00 were paid in the first month, and the rest is open in it. So of 500.00
        the release sets off 100.00 to contributions and 20.00 to interest."""
        self.worked(
            ("2024-03-12", [register(1001), report(1001, "2024-01", 1_000_000), report(1001, "2024-02", 0),
                            bank("B1,2024-02-25,1001,190000,C,")]),
            ("2024-03-18", [claim(50_000), release(1)]))

        def told(to_contributions, to_interest, missing=None):
            return {("set-off", 1001, 1, "kept", to_contributions, to_interest, "recomputed", 10_000, 2_000, missing)}

        self.told_of({
            "UPDATE claims SET to_interest = to_interest - 1, paid = paid + 1": told(10_000, 1_999),
            "UPDATE claims SET to_contributions = 9999, paid = paid + 1": told(9_999, 2_000),
            # The report of February was to be in by 2024-03-15.
            "UPDATE requests SET day = day + 7 WHERE CAST(command AS TEXT) LIKE 'report 1001 2024-02%'":
                told(10_000, 2_000, FEBRUARY),
        }, "set-off")

    def test_what_is_told_of_the_database(self):
        """An index has other rows than its table, as where its pages are of another file."""
        self.worked((DAY_SERVED, [register(1001), report(1001, "2024-01", 1_000_000), claim(1_000)]))
        self.assertEqual(self.recomputed(), [])
        self.change("PRAGMA writable_schema = ON",
                    "UPDATE sqlite_schema SET sql = replace(sql, 'released', 'made') WHERE name = 'claims_by_release'")
        self.assertEqual(self.recomputed(), [("database", "row 1 missing from index claims_by_release")])

    @unittest.skipUnless(shutil.which("sqlite3"), "sqlite3 isn't here")
    def test_a_store_is_left_as_it_is(self):
        """The statements read a store that is opened for reading alone, and do so twice over one connection."""
        self.one_firm()
        whole = (self.folder / "fund.db").read_bytes()
        statements = (ROOT / "examples/recompute.sql").read_bytes() * 2
        looked = subprocess.run(["sqlite3", "-readonly", "-bail", self.folder / "fund.db"], input=statements,
                                capture_output=True)
        self.assertEqual((looked.returncode, looked.stdout, looked.stderr), (0, b"", b""))
        self.assertEqual((self.folder / "fund.db").read_bytes(), whole)

    def test_what_is_told_of_a_backup_beside_an_old_log(self):
        """It opens as if nothing were wrong, and the firm's report isn't there any more."""
        self.one_firm()
        backup = (self.folder / "fund.db").read_bytes()
        self.expect_done(*report(1001, "2024-01", 500_000))
        server = self.serving(1_000, DAY_SERVED)
        self.connect(server).close()
        office = Office(server, [])
        office.sent = 2_000
        office.done(*register(1002))
        office.connection.close()
        server.kill()
        server.communicate()
        self.write("fund.db", backup)
        self.assertEqual(self.run_program("look", "fund.db")[1].splitlines()[2:6:3], ["requests 3", "reports 0"])
        self.assertIn(("requests", "reports", "kept", 0, "recomputed", 1), self.recomputed())


if __name__ == "__main__":
    run_tests()
