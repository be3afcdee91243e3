"""Talks to the desk (tools/desk) in front of a served office, as its page does.

    python3 tests/desk.py [PROGRAM]

PROGRAM is crates/clear_app/out/clear_app where it isn't given, as `rt ci` leaves it. What is expected is
worked out from docs/rules.md by hand, or stands in docs/clerk.md.
"""

import sys
import time
from unittest import mock

# No __pycache__ is left beside the sources.
sys.dont_write_bytecode = True
from desk_under_test import (  # noqa: E402
    BANK_HEADER, DONE, FIRST_BANK, DeskUnderTest, FakeOffice, answer_bytes, free_port)
from program_under_test import DAY, ROOT, run_tests  # noqa: E402

sys.path.append(str(ROOT / "tools"))
from desk_server import bank_check  # noqa: E402

FAILED = {"rule": 42, "name": "Failed", "detail": ""}
# What docs/clerk.md shows of the firm after the correction of January.
STATEMENT = """statement 1001 2024-04-30
name Bau Nord
member 2024-01 -
charge 2024-01 due 2024-02-20 version 2        1000.00           0.00          10.00
  paid 2024-02-25        1000.00 B1
charge 2024-02 due 2024-03-20 version 1        1000.10           0.00          10.00
  paid 2024-02-25         500.00 B1
  paid 2024-04-21         500.10 B2
missing 2024-03
prepaid        1499.90
arrears           0.00
interest          20.00
"""


class Forms(DeskUnderTest):
    """Each form once, in the order of the manual's story, and the views beside them."""

    def setUp(self):
        super().setUp()
        self.open_desk(None, "--rates", "rates.toml")

    def to_the_correction(self):
        self.does(DONE, self.register())
        self.does({"charge": 200000, "version": 1}, self.report("2024-01", "7,1000000\n"))
        self.does({"charge": 100010, "version": 1}, self.report("02/2024", "7,500050\n"))
        self.does({"new": 2, "repeats": 0}, self.bank(FIRST_BANK))
        self.refuses(15, "ReportExists", "1", self.report("2024-01", "7,500000\n"))
        self.does({"charge": 100000, "version": 2}, self.report("2024-01", "7,500000\n", "correct", version="1"))

    def to_the_payout_day(self):
        self.to_the_correction()
        claim = {"employer": "1001", "worker": "7"}
        self.refuses(25, "OverBalance", "142507", self.command("claim", **claim, amount="8.000,00"))
        self.does({"claim": 1}, self.command("claim", **claim, amount="800"))
        self.refuses(28, "MissingReport", "2024-03", self.command("release", claim="1"))
        self.does({"charge": 200000, "version": 1}, self.report("2024-03", "7,1000000\n"))

    def test_a_firm(self):
        self.to_the_correction()
        status, told = self.get("/api/firms/1001")
        self.assertEqual((status, told["text"]), (200, STATEMENT))
        january = {
            "month": "2024-01", "due": "2024-02-20", "version": 2, "contribution": "100000", "open": "0",
            "paid": "100000", "interest": "1000",
            "payments": [{"day": "2024-02-25", "cents": "100000", "reference": "B1"}]}
        february = {
            "month": "2024-02", "due": "2024-03-20", "version": 1, "contribution": "100010", "open": "0",
            "paid": "100010", "interest": "1000",
            "payments": [{"day": "2024-02-25", "cents": "50000", "reference": "B1"},
                         {"day": "2024-04-21", "cents": "50010", "reference": "B2"}]}
        self.assertEqual(told["statement"], {
            "employer": 1001, "day": "2024-04-30", "name": "Bau Nord", "start": "2024-01", "last": None,
            "charges": [january, february], "interest_payments": [], "missing": ["2024-03"], "prepaid": "149990",
            "arrears": "0", "interest": "2000", "charged": "200010", "credited": "350000", "open": "0"})
        status, headers, text = self.ask("GET", "/documents/statement-1001.txt")
        self.assertEqual((status, text), (200, STATEMENT.encode()))
        self.assertEqual(headers["Content-Disposition"], 'attachment; filename="statement-1001.txt"')
        # The firm is offered from now on.
        self.assertEqual(self.get("/api/session")[1]["recent"], [{"employer": "1001", "name": "Bau Nord"}])
        refusal = {"rule": 11, "name": "UnknownEmployer", "detail": ""}
        self.assertEqual(self.get("/api/firms/1002")[1]["refusal"], refusal)

    def test_claims_releases_and_payouts(self):
        self.to_the_payout_day()
        self.does({"claim": 2}, self.command("claim", employer="1001", worker="7", amount="10,00"))
        self.does(DONE, self.command("withdraw", employer="1001", claim="2"))
        # 800.00 first pay the arrears of 500.10 and the interest of 40.00.
        released = {"paid": 25990, "to_contributions": 50010, "to_interest": 4000}
        self.does(released, self.command("release", claim="1"))
        claims = self.get("/api/firms/1001")[1]["claims"]
        self.assertEqual([(it["claim"], it["worker"], it["cents"], it["state"]) for it in claims],
                         [(1, 7, 80000, "released"), (2, 7, 1000, "withdrawn")])
        self.assertEqual(claims[0]["reply"], released)
        self.does({"items": 1, "list": 1, "total": 25990}, self.command("payouts"))
        payout = self.get("/api/payouts/1")[1]
        self.assertEqual(payout["text"], "payout 1 2024-04-30\nclaim 1 employer 1001 worker 7         259.90\n"
                                         "items 1\ntotal         259.90\n")
        self.assertEqual(payout["payout"], {
            "list": 1, "day": DAY, "claims": [{"claim": 1, "employer": 1001, "worker": 7, "cents": "25990"}],
            "items": 1, "total": "25990"})
        self.refuses(29, "NothingToPay", "", self.command("payouts"))
        worker = self.get("/api/workers/7")[1]["worker"]
        self.assertEqual([(it["employer"], it["month"], it["cents"]) for it in worker["earned"]],
                         [(1001, "2024-01", "71250"), (1001, "2024-02", "71257"), (1001, "2024-03", "142500")])
        self.assertEqual(worker["claims"], [{"claim": 1, "employer": 1001, "state": "released", "cents": "80000"}])
        self.assertEqual((worker["worker"], worker["day"], worker["balance"]), (7, DAY, "205007"))

    def test_a_claim_that_is_to_be_released(self):
        self.to_the_payout_day()
        told = {"claim": 1, "employer": 1001, "worker": 7, "cents": 80000}
        self.assertEqual(self.faults(409, "unconfirmed", self.command("release", False, claim="1")), {"values": told})
        # The store goes back to a backup of before the claim.
        self.close_office()
        for path in self.folder.glob("fund.db*"):
            path.unlink()
        self.open_office(port=self.server.port)
        told = {"claim": 1, "unknown": "–"}
        self.assertEqual(self.faults(409, "unconfirmed", self.command("release", False, claim="1")), {"values": told})

    def test_suspense_and_assignment(self):
        self.does(DONE, self.register())
        note = '<img src=x onerror="alert(1)">'
        lines = f'B9,2024-04-02,,5000,,"{note.replace(chr(34), chr(34) * 2)}"\nB10,2024-04-02,1099,700,I,\n'
        self.does({"new": 2, "repeats": 0}, self.bank(BANK_HEADER + lines))
        self.does({"new": 0, "repeats": 2}, self.bank(BANK_HEADER + lines))
        told = self.get("/api/suspense/0")[1]
        self.assertEqual(told["suspense"], {"day": DAY, "first": 0, "count": 2, "total": "5700", "lines": [
            {"reference": "B9", "day": "2024-04-02", "purpose": "C", "employer": None, "cents": "5000",
             "note": note},
            {"reference": "B10", "day": "2024-04-02", "purpose": "I", "employer": "1099", "cents": "700",
             "note": ""}]})
        self.assertEqual(self.get("/api/suspense/1")[1]["suspense"]["lines"][0]["reference"], "B10")
        self.does(DONE, self.command("assign", employer="1001", reference="B9"))
        self.refuses(23, "NotInSuspense", "", self.command("assign", employer="1001", reference="B9"))
        self.assertEqual(self.get("/api/suspense/0")[1]["suspense"]["count"], 1)
        self.assertEqual(self.get("/api/firms/1001")[1]["statement"]["prepaid"], "5000")
        self.assertEqual(self.ask("GET", "/documents/suspense.txt")[2],
                         b"suspense 2024-04-30\nline B10 2024-04-02 I 1099           7.00\nlines 1\n"
                         b"total           7.00\n")

    def test_reminders_ends_and_rates(self):
        self.does(DONE, self.register())
        self.does(DONE, self.register("1002", "Bau West", "03/2024"))
        for month in ("2024-01", "2024-02", "2024-03"):
            self.does({"charge": 0, "version": 1}, self.report(month, ""))
        self.does({"firms": 1, "run": 1}, self.command("reminders"))
        reminded = {"employer": 1002, "level": 1, "missing": 1, "first": "2024-03", "arrears": "0", "interest": "0"}
        self.assertEqual(self.get("/api/reminders/1")[1]["reminders"],
                         {"run": 1, "day": DAY, "firms": 1, "reminded": [reminded]})
        self.refuses(30, "NothingToRemind", "", self.command("reminders"))
        self.refuses(31, "EndBeforeReports", "2024-03", self.command("end", employer="1001", last="2024-02"))
        self.does(DONE, self.command("end", employer="1001", last="06.2024"))
        self.assertEqual(self.get("/api/firms/1001")[1]["statement"]["last"], "2024-06")
        rates = {"contribution": "19,5", "entitlement": "14,25", "interest": "0,90",
                 "report_day": "15", "due_day": "20"}
        self.refuses(19, "RateOrder", "", self.command("rates", **rates, **{"from": "2025-01"}))
        # 100.00 at 19 percent, then at 19.5.
        self.assertEqual(self.expected("2026-01", "7,10000\n")["cents"], "1900")
        self.does(DONE, self.command("rates", **rates, **{"from": "2026-01"}))
        self.assertEqual(self.expected("2026-01", "7,10000\n"), {"cents": "1950", "rate": 1950, "from": "2026-01"})
        self.assertEqual(self.expected("2025-12", "7,10000\n")["cents"], "1900")

    def test_markup_in_a_name_stays_text(self):
        name = "<script>alert('1')</script>&amp;"
        self.does(DONE, self.register(name=name))
        told = self.get("/api/firms/1001")[1]
        self.assertEqual(told["statement"]["name"], name)
        status, headers, _ = self.ask("GET", "/api/firms/1001")
        self.assertEqual((status, headers["Content-Type"]), (200, "application/json"))
        self.assertEqual(headers["X-Content-Type-Options"], "nosniff")
        self.assertEqual(self.get("/api/log")[1]["log"][0]["values"]["name"], name)


class Fields(DeskUnderTest):
    """What the desk judges by itself, before anything is sent."""

    def setUp(self):
        super().setUp()
        self.office = FakeOffice(self, lambda request: answer_bytes(200, DONE))
        self.open_desk(self.office.port, "--rates", "rates.toml")

    def test_what_a_report_will_be_charged(self):
        # The sum at 20 percent, rounded half up: 1 cent is 0.2, 3 are 0.6, 2.5 cents are 0.5 of one.
        for lines, charge in (("", "0"), ("7,1\n", "0"), ("7,2\n", "0"), ("7,3\n", "1"), ("7,1\n8,2\n", "1"),
                              ("7,500052\n", "100010"), ("7,500053\n", "100011"), ("7,10000000\n8,1\n", "2000000")):
            expected = {"cents": charge, "rate": 2000, "from": "2024-01"}
            self.assertEqual(self.expected("2024-01", lines), expected, lines)
        # 19 percent of 50 cents are 9.5.
        self.assertEqual(self.expected("2025-01", "7,50\n")["cents"], "10")
        self.assertIsNone(self.expected("2023-12", "7,50\n"))
        told = self.check_report("2024-01", "worker;gross\r\n7;100\r\n\r\n9;250\r\n")
        self.assertEqual((told["lines"], told["gross"], told["faults"]), (2, "350", []))
        self.assertEqual(told["wages"], [{"worker": 7, "cents": "100"}, {"worker": 9, "cents": "250"}])

    def test_lines_that_are_wrong(self):
        full = "".join(f"{worker},1\n" for worker in range(1, 502))
        for csv, line, reason in (
                ("worker,cents\n7,1\n", 1, "header"), ("", 1, "header"), ("worker,gross\n7\n", 2, "fields"),
                ("worker,gross\n7,1\n0,1\n", 3, "worker"), ("worker,gross\n1000000000,1\n", 2, "worker"),
                ("worker,gross\n7,10000001\n", 2, "gross"), ("worker,gross\n7,10.00\n", 2, "gross"),
                ("worker,gross\n7,-1\n", 2, "gross"), ("worker,gross\n7,1\n8,1\n07,1\n", 4, "twice"),
                ("worker,gross\n" + full, 502, "lines"), ('worker,gross\n"7,1\n', 2, "csv")):
            told = self.check_report("2024-01", csv)
            self.assertEqual([(it["line"], it["reason"]) for it in told["faults"]], [(line, reason)], csv[:40])
            self.assertIsNone(told["expected"])
            carried = self.faults(400, "field", self.command("report", employer="1001", month="2024-01", csv=csv))
            self.assertEqual(carried, {"field": "csv", "reason": "csv"})
        self.assertEqual(self.lines("numbers.jsonl"), [])

    def test_fields_that_are_wrong(self):
        register = {"employer": "1001", "name": "Bau", "start": "2024-01"}
        report = {"employer": "1001", "month": "2024-01", "csv": "worker,gross\n7,5\n"}
        # The greatest of each.
        rates = {"from": "2026-01", "contribution": "100", "entitlement": "100", "interest": "10", "report_day": "28",
                 "due_day": "28"}
        for kind, fields, field, reason in (
                ("register", {**register, "employer": "0"}, "employer", "employer"),
                ("register", {**register, "employer": "100000000"}, "employer", "employer"),
                ("register", {**register, "employer": "1001/end"}, "employer", "employer"),
                ("register", {**register, "name": "ä" * 31}, "name", "name"),
                ("register", {**register, "name": " "}, "name", "name"),
                ("register", {**register, "name": "a\nb"}, "name", "name-turned"),
                ("register", {**register, "name": "Bau \u009b8mNord"}, "name", "name-turned"),
                ("register", {**register, "name": "\ud800"}, "name", "name"),
                ("register", {**register, "name": "Bau \u202eGbR"}, "name", "name-turned"),
                ("register", {**register, "name": "\u2067Bau\u2069"}, "name", "name-turned"),
                ("register", {**register, "name": "Bau\u200f"}, "name", "name-turned"),
                ("register", {**register, "start": "2024-13"}, "start", "month"),
                ("register", {"employer": "1001", "name": "Bau"}, "start", "missing"),
                ("release", {"claim": "50000001"}, "claim", "claim"),
                ("assign", {"employer": "1", "reference": "a b"}, "reference", "reference"),
                ("claim", {"employer": "1", "worker": "7", "amount": "1.23"}, "amount", "amount"),
                ("claim", {"employer": "1", "worker": "7", "amount": "0,00"}, "amount", "amount-range"),
                ("claim", {"employer": "1", "worker": "7", "amount": "1.000.000.000,01"}, "amount", "amount-range"),
                ("rates", {**rates, "contribution": "100,01"}, "contribution", "contribution"),
                ("rates", {**rates, "entitlement": "100,01"}, "entitlement", "entitlement"),
                ("rates", {**rates, "interest": "10,01"}, "interest", "interest"),
                ("rates", {**rates, "report_day": "29"}, "report_day", "report_day"),
                ("rates", {**rates, "due_day": "29"}, "due_day", "due_day"),
                ("correct", {**report, "version": "4294967296"}, "version", "version")):
            carried = self.faults(400, "field", self.command(kind, **fields))
            self.assertEqual(carried, {"field": field, "reason": reason}, fields)
        # A name of 60 bytes, most in umlauts.
        self.does(DONE, self.register(name="ä" * 30))
        self.does(DONE, self.command("rates", **rates))
        reply = {"charge": 1, "version": 7}
        self.office.answer = lambda request: answer_bytes(200, reply)
        self.does(reply, self.command("correct", **report, version="4294967295"))
        self.assertEqual([it["number"] for it in self.lines("numbers.jsonl")], [1, 2, 3])

    def test_a_second_click(self):
        fields = {"employer": "1001", "name": "Bau", "start": "01/2024", "last": "2024-01", "reference": "B1",
                  "claim": "1", "from": "2024-01", "contribution": "1", "entitlement": "1", "interest": "1",
                  "report_day": "1", "due_day": "1"}
        for kind in ("register", "end", "rates", "assign", "release", "withdraw", "payouts", "reminders"):
            self.faults(409, "unconfirmed", self.command(kind, confirmed=False, **fields))
        bank = self.post("/api/commands/bank", "bank", FIRST_BANK.encode(), confirmed=False)
        self.faults(409, "unconfirmed", bank)
        carried = self.faults(409, "unconfirmed", self.command("register", confirmed=False, **fields))
        # What is to be confirmed is what the desk has read.
        self.assertEqual(carried, {"values": {"employer": 1001, "name": "Bau", "start": "2024-01"}})
        self.assertEqual(self.lines("numbers.jsonl"), [])


class Claims(DeskUnderTest):
    """What is told of a claim before its release is what the office says of it now."""

    def answer(self, request):
        if request.startswith(b"POST"):
            return answer_bytes(200, {"claim": 1})
        self.assertTrue(request.startswith(b"GET /workers/7 "), request)
        return self.document

    def told(self, claims):
        self.document = claims
        if isinstance(claims, str):
            text = f"worker 7 2024-04-30\n{claims}balance           0.00\n"
            self.document = answer_bytes(200, text.encode(), "text/plain; charset=utf-8")
        return self.faults(409, "unconfirmed", self.command("release", False, claim="1"))["values"]

    def test_a_claim_by_the_log_and_by_the_office(self):
        self.open_desk(FakeOffice(self, self.answer).port)
        # This desk knows nothing of it, and asks nothing.
        self.assertEqual(self.told(None), {"claim": 1, "unknown": "–"})
        self.does({"claim": 1}, self.command("claim", employer="1001", worker="7", amount="10,00"))
        known = {"claim": 1, "employer": 1001, "worker": 7, "cents": 1000}
        self.assertEqual(self.told("claim 1 employer 1001 open          10.00\n"), known)
        for other in ("", "claim 1 employer 1002 open          10.00\n", "claim 1 employer 1001 open         500.00\n",
                      "claim 1 employer 1001 released          10.00\n", "claim 2 employer 1001 open          10.00\n",
                      "something new\n", None, answer_bytes(500, FAILED)):
            self.assertEqual(self.told(other), {"claim": 1, "unknown": "–"}, other)


class BankCheck(DeskUnderTest):
    """What the office's program says of a bank file before it is sent."""

    def check(self, content):
        kind = {"Content-Type": "application/octet-stream"}
        return self.post("/api/check/bank", "check-bank", content.encode(), **kind)[1]["check"]

    def test_good_and_faulty_files(self):
        self.open_desk(free_port(), "--clearing", "clearing")
        told = "2 lines, 0 repeats within the file, 0 without a firm, 3500.00 in all\n"
        self.assertEqual(self.check(FIRST_BANK), {"state": "good", "text": told})
        told = ("record 2, value_date: 01.04.2024 is no day (YYYY-MM-DD, 2000-01-01 to 2200-12-31)\n"
                "a day is written YYYY-MM-DD: 2024-04-01 for 01.04.2024\n")
        self.assertEqual(self.check(BANK_HEADER + "B7,01.04.2024,1001,100,C,\n"), {"state": "faulty", "text": told})

    def test_without_a_program(self):
        self.open_desk(free_port())
        self.assertEqual(self.check(FIRST_BANK), {"state": "none", "text": ""})

    def test_a_program_that_is_not_there(self):
        self.open_desk(free_port(), "--clearing", "nowhere")
        self.assertEqual(self.check(FIRST_BANK)["state"], "missing")

    def test_a_program_that_fails(self):
        self.open_desk(free_port(), "--clearing", "/bin/false")
        self.assertEqual(self.check(FIRST_BANK), {"state": "failed", "text": ""})

    def script(self, *lines):
        path = self.write("script", "\n".join(["#!/bin/sh", *lines, ""]))
        path.chmod(0o755)
        return path

    def test_a_program_that_takes_too_long(self):
        """It ends, and what it has started, which writes to the same pipes."""
        program, begun = self.script("sleep 60 &", "wait"), time.monotonic()
        with mock.patch.object(bank_check, "SECONDS", 0.5):
            self.assertEqual(bank_check.check_bank(program, b""), {"state": "slow", "text": ""})
        self.assertLess(time.monotonic() - begun, 30)

    def test_a_file_is_told_without_its_folder(self):
        program = self.script('echo "$3: bad"', "exit 2")
        self.assertEqual(bank_check.check_bank(program, b""), {"state": "faulty", "text": "bank.csv: bad\n"})


if __name__ == "__main__":
    run_tests()
