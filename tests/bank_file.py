"""Runs tools/bank-file on statements written by hand, and has the office read what it makes.

    python3 tests/bank_file.py [PROGRAM]

PROGRAM is crates/clear_app/out/clear_app where it isn't given, as `rt ci` leaves it. What is expected is
worked out by hand from the statements. It needs /usr/bin/python3 with defusedxml.
"""

import os
import shutil
import subprocess
import sys
import unittest

# No __pycache__ is left beside the sources.
sys.dont_write_bytecode = True
from bank_statements import (  # noqa: E402
    ACCOUNT, BATCH, BATCH_LINES, DECLARED, FIRMS, GOOD, LATIN, LATIN_LINES, NORD, PAGES, STRANGE,
    WEST, as_02, balance, document, entry, one, packed, page, payment, statement, transaction)
from documents import commands  # noqa: E402
from program_under_test import ROOT, ProgramUnderTest, run_tests  # noqa: E402

TOOL = str(ROOT / "tools/bank-file")
PYTHON = "/usr/bin/python3"
HEADER = "reference,value_date,employer,cents,purpose,note\n"

# How a message names the statement, its first entry, and that as it is read.
S1 = f"statement S1 of {ACCOUNT}"
FIRST = f"entry 1 of {S1}"
AT_FIRST = f"{S1}, entry 1 of the page"
RETURNED = "<RtrInf><Rsn><Cd>AC04</Cd></Rsn></RtrInf>"
PACK = "Pack the files of all pages into one zip"


def has_defusedxml():
    words = [PYTHON, "-c", "import defusedxml"]
    return os.access(PYTHON, os.X_OK) and subprocess.run(words, capture_output=True, check=False).returncode == 0


def setUpModule():
    if not has_defusedxml():
        raise unittest.SkipTest("tools/bank-file: /usr/bin/python3 with python3-defusedxml isn't here")


class BankFiles(ProgramUnderTest):
    maxDiff = None

    def setUp(self):
        super().setUp()
        self.write("firms.csv", FIRMS)

    def tool(self, *words, **options):
        """Status, standard output and standard error of the tool."""
        streams = {"stdout": subprocess.PIPE, "stderr": subprocess.PIPE, "timeout": 60, "check": False}
        ran = subprocess.run([TOOL, *words], cwd=self.folder, **{**streams, **options})
        return ran.returncode, (ran.stdout or b"").decode(), ran.stderr.decode()

    def made(self, content, *words):
        """The bank file of a statement, without its header, and what is told."""
        self.write("statement", content)
        known = ["--firms", "firms.csv", "--interest-word", "ZINSEN"]
        status, output, told = self.tool("statement", *known, *words)
        self.assertEqual((status, output[:len(HEADER)]), (0, HEADER), told)
        return output.removeprefix(HEADER), told

    def makes(self, content, lines, *words):
        """These lines are made of a statement, and the office finds them good. What is told."""
        output, told = self.made(content, *words)
        self.assertEqual(output.splitlines(), lines, told)
        self.write("bank.csv", HEADER + output)
        status, said, errors = self.run_program("check", "bank", "bank.csv")
        count = f"{len(lines)} {'line' if len(lines) == 1 else 'lines'}, 0 repeats within the file, "
        self.assertEqual((status, said[:len(count)], errors), (0, count, ""), said)
        return told

    def refuses(self, content, said, status=1, words=("--firms", "firms.csv")):
        """A statement ends with this status and says this, and no file is left."""
        self.write("statement", content)
        before = {it.name for it in self.folder.iterdir()}
        ended = self.tool("statement", *words, "--out", "refused.csv")
        self.assertEqual(ended, (status, "", f"{said}\nnothing is written\n"))
        self.assertEqual({it.name for it in self.folder.iterdir()}, before)

    def misread(self, content, said):
        self.refuses(content, f"statement{said}", status=2)


class Good(BankFiles):
    def test_the_lines(self):
        for name, (content, lines) in GOOD.items():
            with self.subTest(name):
                self.makes(content, lines)
                # It comes again, and is the same.
                self.makes(content, lines)

    def test_version_02_has_the_lines_of_version_08(self):
        for name in ("batch", "references", "no references", "notes"):
            with self.subTest(name):
                self.makes(as_02(GOOD[name][0]), GOOD[name][1])
        content = one("0.00", "1.00", payment("1.00", status="PDNG"), payment("1.00", reference="A"))
        told = self.makes(as_02(content), ["A,2024-04-30,,100,C,"])
        self.assertIn("left out in all, pending: 1, 1.00 EUR\n", told)

    def test_the_office_takes_each_and_then_knows_it(self):
        self.init()
        number = 0
        for name, (content, lines) in GOOD.items():
            with self.subTest(name):
                self.write("bank.csv", HEADER + self.made(content)[0])
                for said in (f"new {len(lines)} repeats 0\n", f"new 0 repeats {len(lines)}\n"):
                    number += 1
                    words = ["import", "fund.db", "2024-04-30", str(number), "bank.csv"]
                    self.expect(words, 0, said)

    def test_a_zip_has_all_its_statements_by_their_names(self):
        other = one("1.00", "2.00", payment("1.00", reference="Z-1"), identifier="S0")
        zipped = packed(("b.xml", LATIN), ("a.XML", other), ("C.xml", BATCH.replace("S1", "S2")))
        self.makes(zipped, [*BATCH_LINES, "Z-1,2024-04-30,,100,C,", *LATIN_LINES])

    def test_other_encodings_that_are_declared(self):
        for declared in ("UTF-8", "ISO-8859-1"):
            self.makes("\ufeff" + LATIN.replace("UTF-8", declared), LATIN_LINES)
        self.makes(LATIN.replace("UTF-8", "UTF-16").encode("utf-16"), LATIN_LINES)
        self.makes(LATIN.replace("UTF-8", "windows-1252").encode("cp1252"), LATIN_LINES)
        self.makes(LATIN.replace(DECLARED, ""), LATIN_LINES)
        for byte_order in ("le", "be"):
            self.makes(LATIN.replace("UTF-8", "UTF-16").encode(f"utf-16-{byte_order}"), LATIN_LINES)

    def test_no_booked_credit(self):
        self.assertEqual(self.makes(one("5.00", "5.00"), []),
                         f"written: 0 lines, 0.00 EUR\n{S1}: balance 5.00 EUR to 5.00 EUR\n")

    def test_days(self):
        entries = [payment("0.01", reference="D-1", value="<Dt>2000-01-01+01:00</Dt>"),
                   payment("0.01", reference="D-2", value="<DtTm>2200-12-31T23:59:59Z</DtTm>"),
                   payment("0.01", reference="D-3", value="", booked="2024-02-29"),
                   payment("0.01", reference="D-4", value="<Dt>2024-04-30Z</Dt>")]
        lines = ["D-1,2000-01-01,,1,C,", "D-2,2200-12-31,,1,C,", "D-3,2024-02-29,,1,C,", "D-4,2024-04-30,,1,C,"]
        told = self.makes(one("0", "0.04", *entries), lines)
        self.assertIn("  value dates 2000-01-01 to 2200-12-31\n", told)

    def test_days_that_are_refused(self):
        for day in ("1999-12-31", "2201-01-01"):
            self.refuses(one("0", "1", payment("1", value=f"<Dt>{day}</Dt>")),
                         f"{FIRST}: {day} doesn't lie from 2000-01-01 to 2200-12-31")
        for day in ("2024-02-30", "20240430", "30.04.2024", "２０２４-04-30"):
            self.refuses(one("0", "1", payment("1", value=f"<Dt>{day}</Dt>")),
                         f"{AT_FIRST}: ValDt: {day} is no day", status=2)
        self.refuses(one("0", "1", payment("1", value="", booked="")),
                     f"{FIRST}: it has neither a value date nor a booking date")

    def test_amounts(self):
        entries = [payment("1000000000.00", reference="A-1"), payment("0.29000", reference="A-2"),
                   payment("1.1", reference="A-3")]
        lines = ["A-1,2024-04-30,,100000000000,C,", "A-2,2024-04-30,,29,C,", "A-3,2024-04-30,,110,C,"]
        self.makes(one("0", "1000000001.39", *entries), lines)

    def test_amounts_that_are_refused(self):
        self.refuses(one("0", "1000000000.01", payment("1000000000.01")),
                     f"{FIRST}: 1000000000.01 EUR is more than the office takes in one line")
        self.refuses(one("0", "0.005", payment("0.005")), f"{FIRST}: 0.005 euros aren't whole cents")
        for amount in ("-1.00", "1,00", "1e3", "NaN", "١", "1 000", "0x1"):
            self.refuses(one("0", "1", payment(amount)),
                         f"{AT_FIRST}: {amount} EUR is no amount with a currency", status=2)


class Batches(BankFiles):
    def test_without_amounts_it_is_one_line(self):
        nord, west = transaction("", "Mai", "Bau Nord", NORD), transaction("4.00", "Zinsen", "Bau West", WEST)
        interest = transaction("", "Zinsen 1003")
        for details, line in (
                ([nord, west], 'B,2024-04-30,,900,C,"Bau Nord, Bau West: Mai Zinsen"'),
                ([nord, nord], "B,2024-04-30,1001,900,C,Bau Nord: Mai Mai"),
                ([nord, transaction("", "", "Bau Nord", STRANGE)], "B,2024-04-30,,900,C,Bau Nord: Mai"),
                ([interest, interest], "B,2024-04-30,1003,900,I,Zinsen 1003 Zinsen 1003"),
                # In another currency it may be all of the entry.
                ([transaction("5.00", "Mai", "Bau Nord", NORD).replace("EUR", "USD")],
                 "B,2024-04-30,1001,900,C,Bau Nord: Mai"),
                # One is in another currency, or was taken off.
                ([transaction("5.00"), west.replace("EUR", "USD")], "B,2024-04-30,,900,C,Bau West: Zinsen"),
                ([transaction("5.00"), west.replace("CRDT", "DBIT")], "B,2024-04-30,,900,C,Bau West: Zinsen")):
            self.makes(one("0", "9.00", entry("9.00", *details, reference="B")), [line])
        # The firm is known as surely as by each of them.
        told = self.makes(one("0", "9.00", entry("9.00", nord, transaction("", "1001"), reference="B")),
                          ["B,2024-04-30,1001,900,C,Bau Nord: Mai 1001"])
        self.assertIn("  by a number in the text: 1 line, 9.00 EUR\n", told)

    def test_not_all_its_transactions_are_there(self):
        nord = transaction("4.00", "Mai", "Bau Nord", NORD)
        for count, details, line in ((2, [nord], "B,2024-04-30,,900,C,Bau Nord: Mai"),
                                     (2, [], "B,2024-04-30,,900,C,"),
                                     (3, [nord, nord], "B,2024-04-30,,900,C,Bau Nord: Mai Mai"),
                                     (2, [transaction("4.00", more=RETURNED)], "B,2024-04-30,,900,C,"),
                                     ("001", [nord], "B,2024-04-30,,900,C,Bau Nord: Mai"),
                                     ("001", [nord.replace("4.00", "9.00")],
                                      "B,2024-04-30,1001,900,C,Bau Nord: Mai"),
                                     ("001", [nord.replace("4.00", "9.50")],
                                      "B,2024-04-30,1001,900,C,Bau Nord: Mai"),
                                     (2, [transaction("4.00", "Zinsen")], "B,2024-04-30,,900,C,Zinsen")):
            batch = f"<Btch><NbOfTxs>{count}</NbOfTxs></Btch>"
            self.makes(one("0", "9.00", entry("9.00", *details, reference="B", batch=batch)), [line])
        # Also where one part of its details has all of its own.
        other = "</NtryDtls><NtryDtls><Btch><NbOfTxs>2</NbOfTxs></Btch>"
        for details, line in ((nord, "B,2024-04-30,,900,C,Bau Nord: Mai"),
                              (transaction("4.00", more=RETURNED), "B,2024-04-30,,900,C,"),
                              (transaction("", "Mai", "Bau Nord", NORD) + other, "B,2024-04-30,,900,C,Bau Nord: Mai")):
            self.makes(one("0", "9.00", entry("9.00", details, reference="B")), [line])
        # What the bank takes back may have its fee in it.
        taken = entry("9.00", transaction("4.00", more=RETURNED), direction="DBIT")
        self.assertIn("left out in all, returned payment (a debit): 1, 9.00 EUR\n",
                      self.makes(as_02(one("9.00", "0", taken)), []))

    def test_transactions_that_do_not_make_its_amount(self):
        """The bank took its charges off, or doesn't tell all of them."""
        both = 'BT,2024-04-30,,20000,C,"Bau Nord, Büro: Beitrag Zinsen 1003 1001, 1003"'
        for amount in ("99.90", "99.88"):
            for content in (BATCH.replace("99.89", amount), as_02(BATCH.replace("99.89", amount))):
                self.makes(content, [both])
        nord = transaction("100.00", "Zinsen", "Bau Nord", NORD, "T1"), transaction("99.00", "Zinsen", "", NORD, "T2")
        for amount, firm, purpose in (("198.50", "1001", "I"), ("199.50", "", "C")):
            line = f"B,2024-04-30,{firm},{amount.replace('.', '')},{purpose},Bau Nord: Zinsen Zinsen"
            self.makes(one("0", amount, entry(amount, *nord, reference="B")), [line])

    def test_a_debit_among_the_transactions_of_a_credit(self):
        """What it is can't be known, though it has an account or a number of a firm, but for one that came back."""
        nord, fee = transaction("9.00", "Zinsen", "Bau Nord", NORD), transaction("1.00", "Zinsen", "", NORD)
        taken = transaction("9.00", "Zinsen", "Bau Nord", NORD).replace("CRDT", "DBIT")
        for details, note in (((taken,), "Zinsen"), ((nord, fee.replace("CRDT", "DBIT")), "Zinsen Zinsen")):
            self.makes(one("0", "9.00", entry("9.00", *details, reference="B")),
                       [f"B,2024-04-30,,900,C,Bau Nord: {note}"])
        back = taken.replace("</TxDtls>", f"{RETURNED}</TxDtls>")
        self.assertIn("left out in all, returned transfer (a credit): 1, 9.00 EUR\n",
                      self.makes(one("0", "9.00", entry("9.00", back, reference="B")), []))

    def test_one_that_came_back_is_left_out(self):
        back = transaction("1.00", reference="X", more=RETURNED)
        parts = transaction("2.00", reference="Y"), back, transaction("0.00", reference="Z")
        told = self.makes(one("0", "3.00", entry("3.00", *parts, reference="B")), ["Y,2024-04-30,,200,C,"])
        self.assertIn(f"left out, returned transfer (a credit): transaction 2 of {FIRST}, 2024-04-30, 1.00 EUR\n",
                      told)
        self.assertIn("left out in all, amount of 0: 1, 0.00 EUR\n", told)
        claim = transaction("1.00", reference="X", end_to_end="L3-C17")
        told = self.makes(one("0", "3.00", entry("3.00", claim, parts[0], reference="B")), ["Y,2024-04-30,,200,C,"])
        self.assertIn(f": transaction 1 of {FIRST}, 2024-04-30, 1.00 EUR, L3-C17\n", told)
        # Where it can't be parted from the others, the clerk has to look.
        whole = entry("3.00", transaction("", iban=NORD), back, reference="B")
        self.makes(one("0", "3.00", whole), ["B,2024-04-30,,300,C,"])


class LeftOut(BankFiles):
    def test_each_with_its_reason_and_sums(self):
        returned = transaction("", "Auszahlung 3", more=RETURNED)
        reversal = "<RvslInd>true</RvslInd>"
        content = one(
            "100.00", "176.00", payment("80.00", reference="L-1"),
            entry("1.10", direction="DBIT", value="<Dt>2024-04-29</Dt>"),
            entry("2.20", direction="DBIT", value="", booked="2024-04-28"),
            entry("3.00", direction="DBIT", reversal=reversal),
            entry("0.30", returned), entry("2.00", reversal="<RvslInd>1</RvslInd>"),
            payment("9.00", status="PDNG"), payment("8.00", status="INFO"), payment("7.00", currency="USD"),
            payment("6.50", currency="USD"), payment("5", currency="JPY", value="", booked=""), payment("0.00"),
            entry("5.00", direction="DBIT", status="PDNG", reversal=reversal),
            payment("0.00", reversal="<RvslInd>false</RvslInd>"),
            entry("0.20", returned, returned), entry("0.20", returned, direction="DBIT"))
        told = self.makes(content, ["L-1,2024-04-30,,8000,C,"]).splitlines()
        self.assertEqual(told[:3], [
            f"left out, debit: entry 2 of {S1}, 2024-04-29, 1.10 EUR",
            f"left out, debit: entry 3 of {S1}, 2024-04-28, 2.20 EUR",
            f"left out, returned payment (a debit): entry 4 of {S1}, 2024-04-30, 3.00 EUR"])
        self.assertIn(f"left out, other currency: entry 11 of {S1}, no day, 5.00 JPY", told)
        self.assertEqual(told[15:], [
            "left out in all, debit: 2, 3.30 EUR",
            "left out in all, returned payment (a debit): 2, 3.20 EUR",
            "left out in all, returned transfer (a credit): 3, 2.50 EUR",
            "left out in all, pending: 2, 14.00 EUR",
            "left out in all, neither booked nor pending: 1, 8.00 EUR",
            "left out in all, other currency: 2, 13.50 USD",
            "left out in all, other currency: 1, 5.00 JPY",
            "left out in all, amount of 0: 2, 0.00 EUR",
            "written: 1 line, 80.00 EUR", "  without a firm: 1 line, 80.00 EUR",
            "  value dates 2024-04-30 to 2024-04-30", f"{S1}: balance 100.00 EUR to 176.00 EUR"])

    def test_transfers_of_the_fund_that_came_back(self):
        code = "<BkTxCd><Domn><Cd>PMNT</Cd><Fmly><Cd>ICDT</Cd><SubFmlyCd>RRTN</SubFmlyCd></Fmly></Domn></BkTxCd>"
        coded = payment("1.00", "1001", reference="A").replace("<BkTxCd/>", code)
        # What tools/payment-file writes, as a firm sends it back, also where the bank cuts it.
        payout = "Payout list 1 of 2024-02-10, claim 1, employer 1001, worker 7"
        cut = f"<Ustrd>{payout[:27]}</Ustrd><Ustrd>{payout[27:54]}</Ustrd><Ustrd>{payout[54:]}</Ustrd>"
        texts = (f"RUECKZAHLUNG {payout}", f"EREF+L1-C1 SVWZ+RETOURE {payout}", "EREF+L1-C1 SVWZ+Betrieb 1001",
                 payout.upper().replace(",", ""), payout[:27], f"RETOURE {payout[:21]}")
        sent_back = [payment("1.00", text, "", iban, "A") for text in texts for iban in ("", NORD)]
        sent_back.append(payment("1.00", "TEXT", "", "", "A").replace("<Ustrd>TEXT</Ustrd>", cut))
        for back in (payment("1.00", "employer 1001", "", "", "A", "L1-C1"), coded, *sent_back,
                     payment("1.00", "1001", "", ACCOUNT, "A"), entry("1.00", transaction("", "1001", more=code))):
            told = self.makes(one("0", "1.00", back), [])
            self.assertIn("left out in all, returned transfer (a credit): 1, 1.00 EUR\n", told)
        # Others are firms' own.
        for text in ("Payout; Betrieb 1001", "Payout list 5 Betrieb 1001", "Payout list of 2024 Betrieb 1001",
                     "EREF+L2024-C5678AB SVWZ+1001", "EREF+L10-C3-XY SVWZ+1001"):
            self.makes(one("0", "1.00", payment("1.00", text, reference="A")), [f"A,2024-04-30,1001,100,C,{text}"])
        taken_back = entry("1.00", direction="DBIT").replace("<BkTxCd/>", code)
        self.assertIn("left out in all, returned payment (a debit): 1, 1.00 EUR\n",
                      self.makes(one("1.00", "0", taken_back), []))
        # Direct debits, cheques, and what only Germany's number says; then codes and numbers of others.
        back = ("RPCR", "UPDD", "RCDD", "PRDD", "UPCQ", "CQRV", "NTRF+108", "NDDT+109+00931", "NTRF+159",
                "N051+159+9310", "NDDT+181+00931", "NTRF+184")
        other = "ESDD", "NTRF+166+159", "159", "N159+166", "N0511+159"
        for code in (*back, *other):
            own = f"<Domn><Fmly><SubFmlyCd>{code}</SubFmlyCd></Fmly></Domn><Prtry><Cd>{code}</Cd></Prtry>"
            coded = payment("1.00", reference="A").replace("<BkTxCd/>", f"<BkTxCd>{own}</BkTxCd>")
            self.makes(one("0", "1.00", coded), [] if code in back else ["A,2024-04-30,,100,C,"])
        # A debit of which a part is taken back, beside a fee, or not all of which is there.
        parts = transaction("4.00", more=RETURNED), transaction("5.00", "Entgelt")
        batch = "<Btch><NbOfTxs>3</NbOfTxs></Btch>"
        for taken_back in (entry("9.00", *parts, direction="DBIT"), entry("9.00", *parts, direction="DBIT", batch=batch)):
            self.assertIn("left out in all, returned payment (a debit): 1, 9.00 EUR\n",
                          self.makes(one("9.00", "0", taken_back), []))
        # The transfer itself is a debit as others.
        out = entry("1.00", transaction("", "", "", ACCOUNT, "A", "L1-C1"), direction="DBIT")
        self.assertIn("left out in all, debit: 1, 1.00 EUR\n", self.makes(one("1.00", "0", out), []))

    def test_which_payout_it_is(self):
        """By the bank's references, else by the text, as far as it goes; of a list in one sum the list."""
        payout = "Payout list 20 of 2024-02-10, claim 37, employer 1001, worker 7"
        out, many = {"direction": "DBIT"}, [transaction("1.00", end_to_end=f"L7-C{at}") for at in range(1, 8)]
        listed = "<Btch>{}<PmtInfId>PAYOUT-7-2024-04-30</PmtInfId></Btch>"
        by_text = transaction("1.00", f"RETOURE {payout}"), transaction("1.00", payout[:38]), transaction("1.00")
        for found, told in (
                (payment("1.00", payout, end_to_end="L3-C17"), "1.00 EUR, L3-C17"),
                (payment("1.00", "EREF+L3-C17 SVWZ+Retoure"), "1.00 EUR, L3-C17"),
                (payment("1.00", payout, **out), "1.00 EUR, L20-C37"),
                # Claim 37 may be the beginning of another one's number.
                (payment("1.00", payout[:38]), "1.00 EUR, L20"),
                (entry("2.00", *by_text[:2], **out), "2.00 EUR, L20-C37, L20"),
                (entry("7.00", *many, **out), "7.00 EUR, L7-C1, L7-C2, L7-C3, L7-C4, L7-C5 and 2 more"),
                (entry("7.00", batch=listed.format(""), **out), "7.00 EUR, PAYOUT-7-2024-04-30"),
                (entry("7.00", batch=listed.format("<MsgId>PAYOUT-7-2024-04-30</MsgId>"), **out),
                 "7.00 EUR, PAYOUT-7-2024-04-30"),
                *((entry("7.00", transaction("7.00").replace("<Refs>", f"<Refs><{name}>PAYOUT-7-2024-04-30</{name}>"),
                         **out), "7.00 EUR, PAYOUT-7-2024-04-30") for name in ("PmtInfId", "MsgId")),
                (entry("7.00", many[0], batch=listed.format(""), **out), "7.00 EUR, L7-C1"),
                (entry("1.00", by_text[2], batch=listed.format("").replace("PAYOUT", "OTHER"), **out), "1.00 EUR")):
            amount = told.partition(" ")[0]
            ends = ("0", amount) if "CRDT</CdtDbtInd><Sts>" in found else (amount, "0")
            self.assertIn(f": {FIRST}, 2024-04-30, {told}\n", self.makes(one(*ends, found), []))

    def test_a_payment_that_is_taken_back_at_once(self):
        """It is written, and all lines of its amount are told, but for those that were imported before."""
        reversal = {"direction": "DBIT", "reversal": "<RvslInd>true</RvslInd>"}
        content = one("0", "2.01", *(payment("1.00", reference=f"A{at}") for at in range(3)),
                      payment("0.01", reference="B"), entry("1.00", **reversal))
        lines = [*(f"A{at},2024-04-30,,100,C," for at in range(3)), "B,2024-04-30,,1,C,"]
        taken = f"left out, returned payment (a debit): entry 5 of {S1}, 2024-04-30, 1.00 EUR\n"
        by_hand = "if one was taken back, take it out by hand\n"
        told = self.makes(content, lines)
        self.assertTrue(told.startswith(f"{taken}  of this amount: A0, A1, A2; {by_hand}"), told)
        self.write("made.csv", HEADER + f"{lines[0]}\n{lines[2]}\n")
        told = self.makes(content, lines, "--earlier", "made.csv")
        self.assertTrue(told.startswith(f"{taken}  of this amount: A1; {by_hand}"), told)
        self.write("made.csv", HEADER + "".join(f"{line}\n" for line in lines))
        told = self.makes(content, lines, "--earlier", "made.csv")
        self.assertTrue(told.startswith(f"{taken}left out in all"), told)
        # The bank adds its fee, and tells the amount itself of the transaction.
        part = transaction("1.00", more=RETURNED).replace("CRDT", "DBIT")
        amounts = '<AmtDtls><InstdAmt><Amt Ccy="EUR">1.00</Amt></InstdAmt></AmtDtls>'
        instructed = transaction("", more=RETURNED).replace("<RltdPties>", f"{amounts}<RltdPties>")
        in_dollars = part.replace("EUR", "USD")
        for details, said in ((part, "A; "), (instructed, "A; "), (in_dollars, "")):
            paid, taken = payment("1.00", reference="A"), entry("4.00", details, direction="DBIT")
            told = self.makes(one("3.00", "0", paid, taken), ["A,2024-04-30,,100,C,"])
            self.assertEqual(told.partition("  of this amount: ")[2][:3], said, told)
        for count, more in ((5, ""), (7, " and 2 more")):
            many = [payment("1.00", reference=f"A{at}") for at in range(count)]
            told = self.made(one("0", f"{count - 1}.00", *many, entry("1.00", **reversal)))[1]
            self.assertIn(f"  of this amount: A0, A1, A2, A3, A4{more}; ", told)

    def test_flags_that_say_nothing(self):
        for flag in ("True", "yes", "2"):
            self.refuses(one("0", "1.00", payment("1.00", reversal=f"<RvslInd>{flag}</RvslInd>")),
                         f"{AT_FIRST}: RvslInd is {flag}, neither true nor false", status=2)

    def test_an_account_in_another_currency(self):
        content = one("1.00", "3.00", payment("2.00", reference="A")).replace('Ccy="EUR"', 'Ccy="USD"')
        self.assertIn("other currency: 1, 2.00 USD\n", self.makes(content, []))
        self.refuses(content.replace(">3.00<", ">4.00<"), f"{S1}: the opening balance 1.00 USD and the booked "
                     "entries make 3.00 USD, but the closing balance is 4.00 USD")
        self.refuses(content.replace("USD", "EUR", 1), f"{S1}: its balances are in EUR and USD")


class Balances(BankFiles):
    def test_they_agree_with_the_booked_entries(self):
        entries = [payment("5.00", reference="A"), payment("7.00", direction="DBIT"),
                   payment("9.00", status="PDNG")]
        self.makes(one("1.00", "-1.00", *entries), ["A,2024-04-30,,500,C,"])
        three = [statement("1.00", "1.01", *entries), statement("1.00", "1.00", *entries, identifier="S2"),
                 statement("1.00", "-1.00", *entries, identifier="S3")]
        said = "the opening balance 1.00 EUR and the booked entries make -1.00 EUR, but the closing balance is"
        self.refuses(document(*three), f"{S1}: {said} 1.01 EUR\nstatement S2 of {ACCOUNT}: {said} 1.00 EUR")

    def test_one_of_each(self):
        first, last = balance("OPBD", "0"), balance("CLBD", "0.00")
        self.makes(document(page(first + balance("PRCD", "0.0") + last + last + balance("CLAV", "9"))), [])
        self.refuses(document(page(last)),
                     f"{S1}: it has no opening balance (OPBD or PRCD), so it can't be checked")
        self.refuses(document(page(first)), f"{S1}: it has no closing balance (CLBD), so it can't be checked")
        self.refuses(document(page(first + balance("PRCD", "1") + last)),
                     f"{S1}: it has several opening balances: 0.00 EUR, 1.00 EUR")

    def test_pages_that_are_not_all_there(self):
        for there, told in (([0], "1"), ([0, 2], "1, 3"), ([1, 2], "2, 3"), ([0, 1], "1, 2")):
            pages = [PAGES[it] for it in there]
            self.refuses(document(*pages), f"{S1}: a page is missing; there are {told}. {PACK}")
        said_last = [PAGES[0].replace(">false<", ">true<"), *PAGES[1:]]
        self.refuses(document(*said_last), f"{S1}: a page is missing; there are 1, 2, 3. {PACK}")
        self.refuses(document(*PAGES, PAGES[1]), f"{S1}: it stands twice in the file, or a page of it does")

    def test_balances_of_pages(self):
        for old, new in (("90.00", "90.01"), ("140.00", "90.00"), ("140.00", "140.01")):
            pages = [PAGES[0], PAGES[1].replace(old, new), PAGES[2]]
            self.refuses(document(*pages), f"{S1}: the interim balances of page 2 don't agree with the other "
                         "pages and the entries")
        self.refuses(document(*PAGES).replace(">120.00", ">121.00"), f"{S1}: the opening balance -10.00 EUR and "
                     "the booked entries make 120.00 EUR, but the closing balance is 121.00 EUR")

    def test_balances_of_pages_by_their_sub_type(self):
        def interim(code, amount):
            return balance(code, amount).replace("</Tp>", "<SubTp><Cd>INTM</Cd></SubTp></Tp>")

        first = page(balance("OPBD", "1.00") + interim("CLBD", "3.00"), payment("2.00", reference="A"),
                     number="1", last="false")
        second = page(interim("OPBD", "3.00") + balance("CLBD", "7.00"), payment("4.00", reference="B"),
                      number="2")
        self.makes(document(first, second), ["A,2024-04-30,,200,C,", "B,2024-04-30,,400,C,"])
        self.refuses(document(first, second.replace(">3.00<", ">3.01<")),
                     f"{S1}: the interim balances of page 2 don't agree with the other pages and the entries")

    def test_messages_of_version_02_by_pages(self):
        def message(number, last, *statements):
            paged = f"<MsgPgntn><PgNb>{number}</PgNb><LastPgInd>{last}</LastPgInd></MsgPgntn>"
            return as_02(document(*statements, head=paged))

        whole = statement("0", "1.00", payment("1.00", reference="M-1"))
        begun = page(balance("OPBD", "0"), payment("2.00", reference="M-2"), identifier="S2")
        ended = page(balance("CLBD", "6.00"), payment("4.00", reference="M-3"), identifier="S2")
        first, second = message(1, "false", whole, begun), message(2, "true", ended)
        lines = ["M-1,2024-04-30,,100,C,", "M-2,2024-04-30,,200,C,", "M-3,2024-04-30,,400,C,"]
        self.makes(packed(("1.xml", first), ("2.xml", second)), lines)
        self.refuses(packed(("1.xml", first), ("2.xml", message(3, "true", ended))),
                     f"statement S2 of {ACCOUNT}: a page is missing; there are 1, 3. {PACK}")
        # Statements that stand wholly on a page are missed with it.
        other = statement("0", "7.00", payment("7.00", reference="M-4"), identifier="S3")
        for parts, told in (([(1, "false", whole)], "1 of more"), ([(2, "true", other)], "2"),
                            ([(1, "false", whole), (3, "true", other)], "1 of more, 3"),
                            ([(1, "true", whole), (2, "true", other)], "1, 2")):
            files = [(f"{at}.xml", message(*part)) for at, part in enumerate(parts)]
            self.refuses(packed(*files), f"a page of the bank's message is missing; there are {told}. {PACK}")
        self.makes(packed(("1.xml", message(1, "true", whole)), ("2.xml", message(1, "true", other))),
                   ["M-1,2024-04-30,,100,C,", "M-4,2024-04-30,,700,C,"])
        # One that doesn't say whether more of it follows.
        self.makes(as_02(document(whole, head="<MsgPgntn><PgNb>1</PgNb></MsgPgntn>")), lines[:1])


class References(BankFiles):
    def references(self, content):
        return [line.split(",")[0] for line in self.made(content)[0].splitlines()]

    def test_one_payment_in_two_statements(self):
        text, second = "a" * 150, f"entry 1 of statement S2 of {ACCOUNT}"
        same = payment("1.00", text, reference="R")

        def both(later, amount="1.00", **options):
            return document(statement("0", "1.00", same), statement("0", amount, later, identifier="S2", **options))

        told = self.makes(both(same), [f"R,2024-04-30,,100,C,{text[:140]}"])
        self.assertIn(f"left out, stands in two statements: {second}, 2024-04-30, 1.00 EUR\n", told)
        # Two others, though the lines of the first three would be equal.
        different = f"and {FIRST} are different payments, and the bank gives both the reference R; ask the bank"
        for other in (payment("1.00", text[1:], reference="R"), payment("1.00", text, "", STRANGE, "R"),
                      payment("1.00", text, reference="R", booked="2024-05-01"),
                      payment("1.00", text, reference="R", value="<Dt>2024-04-29</Dt>")):
            self.refuses(both(other), f"{second} {different}")
        self.refuses(both(payment("2.00", text, reference="R"), "2.00"), f"{second} {different}")
        self.refuses(both(same, account=NORD), f"entry 1 of statement S2 of {NORD} {different}")

    def test_one_entry_with_and_without_its_transactions(self):
        parts = transaction("4.00", reference="T1"), transaction("5.00", reference="T2")
        whole = statement("0", "9.00", entry("9.00", reference="B"))
        parted = statement("0", "9.00", entry("9.00", *parts, reference="B"), identifier="S2")
        twice = "with other references of its transactions, so it would count twice; give one of the two statements"
        second = f"statement S2 of {ACCOUNT}"
        self.refuses(document(whole, parted), f"entry 1 of {second} stands in {S1} {twice}")
        self.refuses(document(parted, whole), f"{FIRST} stands in {second} {twice}")
        turned = statement("0", "9.00", entry("9.00", *parts[::-1], reference="B"))
        told = self.makes(document(parted, turned), ["T1,2024-04-30,,400,C,", "T2,2024-04-30,,500,C,"])
        self.assertIn("left out in all, stands in two statements: 2, 9.00 EUR\n", told)
        # Of another account, amount or day it is another entry.
        day = "Dt><Dt>2024-04-30"
        for old, new in ((ACCOUNT, NORD), ("9.00", "8.00"), (f"Bookg{day}", "BookgDt><Dt>2024-05-02"),
                         (f"Val{day}", "ValDt><Dt>2024-05-02")):
            self.assertIn(old, whole)
            both = document(whole.replace(old, new), parted)
            self.assertEqual(self.references(both), ["B", "T1", "T2"], new)
        self.write("made.csv", HEADER + "B,2024-04-30,,900,C,\n")
        words = "--firms", "firms.csv", "--earlier", "made.csv"
        self.refuses(document(parted), f"entry 1 of {second} stands in an earlier file as one line, B, and now comes "
                     "in its transactions, so it would count twice; give the statement that it was made of",
                     words=words)
        self.write("made.csv", HEADER + "B,2024-04-30,,800,C,\n")
        self.makes(document(parted), ["T1,2024-04-30,,400,C,", "T2,2024-04-30,,500,C,"], "--earlier", "made.csv")

    def test_one_entry_whose_transactions_have_no_reference_of_their_own(self):
        parted = entry("3.00", transaction("1.00"), transaction("2.00"), reference="B")
        words = "--firms", "firms.csv", "--earlier", "made.csv"
        self.write("made.csv", HEADER + "B,2024-04-30,,300,C,\n")
        self.refuses(one("0", "3.00", parted), f"{FIRST} stands in an earlier file as one line, B, and now comes in its "
                     "transactions, so it would count twice; give the statement that it was made of", words=words)
        # Beside one of the same amount; and what was made of them is known.
        content = one("0", "6.00", entry("3.00", reference="B"), parted)
        output, _ = self.made(content)
        self.write("made.csv", HEADER + output)
        self.assertEqual(self.made(content, "--earlier", "made.csv")[0], output)

    def test_one_entry_whose_transactions_make_it_no_more(self):
        """They stand in an earlier file; without it, or on another day, nothing tells that they are the same."""
        more = one("0", "9.00", entry("9.00", transaction("4.00", reference="T1"), transaction("6.00", reference="T2"),
                                      reference="B"))
        words = "--firms", "firms.csv", "--earlier", "made.csv"
        self.write("made.csv", HEADER + "T1,2024-04-30,,400,C,\nT2,2024-04-30,,500,C,\n")
        for content in (more, more.replace("6.00", "1.00")):
            self.refuses(content, f"{FIRST} stands in an earlier file in its transactions, as T1, and now comes as one "
                         "line, so it would count twice; give the statement that it was made of", words=words)
        self.write("made.csv", HEADER + "T1,2024-04-29,,400,C,\n")
        self.makes(more, ["B,2024-04-30,,900,C,"], "--earlier", "made.csv")
        self.write("made.csv", HEADER + "T1,2024-04-30,,400,C,\nB,2024-04-30,,900,C,\n")
        self.makes(more, ["B,2024-04-30,,900,C,"], "--earlier", "made.csv")

    def test_two_entries_of_one_reference_in_two_statements(self):
        both = [entry("3.00", transaction("3.00", reference=it), reference="E") for it in ("T1", "T2")]
        twice = [statement("0", "6.00", *both, identifier=it) for it in ("S1", "S2")]
        told = self.makes(document(*twice), ["T1,2024-04-30,,300,C,", "T2,2024-04-30,,300,C,"])
        self.assertIn("left out in all, stands in two statements: 2, 6.00 EUR\n", told)
        # One as a whole: the file that was made of them is known by the statement that it was made of.
        content = one("0", "6.00", entry("3.00", reference="E"), both[1])
        lines = ["E,2024-04-30,,300,C,", "T2,2024-04-30,,300,C,"]
        self.makes(content, lines)
        self.write("made.csv", HEADER + "\n".join(lines) + "\n")
        self.makes(content, lines, "--earlier", "made.csv")

    def test_an_entry_whose_reference_had_come_before_in_an_earlier_file(self):
        first, whole = entry("9.00", reference="E"), entry("5.00", reference="E")
        self.write("statement", one("0", "14.00", first, whole))
        self.assertEqual(self.tool("statement", "--firms", "firms.csv", "--out", "made.csv")[0], 0)
        parts = transaction("2.00", reference="T1"), transaction("3.00", reference="T2")
        self.refuses(one("0", "14.00", first, entry("5.00", *parts, reference="E")),
                     f"entry 2 of {S1} stands in an earlier file as one line, E, and now comes in its transactions, so "
                     "it would count twice; give the statement that it was made of",
                     words=("--firms", "firms.csv", "--earlier", "made.csv"))

    def test_entries_of_other_references(self):
        part = transaction("3.00", reference="1")
        both = document(statement("0", "3.00", entry("3.00", part, reference="E-1")),
                        statement("3.00", "6.00", entry("3.00", part, reference="E-2"), identifier="S2"))
        self.refuses(both, f"entry 1 of statement S2 of {ACCOUNT} and {FIRST} are different payments, and the bank "
                     "gives both the reference 1; ask the bank")

    def test_places_are_those_of_a_statement(self):
        here, = self.references(one("0", "1", payment("1.00")))
        others = [one("0", "1", payment("1.00"), identifier="S2"), one("0", "1", payment("1.00"), account=NORD),
                  one("0", "1", payment("1.00", booked="2024-04-29")),
                  one("0", "1", payment("1.00", end_to_end="E"))]
        parts = transaction("0.50"), transaction("0.50")
        third = self.references(one("0", "2", entry("1"), entry("1", *parts)))
        self.assertEqual(third[0], here)
        self.assertEqual(len({*third, *sum(map(self.references, others), [])}), 7)
        # What may change of an entry is no part of it.
        same = payment("1.00", "x", "y", NORD, value="<Dt>2024-04-29</Dt>")
        self.assertEqual(self.references(one("0", "1", same)), [here])
        # Nor is what stands for no reference of the payer.
        for none in ("NONE", "000", "NON-REF"):
            self.assertEqual(self.references(one("0", "1", payment("1.00", end_to_end=none))), [here], none)


class Document(BankFiles):
    def test_the_example(self):
        shutil.copytree(ROOT / "examples", self.folder / "examples")
        (self.folder / "tools").symlink_to(ROOT / "tools")
        text = (ROOT / "docs/tools.md").read_text()
        examples = commands(text.partition("\n## bank-file\n")[2].partition("\n## ")[0])
        self.assertEqual(len(examples), 7)
        for command, printed in examples:
            ran = subprocess.run(["bash", "-c", command], cwd=self.folder, stdout=subprocess.PIPE,
                                 stderr=subprocess.STDOUT, check=False)
            self.assertEqual((ran.returncode, ran.stdout.decode()), (0, printed), command)


if __name__ == "__main__":
    run_tests()
