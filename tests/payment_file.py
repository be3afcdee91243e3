"""Runs tools/payment-file as a clerk does, and holds its files against the rules of pain.001.001.09.

    python3 tests/payment_file.py

What is expected is worked out by hand. The published schema is asked too, where Debian's libhbci4j-core-java
and libxml2-utils are installed.
"""

import datetime
import os
import re
import resource
import shlex
import shutil
import signal
import subprocess
import sys
import tempfile
import unittest
import xml.etree.ElementTree as ElementTree
import zipfile
from pathlib import Path

# No __pycache__ is left beside the sources.
sys.dont_write_bytecode = True
from payment_rules import broken_rules, leaves  # noqa: E402
from program_under_test import ROOT, run_tests  # noqa: E402

TOOL = ROOT / "tools/payment-file"
# The schema as it was published, in Debian's package libhbci4j-core-java.
SCHEMAS = Path("/usr/share/java/hbci4j-core.jar")

LIST = """\
payout 7 2024-05-02
claim 12 employer 1001 worker 7         259.90
claim 15 employer 1004 worker 999999999           0.05
claim 17 employer 1001 worker 8     1234567.00
items 3
total     1234826.95
"""
HEADER = "employer,iban,name\n"
NORD = "1001,DE89 3704 0044 0532 0130 00,Bau Nord GmbH\n"
OST = "1004,AT611904300234573201,Bau Ost\n"
DEBTOR = ("--debtor-name", "Ferienkasse Süd", "--debtor-iban", "DE02120300000000202051")
MADE = ("--made", "2024-05-02T09:00:00+02:00")
# The tool gets this signal while it writes a file.
STOPPED = """
import os, runpy, sys
number = int(sys.argv.pop(1))
os.fsync = lambda handle: os.kill(os.getpid(), number)
del sys.argv[0]
runpy.run_path(sys.argv[0], run_name="__main__")
"""
# It gets the signal once the file has its name, while the folder is synced.
STOPPED_BEHIND = STOPPED.replace("os.kill", "os.path.isdir(handle) and os.kill")
# The tool takes 2024-05-02 for today.
TODAY = """
import datetime
class Day(datetime.date):
    today = classmethod(lambda its: its(2024, 5, 2))
datetime.date = Day
"""
OVER = "{} is over, and some banks refuse such a day: see --execution-date\n"
SUMMARY = ("payments 3, total 1234826.95 euros, on 2024-05-02, message PAYOUT-7-2024-05-02\n"
           + OVER.format("2024-05-02"))


class Runs:
    """What a test does with the tool in its folder."""

    maxDiff = None

    def run_tool(self, *words, **options):
        return subprocess.run([TOOL, *map(str, words)], cwd=self.folder, capture_output=True, timeout=60,
                              **options)

    def make(self, *words, told=SUMMARY):
        """What the tool writes to standard output; it keeps the rules, and the tool tells this."""
        ran = self.run_tool(*words)
        self.assertEqual((ran.returncode, ran.stderr.decode()), (0, told))
        self.assertEqual(broken_rules(ran.stdout), [])
        return ran.stdout

    def refuse(self, status, told, *words, **options):
        """The tool writes nothing and ends with the status; the last of what it tells is this."""
        before = sorted(os.listdir(self.folder))
        ran = self.run_tool(*words, "--out", "refused.xml", **options)
        said = ran.stderr.decode()
        # `argparse` tells the usage first.
        said = re.sub(r"^usage: .*?^payment-file: error: ", "", said, flags=re.S | re.M)
        self.assertEqual((ran.returncode, ran.stdout, said), (status, b"", told))
        self.assertEqual(sorted(os.listdir(self.folder)), before)


class Tool(Runs, unittest.TestCase):
    def setUp(self):
        self.folder = Path(tempfile.mkdtemp(prefix="payment-file-"))
        self.addCleanup(shutil.rmtree, self.folder)
        self.write("list.txt", LIST)
        self.write("accounts.csv", HEADER + NORD + OST)
        self.words = ("--list", "list.txt", "--table", "accounts.csv", *DEBTOR)

    def write(self, name, content):
        path = self.folder / name
        path.write_bytes(content if isinstance(content, bytes) else content.encode())
        return path

    def write_list(self, *claims, count=None, total=None):
        """A list of claims from 1 on, each an employer and cents."""
        lines = [f"claim {at} employer {employer} worker 7 {in_euros(cents):>14}\n"
                 for at, (employer, cents) in enumerate(claims, 1)]
        total = sum(cents for _, cents in claims) if total is None else total
        ends = f"items {len(claims) if count is None else count}\ntotal {in_euros(total):>14}\n"
        self.write("list.txt", f"payout 7 2024-05-02\n{''.join(lines)}{ends}")


def in_euros(cents):
    return f"{cents // 100}.{cents % 100:02}"


def summary(count, total, day="2024-05-02"):
    return f"payments {count}, total {total} euros, on {day}, message PAYOUT-7-2024-05-02\n{OVER.format(day)}"


class Files(Tool):
    def test_each_text_of_a_file(self):
        document = ElementTree.fromstring(self.make(*self.words, *MADE))
        header, group = "/Document/CstmrCdtTrfInitn/GrpHdr", "/Document/CstmrCdtTrfInitn/PmtInf"
        message, name = "PAYOUT-7-2024-05-02", "Ferienkasse Sued"
        wanted = [
            (f"{header}/MsgId", message), (f"{header}/CreDtTm", "2024-05-02T09:00:00+02:00"),
            (f"{header}/NbOfTxs", "3"), (f"{header}/CtrlSum", "1234826.95"),
            (f"{header}/InitgPty/Nm", name),
            (f"{group}/PmtInfId", message), (f"{group}/PmtMtd", "TRF"), (f"{group}/NbOfTxs", "3"),
            (f"{group}/CtrlSum", "1234826.95"), (f"{group}/PmtTpInf/SvcLvl/Cd", "SEPA"),
            (f"{group}/ReqdExctnDt/Dt", "2024-05-02"), (f"{group}/Dbtr/Nm", name),
            (f"{group}/DbtrAcct/Id/IBAN", "DE02120300000000202051"),
            (f"{group}/DbtrAgt/FinInstnId/Othr/Id", "NOTPROVIDED"), (f"{group}/ChrgBr", "SLEV"),
        ]
        nord, ost = ("Bau Nord GmbH", "DE89370400440532013000"), ("Bau Ost", "AT611904300234573201")
        for end, amount, (firm, iban), text in (
                ("L7-C12", "259.90", nord, "claim 12, employer 1001, worker 7"),
                ("L7-C15", "0.05", ost, "claim 15, employer 1004, worker 999999999"),
                ("L7-C17", "1234567.00", nord, "claim 17, employer 1001, worker 8")):
            at = f"{group}/CdtTrfTxInf"
            wanted += [(f"{at}/PmtId/EndToEndId", end), (f"{at}/Amt/InstdAmt", amount),
                       (f"{at}/Cdtr/Nm", firm), (f"{at}/CdtrAcct/Id/IBAN", iban),
                       (f"{at}/RmtInf/Ustrd", f"Payout list 7 of 2024-05-02, {text}")]
        self.assertEqual(leaves(document), wanted)

    def test_the_published_schema(self):
        if not SCHEMAS.is_file() or not shutil.which("xmllint"):
            self.skipTest("the published schema wasn't asked: libhbci4j-core-java or xmllint isn't here")
        with zipfile.ZipFile(SCHEMAS) as schemas:
            schema = self.write("pain.xsd", schemas.read("pain.001.001.09.xsd"))
        self.write("made.xml", self.make(*self.words))
        check = ["xmllint", "--nonet", "--noout", "--schema", schema, "made.xml"]
        ran = subprocess.run(check, cwd=self.folder, capture_output=True, timeout=60)
        self.assertEqual((ran.returncode, ran.stderr), (0, b"made.xml validates\n"))

    def test_what_breaks_the_rules(self):
        """The rules of this script refuse what isn't as they say."""
        made = self.make(*self.words).decode()
        payment = re.search("<CdtTrfTxInf>.*?</CdtTrfTxInf>", made, re.S)[0]
        for old, new in (
                ("<NbOfTxs>3</NbOfTxs>", ""), ("<NbOfTxs>3<", "<NbOfTxs>4<"), ("1234826.95", "1234826.96"),
                ("<PmtMtd>TRF</PmtMtd>", "<PmtMtd>TRA</PmtMtd>"), ("pain.001.001.09", "pain.001.001.03"),
                ("<MsgId>", "<MsgId>//"), ("PAYOUT-7-2024-05-02</PmtInfId>", f"{36 * 'P'}</PmtInfId>"),
                ("<EndToEndId>L7-C12</EndToEndId>", ""), ("L7-C15", "L7-C12"), ("Bau Ost", "Bau Öst"),
                ("Bau Ost", 71 * "B"), ("Bau Ost", ""), ('Ccy="EUR"', 'Ccy="USD"'), (' Ccy="EUR"', ""),
                (">0.05<", ">0.5<"), (">0.05<", ">00.05<"), ("AT611904300234573201", "AT611904300234573202"),
                ("<Ustrd>", f"<Ustrd>{140 * 'B'}"), ("<Dt>", '<Dt a="b">'), ("<ChrgBr>", "x<ChrgBr>"),
                ("<Cdtr>", "<Cdtr><Id/>"), (payment, ""), (payment, payment + payment)):
            self.assertIn(old, made)
            self.assertNotEqual(broken_rules(made.replace(old, new)), [], new)

    def test_the_same_list_twice(self):
        self.assertEqual(self.make(*self.words, *MADE), self.make(*self.words, *MADE))
        first, second = self.make(*self.words, *MADE), self.make(*self.words)
        self.assertNotEqual(first, second)
        time = b"<CreDtTm>([^<]*)</CreDtTm>"
        self.assertEqual(re.sub(time, b"", first), re.sub(time, b"", second))
        made = datetime.datetime.fromisoformat(re.search(time, second)[1].decode())
        age = datetime.datetime.now(datetime.timezone.utc) - made
        self.assertLess(abs(age.total_seconds()), 60)

    def test_times(self):
        for time in ("2024-05-02T09:00:00", "2024-05-02T23:59:59Z", "2024-12-31T00:00:00-11:30",
                     "2024-05-02T09:00:00+14:00"):
            self.assertIn(f"<CreDtTm>{time}</CreDtTm>".encode(), self.make(*self.words, "--made", time))
        told = "argument --made: '{}' is no time, as 2024-05-02T09:00:00+02:00\n"
        for time in ("2024-05-02", "2024-05-02 09:00:00", "2024-05-02T09:00", "2024-05-02T09:00:00+02",
                     "2024-05-02T09:00:00+15:00", "2024-05-02T09:00:00+14:01",
                     "٢٠٢٤-05-02T09:00:00", "2024-05-02T09:00:00</CreDtTm>"):
            self.refuse(2, told.format(time), *self.words, "--made", time)
        told = "argument --made: hour must be in 0..23\n"
        self.refuse(2, told, *self.words, "--made", "2024-05-02T24:00:00")

    def test_the_day_of_the_payments(self):
        told = summary(3, "1234826.95", "2024-05-03")
        made = self.make(*self.words, "--execution-date", "2024-05-03", told=told)
        self.assertIn(b"<Dt>2024-05-03</Dt>", made)
        # The bank is to know the list again, also with another day.
        self.assertEqual(made.count(b"Id>PAYOUT-7-2024-05-02<"), 2)
        self.refuse(2, "--execution-date lies before the list's, 2024-05-02\n",
                    *self.words, "--execution-date", "2024-05-01")
        # 366 days behind it, and one more.
        self.make(*self.words, "--execution-date", "2025-05-03", told=summary(3, "1234826.95", "2025-05-03"))
        for day in ("2025-05-04", "9999-12-31"):
            self.refuse(2, "--execution-date lies more than a year behind the list's, 2024-05-02\n",
                        *self.words, "--execution-date", day)
        for day in ("20240503", "3.5.2024", "2024-W18-5"):
            self.refuse(2, f"argument --execution-date: '{day}' is no day YYYY-MM-DD\n",
                        *self.words, "--execution-date", day)
        self.refuse(2, "argument --execution-date: '2024-02-30' is no day of the calendar\n",
                    *self.words, "--execution-date", "2024-02-30")

    def test_a_day_that_is_over(self):
        """A bank that refuses it may know the list again: it is told of each day before today, and of no other."""
        self.write("sitecustomize.py", TODAY)
        environment = {**os.environ, "PYTHONPATH": str(self.folder)}
        for day, over in (("2024-05-01", OVER.format("2024-05-01")), ("2024-05-02", ""), ("2024-05-03", "")):
            self.write("list.txt", LIST.replace("2024-05-02", day))
            ran = self.run_tool(*self.words, env=environment)
            told = f"payments 3, total 1234826.95 euros, on {day}, message PAYOUT-7-{day}\n{over}"
            self.assertEqual((ran.returncode, ran.stderr.decode()), (0, told))
        self.write("list.txt", LIST.replace("2024-05-02", "2024-04-23"))
        ran = self.run_tool(*self.words, "--execution-date", "2024-05-02", env=environment)
        self.assertEqual((ran.returncode, ran.stderr.count(b"\n")), (0, 1))

    def test_many_payments(self):
        """Four thousand, of 1 to 4,000 cents: 80,020.00 euros."""
        self.write_list(*((1004, cents) for cents in range(1, 4_001)))
        made = self.make(*self.words, told=summary(4_000, "80020.00"))
        self.assertIn(b"<EndToEndId>L7-C4000</EndToEndId>", made)


class Lists(Tool):
    def test_lists_that_do_not_agree_with_themselves(self):
        said = "list.txt: the list says "
        self.write_list((1001, 100), (1004, 200), total=301)
        self.refuse(1, said + "3.01 in total, and its claims come to 3.00\n", *self.words)
        self.write_list((1001, 100), (1004, 200), count=3)
        self.refuse(1, said + "3 items, and has 2 claims\n", *self.words)
        # A line was taken out, and one was put in.
        self.write("list.txt", LIST.replace("claim 15 employer 1004 worker 999999999           0.05\n", ""))
        both = "{} items, and has {} claims\n" + said + "1234826.95 in total, and its claims come to {}\n"
        self.refuse(1, said + both.format(3, 2, "1234826.90"), *self.words)
        self.write("list.txt", LIST.replace("items", "claim 18 employer 1004 worker 9           1.00\nitems"))
        self.refuse(1, said + both.format(3, 4, "1234827.95"), *self.words)

    def test_another_firm(self):
        """Nothing that is told of it shows that a firm was changed."""
        self.write("list.txt", LIST.replace("claim 12 employer 1001", "claim 12 employer 1004"))
        self.assertEqual(self.make(*self.words).count(b"<IBAN>AT611904300234573201</IBAN>"), 2)

    def test_claims_that_stand_twice(self):
        for number in (12, 11):
            self.write("list.txt", LIST.replace("claim 15", f"claim {number}"))
            self.refuse(1, f"list.txt: claim {number} stands twice, or not in its place\n", *self.words)

    def test_an_empty_list(self):
        self.write_list()
        self.refuse(1, "list.txt: nothing is to be transferred: the list has no claim\n", *self.words)

    def test_amounts(self):
        """One payment is of 0.01 to 999,999,999.99 euros."""
        self.write_list((1001, 99_999_999_999), (1004, 1))
        self.make(*self.words, told=summary(2, "1000000000.00"))
        told = "list.txt: claim {}: {} euros are no SEPA payment, which is of 0.01 to 999999999.99\n"
        self.write_list((1001, 100_000_000_000), (1004, 0))
        self.refuse(1, told.format(1, "1000000000.00") + told.format(2, "0.00"), *self.words)

    def test_what_is_no_list(self):
        no_list = "no payout list, or not a whole one"
        wrong_amount = "isn't written as an amount of the office"
        lines = LIST.splitlines(keepends=True)
        line = "line {} isn't one of a payout list: {!r}"
        for text, fault in (
                ("", no_list), (LIST[:-1], no_list), ("\n", no_list), (LIST + "$ ", no_list),
                ("".join(lines[:-1]), line.format(4, lines[3][:-1])),
                ("".join(lines[1:]), line.format(1, lines[1][:-1])),
                (LIST + "\n", line.format(5, "items 3")),
                (LIST.replace("\n", "\r\n"), line.format(1, "payout 7 2024-05-02\r")),
                (LIST.replace("payout 7", "payout 07"), line.format(1, "payout 07 2024-05-02")),
                (LIST.replace("payout 7", "reminders 7"), line.format(1, "reminders 7 2024-05-02")),
                (LIST.replace("worker 8", "worker -8"), line.format(4, lines[3].replace("8", "-8")[:-1])),
                (LIST.replace("claim 12", "claim  12"), line.format(2, lines[1].replace("12", " 12")[:-1])),
                (LIST.replace("   259.90", "259.90"), f"'     259.90' {wrong_amount}"),
                (LIST.replace("         0.05", "        00.05"), f"'         00.05' {wrong_amount}"),
                (LIST.replace("0.05", "0,05"), line.format(3, lines[2].replace(".", ",")[:-1])),
                (LIST.replace("05-02", "02-30"), "'2024-02-30' is no day of the calendar"),
                ("\x1b[2J" + LIST, line.format(1, "\x1b[2Jpayout 7 2024-05-02"))):
            self.write("list.txt", text)
            self.refuse(2, f"list.txt: {fault}\n", *self.words)
        self.write("list.txt", LIST.encode("utf-16"))
        self.refuse(2, "list.txt: no text in UTF-8\n", *self.words)
        self.write("list.txt", "1" * 4_194_305)
        self.refuse(2, "list.txt: more than 4194304 bytes\n", *self.words)


class Outputs(Tool):
    def test_a_new_file(self):
        wanted = self.make(*self.words, *MADE)
        before = sorted(os.listdir(self.folder))
        ran = self.run_tool(*self.words, *MADE, "--out", "made.xml")
        self.assertEqual((ran.returncode, ran.stdout, ran.stderr.decode()), (0, b"", SUMMARY))
        made = self.folder / "made.xml"
        self.assertEqual(made.read_bytes(), wanted)
        self.assertEqual(sorted(os.listdir(self.folder)), sorted([*before, "made.xml"]))
        # Nobody else may read it.
        self.assertEqual(made.stat().st_mode & 0o777, 0o600)

    def test_a_file_that_stands_there(self):
        self.write("refused.xml", "of yesterday")
        self.refuse(2, "refused.xml: stands there already\n", *self.words)
        self.assertEqual((self.folder / "refused.xml").read_text(), "of yesterday")
        (self.folder / "refused.xml").unlink()
        (self.folder / "refused.xml").symlink_to("elsewhere.xml")
        self.refuse(2, "refused.xml: stands there already\n", *self.words)

    def test_a_disk_without_second_names(self):
        """As a USB stick, which has no hard links."""
        self.write("sitecustomize.py", "import os\ndef link(*names):\n    raise PermissionError\nos.link = link\n")
        environment = {**os.environ, "PYTHONPATH": str(self.folder)}
        refused = self.write("refused.xml", "of yesterday")
        self.refuse(2, "refused.xml: stands there already\n", *self.words, env=environment)
        refused.unlink()
        refused.symlink_to("elsewhere.xml")
        self.refuse(2, "refused.xml: stands there already\n", *self.words, env=environment)
        before = sorted(os.listdir(self.folder))
        self.assertEqual(self.run_tool(*self.words, "--out", "made.xml", env=environment).returncode, 0)
        self.assertEqual(broken_rules((self.folder / "made.xml").read_bytes()), [])
        self.assertEqual(sorted(os.listdir(self.folder)), sorted([*before, "made.xml"]))

    def test_a_disk_that_is_full(self):
        def limit():
            resource.setrlimit(resource.RLIMIT_FSIZE, (1_000, 1_000))
        self.refuse(2, "[Errno 27] File too large: 'refused.xml'\n", *self.words, preexec_fn=limit)
        with open("/dev/full", "wb") as full:
            ran = subprocess.run([TOOL, *self.words], cwd=self.folder, stdout=full, stderr=subprocess.PIPE,
                                 timeout=60)
        self.assertEqual((ran.returncode, ran.stderr), (2, b"[Errno 28] No space left on device\n"))

    def test_where_nothing_can_be_told(self):
        for streams in ("2>/dev/full", "2>&-"):
            line = " ".join(map(shlex.quote, map(str, [TOOL, *self.words, "--out", "made.xml"])))
            ran = subprocess.run(["sh", "-c", f"exec {line} {streams}"], cwd=self.folder, timeout=60)
            made = self.folder / "made.xml"
            self.assertEqual((ran.returncode, broken_rules(made.read_bytes())), (0, []))
            made.unlink()

    def test_a_folder_that_is_not_there(self):
        ran = self.run_tool(*self.words, "--out", "none/made.xml")
        told = b"[Errno 2] No such file or directory: 'none/made.xml'\n"
        self.assertEqual((ran.returncode, ran.stdout, ran.stderr), (2, b"", told))

    def stopped(self, number, stopped=STOPPED, **options):
        """Status and standard error of the tool that gets a signal while it writes made.xml."""
        command = ["/usr/bin/python3", "-c", stopped, number, TOOL, *self.words, "--out", "made.xml"]
        ran = subprocess.run([*map(str, command)], cwd=self.folder, env={"PYTHONPATH": str(TOOL.parent)},
                             capture_output=True, timeout=60, **options)
        return ran.returncode, ran.stderr.decode()

    def test_a_stop_while_a_file_is_written(self):
        """Nothing of it is left, be it hidden."""
        before = sorted(os.listdir(self.folder))
        for number in (signal.SIGINT, signal.SIGTERM, signal.SIGHUP):
            # Where this is run in the background, SIGINT is ignored, which the tool would inherit.
            ended = self.stopped(int(number), preexec_fn=lambda: signal.signal(signal.SIGINT, signal.SIG_DFL))
            self.assertEqual(ended, (130, "broken off\n"))
            self.assertEqual(sorted(os.listdir(self.folder)), before)
        self.assertEqual(self.stopped(int(signal.SIGTERM), STOPPED_BEHIND), (130, "broken off\n"))
        self.assertEqual(sorted(os.listdir(self.folder)), before)
        # As `nohup` starts it.
        ended = self.stopped(int(signal.SIGHUP), preexec_fn=lambda: signal.signal(signal.SIGHUP, signal.SIG_IGN))
        self.assertEqual(ended, (0, SUMMARY))
        self.assertEqual(sorted(os.listdir(self.folder)), sorted([*before, "made.xml"]))


class Words(Tool):
    def test_help(self):
        ran = self.run_tool("--help")
        self.assertEqual((ran.returncode, ran.stderr), (0, b""))
        for word in re.findall("--[a-z-]+", " ".join(self.words)):
            self.assertIn(word.encode(), ran.stdout)

    def test_words_in_a_file(self):
        wanted = self.make(*self.words, *MADE)
        self.write("fund.words", "\n".join(self.words[2:]) + "\n")
        self.assertEqual(self.make("@fund.words", *self.words[:2], *MADE), wanted)
        # Quotation marks are part of a word.
        self.write("fund.words", '--debtor-name\n"Ferienkasse Süd"\n')
        self.assertIn(b"<Nm>'Ferienkasse Sued'</Nm>", self.make("@fund.words", *self.words[:4], *self.words[6:]))
        # As editors write them: with a byte order mark, an empty line and other ends of lines.
        self.write("fund.words", "\ufeff\n" + "\r\n".join(self.words[2:]) + "\r\n\r\n")
        self.assertEqual(self.make("@fund.words", *self.words[:2], *MADE), wanted)
        self.write("fund.words", "@more.words\n")
        self.write("more.words", "@./fund.words\n")
        self.refuse(2, "fund.words: a file of words that names itself\n", "@fund.words", *self.words)
        self.write("fund.words", b"--debtor-name\nS\xfcd\n")
        self.refuse(2, "fund.words: no text in UTF-8\n", "@fund.words", *self.words)
        self.refuse(2, "/dev/zero: more than 4194304 bytes\n", "@/dev/zero", *self.words)
        self.refuse(2, "[Errno 2] No such file or directory: 'none'\n", "@none", *self.words)

    def test_words_that_stand_twice(self):
        self.refuse(2, "argument --list: is given twice\n", *self.words, "--list", "list.txt")
        self.write("fund.words", "--debtor-name\nFerienkasse Süd\n")
        self.refuse(2, "argument --debtor-name: is given twice\n", "@fund.words", *self.words)

    def test_words_that_do_not_go_together(self):
        self.write("desk.key", "desk\n")
        office = ("--office", "127.0.0.1:8080", "--key-file", "desk.key", "--number", "7")
        rest, together = self.words[2:], "--office needs --key-file and --number, and --list has neither\n"
        self.refuse(2, "one of the arguments --list --office is required\n", *rest)
        self.refuse(2, "--list has no --office-user\n", *self.words, "--office-user", "root")
        self.refuse(2, "argument --office-user: 'no user' is no user of this machine\n", *office, *rest,
                    "--office-user", "no user")
        self.refuse(2, "argument --office: not allowed with argument --list\n", *self.words, *office)
        for words in (office[:4], office[:2] + office[4:], ("--list", "list.txt", *office[2:4]),
                      ("--list", "list.txt", *office[4:])):
            self.refuse(2, together, *rest, *words)
        self.refuse(2, "the following arguments are required: --table, --debtor-name, --debtor-iban\n",
                    *self.words[:2])
        self.refuse(2, "unrecognized arguments: --key desk\n", *rest, *office, "--key", "desk")
        for address in ("127.0.0.1", "127.0.0.1:0", "127.0.0.1:65536", "10.0.0.1:8080", "localhost:8080",
                        "127.0.0.1:8080/x"):
            self.refuse(2, f"argument --office: '{address}' isn't 127.0.0.1:PORT\n",
                        *rest, "--office", address, *office[2:])
        for number in ("0", "07", "-7", "100000000", "7/../8"):
            self.refuse(2, f"argument --number: '{number}' is no list's number\n",
                        *rest, *office[:4], f"--number={number}")

    def test_files_that_are_not_there(self):
        self.refuse(2, "[Errno 2] No such file or directory: 'none'\n", *self.words[:3], "none", *DEBTOR)
        self.refuse(2, "[Errno 2] No such file or directory: 'none'\n", "--list", "none", *self.words[2:])
        self.refuse(2, "[Errno 21] Is a directory: '/'\n", "--list", "/", *self.words[2:])

    def test_a_files_name_that_is_no_text(self):
        """Its bytes that are none of UTF-8 are told by their numbers."""
        name = os.fsdecode(b"list-\xff.txt")
        self.write(name, "")
        self.refuse(2, "list-\\udcff.txt: no payout list, or not a whole one\n", "--list", name, *self.words[2:])


if __name__ == "__main__":
    run_tests()
