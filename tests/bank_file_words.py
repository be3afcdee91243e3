"""What tools/bank-file doesn't read, its limits, and its command line, its files and what it tells.

    python3 tests/bank_file_words.py [PROGRAM]

PROGRAM is crates/clear_app/out/clear_app where it isn't given, as `rt ci` leaves it. It needs what tests/bank_file.py
needs.
"""

import contextlib
import os
import resource
import signal
import stat
import subprocess
import sys
import time
from functools import partial

# No __pycache__ is left beside the sources.
sys.dont_write_bytecode = True
import bank_file  # noqa: E402
from bank_file import AT_FIRST, HEADER, TOOL, BankFiles  # noqa: E402
from bank_statements import (  # noqa: E402
    ACCOUNT, DECLARED, LATIN, LATIN_LINES, NAMESPACE, entry, one, packed, payment)
from payment_file import STOPPED, STOPPED_BEHIND  # noqa: E402
from program_under_test import run_tests  # noqa: E402

setUpModule = bank_file.setUpModule


class NotRead(BankFiles):
    def test_other_messages(self):
        wanted = "the statement of the day, camt.053, is wanted"
        ours = "only camt.053.001.02 and camt.053.001.08 are read"
        for message, said in (("camt.052.001.08", f"a report within the day, which isn't final; {wanted}"),
                              ("camt.054.001.02", f"a notification of single payments; {wanted}"),
                              ("camt.053.001.04", ours), ("pain.001.001.09", ours)):
            self.misread(LATIN.replace("camt.053.001.08", message), f": {message}: {said}")
        root = ": the XML is no camt.053 statement; its root is"
        self.misread("<html><p/></html>", f"{root} html")
        self.misread(LATIN.replace(f' xmlns="{NAMESPACE}08"', ""), f"{root} Document")
        self.misread(LATIN.replace("BkToCstmrStmt", "BkToCstmrAcctRpt"),
                     ": no statement (BkToCstmrStmt/Stmt) in it")

    def test_no_xml(self):
        for content in ("", " \n"):
            self.misread(content, ": the file is empty")
        self.misread("%PDF-1.7\n", ": a PDF; the statement is wanted as camt.053, in XML")
        for content in (HEADER, ":20:STARTUMS\n", b"\x00\x01"):
            self.misread(content, ": no XML; the statement is wanted as camt.053, not as CSV or MT940")
        self.misread("<a></b>", ": no XML: line 1, column 6: mismatched tag")

    def test_a_file_that_is_cut_off(self):
        for size in (50, len(LATIN) // 2, len(LATIN) - 5):
            line = LATIN[:size].count("\n") + 1
            self.misread(LATIN[:size], f": the XML stops in line {line}, before its end: the file isn't whole")

    def test_bytes_that_are_not_what_is_declared(self):
        told = ("has bytes that aren't UTF-8, and the file doesn't declare another encoding: it is Latin-1 or the "
                "like, or damaged")
        self.misread(LATIN.encode("latin-1"), f": line 6 {told}")
        self.misread(LATIN.replace(DECLARED, "").encode("latin-1"), f": line 5 {told}")
        told = "which it declares; it is UTF-8 or windows-1252, or damaged"
        self.misread(LATIN.replace("UTF-8", "latin-1"), f": its bytes aren't latin-1, {told}")
        for text in ("€", "„", "…"):
            strange = LATIN.replace("UTF-8", "ISO-8859-1").replace("März", text).replace("Größe", "").encode("cp1252")
            self.misread(strange, f": its bytes aren't ISO-8859-1, {told}")
        self.misread(LATIN.replace("UTF-8", "latin-9000"),
                     ": its encoding isn't read: unknown encoding: latin-9000")

    def test_document_types_and_entities(self):
        levels = "".join(f'<!ENTITY l{at} "{f"&l{at - 1};" * 10}">' for at in range(1, 10))
        for declared in (f'<!DOCTYPE d [<!ENTITY l0 "lol">{levels}]>', "<!DOCTYPE d>",
                         '<!DOCTYPE d [<!ENTITY l9 SYSTEM "file:///etc/hostname">]>',
                         '<!DOCTYPE d SYSTEM "http://127.0.0.1:1/d.dtd">'):
            content = LATIN.replace(DECLARED, DECLARED + declared).replace("März", "&l9;")
            self.misread(content, ": it declares a document type or entities, as no bank does; it isn't read")
        before, _, behind = LATIN.partition("März")
        place = f"line {before.count(chr(10)) + 1}, column {len(before) - before.rindex(chr(10))}"
        self.misread(f"{before}&l9;{behind}", f": no XML: {place}: undefined entity")

    def test_names_in_a_zip(self):
        for name in ("a.pdf", "a/b.xml", "../a.xml", "/a.xml", "..\\a.xml", ".xml", ".a.xml"):
            self.misread(packed((name, LATIN)),
                         f": the zip has {name}, which is no plain name that ends in .xml")
        self.misread(packed(("a\x1b[2J.xml", LATIN)),
                     ": the zip has a [2J.xml, which is no plain name that ends in .xml")
        self.misread(packed(("a.xml", LATIN), ("a.xml", LATIN)), ": the zip has 2 files of the name a.xml")

    def test_zips_that_are_not_read(self):
        self.misread(packed(), ": the zip has no file")
        self.misread(packed(("a.xml", LATIN))[:-30], ": a zip that can't be unpacked: File is not a zip file")
        broken = bytearray(packed(("a.xml", LATIN)))
        broken[60] ^= 255
        self.write("statement", bytes(broken))
        status, output, told = self.tool("statement", "--firms", "firms.csv")
        self.assertEqual((status, output), (2, ""))
        self.assertRegex(told, "^statement: a zip that can't be unpacked: ")
        self.misread(packed(("a.xml", packed(("b.xml", LATIN)))),
                     ", a.xml: no XML; the statement is wanted as camt.053, not as CSV or MT940")
        closed = bytearray(packed(("a.xml", LATIN)))
        closed[closed.index(b"PK\x01\x02") + 8] |= 1
        self.misread(bytes(closed), ": a.xml is encrypted; unpack the zip with its password first")

    def test_what_an_entry_lacks(self):
        amount = '<Amt Ccy="EUR">1.00</Amt>'
        direction = "<CdtDbtInd>CRDT</CdtDbtInd><Sts>"
        for old, new, said in (
                ("<Sts><Cd>BOOK</Cd></Sts>", "", f"{AT_FIRST}: Sts/Cd or Sts/Prtry or Sts is missing"),
                (direction, "<Sts>", f"{AT_FIRST}: CdtDbtInd is missing"),
                (direction, direction.replace("CRDT", "X\x85"),
                 f"{AT_FIRST}: CdtDbtInd is X, neither CRDT nor DBIT"),
                (amount + direction, direction, f"{AT_FIRST}: Amt is missing"),
                (amount + direction, "<Amt>1.00</Amt>" + direction,
                 f"{AT_FIRST}: 1.00 is no amount with a currency"),
                ("<Id>S1</Id>", "", "statement: Id is missing"),
                (f"<IBAN>{ACCOUNT}</IBAN>", "", "statement: Acct/Id/IBAN or Acct/Id/Othr/Id is missing")):
            self.assertIn(old, LATIN)
            self.refuses(LATIN.replace(old, new), said, status=2)


def entries(count, name=""):
    """So many entries, of a payer or without a transaction. With a text they would take twice the time."""
    made = partial(payment, name=name) if name else entry
    return one("0", f"{count}", *(made("1", reference=f"N{at:04}") for at in range(count)))


class Limits(BankFiles):
    def test_the_lines_of_a_file(self):
        """What is more than the office takes in one file comes in several, of which each is as it takes it."""
        self.makes(entries(10_000), [f"N{at:04},2024-04-30,,100,C," for at in range(10_000)])
        # 49 bytes of a header, and 165 of each line with a name.
        for count, name, parts in ((10_001, "", (10_000, 1)), (6_355, "x" * 140, (6_354, 1))):
            self.write("statement", entries(count, name))
            status, output, told = self.tool("statement", "--firms", "firms.csv")
            self.assertEqual((status, output), (1, ""))
            self.assertIn("are more than the office takes in a file (10000 lines, 1048576 bytes); give fewer", told)
            names = f"{count}.csv", f"{count}-2.csv"
            status, output, told = self.tool("statement", "--firms", "firms.csv", "--out", names[0])
            self.assertEqual((status, output), (0, ""))
            self.assertIn(f"  in 2 files, each of which is to be imported: {', '.join(names)}\n", told)
            found = []
            for path, part in zip(map(self.folder.joinpath, names), parts):
                header, *lines = path.read_text().splitlines()
                self.assertEqual((f"{header}\n", len(lines)), (HEADER, part))
                self.write("bank.csv", path.read_text())
                self.assertEqual(self.run_program("check", "bank", "bank.csv")[0], 0)
                found += lines
            self.assertEqual(found, [f"N{at:04},2024-04-30,,100,C,{name}" for at in range(count)])

    def test_one_of_several_files_stands_there(self):
        self.write("many-2.csv", "")
        self.write("statement", entries(10_001))
        status, output, told = self.tool("statement", "--firms", "firms.csv", "--out", "many.csv")
        said = "many-2.csv: there is such a file already\nnothing is written\n"
        self.assertEqual((status, output, told), (2, "", said))
        self.assertFalse((self.folder / "many.csv").exists())

    def test_files_that_are_too_large(self):
        self.misread(LATIN.ljust(33_554_433), ": larger than 33554432 bytes")
        deep = ": too many XML elements, or too deep within each other"
        self.misread("<a>" * 100, deep)
        self.misread(LATIN.replace("<BkTxCd/>", "<BkTxCd/>" * 2_000_000), deep)
        bomb = packed(*((f"{at}.xml", b" " * 12_000_000) for at in range(3)))
        self.assertLess(len(bomb), 100_000)
        self.misread(bomb, ": the zip unpacks to more than 33554432 bytes")
        # It isn't unpacked further than that, whatever it says of its size.
        bomb = packed(("a.xml", bytes(300_000_000)))
        self.misread(bomb.replace((300_000_000).to_bytes(4, "little"), (9).to_bytes(4, "little")),
                     ": a zip that can't be unpacked: Bad CRC-32 for file 'a.xml'")
        self.write("statement", bomb)
        few = {"preexec_fn": lambda: resource.setrlimit(resource.RLIMIT_AS, (250_000_000, 250_000_000))}
        self.assertEqual(self.tool("statement", "--firms", "firms.csv", **few)[0], 2)
        many = packed(*((f"{at}.xml", "") for at in range(1_001)))
        self.misread(many, ": the zip has more than 1000 files")
        self.write("firms.csv", "iban,employer\n".ljust(4_194_305, "\n"))
        self.refuses(LATIN, "firms.csv: larger than 4194304 bytes", status=2)

    def test_texts_of_many_parts(self):
        """Neither a word that may be cut at many places nor a row of amounts takes long, or much memory."""
        few = {"preexec_fn": lambda: resource.setrlimit(resource.RLIMIT_AS, (500_000_000, 500_000_000))}
        amounts, words = ["1.001 + " * 370, *["1"] * 190], ["Zin", "sen", *["a" * 70] * 190, *["b."] * 1_000_000]
        for parts, purpose, note in ((amounts, "C", ("1.001 + " * 18)[:140]),
                                     (words, "I", f"Zin sen {'a' * 70} {'a' * 61}")):
            line = f"A,2024-04-30,,100,{purpose},{note}"
            self.write("statement", one("0", "1", payment("1.00", parts, reference="A")))
            status, output, told = self.tool("statement", "--firms", "firms.csv", "--interest-word", "Zinsen", **few)
            self.assertEqual((status, output), (0, f"{HEADER}{line}\n"), told)


class CommandLine(BankFiles):
    words = ("statement", "--firms", "firms.csv")

    def setUp(self):
        super().setUp()
        self.write("statement", LATIN)

    def test_the_file_is_written_whole_and_over_no_other(self):
        self.assertEqual(self.tool(*self.words, "--out", "bank.csv")[:2], (0, ""))
        written = self.folder / "bank.csv"
        self.assertEqual(stat.S_IMODE(written.stat().st_mode), 0o600)
        (self.folder / "link").symlink_to("nowhere")
        for name in ("bank.csv", "link", "."):
            self.assertEqual(self.tool(*self.words, "--out", name),
                             (2, "", f"{name}: there is such a file already\nnothing is written\n"))
        status, output, told = self.tool(*self.words, "--out", "missing/bank.csv")
        self.assertEqual((status, output), (2, ""))
        self.assertIn("No such file or directory", told)
        self.assertEqual(written.read_text(), f"{HEADER}{LATIN_LINES[0]}\n")
        self.assertEqual([it.name for it in self.folder.iterdir() if it.name.startswith(".")], [])

    def test_a_file_system_without_second_names(self):
        self.write("sitecustomize.py", "import errno, os\ndef link(*names):\n"
                   "    raise OSError(errno.EPERM, 'no second names')\nos.link = link\n")
        environment = {**os.environ, "PYTHONPATH": str(self.folder)}
        self.assertEqual(self.tool(*self.words, "--out", "bank.csv", env=environment)[:2], (0, ""))
        self.assertEqual((self.folder / "bank.csv").read_text(), f"{HEADER}{LATIN_LINES[0]}\n")
        self.assertEqual([it.name for it in self.folder.iterdir() if it.name.startswith(".")], [])

    def test_a_folder_that_cannot_be_read(self):
        self.write("sitecustomize.py", "import os\ntrue_open = os.open\ndef open_files(path, *rest, **options):\n"
                   "    if os.path.isdir(path):\n        raise PermissionError(path)\n"
                   "    return true_open(path, *rest, **options)\nos.open = open_files\n")
        environment = {**os.environ, "PYTHONPATH": str(self.folder)}
        self.assertEqual(self.tool(*self.words, "--out", "bank.csv", env=environment)[:2], (0, ""))
        self.assertEqual((self.folder / "bank.csv").read_text(), f"{HEADER}{LATIN_LINES[0]}\n")

    def test_where_nothing_can_be_told(self):
        for streams in ("2>/dev/full", "2>&-"):
            with self.subTest(streams):
                line = f"exec {TOOL} {' '.join(self.words)} {streams}"
                ran = subprocess.run(["sh", "-c", line], cwd=self.folder, stdout=subprocess.PIPE, check=False)
                self.assertEqual((ran.returncode, ran.stdout.decode()), (0, f"{HEADER}{LATIN_LINES[0]}\n"))
        closed = ["sh", "-c", f"exec {TOOL} {' '.join(self.words)} >&-"]
        ran = subprocess.run(closed, cwd=self.folder, stderr=subprocess.PIPE, check=False)
        self.assertEqual((ran.returncode, ran.stderr), (2, b"[Errno 9] Bad file descriptor\n"))

    def test_files_that_are_not_there(self):
        for words in ("missing --firms firms.csv", "statement --firms missing", ". --firms firms.csv",
                      "statement --firms firms.csv --earlier missing"):
            status, output, told = self.tool(*words.split())
            self.assertEqual((status, output), (2, ""), told)
            self.assertRegex(told, r"^\[Errno \d+\] (No such file or|Is a) directory: '(missing|\.)'\n$")

    def test_a_disk_that_is_full(self):
        with open("/dev/full", "wb") as full:
            status, _, told = self.tool(*self.words, stdout=full)
        self.assertEqual((status, told), (2, "[Errno 28] No space left on device\n"))

        for words in (["--help"], [*self.words, "--help"]):
            with open("/dev/full", "wb") as full:
                status, _, told = self.tool(*words, stdout=full)
            self.assertEqual((status, told), (2, "[Errno 28] No space left on device\n"))

    def test_no_memory(self):
        self.write("statement", entries(10_000))
        few = {"preexec_fn": lambda: resource.setrlimit(resource.RLIMIT_AS, (45_000_000, 45_000_000))}
        self.assertEqual(self.tool(*self.words, **few), (2, "", "there was no memory\nnothing is written\n"))

    def test_stops(self):
        os.mkfifo(self.folder / "slow")
        for number in (signal.SIGINT, signal.SIGTERM, signal.SIGHUP):
            # Where this is run in the background, SIGINT is ignored, which the tool would inherit.
            running = subprocess.Popen(
                [TOOL, "slow", *self.words[1:]], cwd=self.folder, stdout=subprocess.PIPE, stderr=subprocess.PIPE,
                text=True, preexec_fn=lambda: signal.signal(signal.SIGINT, signal.default_int_handler))
            self.addCleanup(running.communicate)
            self.addCleanup(running.kill)
            with open(self.read_by(running, "slow"), "wb"):
                # It waits for a byte by then: a signal just before that would be seen behind the byte.
                time.sleep(0.5)
                running.send_signal(number)
                self.assertEqual(running.communicate(timeout=60), ("", "broken off\n"))
            self.assertEqual(running.returncode, 130)

    def read_by(self, running, name):
        """An end of the pipe of this name, whose other end the tool has by now."""
        for _ in range(1_500):
            # Without waiting: a tool that has ended would be waited for without an end.
            with contextlib.suppress(OSError):
                return os.open(self.folder / name, os.O_WRONLY | os.O_NONBLOCK)
            self.assertIsNone(running.poll(), "the tool has ended")
            time.sleep(0.02)
        raise AssertionError("the tool reads nothing")

    def test_a_stop_while_a_file_is_written(self):
        """Nothing of it is left, be it hidden, nor of several files one that has its name already."""
        self.write("several", entries(10_001))
        before = sorted(os.listdir(self.folder))
        for number, stopped, statement in ((signal.SIGTERM, STOPPED, "statement"), (signal.SIGHUP, STOPPED, "statement"),
                                           (signal.SIGTERM, STOPPED_BEHIND, "several")):
            words = [statement, *self.words[1:], "--out", "made.csv"]
            command = ["/usr/bin/python3", "-c", stopped, str(int(number)), TOOL, *words]
            ran = subprocess.run(command, cwd=self.folder, env={"PYTHONPATH": os.path.dirname(TOOL)},
                                 capture_output=True, timeout=60, check=False)
            self.assertEqual((ran.returncode, ran.stderr.decode().splitlines()[-1]), (130, "broken off"))
            self.assertEqual(sorted(os.listdir(self.folder)), before)

    def test_words(self):
        status, output, _ = self.tool("--help")
        self.assertEqual(status, 0)
        for word in ("STATEMENT", "--firms TABLE", "--interest-word WORD", "--number-word WORD", "--earlier FILE",
                     "--out FILE"):
            self.assertIn(word, output)
        for words in ("", "statement", "--firms firms.csv", "statement --firms firms.csv more",
                      "statement --firms firms.csv --interest-word a-b",
                      "statement --firms firms.csv --firms firms.csv", "statement --firms firms.csv --out a --out b",
                      "statement --firms firms.csv --ou x"):
            status, output, told = self.tool(*words.split())
            self.assertEqual((status, output, told[:6]), (2, "", "usage:"))

    def test_without_defusedxml(self):
        self.write("defusedxml.py", "raise ImportError")
        status, output, told = self.tool(*self.words, env={**os.environ, "PYTHONPATH": str(self.folder)})
        self.assertEqual((status, output), (2, ""))
        self.assertIn("    apt-get install python3-defusedxml\n", told)


if __name__ == "__main__":
    run_tests()
