"""Runs tools/payment-file as a clerk does who reads the payout list from the office, and the example of its
document.

    python3 tests/payment_office.py [PROGRAM]

PROGRAM is crates/clear_app/out/clear_app where it isn't given, as `rt ci` leaves it. What is expected is
worked out by hand.
"""

import os
import re
import shutil
import signal
import socket
import subprocess
import sys
import threading
import unittest
import xml.etree.ElementTree as ElementTree
from time import sleep

# No __pycache__ is left beside the sources.
sys.dont_write_bytecode = True
from desk_safety import as_another  # noqa: E402
from desk_under_test import OFFICE_USER, answer_bytes  # noqa: E402
from documents import commands  # noqa: E402
from payment_file import DEBTOR, HEADER, LIST, MADE, NORD, OVER, TOOL, Runs, Tool  # noqa: E402
from payment_rules import leaves  # noqa: E402
from program import REGISTRATION, post  # noqa: E402
from program_under_test import NOBODY, ROOT, ProgramUnderTest, run_tests  # noqa: E402

DOCUMENT = ROOT / "docs/tools.md"
# Of an office's port that isn't an office's.
STRANGER = "another user's program takes it, or the kernel doesn't say whose; see --office-user"


class Peers(Tool):
    """What answers in the place of an office."""

    def answered(self, *answers):
        """The words for a peer that answers so often with these bytes; what it was asked last is `self.asked`."""
        listener = socket.create_server(("127.0.0.1", 0))
        listener.settimeout(30)
        self.addCleanup(listener.close)
        self.port = listener.getsockname()[1]

        def serve():
            for answer in answers:
                with listener.accept()[0] as peer:
                    self.asked = peer.recv(65536).decode()
                    peer.sendall(answer)

        self.peer = threading.Thread(target=serve, daemon=True)
        self.peer.start()
        address = f"127.0.0.1:{self.port}"
        return "--office", address, "--key-file", "desk.key", "--number", "7", *self.words[2:]

    def with_documents(self, *texts):
        """The words for a peer that answers with these documents."""
        return self.answered(*(answer_bytes(200, text.encode(), "text/plain") for text in texts))

    def setUp(self):
        super().setUp()
        self.write("desk.key", "desk\n")

    def test_what_is_asked(self):
        wanted = self.make(*self.words, *MADE)
        self.assertEqual(self.make(*self.with_documents(LIST), *MADE), wanted)
        request, *fields = self.asked.removesuffix("\r\n\r\n").split("\r\n")
        self.assertEqual(request, "GET /payouts/7 HTTP/1.1")
        self.assertIn("Office-Key: desk", fields)

    def test_stops(self):
        with socket.create_server(("127.0.0.1", 0)) as silent:
            silent.settimeout(30)
            words = ["--office", f"127.0.0.1:{silent.getsockname()[1]}", "--key-file", "desk.key", "--number", "7"]
            for number in (signal.SIGINT, signal.SIGTERM, signal.SIGHUP):
                # Where this is run in the background, SIGINT is ignored, which the tool would inherit.
                running = subprocess.Popen(
                    [TOOL, *words, *self.words[2:]], cwd=self.folder, stdout=subprocess.PIPE, stderr=subprocess.PIPE,
                    text=True, preexec_fn=lambda: signal.signal(signal.SIGINT, signal.default_int_handler))
                with running, silent.accept()[0] as peer:
                    peer.recv(1)
                    # It waits for an answer by then.
                    sleep(0.5)
                    running.send_signal(number)
                    self.assertEqual(running.communicate(timeout=60), ("", "broken off\n"))
                self.assertEqual(running.returncode, 130)

    def test_what_is_no_answer_of_an_office(self):
        for answer, fault in (
                (b"", "Remote end closed connection without response"),
                (b"220 mail\r\n\r\n", "220 mail??"),
                (b"HTTP/1.1 200 OK\r\n\r\n" + LIST.encode(), "no length of at most 4194304 bytes"),
                (b"HTTP/1.1 200 OK\r\nContent-Length: 4194305\r\n\r\n", "no length of at most 4194304 bytes"),
                (b"HTTP/1.1 200 OK\r\nContent-Length: 9\r\n\r\npayout 7",
                 "IncompleteRead(8 bytes read, 1 more expected)")):
            words = self.answered(answer)
            self.refuse(3, f"no answer from 127.0.0.1:{self.port}: {fault}\n", *words)

    @unittest.skipUnless(NOBODY, "only root can be another user")
    def test_another_user_on_the_offices_port(self):
        """Not a byte goes there, unless that user is named."""
        with as_another():
            stranger = socket.create_server(("127.0.0.1", 0))
        with stranger:
            stranger.settimeout(30)
            address = f"127.0.0.1:{stranger.getsockname()[1]}"
            words = ["--office", address, "--key-file", "desk.key", "--number", "7", *self.words[2:]]
            self.refuse(3, f"no answer from {address}: {STRANGER}\n", *words)
            with stranger.accept()[0] as peer:
                self.assertEqual(peer.recv(100), b"")
        with as_another():
            words = self.with_documents(LIST)
        self.make(*words, *OFFICE_USER)

    def test_another_user_who_listens_or_holds_the_other_end(self):
        """Where but one of the two is another user, not a byte goes there."""
        tools = f"{self.folder}:{TOOL.parent}"
        environment = {**os.environ, "PYTHONPATH": tools, "PYTHONDONTWRITEBYTECODE": "1"}
        for told in ("listener", "holder"):
            self.write("sitecustomize.py", "from desk_server import owners\n"
                       f"owners.{told} = lambda *_: {os.getuid() + 1}\n")
            words = self.with_documents(LIST)
            self.refuse(3, f"no answer from 127.0.0.1:{self.port}: {STRANGER}\n", *words, env=environment)
            self.peer.join(30)
            self.assertEqual(self.asked, "")

    def test_a_firms_name_that_a_terminal_would_obey(self):
        """The office tells it of a firm that isn't in the table."""
        self.write("accounts.csv", HEADER + NORD)
        words = self.with_documents(LIST, "statement 1004 2024-05-02\nname Bau\x9b2J\x1b[2J\n")
        self.refuse(1, "employer 1004 Bau?2J?[2J: isn't in the table\n", *words)

    def test_other_answers(self):
        no_list = "the office's list 7: no payout list, or not a whole one\n"
        for status, body, wanted, fault in (
                (200, LIST.replace("payout 7", "payout 8"), 3,
                 "the office's list 7: list 8 came in its place\n"),
                (200, LIST[:-1], 3, no_list), (200, "", 3, no_list),
                (200, LIST.replace("items 3", "items 4"), 1,
                 "the office's list 7: the list says 4 items, and has 3 claims\n"),
                (200, b"\xff", 3, "no answer of an office: HTTP status 200\n"),
                (404, "not here", 3, "no answer of an office: HTTP status 404\n"),
                (302, "{}", 3, "no answer of an office: HTTP status 302\n"),
                (409, "[33]", 3, "no answer of an office: HTTP status 409\n"),
                (409, 100_000 * "[", 3, "no answer of an office: HTTP status 409\n"),
                (409, '{"detail":"\\u001b[2J\\u202e","name":"N","rule":33}', 3, "rule 33 N ?[2J?\n"),
                # Two hundred signs of it.
                (409, f'{{"detail":"{500 * "x"}","name":"N","rule":33}}', 3, f"rule 33 N {190 * 'x'}\n")):
            body = body if isinstance(body, bytes) else body.encode()
            head = f"HTTP/1.1 {status} Said\r\nLocation: /\r\nContent-Length: {len(body)}\r\n\r\n"
            self.refuse(wanted, fault, *self.answered(head.encode() + body))

    def test_key_files(self):
        words = ("--office", "127.0.0.1:1", "--key-file", "desk.key", "--number", "7", *self.words[2:])
        for key in ("", "\n", "two keys", "desk\nnobody", "desk\r\nRequest-Number: 1", "k" * 65, "schlüssel"):
            self.write("desk.key", key)
            self.refuse(2, "desk.key: not one key\n", *words)


class Offices(Runs, ProgramUnderTest):
    """An office with two firms, whose claims are on list 1."""

    DAY = "2024-02-10"
    LIST = """\
payout 1 2024-02-10
claim 1 employer 1001 worker 7         500.00
claim 2 employer 1002 worker 8          47.49
items 2
total         547.49
"""

    def setUp(self):
        super().setUp()
        self.init()
        self.server = self.serving(100, self.DAY)
        # The second firm's worker has earned 14.25 % of 333.33 euros: 47.49, rounded down.
        answers = self.send(self.server, b"".join([
            REGISTRATION,
            post("/employers", 2, '{"employer":1002,"name":"Bau & Söhne <West>","start":"2024-01"}'),
            post("/employers/1001/reports/2024-01", 3, '{"lines":[{"gross":1000000,"worker":7}]}'),
            post("/employers/1002/reports/2024-01", 4, '{"lines":[{"gross":33333,"worker":8}]}'),
            post("/employers/1001/claims", 5, '{"cents":50000,"worker":7}'),
            post("/employers/1002/claims", 6, '{"cents":4749,"worker":8}'),
            post("/claims/1/release", 7, ""),
            post("/claims/2/release", 8, ""),
            post("/payouts", 9, ""),
        ])).decode()
        self.assertTrue(answers.endswith('{"items":2,"list":1,"total":54749}'), answers)
        self.write("desk.key", "desk\n")
        self.write("list.txt", self.LIST)
        self.write("accounts.csv", HEADER + NORD + "1002,AT611904300234573201,Bau & Söhne <West>\n")

    def words(self, number=1, key="desk.key"):
        address = f"127.0.0.1:{self.server.port}"
        return ("--office", address, *OFFICE_USER, "--key-file", key, "--number", number,
                "--table", "accounts.csv", *DEBTOR)

    def test_from_the_office_to_the_bank(self):
        told = ("payments 2, total 547.49 euros, on 2024-02-10, message PAYOUT-1-2024-02-10\n"
                + OVER.format("2024-02-10"))
        made = self.make(*self.words(), *MADE, told=told)
        found = leaves(ElementTree.fromstring(made))
        wanted = {
            "NbOfTxs": ["2", "2"], "CtrlSum": ["547.49", "547.49"], "InstdAmt": ["500.00", "47.49"],
            "EndToEndId": ["L1-C1", "L1-C2"], "MsgId": ["PAYOUT-1-2024-02-10"], "Dt": [self.DAY],
            "IBAN": ["DE02120300000000202051", "DE89370400440532013000", "AT611904300234573201"],
            "Nm": [*["Ferienkasse Sued"] * 2, "Bau Nord GmbH", "Bau + Soehne .West."],
        }
        for name, texts in wanted.items():
            self.assertEqual([text for path, text in found if path.endswith(f"/{name}")], texts)
        # The list as docs/formats.md has it, by a file.
        words = ("--list", "list.txt", "--table", "accounts.csv", *DEBTOR)
        self.assertEqual(self.make(*words, *MADE, told=told), made)

    def test_the_second_person(self):
        """Made anew at another time, with the first file's own: the same bytes."""
        files = [self.folder / name for name in ("first.xml", "second.xml")]
        self.assertEqual(self.run_tool(*self.words(), "--out", files[0]).returncode, 0)
        made = re.search("<CreDtTm>(.*)</CreDtTm>", files[0].read_text())[1]
        self.assertEqual(self.run_tool(*self.words(), "--made", made, "--out", files[1]).returncode, 0)
        self.assertEqual(files[0].read_bytes(), files[1].read_bytes())

    def test_a_firm_that_is_not_in_the_table(self):
        self.write("accounts.csv", HEADER + "1001,,Bau Nord\n")
        self.refuse(1, "employer 1001 Bau Nord: has no IBAN in the table\n"
                       "employer 1002 Bau & Söhne <West>: isn't in the table\n", *self.words())

    def test_refusals_of_the_office(self):
        self.write("no.key", "nobody\n")
        self.write("firm.key", "k1001\n")
        self.refuse(3, "rule 6 UnknownKey\n", *self.words(key="no.key"))
        self.refuse(3, "rule 7 NotYours\n", *self.words(key="firm.key"))
        self.refuse(3, "rule 33 UnknownDocument\n", *self.words(2))
        self.refuse(3, "rule 4 NoRoute\n", *self.words(50_000_001))
        self.server.kill()
        self.server.communicate()
        address = f"127.0.0.1:{self.server.port}"
        self.refuse(3, f"no answer from {address}: [Errno 111] Connection refused\n", *self.words())

    @unittest.skipUnless(all(map(shutil.which, ("bash", "curl"))), "bash or curl isn't here")
    def test_the_example_of_the_documents(self):
        text = DOCUMENT.read_text()
        section = text[text.index("## payment-file"):]
        (self.folder / "tools").symlink_to(TOOL.parent)
        for path in ("accounts.csv", "desk.key", "list.txt"):
            (self.folder / path).unlink()
        shown = commands(section.partition("\n## ")[0])
        self.assertEqual(len(shown), 10)
        # What is said in each window first holds for all that follows.
        first = "\n".join(["umask 022", *(command for command, _ in commands(text.partition("\n## ")[0]))])
        for command, printed in shown:
            command = command.replace("127.0.0.1:8080", f"127.0.0.1:{self.server.port}")
            command = command.replace("--office ", " ".join([*OFFICE_USER, "--office "]))
            ran = subprocess.run(["bash", "-c", f"{first}\n{command}"], cwd=self.folder, timeout=60,
                                 env={**os.environ, "LC_ALL": "C.UTF-8", "no_proxy": "*"},
                                 stdout=subprocess.PIPE, stderr=subprocess.STDOUT)
            self.assertEqual(ran.stdout.decode(), printed, command)
        made, again = ((self.folder / name).read_text() for name in ("list-1.xml", "again.xml"))
        for name in ("desk.key", "accounts.csv", "list-1.txt", "list-1.xml", "again.xml"):
            self.assertEqual((self.folder / name).stat().st_mode & 0o077, 0, name)
        time = "<CreDtTm>.*</CreDtTm>"
        self.assertEqual(re.sub(time, "", made), re.sub(time, "", again))
        self.compare_lists(*re.findall(r"`(curl -s [^`]* \| cmp - list-1\.txt)`", section))

    def compare_lists(self, command):
        """It says nothing of the office's list, and something of one in which a firm was changed."""
        command = command.replace("127.0.0.1:8080", f"127.0.0.1:{self.server.port}")
        path = self.folder / "list-1.txt"
        text = path.read_text()
        for content, status in ((text, 0), (text.replace("employer 1001", "employer 1002"), 1)):
            path.write_text(content)
            ran = subprocess.run(["bash", "-c", command], cwd=self.folder, capture_output=True, timeout=60,
                                 env={**os.environ, "no_proxy": "*"})
            self.assertEqual((ran.returncode, ran.stdout == b"", ran.stderr), (status, status == 0, b""))


if __name__ == "__main__":
    run_tests()
