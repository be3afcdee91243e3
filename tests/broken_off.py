"""What the scripts of `examples` say where they are broken off, refused on the way, or correct a report.

    python3 tests/broken_off.py [PROGRAM]

PROGRAM is crates/clear_app/out/clear_app where it isn't given, as `rt ci` leaves it.
"""

import contextlib
import os
import shlex
import signal
import socket
import subprocess
import sys
import threading

# No __pycache__ is left beside the sources.
sys.dont_write_bytecode = True
from examples import (AGAIN, BROKEN_OFF, CSV_HEADER, JANUARY, NO_LINES, ONCE_IT_IS_GONE,  # noqa: E402
                      REGISTRATION_LINE, REPORT_LINE, Scripts, made_before)
from program import REGISTRATION, post  # noqa: E402
from program_under_test import DAY, run_tests  # noqa: E402
from serving import ask  # noqa: E402

NEXT_DAY = "2024-05-01"


class BrokenOff(Scripts):
    def setUp(self):
        super().setUp()
        self.write("batch", REGISTRATION_LINE + "GET /suspense -\n")
        self.write("wages.csv", JANUARY + "1001,2024-02,7,1000000\n")

    def test_the_office_is_away(self):
        with socket.create_server(("127.0.0.1", 0)) as listener:
            self.address = f"127.0.0.1:{listener.getsockname()[1]}"
        fault = f"no answer from {self.address}: [Errno 111] Connection refused\n"
        for name, words, more, said in (
                ("month_end", ["april", 2, 1001], "", ""),
                ("reports_from_csv", [1, "wages.csv"],
                 "number 1 may have been done; reports to be sent again, from number 1 on: 2\n", ""),
                ("answer_log", ["batch", "log"], "", "sent: 0, skipped: 0, refused: 0, left: 2\n")):
            self.assertEqual(self.script(name, *words, status=3, errors=f"{fault}{more}{AGAIN}"), said)

    def test_control_c(self):
        """It is told without a trace of the program, with what is to be done."""
        for name, words, told in (("month_end", ["april", 2, 1001], ""), ("reports_from_csv", [1, "wages.csv"], ""),
                                  ("answer_log", ["batch", "log"], "sent: 0, skipped: 0, refused: 0, left: 2\n")):
            with socket.create_server(("127.0.0.1", 0)) as silent:
                silent.settimeout(30)
                self.address = f"127.0.0.1:{silent.getsockname()[1]}"
                # Where this is run in the background, SIGINT is ignored, which the script would inherit.
                running = subprocess.Popen(
                    self.command(name, *words), cwd=self.folder, stdout=subprocess.PIPE, stderr=subprocess.PIPE,
                    text=True, preexec_fn=lambda: signal.signal(signal.SIGINT, signal.default_int_handler))
                with running, silent.accept()[0] as peer:
                    peer.recv(1)
                    running.send_signal(signal.SIGINT)
                    self.assertEqual(running.communicate(timeout=60), (told, BROKEN_OFF))
                self.assertEqual(running.returncode, 130)

    def test_what_cannot_be_printed(self):
        """To `head`, which has read enough, or on a disk that is full."""
        self.open_office()
        self.ask_desk(REGISTRATION)
        reader, closed = os.pipe()
        os.close(reader)
        full = os.open("/dev/full", os.O_WRONLY)
        for stream in (closed, full):
            self.addCleanup(os.close, stream)
        for name, words in (("month_end", ["april", 2, 1001]), ("reports_from_csv", [4, "wages.csv"]),
                            ("answer_log", ["batch", "log"])):
            for stream, why in ((closed, "[Errno 32] Broken pipe"), (full, "[Errno 28] No space left on device")):
                ran = subprocess.run(self.command(name, *words), cwd=self.folder, stdout=stream,
                                     stderr=subprocess.PIPE, timeout=60)
                self.assertEqual((ran.returncode, ran.stderr.decode()), (2, f"{why}\n{BROKEN_OFF}"), name)

    def test_what_was_printed_before_the_end(self):
        """It is written whatever ended the script, or the status is that of what can't be written."""
        self.open_office()
        self.ask_desk(REGISTRATION)
        no_clerk = self.command("month_end", "april", 2, 1001, key="firm.key")
        unknown = self.command("month_end", "april", 2, 9999)
        usage = self.command("month_end")[:-2] + ["--help"]
        buffered = {name: value for name, value in os.environ.items() if name != "PYTHONUNBUFFERED"}
        for command, told in ((no_clerk, "rule 7 NotYours\n"), (usage, ""),
                              (unknown, "no number is a firm's, so no run and no list is made\n")):
            with open("/dev/full", "w") as full:
                ran = subprocess.run(command, cwd=self.folder, env=buffered, stdout=full, stderr=subprocess.PIPE, timeout=60)
            self.assertEqual((ran.returncode, ran.stderr.decode()),
                             (2, f"{told}[Errno 28] No space left on device\n{BROKEN_OFF}"), command)

    def test_what_cannot_be_told(self):
        """Where standard error is closed, or on a disk that is full, the status says what there is to say."""
        self.open_office()
        self.close_office()
        self.write("wrong.csv", "employer,month,worker,gross\n1001,2024-02,7,1.50\n")
        cases = ((3, "month_end", ["april", 2, 1001]), (3, "reports_from_csv", [4, "wages.csv"]),
                 (3, "answer_log", ["batch", "log"]), (2, "reports_from_csv", [4, "wrong.csv"]),
                 (2, "answer_log", ["no file", "log"]), (2, "month_end", []))
        for status, name, words in cases:
            command = " ".join(map(shlex.quote, self.command(name, *words)))
            for stream in ("2>/dev/full", "2>&-"):
                ran = subprocess.run(f"{command} {stream}", cwd=self.folder, shell=True, stdout=subprocess.PIPE, timeout=60)
                printed = b"sent: 0, skipped: 0, refused: 0, left: 2\n" if status == 3 and name == "answer_log" else b""
                self.assertEqual((ran.returncode, ran.stdout), (status, printed), (name, words, stream))

    def test_what_is_no_office(self):
        """None of its signs reaches the terminal as it came, and no value is taken for a number."""
        of_length = "HTTP/1.1 200 OK\r\nContent-Length: {}\r\n\r\n{}".format
        bodies = ("statement 1001 2024-04-30\n", "suspense 2024-04-30\n\x1b[2J\n", '{"done":true}',
                  r'{"charge":1,"version":"\u001b[2J"}')
        statement, suspense, another, reply = (of_length(len(body), body) for body in bodies)
        no_office = "no answer of an office: 200 OK\n"
        for given, name, words, printed, told in (
                (["\x1b]0;x\x07 no HTTP\r\n"], "answer_log", ["batch", "log"],
                 "sent: 0, skipped: 0, refused: 0, left: 2\n", "no answer from ADDRESS: ?]0;x? no HTTP\n"),
                (["HTTP/9\x1b[2J 200 OK\r\n"], "month_end", ["april", 2, 1001], "",
                 "no answer from ADDRESS: HTTP/9?[2J\n"),
                ([suspense], "month_end", ["april", 2, 1001], "", no_office),
                ([statement, suspense, another], "month_end", ["april", 2, 1001],
                 "statements: 1\nsuspense 2024-04-30: ?[2J\n", no_office),
                ([reply], "reports_from_csv", [1, "wages.csv"], "",
                 f"{no_office}number 1 may have been done; reports to be sent again, from number 1 on: 2\n")):
            with self.subTest(given), socket.create_server(("127.0.0.1", 0)) as listener:
                self.answer(listener, given)
                errors = told.replace("ADDRESS", self.address) + AGAIN
                self.assertEqual(self.script(name, *words, status=3, errors=errors), printed)

    def answer(self, listener, given):
        """Has the address answer each request with the next one of what is given, and then with the last one."""
        self.address = f"127.0.0.1:{listener.getsockname()[1]}"
        threading.Thread(target=answers, args=(listener, [it.encode() for it in given]), daemon=True).start()

    def test_an_office_that_fails(self):
        """Behind rule 41 a report may have been done, and behind another one where an answer of before was lost
        (docs/http.md)."""
        done = 'HTTP/1.1 200 OK\r\nConnection: close\r\nContent-Length: 29\r\n\r\n{"charge":200000,"version":1}'
        doubt = "number 2 may have been done; "
        for status, rule, lost, doubt in (("500 Internal Server Error", "41 Store", [], doubt),
                                          ("500 Internal Server Error", "42 Failed", [], ""),
                                          ("500 Internal Server Error", "42 Failed", [""], doubt),
                                          ("503 Service Unavailable", "40 Memory", [], "")):
            number, name = rule.split()
            body = f'{{"detail":"","name":"{name}","rule":{number}}}'
            refused = f"HTTP/1.1 {status}\r\nContent-Length: {len(body)}\r\n\r\n{body}"
            with self.subTest(rule, lost=lost), socket.create_server(("127.0.0.1", 0)) as listener:
                self.answer(listener, [done, *lost, refused])
                told = f"{doubt}reports to be sent again, from number 2 on: 1\n{ONCE_IT_IS_GONE}"
                said = self.script("reports_from_csv", 1, "wages.csv", status=1, errors=told)
                self.assertEqual(said, "1 1001 2024-01: 2000.00 euros for 10000.00 euros gross, version 1\n"
                                       f"2 1001 2024-02: rule {rule}\n")

    def test_a_number_of_a_month_end_that_is_taken(self):
        """The run is made, and it is told that the list isn't."""
        self.open_office()
        self.write("batch", REGISTRATION_LINE.replace(" 1 ", " 3 "))
        self.script("answer_log", "batch", "log")
        said = self.script("month_end", "april", 2, 1001, status=1,
                           errors="payouts under number 3: rule 9 NumberReused\n")
        self.assertTrue(said.endswith("\nreminders 1 2024-04-30: firms 1\n"), said)

    def test_a_batch_tells_its_refusals(self):
        self.open_office()
        self.write("batch", REPORT_LINE + REGISTRATION_LINE + "GET /payouts/5 -\n")
        refusals = ("POST /employers/1001/reports/2024-02 2: rule 11 UnknownEmployer\n"
                    "GET /payouts/5 -: rule 33 UnknownDocument\n")
        self.assertEqual(self.script("answer_log", "batch", "log", status=1),
                         f"{refusals}sent: 3, skipped: 0, refused: 2\n")
        # Those of the log too.
        self.assertEqual(self.script("answer_log", "batch", "log", status=1),
                         f"{refusals}sent: 0, skipped: 3, refused: 2\n")


class AnotherDay(Scripts):
    """The office is started anew on the next day in the middle of a month end, whose documents are to be of one day."""

    def start_anew_before(self, path):
        """An address before the office, which is started anew before the first request for this path."""
        listener = socket.create_server(("127.0.0.1", 0))
        self.addCleanup(listener.close)

        def pass_on():
            awaited = path
            with contextlib.suppress(OSError):
                while True:
                    with listener.accept()[0] as peer:
                        request = peer.recv(65536)
                        if awaited and request.split()[1] == awaited.encode():
                            self.close_office()
                            self.open_office(NEXT_DAY)
                            awaited = None
                        with self.connect(self.server) as served:
                            peer.sendall(ask(served, request))

        threading.Thread(target=pass_on, daemon=True).start()
        return f"127.0.0.1:{listener.getsockname()[1]}"

    def test_a_month_end(self):
        anew = "the office was started anew on another day meanwhile"
        mixed = f"lines in suspense: of {NEXT_DAY}: {anew}, so no run and no list is made\n"
        made = f"reminders 1 {NEXT_DAY}: firms 2\n"
        for path, day, more, told in (
                ("/employers/1002/statement", NEXT_DAY, "", f"statements: 1 of {DAY}, 1 of {NEXT_DAY}; {mixed}"),
                ("/suspense", NEXT_DAY, "", f"statements: 2 of {DAY}; {mixed}"),
                ("/reminders", DAY, made, f"reminders 1 {NEXT_DAY} is of a later day than the statements: {anew}\n")):
            with self.subTest(path):
                folder = path.split("/")[-1]
                self.store = f"{folder}.db"
                self.open_office()
                for firm in (1001, 1002):
                    self.ask_desk(post("/employers", firm, f'{{"employer":{firm},"name":"Bau","start":"2024-01"}}'))
                self.address = self.start_anew_before(path)
                words = ["month_end", folder, 2, "1001-1002"]
                said = self.script(*words, status=3, errors=f"{told}{AGAIN}")
                self.assertEqual(said, f"statements: 2\nsuspense {day}: total 0.00\n{more}")
                # Run again, straight to the new office, it makes all of that day.
                self.address = f"127.0.0.1:{self.server.port}"
                note = made_before(2) if more else ""
                self.assertEqual(self.script(*words), f"statements: 2\nsuspense {NEXT_DAY}: total 0.00\n{made}{note}"
                                                      "payouts: rule 29 NothingToPay\n")
                self.close_office()


class Corrections(Scripts):
    def test_a_correction(self):
        self.open_office()
        self.ask_desk(REGISTRATION)
        self.write("wages.csv", JANUARY)
        self.script("reports_from_csv", 1, "wages.csv", key="firm.key")
        self.write("better.csv", CSV_HEADER + "1001,2024-01,7,500000\n1001,2024-01,8,250025\n")
        told = "2 1001 2024-01: 1500.05 euros for 7500.25 euros gross, version 2\nreports: 1, refused: 0\n"
        for _ in range(2):
            self.assertEqual(self.script("reports_from_csv", 2, "better.csv", 1, key="firm.key"), told)
        said = self.script("reports_from_csv", 3, "wages.csv", 1, key="firm.key", status=1)
        self.assertEqual(said, "3 1001 2024-01: rule 16 StaleVersion 2\nreports: 1, refused: 1\n")

    def test_a_correction_is_of_one_report(self):
        for lines, fault in (("", NO_LINES), ("1001,2024-01,7,1\n1001,2024-02,7,1\n",
                                              "2 reports; a correction is of one")):
            self.write("wages.csv", CSV_HEADER + lines)
            self.refuses_to_start(f"{fault}\nwages.csv: nothing is sent\n",
                                  "reports_from_csv", 1, "wages.csv", 1)


def answers(listener, given):
    """Answers each request over a connection of its own with the next of these bytes, and then with the last ones."""
    with contextlib.suppress(OSError):
        for answer in given + 8 * given[-1:]:
            peer, _ = listener.accept()
            with peer:
                peer.recv(65536)
                peer.sendall(answer)


if __name__ == "__main__":
    run_tests()
