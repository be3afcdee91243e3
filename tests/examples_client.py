"""Runs the client of the scripts of `examples` against offices that answer late, in halves or not at all, and against what
is no office.

    python3 tests/examples_client.py [PROGRAM]

PROGRAM is crates/clear_app/out/clear_app where it isn't given, as `rt ci` leaves it.
"""

import contextlib
import re
import signal
import socket
import subprocess
import sys
import threading

# No __pycache__ is left beside the sources.
sys.dont_write_bytecode = True
from examples import AGAIN, BROKEN_OFF, JANUARY, Scripts  # noqa: E402
from program import REGISTRATION  # noqa: E402
from program_under_test import ROOT, run_tests  # noqa: E402
from serving import read_answer  # noqa: E402

sys.path.append(str(ROOT / "examples"))
import office  # noqa: E402

# What the parameters of paths are in docs/http.md, and the first lines of the documents there.
PARAMETERS = {"employer": 1001, "month": "2024-01", "claim": 1, "worker": 7, "list": 1, "run": 1}
DOCUMENTS = {
    "Statement": "statement 1001 2024-04-30",
    "Worker": "worker 7 2024-04-30",
    "Lines in suspense": "suspense 2024-04-30",
    "Payout list": "payout 1 2024-04-30",
    "Reminder run": "reminders 1 2024-04-30",
}


class Client(Scripts):
    def test_an_answer_that_is_lost(self):
        """The office does the report, its answer is lost, and the client sends it once more."""
        self.open_office()
        self.ask_desk(REGISTRATION)
        listener = socket.create_server(("127.0.0.1", 0))
        self.addCleanup(listener.close)

        def pass_on():
            for is_lost in (True, False):
                peer, _ = listener.accept()
                with peer, self.connect(self.server) as served:
                    # A request has its length as an answer has.
                    served.sendall(read_answer(peer))
                    answer = read_answer(served)
                    if not is_lost:
                        peer.sendall(answer)

        between = threading.Thread(target=pass_on, daemon=True)
        between.start()
        self.address = f"127.0.0.1:{listener.getsockname()[1]}"
        self.write("wages.csv", JANUARY)
        self.assertEqual(self.script("reports_from_csv", 1, "wages.csv", key="firm.key"),
                         "1 1001 2024-01: 2000.00 euros for 10000.00 euros gross, version 1\nreports: 1, refused: 0\n")
        between.join(30)
        self.assertIn("\ncharge 2024-01 due 2024-02-20 version 1 ", self.statement(1001))

    def test_an_office_that_says_nothing(self):
        with socket.create_server(("127.0.0.1", 0)) as listener:
            client = office.Office(listener.getsockname(), "desk", timeout=0.1)
            with self.assertRaisesRegex(office.Fault, "^no answer from .*timed out") as told:
                client.ask("GET", "/suspense")
            self.assertEqual(told.exception.status, 3)
            # It was asked twice.
            listener.settimeout(0)
            for _ in range(2):
                listener.accept()[0].close()
            self.assertRaises(BlockingIOError, listener.accept)

    def test_each_answer_of_an_office(self):
        """As docs/http.md has them: each request has the one of its own row, or a refusal."""
        text = (ROOT / "docs/http.md").read_text()
        bodies = dict(re.findall(r"^\| ([A-Z]\w+) \| `(\{.*?\})`", text, re.M))
        self.assertEqual(len(bodies), 8)
        for title in DOCUMENTS.values():
            self.assertRegex(text, f"(?m)^(< )?{title}$")
        bodies |= {name: f"{title}\n" for name, title in DOCUMENTS.items()}
        refusal, = re.findall(r"^\| a refusal \| `(.*)` \|$", text, re.M)
        routes = re.findall(r"^\| (/\S*) \| (GET|POST|PUT) \|(?: [^|]+ \|){2} ([^|]+) \|", text, re.M)
        self.assertEqual(len(routes), 18)
        for path, method, answer in routes:
            request = f"{method} {path.format(**PARAMETERS)}"
            self.assertEqual(office.Answer(request, 409, "Conflict", refusal).rule, 10)
            self.assertEqual(office.Answer(request, 200, "OK", bodies[answer]).rule, 0, request)
            for name in bodies.keys() - {answer}:
                self.is_no_answer(request, 200, bodies[name])

    def is_no_answer(self, request, status, body):
        with self.assertRaisesRegex(office.Fault, "^no answer of an office: ", msg=(request, body)) as told:
            office.Answer(request, status, "OK", body).done()
        self.assertEqual(told.exception.status, 3)

    def test_answers_to_other_requests(self):
        """The document of another number, what has another day or value, and a request that no office does."""
        for request, body in (("GET /payouts/2", "payout 1 2024-04-30\n"), ("GET /workers/7", "worker 77 2024-04-30\n"),
                              ("GET /suspense", "suspense 30.04.2024\n"), ("GET /suspense", "suspense 1 2024-04-30\n"),
                              ("POST /claims/1/release", "ready 1\n\n"), ("POST /assign", '{"done":false}'),
                              ("POST /payouts", '{"items":1,"list":true,"total":1}'), ("GET /rates", '{"done":true}'),
                              ("PUT /bank", '{"new":1,"repeats":0}'), ("GET /", "suspense 2024-04-30\n")):
            self.is_no_answer(request, 200, body)
        # A refusal is by a rule.
        for rule in ("0", "-1", "true", '"9"'):
            self.is_no_answer("POST /assign", 409, f'{{"detail":"","name":"","rule":{rule}}}')

    def test_signs_that_a_terminal_would_obey(self):
        """Of a refusal, whose detail may be a member's name, and of what is no office."""
        self.open_office()
        names = "\\u001b]0;x\\u0007", "\\u009b2J"
        self.write("batch", "".join(f'POST /assign {at} {{"employer":1,"reference":"B","{name}":1}}\n'
                                    for at, name in enumerate(names, 1)))
        said = self.script("answer_log", "batch", "log", status=1)
        self.assertEqual(said, "POST /assign 1: rule 8 BadBody ?]0;x?\nPOST /assign 2: rule 8 BadBody ?2J\n"
                               "sent: 2, skipped: 0, refused: 2\n")
        with self.assertRaisesRegex(office.Fault, r"^no answer of an office: 404 \?\[2J$"):
            office.Answer("GET /suspense", 404, "\x1b[2J", "none").done()

    def test_what_is_no_office(self):
        with socket.create_server(("127.0.0.1", 0)) as listener:
            client = office.Office(listener.getsockname(), "desk", timeout=10)
            self.addCleanup(client.connection.close)

            def answer():
                peer, _ = listener.accept()
                with peer:
                    peer.recv(65536)
                    peer.sendall(b"HTTP/1.1 404 Not Found\r\nContent-Length: 4\r\n\r\nnone")

            threading.Thread(target=answer, daemon=True).start()
            with self.assertRaisesRegex(office.Fault, "^no answer of an office: 404 Not Found$"):
                client.ask("GET", "/suspense").done()

    def test_answers_that_are_too_much(self):
        """A body of many brackets, one of a length that no office has, one without a length, and another reply."""
        self.write("wages.csv", JANUARY)
        refused = "no answer of an office: 200 OK\n"
        too_long = f"no length of at most {office.MOST_BYTES} bytes\n"
        for head, body, errors in ((b"Content-Length: 200000", b"[" * 200_000, refused),
                                   (b"Content-Length: 99999999999999999999999", b"", too_long),
                                   (b"Connection: close", b"{}", too_long),
                                   (b"Content-Length: 13", b'{"done":true}', refused)):
            with socket.create_server(("127.0.0.1", 0)) as listener:
                port = listener.getsockname()[1]
                self.address = f"127.0.0.1:{port}"
                # Where there is no answer, it is asked for once more.
                where, times = (f"no answer from 127.0.0.1:{port}: ", 2) if errors is too_long else ("", 1)

                def answer():
                    for _ in range(times):
                        with listener.accept()[0] as peer, contextlib.suppress(OSError):
                            read_answer(peer)
                            peer.sendall(b"HTTP/1.1 200 OK\r\n" + head + b"\r\n\r\n" + body)

                threading.Thread(target=answer, daemon=True).start()
                told = (f"{where}{errors}number 1 may have been done; reports to be sent again, from number 1 on: 1\n"
                        f"{AGAIN}")
                self.script("reports_from_csv", 1, "wages.csv", key="firm.key", status=3, errors=told)

    def test_stops(self):
        """Each breaks a script off as Ctrl-C does."""
        for stop in (signal.SIGINT, signal.SIGTERM, signal.SIGHUP):
            with socket.create_server(("127.0.0.1", 0)) as listener:
                listener.settimeout(30)
                self.address = f"127.0.0.1:{listener.getsockname()[1]}"
                script = subprocess.Popen(self.command("month_end", "april", 2, "1001"), cwd=self.folder,
                                          stdout=subprocess.PIPE, stderr=subprocess.PIPE)
                with listener.accept()[0] as peer:
                    peer.recv(65536)
                    script.send_signal(stop)
                    self.assertEqual(script.communicate(timeout=60), (b"", BROKEN_OFF.encode()))
                self.assertEqual(script.returncode, 130, stop)

    def test_command_lines(self):
        self.address = "127.0.0.1:8080"
        for name in ("month_end", "reports_from_csv", "answer_log"):
            for words, status in (self.command(name), 2), (self.command(name)[:3] + ["--help"], 0):
                ran = subprocess.run(words, cwd=self.folder, capture_output=True, timeout=60)
                self.assertEqual(ran.returncode, status)
                self.assertIn(f"usage: python3 examples/{name}.py ADDRESS KEYFILE ",
                              (ran.stdout + ran.stderr).decode())
        self.address = "192.0.2.1:8080"
        ran = subprocess.run(self.command("answer_log", "batch", "log"), cwd=self.folder, capture_output=True,
                             timeout=60)
        self.assertEqual(ran.returncode, 2)
        self.assertIn(b"192.0.2.1:8080 isn't 127.0.0.1:PORT: the key is sent to this machine alone", ran.stderr)
        # Where ::1 is localhost too, another user may listen there.
        self.assertEqual(office.read_address("localhost:8080"), ("127.0.0.1", 8080))
        self.address = "127.0.0.1:8080"
        for number in ("0", "01", "1e3", "1000000000000000000"):
            ran = subprocess.run(self.command("reports_from_csv", number, "wages.csv"), cwd=self.folder,
                                 capture_output=True, timeout=60)
            self.assertEqual(ran.returncode, 2)
            self.assertIn(b"isn't from 1 to 999999999999999999", ran.stderr)


if __name__ == "__main__":
    run_tests()
