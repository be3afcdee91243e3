"""Sends batches of requests by examples/answer_log.py to a served office, and to what is none.

    python3 tests/answer_log.py [PROGRAM]

PROGRAM is crates/clear_app/out/clear_app where it isn't given, as `rt ci` leaves it.
"""

import datetime
import fcntl
import json
import os
import socket
import subprocess
import sys
import threading

# No __pycache__ is left beside the sources.
sys.dont_write_bytecode = True
from examples import AGAIN, REGISTRATION_LINE, REPORT_LINE, Scripts  # noqa: E402
from program import REGISTRATION  # noqa: E402
from program_under_test import run_tests  # noqa: E402
from serving import read_answer  # noqa: E402


class AnswerLog(Scripts):
    def entries(self):
        return [json.loads(line) for line in (self.folder / "log").read_text().splitlines()]

    def test_a_batch_that_broke_off_is_gone_on_with(self):
        # The office ends its connection behind the 1,000th answer, and here itself with it.
        first = 'POST /employers 1 {"employer":1001,"name":"Bau Süd","start":"2024-01"}\n'
        self.write("batch", first + "GET /employers/1001/owed -\n" * 1_000 + REPORT_LINE)
        self.open_office(count=1)
        fault = f"no answer from {self.address}: [Errno 111] Connection refused\n{AGAIN}"
        said = self.script("answer_log", "batch", "log", status=3, errors=fault)
        self.assertEqual(said, "sent: 1000, skipped: 0, refused: 0, left: 2\n")
        self.assertEqual(len(self.entries()), 1_000)
        with open(self.folder / "log", "a", encoding="utf-8") as log:
            log.write('{"time": "2024-')
        # Its port is free before its store is.
        self.server.wait(timeout=60)
        self.open_office()
        said = self.script("answer_log", "batch", "log")
        self.assertEqual(said, "sent: 2, skipped: 1000, refused: 0\n")
        self.assertEqual(self.script("answer_log", "batch", "log"), "sent: 0, skipped: 1002, refused: 0\n")
        entries = self.entries()
        self.assertEqual(len(entries), 1_002)
        for entry in entries:
            datetime.datetime.fromisoformat(entry.pop("time"))
        self.assertEqual(entries[0], {"request": first.strip(), "status": "200 OK", "answer": '{"done":true}'})
        self.assertEqual(entries[-1]["answer"], '{"charge":20,"version":1}')

    def test_a_log_that_cannot_be_read_again(self):
        """As a window, a pipe or a device; of some what is read has no end."""
        self.write("batch", REPORT_LINE)
        for log in ("/dev/stdout", "/dev/null", "."):
            self.refuses_to_start(f"{log}: what was answered can't be read there again\n", "answer_log", "batch", log)

    def test_refusals(self):
        self.open_office()
        self.write("batch", REPORT_LINE + "POST /payouts -\n")
        refusals = ("POST /employers/1001/reports/2024-02 2: rule 11 UnknownEmployer\n"
                    "POST /payouts -: rule 8 BadBody Request-Number\n")
        said = self.script("answer_log", "batch", "log", status=1)
        self.assertEqual(said, f"{refusals}sent: 2, skipped: 0, refused: 2\n")
        self.assertEqual([(it["status"], json.loads(it["answer"])["rule"]) for it in self.entries()],
                         [("409 Conflict", 11), ("400 Bad Request", 8)])
        # A refusal is an answer, and is told by each run.
        self.assertEqual(self.script("answer_log", "batch", "log", status=1),
                         f"{refusals}sent: 0, skipped: 2, refused: 2\n")
        # A wrong key ends the batch, and the right one goes on with it.
        self.write("no.key", "nobody\n")
        self.write("batch", REGISTRATION_LINE + "GET /suspense -\n")
        fault = "stopped: rule 6 UnknownKey\n"
        said = self.script("answer_log", "batch", "log", key="no.key", status=1, errors=fault)
        self.assertEqual(said, "sent: 0, skipped: 0, refused: 0, left: 2\n")
        self.assertEqual(self.script("answer_log", "batch", "log"), "sent: 2, skipped: 0, refused: 0\n")

    def test_what_the_day_refuses_is_sent_again(self):
        self.open_office()
        self.ask_desk(REGISTRATION)
        self.close_office()
        self.open_office("2024-04-29")
        # (the ledger day is the 30th)
        self.write("batch", 'POST /employers 2 {"employer":1002,"name":"Bau West","start":"2024-01"}\n')
        self.assertEqual(self.script("answer_log", "batch", "log", status=1),
                         "POST /employers 2: rule 10 DayBack 2024-04-30\nsent: 1, skipped: 0, refused: 1\n")
        self.close_office()
        self.open_office()
        self.assertEqual(self.script("answer_log", "batch", "log"), "sent: 1, skipped: 0, refused: 0\n")
        self.assertEqual([it["status"] for it in self.entries()], ["409 Conflict", "200 OK"])
        # A month that is ahead.
        self.write("batch", 'POST /employers/1001/reports/2024-05 3 {"lines":[{"gross":100,"worker":8}]}\n')
        refusal = "POST /employers/1001/reports/2024-05 3: rule 14 MonthAhead\n"
        self.assertEqual(self.script("answer_log", "batch", "log", status=1),
                         f"{refusal}sent: 1, skipped: 0, refused: 1\n")
        self.close_office()
        self.open_office("2024-05-01")
        self.assertEqual(self.script("answer_log", "batch", "log"), "sent: 1, skipped: 0, refused: 0\n")
        self.assertEqual(self.entries()[-1]["answer"], '{"charge":20,"version":1}')

    def test_what_the_key_refuses_is_sent_again(self):
        """As with the key of another number of the firm: the log skips nothing under the right one."""
        self.open_office()
        self.ask_desk(REGISTRATION)
        self.write("other.key", "k1002\n")
        self.write("batch", REPORT_LINE)
        refusal = "POST /employers/1001/reports/2024-02 2: rule 7 NotYours\n"
        for _ in range(2):
            self.assertEqual(self.script("answer_log", "batch", "log", key="other.key", status=1),
                             f"{refusal}sent: 1, skipped: 0, refused: 1\n")
        self.assertEqual(self.script("answer_log", "batch", "log", key="firm.key"),
                         "sent: 1, skipped: 0, refused: 0\n")
        self.assertEqual(self.entries()[-1]["answer"], '{"charge":20,"version":1}')

    def test_a_command_that_stands_twice(self):
        """Under one number it would be done once: nothing is sent. A question may come again, and so may a
        number that a refusal left free."""
        claim, body = "POST /employers/1001/claims 3 ", '{"cents":100,"worker":8}'
        # However the body is written.
        for again in (body, body.replace(":", ": "), '{"worker":8,"cents":100}'):
            self.write("batch", f"{claim}{body}\n\nGET /suspense -\n{claim}{again}\n")
            self.refuses_to_start("batch: line 4 is line 1 again, under its number: it would be done once\n",
                                  "answer_log", "batch", "log")
        self.open_office()
        self.write("batch", REPORT_LINE + REGISTRATION_LINE + 2 * "GET /employers/1001/owed 7\n"
                   + REPORT_LINE.replace(":100,", ":200,"))
        self.assertEqual(self.script("answer_log", "batch", "log", status=1),
                         "POST /employers/1001/reports/2024-02 2: rule 11 UnknownEmployer\n"
                         "sent: 5, skipped: 0, refused: 1\n")
        self.assertEqual(self.entries()[-1]["answer"], '{"charge":40,"version":1}')

    def test_a_page_that_is_no_offices(self):
        """It is no answer: the request is sent by the next run."""
        self.open_office()
        right = self.address
        self.write("batch", REGISTRATION_LINE)
        for page in (b"HTTP/1.1 400 Bad Request\r\nContent-Length: 6\r\n\r\n<html>",
                     b"HTTP/1.1 404 Not Found\r\nContent-Length: 2\r\n\r\n{}",
                     b"HTTP/1.1 404 Not Found\r\nContent-Length: 10\r\n\r\n{\"rule\":4}",
                     b"HTTP/1.1 200 OK\r\nContent-Length: 4\r\n\r\nnull",
                     b"HTTP/1.1 200 OK\r\nContent-Length: 2\r\n\r\n{}",
                     b"HTTP/1.1 200 OK\r\nContent-Length: 15\r\n\r\n{\"status\":\"up\"}",
                     # What an office answers, but not to this request, and what looks like a document.
                     b"HTTP/1.1 200 OK\r\nContent-Length: 24\r\n\r\n{\"charge\":20,\"version\":1}",
                     b"HTTP/1.1 200 OK\r\nContent-Length: 9\r\n\r\nready 1\n\n"):
            with socket.create_server(("127.0.0.1", 0)) as listener:
                self.address = f"127.0.0.1:{listener.getsockname()[1]}"

                def answer(page=page, listener=listener):
                    peer, _ = listener.accept()
                    with peer:
                        read_answer(peer)
                        peer.sendall(page)

                threading.Thread(target=answer, daemon=True).start()
                told = page[9:page.index(b"\r")].decode()
                said = self.script("answer_log", "batch", "log", status=3,
                                   errors=f"no answer of an office: {told}\n{AGAIN}")
                self.assertEqual((said, self.entries()), ("sent: 0, skipped: 0, refused: 0, left: 1\n", []))
        self.address = right
        self.assertEqual(self.script("answer_log", "batch", "log"), "sent: 1, skipped: 0, refused: 0\n")

    def test_a_log_in_which_pages_stand_for_answers(self):
        """As an earlier build wrote it: what stands behind them was never sent."""
        self.open_office()
        requests = [REGISTRATION_LINE, "GET /employers/1001/owed -\n", "GET /rates -\n", "POST /payouts 6\n",
                    "GET /suspense -\n"]
        pages = (("400 Bad Request", "<html>"), ("200 OK", "{}"), ("200 OK", 10_000 * "["), ("200 OK", "ready 1\n\n"),
                 ("200 OK", "suspense 2024-04-30\nlines 0\n"))
        self.write("batch", "".join(requests))
        self.write("log", "".join(
            f'{json.dumps({"time": "", "request": request.strip(), "status": status, "answer": page})}\n'
            for request, (status, page) in zip(requests, pages)))
        self.assertEqual(self.script("answer_log", "batch", "log", status=1), "GET /rates -: rule 5 BadMethod\n"
                         "POST /payouts 6: rule 29 NothingToPay\nsent: 4, skipped: 1, refused: 2\n")
        self.assertEqual([it["answer"][:13] for it in self.entries()[5:]],
                         ['{"done":true}', '{"arrears":0,', '{"detail":"",', '{"detail":"",'])

    def test_two_batches_at_once(self):
        self.open_office()
        self.write("batch", "GET /suspense -\n")
        self.assertEqual(self.script("answer_log", "batch", "log"), "sent: 1, skipped: 0, refused: 0\n")
        with open(self.folder / "log", "ab") as log:
            fcntl.flock(log, fcntl.LOCK_EX)
            self.refuses_to_start("log: another batch is written into it\n", "answer_log", "batch", "log")
        self.assertEqual(len(self.entries()), 1)

    def test_what_is_no_answer(self):
        self.open_office()
        # The office had no memory.
        self.write("log", '{"request": "GET /suspense -", "status": "503 Service Unavailable"}\n')
        self.write("batch", "GET /suspense -\n")
        self.assertEqual(self.script("answer_log", "batch", "log"), "sent: 1, skipped: 0, refused: 0\n")

    def test_a_letter_that_standard_output_has_not(self):
        self.write("batch", "GET /suspense -\n")
        answer = '{"detail":"Süd","name":"BadBody","rule":8}'
        entry = {"time": "", "request": "GET /suspense -", "status": "400 Bad Request", "answer": answer}
        self.write("log", json.dumps(entry) + "\n")
        self.address = "127.0.0.1:1"
        ran = subprocess.run(self.command("answer_log", "batch", "log"), cwd=self.folder, capture_output=True,
                             timeout=60, env={**os.environ, "PYTHONIOENCODING": "ascii"})
        told = b"GET /suspense -: rule 8 BadBody S?d\nsent: 0, skipped: 1, refused: 1\n"
        self.assertEqual((ran.returncode, ran.stdout, ran.stderr), (1, told, b""))

    def test_wrong_files(self):
        for line in ("DELETE /employers 1", "POST employers 1", "POST /employers 01 {}", "POST /employers",
                     'POST /employers 1 {"employer":1001', "POST /employers 1 " + 10_000 * "["):
            self.write("batch", f"GET /suspense -\n\n{line}\n")
            self.refuses_to_start("batch: line 3 is no request\n", "answer_log", "batch", "log")
        self.write("batch", "GET /suspense -\n")
        entry = '{"request": "GET /suspense -", "status": "200 OK"}\n'
        answers = [entry.replace("}", f', "answer": {it}}}') for it in ("5", "null", "{}", "[]")]
        for text in ("a line of something else\n", "a line without an end", "[1]\n", entry + "GET /suspense -",
                     '{"request": "GET /suspense -"}\n', 10_000 * "[" + "\n", *answers):
            path = self.write("log", text)
            self.refuses_to_start("log: no answer log\n", "answer_log", "batch", "log")
            self.assertEqual(path.read_text(), text)


if __name__ == "__main__":
    run_tests()
