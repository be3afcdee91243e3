"""Runs the built program as its users do: by its words, on real files, over real connections.

    python3 tests/program.py [PROGRAM]

PROGRAM is crates/clear_app/out/clear_app where it isn't given, as `rt ci` leaves it. Each status and each kind
of message that can come today is met at least once. Where the tests run as root, the program runs as nobody, since
root may write everywhere.
"""

import contextlib
import os
import resource
import signal
import socket
import sqlite3
import struct
import sys
import time

# No __pycache__ is left beside the sources.
sys.dont_write_bytecode = True
from program_under_test import (  # noqa: E402
    CALLERS, DAY, NOBODY, RATES, ROOT, ROW_2024, ROW_2025, ProgramUnderTest, run_tests)

MAX_FILE = 4_194_304

# What the requests of the first run are answered: the gate compares it with what the program writes.
FIRST_REQUESTS = (ROOT / "crates/clear_app/stdin").read_bytes()
FIRST_ANSWERS = (ROOT / "crates/clear_app/stdout").read_bytes()

HEADER = "reference,value_date,employer,cents,purpose,note\n"
BANK = HEADER + "B1,2024-02-25,1001,150000,C,\nB2,2024-04-21,1001,200000,,January rest\n"

# Worked out by hand: 2,000.00 for January and 1,000.10 for February at 20 per cent, due on the 20th of the
# next month; three begun months of January's payments and two of February's bear 1 per cent each.
STATEMENT = """statement 1001 2024-04-30
name Bau Nord
member 2024-01 -
charge 2024-01 due 2024-02-20 version 1        2000.00           0.00          30.00
  paid 2024-02-25        1500.00 B1
  paid 2024-04-21         500.00 B2
charge 2024-02 due 2024-03-20 version 1        1000.10           0.00          20.00
  paid 2024-04-21        1000.10 B2
missing 2024-03
prepaid         499.90
arrears           0.00
interest          50.00
"""


def post(path, number, body, key="desk"):
    """The bytes of a request with a body."""
    body = body.encode()
    head = f"POST {path} HTTP/1.1\r\nHost: office\r\nOffice-Key: {key}\r\nRequest-Number: {number}\r\n"
    return f"{head}Content-Length: {len(body)}\r\n\r\n".encode() + body


REGISTRATION = post("/employers", 1, '{"employer":1001,"name":"Bau Nord","start":"2024-01"}')
JANUARY = post("/employers/1001/reports/2024-01", 1, '{"lines":[{"gross":1000000,"worker":7}]}', "k1001")
FEBRUARY = post("/employers/1001/reports/2024-02", 2, '{"lines":[{"gross":500050,"worker":7}]}', "k1001")


def send_by_bytes(peer, data):
    """Sends each byte by itself, as far as they are taken."""
    with contextlib.suppress(BrokenPipeError):
        for byte in data:
            peer.send(bytes((byte,)))


def no_room():
    """No file takes a byte behind its first 4,096."""
    signal.signal(signal.SIGXFSZ, signal.SIG_IGN)
    resource.setrlimit(resource.RLIMIT_FSIZE, (4_096, 4_096))


class Program(ProgramUnderTest):
    """The folder has a bank file too."""

    def setUp(self):
        super().setUp()
        self.write("bank.csv", BANK)

    def filled(self):
        """A store with the firm 1001 and its reports for two months."""
        self.init()
        server = self.serving(1)
        answers = self.send(server, REGISTRATION + JANUARY + FEBRUARY)
        self.assertEqual(answers.count(b"HTTP/1.1 200 OK"), 3, answers)
        self.assertEqual(self.ended(server), (0, "served 1\n", ""))


class Words(Program):
    """The words are judged before any file is looked at."""

    def test_lines_that_are_not_understood(self):
        for line in [
            "push fund.db",
            "statement fund.db",
            "init fund.db rates.toml more",
            "init -x rates.toml",
            "--version",
            "migrate fund.db rates.toml",
            "statement fund.db 2024-4-30 1001",
            "statement fund.db 2024-04-31 1001",
            "statement fund.db 2024-04-30 0",
            "statement fund.db 2024-04-30 100000000",
            "import fund.db 2024-04-30 0 bank.csv",
            "import fund.db 2024-04-30 01 bank.csv",
            "serve fund.db callers.toml 2024-04-30 0 1",
            "serve fund.db callers.toml 2024-04-30 65536 1",
            "serve fund.db callers.toml 2024-04-30 8080 0",
            "serve fund.db callers.toml 2024-04-30 8080 1000001",
            "migrate",
            "look",
            "look fund.db more",
            "check rates.toml",
            "check Rates rates.toml",
            "backup fund.db",
            "backup fund.db copy.db more",
        ]:
            self.expect(line.split(), 2, "", "fault command line\n")
        self.assertFalse((self.folder / "fund.db").exists())

    def test_a_word_that_is_no_text(self):
        self.expect([b"init", b"\xff", b"rates.toml"], 2, "", "fault command line\n")

    def test_words_that_begin_with_a_minus(self):
        self.expect(["init", "--", "-x", "rates.toml"], 0, "schema 1\n")
        self.assertTrue((self.folder / "-x").exists())

    def test_help(self):
        for line in ("help", "-h", "--help", "help init", "init --help"):
            status, output, errors = self.run_program(*line.split())
            self.assertEqual((status, errors), (0, ""))
            self.assertIn("Usage: clearing", output)

    def test_help_says_what_each_word_is(self):
        subcommands = {
            "init": ("STORE", "RATES"),
            "stream": ("RATES", "CALLERS", "DAY"),
            "serve": ("STORE", "CALLERS", "DAY", "PORT", "COUNT"),
            "import": ("STORE", "DAY", "NUMBER", "FILE"),
            "statement": ("STORE", "DAY", "EMPLOYER"),
            "migrate": ("STORE",),
            "look": ("STORE",),
            "check": ("KIND", "FILE"),
            "backup": ("STORE", "FILE"),
        }
        for name, words in subcommands.items():
            status, output, errors = self.run_program("help", name)
            self.assertEqual((status, errors), (0, ""))
            usage = " ".join(f"<{word}>" for word in words)
            self.assertIn(f"Usage: clearing {name} {usage}\n", output)
            for word in words:
                self.assertRegex(output, rf"(?m)^  <{word}> +\S")
            if "DAY" in words:
                self.assertRegex(output, r"(?m)^  <DAY> +YYYY-MM-DD\b")


class Init(Program):
    def test_a_new_store(self):
        self.init()
        with sqlite3.connect(self.folder / "fund.db") as store:
            self.assertEqual(store.execute("PRAGMA integrity_check").fetchall(), [("ok",)])
            self.assertEqual(store.execute("SELECT schema FROM meta").fetchall(), [(1,)])
            self.assertEqual([row[1] for row in store.execute("PRAGMA table_info(charges)")],
                             ["employer", "month", "due", "cents", "open", "weight"])
            self.assertEqual(store.execute("SELECT first FROM rates ORDER BY first").fetchall(), [(288,), (300,)])
            indexes = store.execute(
                "SELECT m.name, m.tbl_name, group_concat(i.name) FROM sqlite_schema m, pragma_index_info(m.name) i "
                "WHERE m.type = 'index' AND m.sql IS NOT NULL GROUP BY m.name").fetchall()
            self.assertEqual(indexes, [("claims_by_list", "claims", "list"),
                                       ("claims_by_release", "claims", "released"),
                                       ("claims_by_worker", "claims", "worker,no"),
                                       ("reminders_by_employer", "reminders", "employer,run"),
                                       ("wages_by_worker", "wages", "worker,employer,month")])
        store.close()

    def test_an_empty_file_is_taken(self):
        self.write("fund.db", "")
        self.init()

    def test_a_store_is_left_as_it_is(self):
        self.filled()
        self.expect(["init", "fund.db", "rates.toml"], 3, "", "rule 43 WrongVersion 1\n")
        self.expect(["import", "fund.db", DAY, "2", "bank.csv"], 0, "new 2 repeats 0\n")

    def test_another_database_is_left_as_it_is(self):
        other = sqlite3.connect(self.write("fund.db", ""))
        other.execute("CREATE TABLE note (id INTEGER PRIMARY KEY, title TEXT NOT NULL)")
        other.commit()
        other.close()
        for words in (["init", "fund.db", "rates.toml"], ["statement", "fund.db", DAY, "1001"]):
            self.expect(words, 3, "", "rule 43 WrongVersion 0\n")

    def database(self, *statements):
        with contextlib.closing(sqlite3.connect(self.write("fund.db", ""))) as other:
            for statement in statements:
                other.execute(statement)
                other.commit()
        return (self.folder / "fund.db").read_bytes()

    def test_a_database_in_which_nothing_was_made_is_taken(self):
        self.assertTrue(self.database("CREATE TABLE note (title TEXT)", "DROP TABLE note"))
        self.init()

    def test_another_programs_meta_is_not_asked(self):
        for number in ("-5", "'one'", "1", "7"):
            with self.subTest(number):
                before = self.database("CREATE TABLE meta (one, schema)", f"INSERT INTO meta VALUES (1, {number})")
                for words in (["init", "fund.db", "rates.toml"], ["migrate", "fund.db"], ["statement", "fund.db", DAY, "1001"]):
                    self.expect(words, 3, "", "rule 43 WrongVersion 0\n")
                    self.assertEqual((self.folder / "fund.db").read_bytes(), before)

    def test_a_store_of_another_build_is_left_as_it_is(self):
        changes = (
            "CREATE TABLE sums (employer INTEGER NOT NULL, month INTEGER NOT NULL, cents INTEGER NOT NULL) STRICT",
            "CREATE INDEX wages_by_gross ON wages (gross)",
            "DROP INDEX wages_by_worker",
            "DROP INDEX claims_by_worker",
            "DROP INDEX claims_by_release",
            "DROP INDEX claims_by_list",
            "DROP INDEX reminders_by_employer",
            "CREATE VIEW firms AS SELECT no FROM employers",
            "ALTER TABLE runs ADD COLUMN level INTEGER",
            "ALTER TABLE lists RENAME COLUMN total TO sum",
            "DROP TABLE reminders",
            "ALTER TABLE charges DROP COLUMN weight",
            "ALTER TABLE charges RENAME COLUMN open TO unpaid",
            "DROP TABLE charges",
            "DROP TABLE pieces",
        )
        for change in changes:
            with self.subTest(change):
                self.filled()
                with sqlite3.connect(self.folder / "fund.db") as store:
                    store.execute(change)
                store.close()
                before = (self.folder / "fund.db").read_bytes()
                self.expect(["statement", "fund.db", DAY, "1001"], 3, "", "rule 41 Store\n")
                self.expect(["import", "fund.db", DAY, "2", "bank.csv"], 3, "", "rule 41 Store\n")
                self.expect(["init", "fund.db", "rates.toml"], 3, "", "rule 43 WrongVersion 1\n")
                self.assertEqual((self.folder / "fund.db").read_bytes(), before)
                for file in self.folder.glob("fund.db*"):
                    file.unlink()

    def test_rate_files(self):
        exchanged = ROW_2025 + ROW_2024
        for text in ["", "rate = 1\n", RATES.replace("20\n", "29\n"), exchanged, "rate =\n", b"\xff"]:
            self.write("rates.toml", text)
            self.expect(["init", "fund.db", "rates.toml"], 2, "", "fault file\n")
        self.expect(["init", "fund.db", "no.toml"], 2, "", "fault file\n")
        self.expect(["init", "fund.db", "."], 2, "", "fault file\n")
        self.assertFalse((self.folder / "fund.db").exists())

    def test_a_file_may_be_so_large(self):
        largest = (RATES + "#").ljust(MAX_FILE, ".")
        self.write("rates.toml", largest + ".")
        self.expect(["init", "fund.db", "rates.toml"], 2, "", "fault file\n")
        self.write("rates.toml", largest)
        self.init()

    def test_a_byte_order_mark(self):
        self.write("rates.toml", "\ufeff" + RATES)
        self.write("callers.toml", "\ufeff" + CALLERS)
        self.init()
        self.expect(["stream", "rates.toml", "callers.toml", DAY], 0, stdin=b"")
        for name, content in (("callers.toml", CALLERS), ("rates.toml", RATES)):
            self.write(name, "\ufeff\ufeff" + content)
            self.expect(["stream", "rates.toml", "callers.toml", DAY], 2, "", "fault file\n")

    def test_no_place_for_a_store(self):
        self.write("text", "a text of more than nothing\n" * 200)
        closed = self.folder / "closed"
        closed.mkdir(mode=0o755)
        for store in ("no/fund.db", ".", "text", ":memory:", "", "closed/fund.db" if NOBODY else "no/more"):
            self.expect(["init", store, "rates.toml"], 3, "", "rule 41 Store\n")
        self.assertEqual((self.folder / "text").read_text(), "a text of more than nothing\n" * 200)


class Import(Program):
    def test_a_file_twice(self):
        self.filled()
        for _ in range(2):
            self.expect(["import", "fund.db", DAY, "2", "bank.csv"], 0, "new 2 repeats 0\n")
        self.expect(["import", "fund.db", DAY, "3", "bank.csv"], 0, "new 0 repeats 2\n")

    def test_refusals(self):
        self.filled()
        records = {
            "rule 20 BadCsv 2:4": "B3,2024-04-21,1001,0,C,\n",
            "rule 20 BadCsv 3:0": "B3,2024-04-21,1001,1,C,\nB4,2024-04-21\n",
            "rule 22 ValueAhead 2": "B3,2024-05-01,1001,1,C,\n",
            "rule 21 RefConflict 3": "B3,2024-04-21,1001,1,C,\nB3,2024-04-21,1001,2,C,\n",
            "rule 18 OverLimit file": "B3,2024-04-21,1001,1,C,\n" * 10_001,
        }
        for refusal, lines in records.items():
            self.write("bad.csv", HEADER + lines)
            self.expect(["import", "fund.db", DAY, "2", "bad.csv"], 1, "", refusal + "\n")
        self.expect(["import", "fund.db", "2024-04-29", "2", "bank.csv"], 1, "", f"rule 10 DayBack {DAY}\n")
        self.expect(["import", "fund.db", DAY, "1", "bank.csv"], 1, "", "rule 9 NumberReused\n")

    def test_files(self):
        self.filled()
        self.write("large.csv", HEADER.ljust(MAX_FILE + 1, "\n"))
        for file in ("no.csv", ".", "large.csv"):
            self.expect(["import", "fund.db", DAY, "2", file], 2, "", "fault file\n")
        # The file is judged before the store.
        self.expect(["import", "no.db", DAY, "2", "no.csv"], 2, "", "fault file\n")

    def test_a_store_that_is_in_use(self):
        self.filled()
        server = self.serving(1)
        with self.connect(server) as peer:
            self.expect(["import", "fund.db", DAY, "2", "bank.csv"], 3, "", "rule 41 Store\n")
            peer.shutdown(socket.SHUT_WR)
            self.assertEqual(self.read_all(peer), b"")
        self.assertEqual(self.ended(server), (0, "served 1\n", ""))

    def test_want_of_memory(self):
        self.filled()
        self.write("large.csv", HEADER.ljust(MAX_FILE, "\n"))
        small = {"preexec_fn": lambda: resource.setrlimit(resource.RLIMIT_AS, (1 << 23, 1 << 23))}
        self.expect(["import", "fund.db", DAY, "2", "large.csv"], 3, "", "rule 40 Memory\n", **small)


class Statement(Program):
    def test_a_statement(self):
        self.filled()
        self.run_program("import", "fund.db", DAY, "2", "bank.csv")
        self.expect(["statement", "fund.db", DAY, "1001"], 0, STATEMENT)

    def test_refusals(self):
        self.init()
        self.expect(["statement", "fund.db", DAY, "1002"], 1, "", "rule 11 UnknownEmployer\n")
        self.write("empty", "")
        self.expect(["statement", "empty", DAY, "1002"], 3, "", "rule 43 WrongVersion 0\n")

    def test_no_file_is_made(self):
        for line in ["statement no.db 2024-04-30 1001", "import no.db 2024-04-30 2 bank.csv",
                     "serve no.db callers.toml 2024-04-30 8080 1"]:
            self.expect(line.split(), 3, "", "rule 41 Store\n")
        self.assertFalse((self.folder / "no.db").exists())

    def test_a_damaged_store(self):
        self.filled()
        path = self.folder / "fund.db"
        content = bytearray(path.read_bytes())
        content[4096 + 8:4096 + 40] = b"\xff" * 32
        self.write("fund.db", bytes(content))
        self.expect(["statement", "fund.db", DAY, "1001"], 3, "", "rule 41 Store\n")


class Stream(Program):
    def test_the_first_run(self):
        for words in ([], ["stream", "sample", "sample", DAY], ["stream", "rates.toml", "callers.toml", DAY]):
            self.expect(words, 0, FIRST_ANSWERS.decode(), stdin=FIRST_REQUESTS)

    def test_no_request_and_more_than_the_most(self):
        self.expect([], 0)
        asked = b"GET /employers/1001/owed HTTP/1.1\r\nHost: office\r\nOffice-Key: k1001\r\n\r\n"
        head = "HTTP/1.1 409 Conflict\r\nContent-Type: application/json\r\nContent-Length: 48\r\n"
        body = '\r\n{"detail":"","name":"UnknownEmployer","rule":11}'
        last = "Connection: close\r\n"
        self.expect([], 0, (head + body) * 999 + head + last + body, stdin=asked * 1_001)

    def test_files_in_their_order(self):
        self.expect(["stream", "sample", "no.toml", DAY], 2, "", "fault file\n")
        self.expect(["stream", "no.toml", "sample", DAY], 2, "", "fault file\n")
        for callers in ("desk = -1\n", 'desk = "clerk"\n', "desk =\n"):
            self.write("callers.toml", callers)
            self.expect(["stream", "sample", "callers.toml", DAY], 2, "", "fault file\n")

    def test_a_further_member_and_what_is_missing(self):
        refused = '{"detail":"%s","name":"BadBody","rule":8}'
        further = post("/employers", 1, '{"employer":1001,"name":"Bau Nord","start":"2024-01","a\\"b":1}')
        self.assertIn(refused % 'a\\"b', self.run_program(stdin=further)[1])
        missing = REGISTRATION.replace(b"Request-Number: 1\r\n", b"")
        self.assertIn(refused % "Request-Number", self.run_program(stdin=missing)[1])

    def test_input_that_fails(self):
        with self.start(stdin=os.open(self.folder, os.O_RDONLY)) as running:
            output, errors = running.communicate(timeout=60)
        self.assertEqual((running.returncode, output, errors), (3, b"", b"fault stream\n"))

    def test_the_most_reads(self):
        """Each packet is a read. The request that ends with the last read is answered, one that needs a further one isn't."""
        head = b"GET /suspense HTTP/1.1\r\nHost: office\r\nOffice-Key: desk\r\nConnection: close\r\nContent-Length: %06d\r\n\r\n"
        told = "suspense 2024-04-30\nlines 0\ntotal           0.00\n"
        for reads, status, errors in ((1_000_000, 0, ""), (1_000_001, 3, "fault stream\n")):
            sent = head % (reads - len(head % 0))
            sent += b"x" * (reads - len(sent))
            mine, its = socket.socketpair(socket.AF_UNIX, socket.SOCK_SEQPACKET)
            with self.start("stream", "sample", "sample", DAY, stdin=its) as running, mine:
                its.close()
                send_by_bytes(mine, sent)
                output, said = running.communicate(timeout=60)
            self.assertEqual((running.returncode, said.decode()), (status, errors))
            self.assertEqual(output.decode().endswith(told), status == 0)
            self.assertEqual(output == b"", status == 3)

    def test_other_rates_and_callers_than_the_samples(self):
        self.write("rates.toml", ROW_2024.replace("2000", "1500"))
        self.write("callers.toml", "clerk = 0\nnord = 1001\n")
        requests = FIRST_REQUESTS.replace(b"desk", b"clerk").replace(b"k1001", b"nord")
        answers = FIRST_ANSWERS.replace(b"200000", b"150000").decode()
        self.expect(["stream", "rates.toml", "callers.toml", DAY], 0, answers, stdin=requests)

    def test_output_that_fails(self):
        with open("/dev/full", "wb") as full:
            self.expect([], 3, "", "fault stream\n", stdin=FIRST_REQUESTS, stdout=full)
            self.expect(["init", "fund.db", "rates.toml"], 3, "", "fault stream\n", stdout=full)


class Serve(Program):
    def test_the_first_run(self):
        self.init()
        server = self.serving(1)
        self.assertEqual(self.send(server, FIRST_REQUESTS), FIRST_ANSWERS)
        self.assertEqual(self.ended(server), (0, "served 1\n", ""))

    def test_connections_one_after_another(self):
        self.init()
        server = self.serving(3)
        self.assertIn(b'{"done":true}', self.send(server, REGISTRATION))
        # A refused request doesn't change the status.
        self.assertIn(b'"rule":12', self.send(server, REGISTRATION.replace(b"Number: 1", b"Number: 2")))
        self.assertIn(b'"version":1', self.send(server, JANUARY))
        self.assertEqual(self.ended(server), (0, "served 3\n", ""))

    def test_requests_in_any_pieces(self):
        # Under their own numbers, the requests have the same answers on each connection.
        size = len(FIRST_REQUESTS)
        cuts = [[at] for at in range(1, size)] + [range(0, size, step) for step in (1, 2, 3, 7)]
        self.init()
        server = self.serving(len(cuts))
        for at in cuts:
            ends = [0, *at, size]
            with self.connect(server) as peer:
                peer.setsockopt(socket.IPPROTO_TCP, socket.TCP_NODELAY, 1)
                for start, end in zip(ends, ends[1:]):
                    peer.sendall(FIRST_REQUESTS[start:end])
                    time.sleep(0.0005)
                peer.shutdown(socket.SHUT_WR)
                self.assertEqual(self.read_all(peer), FIRST_ANSWERS, at)
        self.assertEqual(self.ended(server), (0, f"served {len(cuts)}\n", ""))

    def test_a_fault_of_the_store(self):
        self.init()
        server = self.serving(2, preexec_fn=no_room)
        head = b"HTTP/1.1 500 Internal Server Error\r\nContent-Type: application/json\r\nContent-Length: "
        close = b"\r\nConnection: close\r\n\r\n"
        failing = head + b"38" + close + b'{"detail":"","name":"Store","rule":41}'
        failed = head + b"39" + close + b'{"detail":"","name":"Failed","rule":42}'
        # Nothing is answered behind it, and then only that the office has failed.
        self.assertEqual(self.send(server, REGISTRATION + JANUARY), failing)
        self.assertEqual(self.send(server, JANUARY), failed)
        # It is told once, when it happens.
        self.assertEqual(self.ended(server), (0, "served 2\n", "rule 41 Store\n"))
        again = self.serving(1)
        self.assertIn(b'{"done":true}', self.send(again, REGISTRATION))
        self.assertEqual(self.ended(again), (0, "served 1\n", ""))

    def test_what_was_done_before_a_fault(self):
        """A failed office answers 42 to it as to all else; once it is started anew, it has its reply."""
        self.init()
        server = self.serving(1)
        self.assertIn(b'{"done":true}', self.send(server, REGISTRATION))
        self.assertEqual(self.ended(server), (0, "served 1\n", ""))
        server = self.serving(2, preexec_fn=no_room)
        self.assertIn(b'"rule":41', self.send(server, JANUARY))
        self.assertIn(b'"rule":42', self.send(server, REGISTRATION))
        self.assertEqual(self.ended(server), (0, "served 2\n", "rule 41 Store\n"))
        again = self.serving(1)
        self.assertIn(b'{"done":true}', self.send(again, REGISTRATION))
        self.assertEqual(self.ended(again), (0, "served 1\n", ""))

    def test_a_kept_reply_that_no_request_has(self):
        self.filled()
        # Of a registration that is done: a kind that there isn't, and a number that its kind doesn't have.
        for column, value, right in (("kind", 9, 1), ("c", 1, 0)):
            self.set_reply(column, value)
            server = self.serving(1)
            self.assertIn(b'{"detail":"","name":"Store","rule":41}', self.send(server, REGISTRATION))
            self.assertEqual(self.ended(server), (0, "served 1\n", "rule 41 Store\n"))
            self.set_reply(column, right)
        server = self.serving(1)
        self.assertIn(b'{"done":true}', self.send(server, REGISTRATION))
        self.assertEqual(self.ended(server), (0, "served 1\n", ""))

    def set_reply(self, column, value):
        """Writes a column of the request that the clerk sent first. Nobody else may write a store, so this damages it."""
        with sqlite3.connect(self.folder / "fund.db") as store:
            store.execute(f"UPDATE requests SET {column} = ? WHERE caller = 0 AND number = 1", (value,))
        store.close()

    def test_a_peer_that_goes_on_sending_reads_its_answer(self):
        self.init()
        server = self.serving(1)
        with self.connect(server) as peer:
            peer.sendall(b"no request\r\n\r\n" + b"x" * 20_000)
            self.assertIn(b"HTTP/1.1 400 Bad Request", self.read_all(peer))
        self.assertEqual(self.ended(server), (0, "served 1\n", ""))

    def test_a_fault_ends_its_connection_alone(self):
        self.init()
        server = self.serving(3)
        with self.connect(server) as reset:
            reset.sendall(REGISTRATION[:40])
            time.sleep(0.2)
            # It is closed with a reset.
            reset.setsockopt(socket.SOL_SOCKET, socket.SO_LINGER, struct.pack("ii", 1, 0))
        # One that sends nothing gives way, without a line.
        silent = self.connect(server)
        self.addCleanup(silent.close)
        self.assertIn(b'{"done":true}', self.send(server, REGISTRATION))
        self.assertEqual(self.ended(server), (0, "served 3\n", "fault net\n"))

    def test_a_port_that_is_taken(self):
        self.init()
        with socket.create_server(("127.0.0.1", 0)) as taken:
            port = str(taken.getsockname()[1])
            self.expect(["serve", "fund.db", "callers.toml", DAY, port, "1"], 3, "", "fault net\n")
            # The store is judged before the port, and the callers before the store.
            self.expect(["serve", "no.db", "callers.toml", DAY, port, "1"], 3, "", "rule 41 Store\n")
            self.expect(["serve", "no.db", "no.toml", DAY, port, "1"], 2, "", "fault file\n")

    def test_what_was_acknowledged_survives_a_kill(self):
        self.init()
        server = self.serving(9)
        with self.connect(server) as peer:
            peer.sendall(REGISTRATION + JANUARY + FEBRUARY)
            answers = b""
            while answers.count(b"HTTP/1.1 200 OK") < 3 or not answers.endswith(b"}"):
                answers += peer.recv(65536)
            server.kill()
        server.communicate()
        again = self.serving(1)
        self.assertEqual(self.send(again, REGISTRATION + JANUARY + FEBRUARY), answers)
        self.assertEqual(self.ended(again), (0, "served 1\n", ""))


if __name__ == "__main__":
    run_tests()
