"""A look at a store, copies of it, and its schema, by the built program on real files.

    python3 tests/stores.py [PROGRAM]

PROGRAM is crates/clear_app/out/clear_app where it isn't given, as `rt ci` leaves it.
"""

import os
import resource
import signal
import sqlite3
import stat
import sys

# No __pycache__ is left beside the sources.
sys.dont_write_bytecode = True
from program_under_test import DAY, NOBODY, ProgramUnderTest, run_tests  # noqa: E402

NEXT_DAY = "2024-05-02"
HEADER = "reference,value_date,employer,cents,purpose,note\n"
# Of these four lines the first and the third have a firm that is registered.
BANK = HEADER + ("B1,2024-02-25,1001,150000,C,\nB9,2024-04-21,,5000,,\n"
                 "B2,2024-04-21,1001,200000,,January rest\nB3,2024-04-22,7777,1250,I,\n")

NEW = """schema 1
ledger day -
requests 0
greatest number of the desk -
firms 0
reports 0
bank lines 0
in suspense 0 0.00
open claims 0
to pay out 0
last list -
last run -
"""

# What a build of schema 0 made: its tables in their order, without what is open of the contributions, and its indexes.
OLD_STORE = """
CREATE TABLE meta (one INTEGER PRIMARY KEY, schema INTEGER NOT NULL, day INTEGER, entries INTEGER NOT NULL,
    serial INTEGER NOT NULL, claims INTEGER NOT NULL, lists INTEGER NOT NULL, runs INTEGER NOT NULL) STRICT;
CREATE TABLE rates (first INTEGER PRIMARY KEY, contribution INTEGER NOT NULL, report_day INTEGER NOT NULL,
    due_day INTEGER NOT NULL, interest INTEGER NOT NULL, entitlement INTEGER NOT NULL) STRICT;
CREATE TABLE employers (no INTEGER PRIMARY KEY, name TEXT NOT NULL, start INTEGER NOT NULL, last INTEGER) STRICT;
CREATE TABLE reports (employer INTEGER NOT NULL, month INTEGER NOT NULL, version INTEGER NOT NULL,
    PRIMARY KEY (employer, month)) STRICT;
CREATE TABLE wages (employer INTEGER NOT NULL, month INTEGER NOT NULL, worker INTEGER NOT NULL, gross INTEGER NOT NULL,
    PRIMARY KEY (employer, month, worker)) STRICT;
CREATE TABLE bank (reference TEXT NOT NULL PRIMARY KEY, serial INTEGER NOT NULL UNIQUE, value INTEGER NOT NULL,
    named INTEGER, employer INTEGER, cents INTEGER NOT NULL, purpose TEXT NOT NULL, note TEXT NOT NULL) STRICT;
CREATE TABLE credits (employer INTEGER NOT NULL, purpose TEXT NOT NULL, day INTEGER NOT NULL, serial INTEGER NOT NULL,
    cents INTEGER NOT NULL, ref TEXT NOT NULL, PRIMARY KEY (employer, purpose, day, serial)) STRICT;
CREATE TABLE claims (no INTEGER PRIMARY KEY, employer INTEGER NOT NULL, worker INTEGER NOT NULL, cents INTEGER NOT NULL,
    state INTEGER NOT NULL, made INTEGER NOT NULL, released INTEGER, to_contributions INTEGER NOT NULL,
    to_interest INTEGER NOT NULL, paid INTEGER NOT NULL, list INTEGER) STRICT;
CREATE TABLE lists (no INTEGER PRIMARY KEY, day INTEGER NOT NULL, items INTEGER NOT NULL,
    total INTEGER NOT NULL) STRICT;
CREATE TABLE runs (no INTEGER PRIMARY KEY, day INTEGER NOT NULL, firms INTEGER NOT NULL) STRICT;
CREATE TABLE reminders (run INTEGER NOT NULL, employer INTEGER NOT NULL, level INTEGER NOT NULL,
    missing INTEGER NOT NULL, first INTEGER, arrears INTEGER NOT NULL, interest INTEGER NOT NULL,
    PRIMARY KEY (run, employer)) STRICT;
CREATE TABLE requests (caller INTEGER NOT NULL, number INTEGER NOT NULL, day INTEGER NOT NULL, command BLOB NOT NULL,
    kind INTEGER NOT NULL, a INTEGER NOT NULL, b INTEGER NOT NULL, c INTEGER NOT NULL,
    PRIMARY KEY (caller, number)) STRICT;
CREATE TABLE charges (employer INTEGER NOT NULL, month INTEGER NOT NULL, due INTEGER NOT NULL, cents INTEGER NOT NULL,
    PRIMARY KEY (employer, month)) STRICT;
CREATE TABLE pieces (employer INTEGER NOT NULL, month INTEGER NOT NULL, day INTEGER NOT NULL, serial INTEGER NOT NULL,
    cents INTEGER NOT NULL, ref TEXT NOT NULL, PRIMARY KEY (employer, month, day, serial)) STRICT;
CREATE INDEX wages_by_worker ON wages (worker, employer, month);
CREATE INDEX claims_by_worker ON claims (worker, no);
CREATE INDEX claims_by_release ON claims (released);
CREATE INDEX claims_by_list ON claims (list);
CREATE INDEX reminders_by_employer ON reminders (employer, run);
INSERT INTO meta VALUES (1, 0, 19843, 3, 1, 0, 0, 0);
INSERT INTO rates VALUES (288, 2000, 15, 20, 100, 1425);
INSERT INTO employers VALUES (1001, 'Bau Nord', 288, NULL);
INSERT INTO reports VALUES (1001, 288, 1);
INSERT INTO wages VALUES (1001, 288, 7, 1000000);
INSERT INTO bank VALUES ('B1', 1, 19778, 1001, 1001, 150000, 'C', '');
INSERT INTO credits VALUES (1001, 'C', 19778, 1, 150000, 'B1');
INSERT INTO charges VALUES (1001, 288, 19773, 200000);
INSERT INTO pieces VALUES (1001, 288, 19778, 1, 150000, 'B1');
INSERT INTO requests VALUES (0, 1, 19843, CAST('employer 1001 2024-01 Bau Nord' AS BLOB), 1, 0, 0, 0),
    (1001, 1, 19843, CAST('report 1001 2024-01 7:1000000' AS BLOB), 2, 1, 200000, 0),
    (0, 2, 19843, CAST('bank reference,value_date,employer,cents,purpose,note
B1,2024-02-25,1001,150000,C,
' AS BLOB), 3, 1, 0, 0);
"""


def request(path, number, body="", key="desk", method="POST"):
    body = body.encode()
    head = f"{method} {path} HTTP/1.1\r\nHost: office\r\nOffice-Key: {key}\r\nRequest-Number: {number}\r\n"
    return f"{head}Content-Length: {len(body)}\r\n\r\n".encode() + body


REGISTRATION = request("/employers", 7, '{"employer":1001,"name":"Bau Nord","start":"2024-01"}')
OTHER = request("/employers", 3, '{"employer":1002,"name":"Hoch Tief","start":"2024-01"}')
JANUARY = request("/employers/1001/reports/2024-01", 900, '{"lines":[{"gross":1000000,"worker":7}]}', "k1001")
REFUSED = request("/employers/1001/reports/2024-01", 901, '{"lines":[]}', "k1001")
CLAIMS = b"".join(
    request("/employers/1001/claims", 902 + at, '{"cents":10000,"worker":7}', "k1001") for at in range(4))


class Stores(ProgramUnderTest):
    def setUp(self):
        super().setUp()
        self.write("bank.csv", BANK)

    def served(self, requests, day=DAY):
        """The answers of an office of a day to these requests."""
        server = self.serving(1, day)
        answers = self.send(server, requests)
        self.assertEqual(self.ended(server), (0, "served 1\n", ""))
        return answers

    def filled(self):
        """A store with two firms, a report, four claims and four bank lines; some are refused."""
        self.init()
        answers = self.served(REGISTRATION + OTHER + JANUARY + REFUSED + CLAIMS)
        self.assertEqual(answers.count(b"HTTP/1.1 200 OK"), 7, answers)
        self.expect(["import", "fund.db", DAY, "12", "bank.csv"], 0, "new 4 repeats 0\n")

    def killed(self):
        """A store whose office was killed behind its answers, so that its log has what it accepted."""
        self.init()
        self.is_killed(REGISTRATION + JANUARY)

    def is_killed(self, requests):
        """An office of the store is killed once it has done two requests."""
        server = self.serving(2)
        with self.connect(server) as peer:
            peer.sendall(requests)
            answers = b""
            while answers.count(b"HTTP/1.1 200 OK") < 2 or not answers.endswith(b"}"):
                answers += peer.recv(65536)
            server.send_signal(signal.SIGKILL)
        server.communicate()

    def content(self):
        """The files but for logs, each of which gets a new head when its store is opened."""
        return {path.name: path.read_bytes() for path in self.folder.iterdir()
                if path.is_file() and not path.name.endswith("-wal")}

    def damaged(self):
        content = bytearray((self.folder / "fund.db").read_bytes())
        content[4096 + 8:4096 + 40] = b"\xff" * 32
        return content

    def change(self, name, statement):
        store = sqlite3.connect(self.folder / name)
        store.execute(statement)
        store.commit()
        store.close()

    def copy(self, name, *statements):
        """The store under another name, changed by these statements."""
        self.write(name, (self.folder / "fund.db").read_bytes())
        for it in statements:
            self.change(name, it)

    def old_store(self, name):
        """A store of schema 0, as one was left that nothing serves."""
        store = sqlite3.connect(self.write(name, ""))
        store.execute("PRAGMA journal_mode = WAL")
        store.executescript(OLD_STORE)
        store.close()

    def other_databases(self):
        """Files that aren't stores of this program, in a folder where there is one; and what each is refused with."""
        self.write("empty", "")
        self.write("text", "a text of more than nothing\n" * 200)
        self.write("other.db", "")
        self.change("other.db", "CREATE TABLE note (id INTEGER PRIMARY KEY, title TEXT NOT NULL)")
        # Each has a `meta` of its own, the first of them behind another table.
        self.write("behind.db", (self.folder / "other.db").read_bytes())
        self.write("own.db", "")
        for name in ("behind.db", "own.db"):
            self.change(name, "CREATE TABLE meta (one INTEGER PRIMARY KEY, schema INTEGER NOT NULL)")
            self.change(name, "INSERT INTO meta VALUES (1, 7)")
        self.write("damaged.db", bytes(self.damaged()))
        self.old_store("old.db")
        self.copy("later.db", "UPDATE meta SET schema = 7")
        self.copy("changed.db", "DROP INDEX claims_by_list")
        store, none, later = "rule 41 Store\n", "rule 43 WrongVersion 0\n", "rule 43 WrongVersion 7\n"
        return {
            "no.db": store, "no/fund.db": store, ".": store, "empty": none, "text": store, "damaged.db": store,
            "other.db": none, "behind.db": none, "own.db": none, "old.db": none, "later.db": later, "changed.db": store}


class Look(Stores):
    def test_a_new_store(self):
        self.init()
        self.expect(["look", "fund.db"], 0, NEW)

    def test_what_stands_there(self):
        self.filled()
        # Seven requests and the import. The firm's numbers are greater than the desk's, and B3's firm is unknown.
        self.expect(["look", "fund.db"], 0, """schema 1
ledger day 2024-04-30
requests 8
greatest number of the desk 12
firms 2
reports 1
bank lines 4
in suspense 2 62.50
open claims 4
to pay out 0
last list -
last run -
""")

    def test_releases_lists_and_runs(self):
        self.filled()
        # February and March are there too, and nothing is owed: what is released is paid out.
        months = b"".join(request(f"/employers/1001/reports/2024-0{month}", 910 + month, '{"lines":[]}', "k1001")
                          for month in (2, 3))
        answers = self.served(months + request("/claims/1/release", 20) + request("/claims/2/release", 21)
                              + request("/employers/1001/claims/3/withdraw", 920, key="k1001"), NEXT_DAY)
        self.assertEqual(answers.count(b"HTTP/1.1 200 OK"), 5, answers)
        # January was paid late by 150,000 and 50,000 cents, with one and two begun months.
        status, output, errors = self.run_program("look", "fund.db")
        self.assertEqual((status, errors), (0, ""))
        self.assertEqual(output.splitlines()[8:], ["open claims 1", "to pay out 2", "last list -", "last run -"])
        answers = self.served(request("/payouts", 22) + request("/reminders", 23), "2024-05-17")
        self.assertEqual(answers.count(b"HTTP/1.1 200 OK"), 2, answers)
        self.expect(["look", "fund.db"], 0, """schema 1
ledger day 2024-05-17
requests 15
greatest number of the desk 23
firms 2
reports 3
bank lines 4
in suspense 2 62.50
open claims 1
to pay out 0
last list 1 2024-05-17
last run 1 2024-05-17
""")

    def test_nothing_is_changed(self):
        self.filled()
        before = self.content()
        for _ in range(2):
            self.assertEqual(self.run_program("look", "fund.db")[0], 0)
        self.assertEqual(self.content(), before)

    def test_what_was_acknowledged_before_a_kill(self):
        self.killed()
        output = self.run_program("look", "fund.db")[1]
        self.assertEqual(output.splitlines()[1:6], [
            "ledger day 2024-04-30", "requests 2", "greatest number of the desk 7", "firms 1", "reports 1"])

    def test_no_store_at_the_path(self):
        self.filled()
        refused = self.other_databases()
        before = self.content()
        for path, told in {
            "no.db": "there is nothing at this path\n",
            "no/fund.db": "there is nothing at this path\n",
            ".": "this is a folder\n",
            "empty": "this file is empty\n",
            "text": "this file is no database, or a damaged one\n",
            "damaged.db": "its tables can't be read, or are others than this program's\n",
            "other.db": "this database is no store of this program, or one of schema 0\n",
            "behind.db": "this database is no store of this program, or one of schema 0\n",
            "own.db": "this database is no store of this program, or one of schema 0\n",
            "old.db": "this database is no store of this program, or one of schema 0\n",
            "later.db": "this store has schema 7, and this program's is 1\n",
            "changed.db": "its tables can't be read, or are others than this program's\n",
        }.items():
            with self.subTest(path):
                self.expect(["look", path], 3, "", refused[path] + told)
        self.assertEqual(self.content(), before)

    def test_a_store_with_a_second_name(self):
        self.filled()
        os.link(self.folder / "fund.db", self.folder / "second.db")
        for name in ("fund.db", "second.db"):
            self.expect(["look", name], 3, "", "rule 41 Store\nthis file can't be opened\n")
        (self.folder / "second.db").unlink()
        # By a symbolic link it is the same store, with the same log.
        os.symlink("fund.db", self.folder / "link.db")
        self.expect(["import", "link.db", DAY, "13", "bank.csv"], 0, "new 0 repeats 4\n")
        self.assertFalse((self.folder / "link.db-wal").exists())
        self.assertEqual(self.run_program("look", "fund.db")[1].splitlines()[2], "requests 9")

    def test_a_store_that_is_held(self):
        self.filled()
        server = self.serving(1)
        with self.connect(server) as peer:
            self.expect(["look", "fund.db"], 3, "", "rule 41 Store\nanother process holds this store\n")
            peer.shutdown(1)
            self.read_all(peer)
        self.assertEqual(self.ended(server), (0, "served 1\n", ""))


class Migrate(Stores):
    """No schema is brought over yet: a store has this program's, or is refused, and nothing changes."""

    def test_a_current_store(self):
        self.init()
        self.expect(["migrate", "fund.db"], 0, "schema 1\n")
        self.filled_further()
        before = self.content()
        for _ in range(2):
            self.expect(["migrate", "fund.db"], 0, "schema 1\n")
        self.assertEqual(self.content(), before)

    def filled_further(self):
        self.assertEqual(self.served(REGISTRATION + JANUARY).count(b"HTTP/1.1 200 OK"), 2)

    def test_what_was_acknowledged_before_a_kill(self):
        self.killed()
        self.expect(["migrate", "fund.db"], 0, "schema 1\n")
        # All is in the file of the store.
        (self.folder / "fund.db-wal").unlink()
        self.assertEqual(self.run_program("look", "fund.db")[1].splitlines()[2], "requests 2")

    def test_other_files(self):
        self.filled()
        refused = self.other_databases()
        before = self.content()
        for path, told in refused.items():
            with self.subTest(path):
                self.expect(["migrate", path], 3, "", told)
        self.assertEqual(self.content(), before)
        self.assertFalse((self.folder / "no.db").exists())
        self.assertFalse((self.folder / "empty-wal").exists())

    def test_numbers(self):
        self.filled()
        for number in (0, 2, 9, 2**63 - 1, -1, -2**63):
            told = f"rule 43 WrongVersion {number}\n" if number >= 0 else "rule 41 Store\n"
            with self.subTest(number):
                self.copy("copy.db", f"UPDATE meta SET schema = {number}")
                before = self.content()
                self.expect(["migrate", "copy.db"], 3, "", told)
                self.assertEqual(self.content(), before)

    def test_a_number_beside_other_tables(self):
        self.filled()
        for number in (0, 1, 5):
            told = "rule 41 Store\n" if number == 1 else f"rule 43 WrongVersion {number}\n"
            with self.subTest(number):
                self.copy("copy.db", f"UPDATE meta SET schema = {number}", "CREATE TABLE note (id INTEGER PRIMARY KEY)")
                self.expect(["migrate", "copy.db"], 3, "", told)
        self.copy("copy.db", "DELETE FROM meta")
        self.expect(["migrate", "copy.db"], 3, "", "rule 43 WrongVersion 0\n")

    def test_a_store_of_schema_0(self):
        """Each word that opens a store refuses it with its number, and nothing of it changes."""
        self.old_store("old.db")
        before, rows = self.content(), self.rows_of("old.db")
        refusal = "rule 43 WrongVersion 0\n"
        told = "this database is no store of this program, or one of schema 0\n"
        for words in (["migrate", "old.db"], ["init", "old.db", "rates.toml"], ["statement", "old.db", DAY, "1001"],
                      ["import", "old.db", DAY, "3", "bank.csv"], ["serve", "old.db", "callers.toml", DAY, "8080", "1"],
                      ["backup", "old.db", "copy.db"]):
            with self.subTest(words):
                self.expect(words, 3, "", refusal)
                self.assertEqual(self.content(), before)
        self.expect(["look", "old.db"], 3, "", refusal + told)
        self.assertEqual(self.content(), before)
        self.assertEqual(self.rows_of("old.db"), rows)

    def rows_of(self, name):
        """All rows of a database, by tables."""
        store = sqlite3.connect(self.folder / name)
        tables = [row[0] for row in store.execute("SELECT name FROM sqlite_schema WHERE type = 'table' ORDER BY rowid")]
        rows = {table: store.execute(f"SELECT * FROM {table}").fetchall() for table in tables}
        store.close()
        return rows

    def test_a_store_that_is_held(self):
        self.filled()
        server = self.serving(1)
        with self.connect(server) as peer:
            self.expect(["migrate", "fund.db"], 3, "", "rule 41 Store\n")
            peer.shutdown(1)
            self.read_all(peer)
        self.assertEqual(self.ended(server), (0, "served 1\n", ""))

    def test_a_closed_output(self):
        self.init()
        with open("/dev/full", "wb") as full:
            self.assertEqual(self.run_program("migrate", "fund.db", stdout=full), (3, "", "fault stream\n"))


class Backup(Stores):
    def test_a_copy_opens_by_itself(self):
        self.filled()
        self.expect(["backup", "fund.db", "copy.db"], 0, "copied, ledger day 2024-04-30\n")
        copy = self.folder / "copy.db"
        self.assertEqual(copy.read_bytes(), (self.folder / "fund.db").read_bytes())
        self.assertEqual((copy.stat().st_nlink, stat.S_IMODE(copy.stat().st_mode)), (1, 0o600))
        self.assertFalse((self.folder / "copy.db.part").exists())
        statement = self.run_program("statement", "fund.db", DAY, "1001")
        self.assertEqual(self.run_program("statement", "copy.db", DAY, "1001"), statement)
        # Both go on, each by itself.
        self.expect(["import", "copy.db", DAY, "13", "bank.csv"], 0, "new 0 repeats 4\n")
        self.assertEqual(self.run_program("look", "fund.db")[1].splitlines()[2], "requests 8")
        self.assertEqual(self.run_program("look", "copy.db")[1].splitlines()[2], "requests 9")

    def test_a_new_store(self):
        self.init()
        self.expect(["backup", "fund.db", "copy.db"], 0, "copied, ledger day -\n")

    def test_what_a_log_has_is_in_the_copy(self):
        self.killed()
        self.expect(["backup", "fund.db", "copy.db"], 0, "copied, ledger day 2024-04-30\n")
        for name in ("fund.db", "fund.db-wal"):
            (self.folder / name).unlink()
        self.assertEqual(self.run_program("look", "copy.db")[1].splitlines()[2], "requests 2")

    def test_a_store_behind_a_link(self):
        self.init("real.db")
        os.symlink("real.db", self.folder / "fund.db")
        self.is_killed(REGISTRATION + JANUARY)
        self.expect(["backup", "fund.db", "copy.db"], 0, "copied, ledger day 2024-04-30\n")
        self.assertEqual(self.run_program("look", "copy.db")[1].splitlines()[2], "requests 2")

    def test_no_room_for_what_a_log_has(self):
        """The store's own file can't grow, so that it lacks what its log has: no copy is made of it."""
        self.init()
        size = (self.folder / "fund.db").stat().st_size
        lines = ",".join(f'{{"worker":{10_000_000 + 7 * it},"gross":250000}}' for it in range(500))
        report = request("/employers/1001/reports/2024-01", 900, f'{{"lines":[{lines}]}}', "k1001")
        self.is_killed(REGISTRATION + report)

        def full():
            signal.signal(signal.SIGXFSZ, signal.SIG_IGN)
            resource.setrlimit(resource.RLIMIT_FSIZE, (size, size))

        self.expect(["backup", "fund.db", "copy.db"], 3, "", "rule 41 Store\n", preexec_fn=full)
        self.assertEqual(sorted(path.name for path in self.folder.glob("copy*")), [])
        self.expect(["backup", "fund.db", "copy.db"], 0, "copied, ledger day 2024-04-30\n")
        self.assertEqual(self.run_program("look", "copy.db")[1].splitlines()[2], "requests 2")

    def test_what_stands_is_left(self):
        self.filled()
        before = self.content()
        os.symlink("nowhere", self.folder / "link")
        (self.folder / "folder").mkdir()
        for path in ("fund.db", "bank.csv", "link", "folder", ".", "no/copy.db", ""):
            with self.subTest(path):
                self.expect(["backup", "fund.db", path], 2, "", "fault file\n")
        # Names that are taken for something else: a copy by a store or by a later copy, or no file by the words.
        for path in ("fund.db-shm", "copy.db-wal", "copy.db-journal", "monday.part", "file:copy.db", ":memory:"):
            with self.subTest(path):
                self.expect(["backup", "fund.db", path], 2, "", "fault file\n")
        self.assertEqual(self.content(), before)
        # The log of a store that was there, or a journal of sqlite3, would be taken for that of the copy.
        for name in ("copy.db-wal", "copy.db-journal"):
            left = self.write(name, "")
            self.expect(["backup", "fund.db", "copy.db"], 2, "", "fault file\n")
            self.assertFalse((self.folder / "copy.db").exists())
            left.unlink()

    def test_a_look_at_an_earlier_copy_leaves_a_log(self):
        self.filled()
        for told in ("copied, ledger day 2024-04-30\n", ""):
            self.expect(["backup", "fund.db", "copy.db"], 0 if told else 2, told, "" if told else "fault file\n")
            self.run_program("look", "copy.db")
            (self.folder / "copy.db").unlink(missing_ok=True)
        (self.folder / "copy.db-wal").unlink()
        self.expect(["backup", "fund.db", "copy.db"], 0, "copied, ledger day 2024-04-30\n")

    def test_a_closed_output(self):
        self.filled()
        with open("/dev/full", "wb") as full:
            self.expect(["backup", "fund.db", "copy.db"], 3, "", "fault stream\n", stdout=full)
        self.assertEqual((self.folder / "copy.db").read_bytes(), (self.folder / "fund.db").read_bytes())

    def test_what_an_earlier_copy_left(self):
        self.filled()
        part = self.write("copy.db.part", "half of a copy")
        if NOBODY:
            os.chown(part, NOBODY, NOBODY)
        with part.open("rb") as held:
            self.expect(["backup", "fund.db", "copy.db"], 0, "copied, ledger day 2024-04-30\n")
            # What another user may have made isn't written into: it would be theirs.
            self.assertNotEqual((self.folder / "copy.db").stat().st_ino, os.fstat(held.fileno()).st_ino)
            self.assertEqual(held.read(), b"half of a copy")
        self.assertEqual((self.folder / "copy.db").read_bytes(), (self.folder / "fund.db").read_bytes())
        self.assertFalse((self.folder / "copy.db.part").exists())

    def test_the_store_is_no_part_of_a_copy(self):
        self.filled()
        (self.folder / "fund.db").rename(self.folder / "copy.db.part")
        self.assertEqual(self.run_program("look", "copy.db.part")[0], 0)
        os.symlink("copy.db.part", self.folder / "second.db.part")
        os.symlink("nowhere", self.folder / "third.db.part")
        (self.folder / "fourth.db.part").mkdir()
        before = self.content()
        for copy in ("copy.db", "second.db", "third.db", "fourth.db"):
            with self.subTest(copy):
                self.expect(["backup", "copy.db.part", copy], 2, "", "fault file\n")
        self.assertEqual(self.content(), before)

    def test_whole_or_not_at_all(self):
        self.filled()
        size = (self.folder / "fund.db").stat().st_size

        def half():
            signal.signal(signal.SIGXFSZ, signal.SIG_IGN)
            resource.setrlimit(resource.RLIMIT_FSIZE, (size // 2, size // 2))

        self.expect(["backup", "fund.db", "copy.db"], 2, "", "fault file\n", preexec_fn=half)
        self.assertEqual(sorted(path.name for path in self.folder.glob("copy*")), [])
        self.expect(["backup", "fund.db", "copy.db"], 0, "copied, ledger day 2024-04-30\n")

    def test_no_store(self):
        self.write("text", "a text of more than nothing\n" * 200)
        for path, told in {"no.db": "rule 41 Store\n", "text": "rule 41 Store\n", ".": "rule 41 Store\n"}.items():
            self.expect(["backup", path, "copy.db"], 3, "", told)
        self.assertFalse((self.folder / "copy.db").exists())

    def test_while_it_is_served(self):
        self.filled()
        server = self.serving(1)
        with self.connect(server) as peer:
            self.expect(["backup", "fund.db", "copy.db"], 3, "", "rule 41 Store\n")
            peer.shutdown(1)
            self.read_all(peer)
        self.assertEqual(self.ended(server), (0, "served 1\n", ""))
        self.assertFalse((self.folder / "copy.db").exists())


if __name__ == "__main__":
    run_tests()
