"""Bank files and assignments at the limits of 100,000, registrations at that of 10,000, and requests at that of
50,000,000, on stores that another SQLite fills up to these, or sets to them.

    python3 tests/limits.py [PROGRAM]

PROGRAM is crates/clear_app/out/clear_app where it isn't given, as `rt ci` leaves it.
"""

import contextlib
import re
import sqlite3
import sys

# No __pycache__ is left beside the sources.
sys.dont_write_bytecode = True
from program_under_test import ProgramUnderTest, run_tests  # noqa: E402
from stores import HEADER, OTHER, REGISTRATION, request  # noqa: E402

MOST = 100_000
MOST_FIRMS = 10_000
MOST_REQUESTS = 50_000_000
# 2024-02-25 as a day number.
VALUE = 19_778
DONE = '{"done":true}'
OWED = request("/employers/1001/owed", 0, method="GET").replace(b"Request-Number: 0\r\n", b"")


def new(count, repeats=0):
    return f'{{"new":{count},"repeats":{repeats}}}'


def over(limit):
    return f'{{"detail":"{limit}","name":"OverLimit","rule":18}}'


class Limits(ProgramUnderTest):
    def setUp(self):
        super().setUp()
        self.init()
        self.sent = 10
        self.says([(REGISTRATION, DONE), (OTHER, DONE)])

    def fill(self, count, employer, purpose):
        """Puts so many lines, each with a serial of its own, into the store, as bank files would have brought them."""
        lines = [(f"L{serial}", serial) for serial in range(1, count + 1)]
        firm = "NULL" if employer is None else employer
        with contextlib.closing(sqlite3.connect(self.folder / "fund.db")) as store, store:
            store.executemany("INSERT INTO bank (reference, serial, value, named, employer, cents, purpose, note)"
                              f" VALUES (?1, ?2, {VALUE}, {firm}, {firm}, 100, '{purpose}', '')", lines)
            if employer is not None:
                store.executemany("INSERT INTO credits (employer, purpose, day, serial, cents, ref)"
                                  f" VALUES ({firm}, '{purpose}', {VALUE}, ?2, 100, ?1)", lines)
            store.execute("UPDATE meta SET serial = ?1", [count])

    def says(self, exchanges):
        """Sends the requests on one connection, and compares the bodies of the answers."""
        server = self.serving(1)
        answers = self.send(server, b"".join(sent for sent, _ in exchanges)).decode()
        self.assertEqual(self.ended(server), (0, "served 1\n", ""))
        self.assertEqual(re.findall(r"\r\n\r\n([^\r\n]*?)(?=HTTP/1\.1|$)", answers), [said for _, said in exchanges])

    def posted(self, path, body):
        self.sent += 1
        return request(path, self.sent, body)

    def file(self, *lines):
        return self.posted("/bank", HEADER + "".join(f"{line}\n" for line in lines))

    def assigned(self, reference, employer=1001):
        return self.posted("/assign", f'{{"employer":{employer},"reference":"{reference}"}}')

    def test_lines_in_suspense(self):
        self.fill(MOST - 1, None, "C")
        first, placed = "M1,2024-02-25,,100,C,", "M4,2024-02-25,1001,100,C,"
        second, unknown = "M2,2024-02-25,,100,C,", "M3,2024-02-25,7777,100,C,"
        self.says([
            (self.file(first), new(1)),
            (self.file(second), over("suspense")),
            (self.file(unknown), over("suspense")),
            (self.file(placed, second), over("suspense")),
            (self.file(placed), new(1)),
            (self.file(placed, first), new(0, 2)),
            (self.file(), new(0)),
            (self.assigned("M1"), DONE),
            (self.file(second, "M5,2024-02-25,1002,100,I,"), new(2)),
            (self.file(unknown), over("suspense")),
            (OWED, '{"arrears":0,"charged":0,"credited":200,"prepaid":200}')])

    def joins(self, employer):
        return self.posted("/employers", f'{{"employer":{employer},"name":"Bau {employer}","start":"2024-01"}}')

    def fill_firms(self, count, entries):
        """Puts so many firms beside the two into the store, and says how many requests were accepted."""
        with contextlib.closing(sqlite3.connect(self.folder / "fund.db")) as store, store:
            store.executemany("INSERT INTO employers SELECT ?1, name, start, last FROM employers WHERE no = 1001",
                              [(10_000 + place,) for place in range(count)])
            store.execute("UPDATE meta SET entries = ?1", [entries])

    def test_firms(self):
        self.fill_firms(MOST_FIRMS - 3, 2 * MOST_FIRMS)
        self.says([
            (self.joins(2001), DONE),
            (self.joins(2002), over("employers")),
            (self.joins(2001), '{"detail":"","name":"EmployerExists","rule":12}'),
            (self.joins(2003), over("employers"))])

    def test_few_firms_after_many_requests(self):
        self.fill_firms(1, MOST_FIRMS - 1)
        self.says([(self.joins(2001), DONE), (self.joins(2002), DONE), (self.joins(2003), DONE)])

    def test_a_full_book(self):
        """The last request that is taken, and one more, which has a fault besides; a repeat still has its reply."""
        with contextlib.closing(sqlite3.connect(self.folder / "fund.db")) as store, store:
            store.execute("UPDATE meta SET entries = ?1", [MOST_REQUESTS - 1])
        last = self.joins(2001)
        self.says([
            (last, DONE),
            (self.joins(2002), over("book")),
            (self.joins(2001), over("book")),
            (last, DONE),
            (last.replace(b"2001", b"2002"), '{"detail":"","name":"NumberReused","rule":9}'),
            (REGISTRATION, DONE),
            (OWED, '{"arrears":0,"charged":0,"credited":0,"prepaid":0}')])

    def test_credits_of_a_firm(self):
        self.fill(MOST - 1, 1001, "I")
        waiting = "M3,2024-02-25,,100,I,"
        self.says([
            (self.file("M1,2024-02-25,1001,100,I,"), new(1)),
            (self.file("M2,2024-02-25,1001,100,I,"), over("credits")),
            (self.file("M2,2024-02-25,1001,100,C,"), new(1)),
            (self.file(waiting, "M4,2024-02-25,1002,100,I,"), new(2)),
            (self.assigned("M3"), over("credits")),
            (self.assigned("M3", 1002), DONE)])


if __name__ == "__main__":
    run_tests()
