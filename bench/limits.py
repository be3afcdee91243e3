#!/usr/bin/env python3
"""How large a book may get: what a store takes and what requests cost at 10,000 to 1,000,000 requests.

    python3 bench/limits.py [PROGRAM] [--requests 10000,100000,1000000] [--repeats 3] [--rows 100000]
                            [--alike 2600] [--folder FOLDER]

PROGRAM is the built program where none is named. For each size a new store gets so many requests: as many
firms as need 12 months each for that, 10,000 at most, and then more months. Each month each firm reports ten
workers and pays by the bank's file: the month in full in the first year, and more than that from then on,
when the rate is less. For each store: the size of its file; how long a start takes by the clock and by
processor time, and the most memory that the program has had by then; and the milliseconds, by the processor
time of the server's process, the least of --repeats turns, of a report of the newest month (the mean of 20
firms), of what a firm owes and of its statement (of 20), of a bank file of 100 lines of 100 firms (of a day
before all payments but the first ones, so that nearly all pieces of these firms are put anew), and of a
reminder run over all firms.

Stores of up to --rows requests are filled through the office, one request after another. For quickness the
rows of larger ones are put by Python's own sqlite3 into the tables that the program's `init` made, while it
doesn't run, in the order in which serving puts them, each contribution with what is open of it, and its
weight, as the last payment leaves them. That this comes to the same is looked at in each such run: two
stores of --alike requests over the months of the largest one are filled, one in each way, and compared:
their forms, and all tables row by row, by rowids. The script ends where they differ. How rows are spread
over pages is each program's own matter, so the sizes of these two files are told below the table.

The files lie below FOLDER, /dev/shm where there is one, so that the figures are the program's and not the
disk's.
"""
import contextlib
import os
import re
import sqlite3
import sys
import tempfile
import time
from collections import defaultdict
from datetime import date
from itertools import zip_longest

sys.dont_write_bytecode = True
import server  # noqa: E402
from accounts import RATE_ROWS, Account, begun_months, contribution  # noqa: E402
from serve import row, tell  # noqa: E402
from server import HEADER, Server, option_parser, request  # noqa: E402
from suspense import Desk, FILE, FIRST  # noqa: E402

MOST_FIRMS = 10_000
MONTHS = 12
WORKERS = range(1, 11)
GROSS = 350_000
BODY = '{"lines":[%s]}' % ",".join('{"gross":%d,"worker":%d}' % (GROSS, worker) for worker in WORKERS)
PAID = 700_000
SAMPLE = 20
# What a store has in the first month, by its tables.
FIRST_MONTH = 24 * 12
# For this script's own connection: SQLite doesn't keep it in the file.
CACHE_KIB = 1_000_000
FORM = ("journal_mode", "user_version", "application_id", "page_size", "auto_vacuum", "encoding")
# A start reads all rows, which takes minutes at the largest size.
server.OPENING = 3_600


def month_name(number):
    """The months are those from 2024-01 on."""
    return f"{2024 + number // 12}-{number % 12 + 1:02}"


def day_number(text):
    return date.fromisoformat(text).toordinal() - date(1970, 1, 1).toordinal()


def reference(no, month):
    return f"P{no}-{month_name(month)}"


def paid_on(month):
    return month_name(month) + "-28"


def files(numbers, month):
    """The bank's files of a month, and how many lines each has."""
    lines = [f"{reference(no, month)},{paid_on(month)},{no},{PAID},C,\n" for no in numbers]
    for first in range(0, len(lines), FILE):
        part = lines[first:first + FILE]
        yield HEADER + "".join(part), len(part)


class Book:
    """A store of so many requests, and what it took at the least."""

    def __init__(self, name, firms, months, options, folder):
        self.numbers, self.months = range(FIRST, FIRST + firms), months
        # All is done on a day behind the months.
        self.day = month_name(months + options.repeats) + "-28"
        folder = os.path.join(folder, name)
        self.server = Server("program", str(options.program), folder, self.day, "desk = 0\n")
        self.server.init()
        self.desk = Desk(self.server)
        self.least = {}

    def serve(self):
        """Fills the store through the office."""
        self.server.start()
        for no in self.numbers:
            self.desk.register(no)
        for month in range(self.months):
            for no in self.numbers:
                self.desk.post(f"/employers/{no}/reports/{month_name(month)}", BODY)
            for file, _ in files(self.numbers, month):
                self.desk.post("/bank", file)
        self.server.stop()

    def put_rows(self):
        """Fills the store by the rows that the same requests leave."""
        with contextlib.closing(sqlite3.connect(self.server.store())) as base:
            base.execute(f"PRAGMA cache_size = -{CACHE_KIB}")
            base.execute("PRAGMA synchronous = OFF")
            self.desk.sent = Rows(base, self.numbers, self.months, self.day).put()

    def fill(self, way):
        begun = time.perf_counter()
        way(self)
        self.filled = self.desk.sent
        tell(f"{self.filled:,} requests by {WAYS[way]} in {time.perf_counter() - begun:.0f} s")
        self.way = way

    def measure(self, turn):
        # A start brings in what the log of a killed office has; the second one is measured.
        self.server.start()
        self.server.stop()
        self.keep("start", self.server.start() * 1000)
        self.keep("start's processor", self.server.processor_seconds() * 1000)
        self.memory = int(re.search(r"VmHWM:\s+(\d+)", self.status())[1]) / 1024
        newest = month_name(self.months + turn)
        firms = [self.numbers[place * len(self.numbers) // SAMPLE] for place in range(SAMPLE)]
        post, take = self.desk.post, self.desk.take
        self.time("report", firms, lambda no: post(f"/employers/{no}/reports/{newest}", BODY))
        self.time("owed", firms, lambda no: take(request("GET", f"/employers/{no}/owed", "desk")))
        self.time("statement", firms, lambda no: take(request("GET", f"/employers/{no}/statement", "desk")))
        payers = [self.numbers[place * len(self.numbers) // 100] for place in range(100)]
        lines = "".join(f"Q{turn}-{place},2024-02-25,{no},100,C,\n" for place, no in enumerate(payers))
        self.time("file", [0], lambda _: post("/bank", HEADER + lines))
        if turn == 0:
            self.time("run", [0], lambda _: post("/reminders", ""))
        self.server.stop()

    def status(self):
        with open(f"/proc/{self.server.process.pid}/status") as status:
            return status.read()

    def time(self, kind, places, send):
        self.keep(kind, self.desk.measured(places, send) / len(places))

    def keep(self, kind, milliseconds):
        self.least[kind] = min(self.least.get(kind, float("inf")), milliseconds)

    def tell(self):
        size, took = os.path.getsize(self.server.store()), self.least
        row(f"{self.filled:,}", WAYS[self.way], f"{len(self.numbers):,}", f"{self.months:,}",
            f"{size / 1e6:,.1f} MB", f"{size / self.filled:,.0f}",
            *(f"{took[kind] / 1000:.2f} s" for kind in ("start", "start's processor")),
            f"{self.memory:,.0f} MB",
            *(f"{took[kind]:.2f} ms" for kind in ("report", "owed", "statement", "file", "run")))


WAYS = {Book.serve: "serving", Book.put_rows: "rows"}


class Rows:
    """The rows that a book's requests leave, put into its tables month after month."""

    def __init__(self, base, numbers, months, day):
        self.base, self.numbers, self.months, self.day = base, numbers, months, day_number(day)
        self.sent = self.serial = 0
        self.charges = {month: contribution(month_name(month), GROSS * len(WORKERS))
                        for month in range(months)}
        credits = {(day_number(paid_on(month)), month): (PAID, month) for month in range(months)}
        allocated = sorted(Account(self.charges, credits).allocated())
        self.pieces = self.pieces_by_request(allocated)
        self.settled = {month: self.settled_in(month, allocated) for month in range(months)}

    def pieces_by_request(self, allocated):
        """A firm's pieces by the request that leaves them; those of all firms are alike."""
        pieces = defaultdict(list)
        for month, day, paid, cents, _ in allocated:
            last = "report" if month > paid else "payment"
            pieces[last, max(month, paid)].append((month, day, paid, cents))
        return pieces

    def settled_in(self, month, allocated):
        """What all payments leave open of a month's contribution, and its weight, as its row has it then."""
        due = due_day(month)
        paid = [(day, cents) for charged, day, _, cents, _ in allocated if charged == month]
        return (self.charges[month] - sum(cents for _, cents in paid),
                sum(cents * begun_months(due, day) for day, cents in paid))

    def put(self):
        """Gives how many requests it were."""
        self.put_firms()
        for month in range(self.months):
            self.put_reports(month)
            self.put_payments(month)
            # Once a year, since each month changes nearly all pages of the wages' indexes.
            if (month + 1) % MONTHS == 0:
                self.base.commit()
        self.base.execute("UPDATE meta SET day = ?, entries = ?, serial = ?",
                          (self.day, self.sent, self.serial))
        self.base.commit()
        return self.sent

    def put_all(self, table, rows):
        width = len(self.base.execute(f"SELECT * FROM {table} LIMIT 0").description)
        self.base.executemany(f"INSERT INTO {table} VALUES ({','.join('?' * width)})", rows)

    def kept(self, command, kind, a=0, b=0):
        self.sent += 1
        return 0, self.sent, self.day, command.encode(), kind, a, b, 0

    def put_firms(self):
        self.put_all("employers", ((no, f"Bau {no}", FIRST_MONTH, None) for no in self.numbers))
        self.put_all("requests", (self.kept(f"employer {no} {month_name(0)} Bau {no}", 1)
                                  for no in self.numbers))

    def put_reports(self, month):
        number, owed, due = FIRST_MONTH + month, self.charges[month], due_day(month)
        lines = " ".join(f"{worker}:{GROSS}" for worker in WORKERS)
        self.put_all("reports", ((no, number, 1) for no in self.numbers))
        self.put_all("wages", ((no, number, worker, GROSS) for no in self.numbers for worker in WORKERS))
        self.put_all("charges", ((no, number, due, owed, *self.settled[month]) for no in self.numbers))
        self.put_pieces("report", month)
        self.put_all("requests", (self.kept(f"report {no} {month_name(month)} {lines}", 2, 1, owed)
                                  for no in self.numbers))

    def put_payments(self, month):
        day = day_number(paid_on(month))
        lines = [(serial, no, reference(no, month))
                 for serial, no in enumerate(self.numbers, self.serial + 1)]
        self.put_all("bank", ((ref, serial, day, no, no, PAID, "C", "") for serial, no, ref in lines))
        self.put_all("credits", ((no, "C", day, serial, PAID, ref) for serial, no, ref in lines))
        self.put_pieces("payment", month)
        self.put_all("requests", (self.kept("bank " + file, 3, count)
                                  for file, count in files(self.numbers, month)))
        self.serial += len(lines)

    def put_pieces(self, kind, month):
        self.put_all("pieces", (
            (no, FIRST_MONTH + charged, day, paid * len(self.numbers) + place, cents, reference(no, paid))
            for place, no in enumerate(self.numbers, 1)
            for charged, day, paid, cents in self.pieces[kind, month]))


def due_day(month):
    """In the month behind it, by the row of rates in force for the month itself."""
    rates = [rates for rates in RATE_ROWS if rates["from"] <= month_name(month)][-1]
    return day_number(f"{month_name(month + 1)}-{rates['due_day']:02}")


def read_store(store):
    """What a store has that nothing serves: its form, and the rows of each table by rowid."""
    with contextlib.closing(sqlite3.connect(store)) as base:
        found = {"form": base.execute("SELECT type, name, tbl_name, sql FROM sqlite_master").fetchall()}
        tables = [name for kind, name, *_ in found["form"] if kind == "table"]
        for table in tables:
            found[table] = base.execute(f"SELECT rowid, * FROM {table} ORDER BY rowid").fetchall()
        found["form"] += [(each, *base.execute(f"PRAGMA {each}").fetchone()) for each in FORM]
    return found


def count_alike(served, put):
    """How many rows two stores both have; ends where they aren't equal."""
    if served.keys() != put.keys():
        sys.exit(f"serving leaves tables {[*served]}, rows {[*put]}")
    for table, rows in served.items():
        for one, other in zip_longest(rows, put[table]):
            if one != other:
                sys.exit(f"{table} differs: serving leaves {str(one)[:400]}, rows {str(other)[:400]}")
    return sum(len(rows) for table, rows in served.items() if table != "form")


def look_alike(options, months, folder):
    """Ends where a store filled by rows isn't what serving the same requests leaves; gives their sizes."""
    firms = max(options.alike // (months + 1), 2)
    stores, sizes = [], []
    for way, name in WAYS.items():
        book = Book(f"alike-{name}", firms, months, options, folder)
        book.fill(way)
        stores.append(read_store(book.server.store()))
        # Sqlite3 has brought in the log of the killed office.
        sizes.append(os.path.getsize(book.server.store()))
    served, put = stores
    count = count_alike(served, put)
    return (f"{count:,} rows in {len(served) - 1} tables, of {firms} firms over {months} months, are equal "
            f"by both ways; by serving the file has {sizes[0]:,} bytes, by rows {sizes[1]:,}.")


def shape(count):
    """The firms and months of so many requests."""
    firms = min(MOST_FIRMS, count // (MONTHS + 1))
    return firms, (count - firms) // firms


def read_options():
    parser = option_parser(__doc__)
    whole = lambda text: [int(count) for count in text.split(",")]  # noqa: E731
    parser.add_argument("--requests", type=whole, default=[10_000, 100_000, 1_000_000])
    parser.add_argument("--repeats", type=int, default=3)
    parser.add_argument("--rows", type=int, default=100_000, help="larger stores are filled by rows")
    parser.add_argument("--alike", type=int, default=2_600, help="requests of the stores that are compared")
    return parser.parse_args()


def main():
    options = read_options()
    by_rows = [count for count in options.requests if count > options.rows]
    with tempfile.TemporaryDirectory(dir=options.folder) as folder:
        if by_rows:
            alike = look_alike(options, max(shape(count)[1] for count in by_rows), folder)
            tell(alike)
        row("Requests", "Filled by", "Firms", "Months", "File", "Bytes a request", "Start",
            "By processor time", "Memory", "Report", "Owed", "Statement", "File of 100", "Run")
        row(*["---"] * 14)
        for count in options.requests:
            book = Book(str(count), *shape(count), options, folder)
            book.fill(Book.put_rows if count in by_rows else Book.serve)
            for turn in range(options.repeats):
                book.measure(turn)
            book.tell()
        if by_rows:
            print("\n" + alike)


if __name__ == "__main__":
    main()
