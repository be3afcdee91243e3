#!/usr/bin/env python3
"""What a reminder run takes: over 1,000 and 10,000 firms of 12 months each, and with many runs before it.

    python3 bench/reminders.py [PROGRAM] [--firms 1000,10000] [--runs 0,100] [--repeats 3] [--folder FOLDER]

PROGRAM is the built program where none is named. For each number of firms a new store gets them through the office:
each reports the 12 months of 2024 with one line, and the bank brings a payment for each of the first 11, so that all
firms are in default of the last. For each number of runs a copy of that store gets so many earlier runs, each with a
reminder to each firm, into its tables by Python's own sqlite3, the last one 30 days before. Then, on a fresh copy, one
reminder run is asked for, and its document; so often as is said by --repeats, the stores in turns. The table has the
least milliseconds of each by the processor time of the server's process, those of a firm, and the ratio to a firm of
the first line.

The files lie below FOLDER, /dev/shm where there is one, so that the figures are the program's and not the disk's.
"""
import contextlib
import os
import shutil
import sqlite3
import sys
import tempfile

sys.dont_write_bytecode = True
from serve import row  # noqa: E402
from server import HEADER, Server, option_parser, request  # noqa: E402
from suspense import Desk, FILE, FIRST  # noqa: E402

DAY = "2025-01-31"
MONTHS = [f"2024-{month:02}" for month in range(1, 13)]
BODY = '{"lines":[{"gross":350000,"worker":7}]}'
PAID = 70_000


def fill(desk, firms):
    """Firms with their reports, and their payments in files of 10,000 lines."""
    numbers = range(FIRST, FIRST + firms)
    for no in numbers:
        desk.register(no)
        for month in MONTHS:
            desk.post(f"/employers/{no}/reports/{month}", BODY)
    lines = [f"P{no}-{month},{month}-28,{no},{PAID},C,\n" for no in numbers for month in MONTHS[:-1]]
    for first in range(0, len(lines), FILE):
        desk.post("/bank", HEADER + "".join(lines[first:first + FILE]))


def add_runs(store, firms, runs):
    """Runs before, each with a reminder to each firm, 14 days apart, the last one 30 days before the day."""
    with contextlib.closing(sqlite3.connect(store)) as base, base:
        day = base.execute("SELECT day FROM meta").fetchone()[0] - 30
        for run in range(1, runs + 1):
            base.execute("INSERT INTO runs (no, day, firms) VALUES (?, ?, ?)", [run, day - 14 * (runs - run), firms])
            base.executemany("INSERT INTO reminders (run, employer, level, missing, first, arrears, interest)"
                             " VALUES (?, ?, 1, 0, NULL, 70000, 700)",
                             [(run, no) for no in range(FIRST, FIRST + firms)])
        base.execute("UPDATE meta SET runs = ?", [runs])


class Case:
    """A server over a store of so many firms and runs before, and what a run and its document took at the least."""

    def __init__(self, server, firms, runs):
        self.server, self.firms, self.runs = server, firms, runs
        self.run = self.document = float("inf")

    def measure(self):
        server = self.server.copy(self.server.folder + "-copy")
        server.start()
        desk, said = Desk(server), []
        # Behind the numbers of the requests by which the store was filled.
        desk.sent = 10**9
        document = request("GET", f"/reminders/{self.runs + 1}", "desk")
        self.run = min(self.run, desk.measured([0], lambda _: said.append(desk.post("/reminders", ""))))
        self.document = min(self.document, desk.measured([0], lambda _: said.append(desk.take(document))))
        server.stop()
        shutil.rmtree(server.folder)
        if said[0] != b'{"firms":%d,"run":%d}' % (self.firms, self.runs + 1) or said[1].count(b"level") != self.firms:
            sys.exit(f"{said[0]!r}, {said[1][:200]!r}")


def prepare(options, folder):
    for firms in options.firms:
        print(f"making {firms:,} firms", file=sys.stderr)
        made = Server("program", str(options.program), os.path.join(folder, str(firms)), DAY, "desk = 0\n")
        made.init()
        made.start()
        fill(Desk(made), firms)
        made.stop()
        for runs in options.runs:
            server = made.copy(os.path.join(folder, f"{firms}-{runs}"))
            add_runs(server.store(), firms, runs)
            yield Case(server, firms, runs)


def read_options():
    parser = option_parser(__doc__)
    whole = lambda text: [int(count) for count in text.split(",")]  # noqa: E731
    parser.add_argument("--firms", type=whole, default=[1_000, 10_000])
    parser.add_argument("--runs", type=whole, default=[0, 100])
    parser.add_argument("--repeats", type=int, default=3)
    return parser.parse_args()


def main():
    options = read_options()
    with tempfile.TemporaryDirectory(dir=options.folder) as folder:
        cases = list(prepare(options, folder))
        for _ in range(options.repeats):
            for case in cases:
                case.measure()
    row("Firms", "Runs before", "Run", "A firm", "Of the first", "Document")
    row(*["---"] * 6)
    first = cases[0].run / cases[0].firms
    for case in cases:
        each = case.run / case.firms
        row(f"{case.firms:,}", f"{case.runs:,}", f"{case.run:.0f} ms", f"{each * 1000:.0f} µs", f"{each / first:.2f}",
            f"{case.document:.1f} ms")


if __name__ == "__main__":
    main()
