#!/usr/bin/env python3
"""What the lines in suspense cost as bank lines come in, and what an assignment, an end and a row of rates cost.

    python3 bench/suspense.py [PROGRAM] [--lines 1000,90000,110000,1000000] [--repeats 100] [--folder FOLDER]

PROGRAM is the built program where none is named. For each size a new store gets so many bank lines: a first file of up to
10,000 through the office, and the others, for quickness, into its tables by Python's own sqlite3 while it doesn't run, as
further files would have brought them. 1,000 of them are in suspense, or so many as are asked for by --suspense, the others
of 100 firms in turns. Then
each request is sent so many times, in batches of 20 that go to the stores in turns, since a machine's speed changes: the list of
the lines in suspense (a tenth as often); a bank file of one new line for a firm, and of one without a firm; assignments of lines
in suspense; ends of the memberships of firms with one report; rows of rates. Of each the table has the mean milliseconds of a
request by the processor time of the server's process.

The files lie below FOLDER, /dev/shm where there is one, so that the figures are the program's and not the disk's.
"""
import contextlib
import os
import sqlite3
import sys
import tempfile

sys.dont_write_bytecode = True
from serve import row  # noqa: E402
from server import HEADER, Server, option_parser, request  # noqa: E402

DAY = "2024-04-30"
FILE = 10_000
BATCH = 20
FIRMS = 100
FIRST = 1_001
KINDS = ("suspense", "import", "waiting", "assign", "end", "rates")


class Desk:
    """A clerk's requests to a server, under numbers that rise; each must be done."""

    def __init__(self, server):
        self.server, self.sent = server, 0

    def take(self, data):
        answer = self.server.ask(data)
        if answer[0] != b"HTTP/1.1 200 OK":
            sys.exit(f"{data[:200]!r} is answered {answer}")
        return answer[1]

    def post(self, path, body):
        self.sent += 1
        return self.take(request("POST", path, "desk", self.sent, body))

    def register(self, no):
        self.post("/employers", f'{{"employer":{no},"name":"Bau {no}","start":"2024-01"}}')

    def report(self, no):
        self.post(f"/employers/{no}/reports/2024-01", '{"lines":[{"gross":350000,"worker":7}]}')

    def measured(self, places, send):
        """The milliseconds of requests by the server's processor time."""
        begun = self.server.processor_seconds()
        for place in places:
            send(place)
        return (self.server.processor_seconds() - begun) * 1000


def records(first, count, firm):
    return "".join(f"L{place},2024-02-25,{firm(place)},100,C,\n" for place in range(first, first + count))


def fill(desk, lines, suspense, firms_that_end):
    for no in range(FIRST, FIRST + FIRMS):
        desk.register(no)
    for no in range(FIRST + FIRMS, FIRST + FIRMS + firms_that_end):
        desk.register(no)
        desk.report(no)
    firm = lambda place: "" if place < suspense else FIRST + place % FIRMS  # noqa: E731
    desk.post("/bank", HEADER + records(0, min(FILE, lines), firm))


def fill_tables(store, lines):
    """The lines behind the first file, under their serials, each a credit of its firm, as the first file's last one."""
    with contextlib.closing(sqlite3.connect(store)) as base, base:
        value, cents = base.execute("SELECT value, cents FROM bank ORDER BY serial DESC LIMIT 1").fetchone()
        more = [(f"L{place}", place + 1, FIRST + place % FIRMS) for place in range(FILE, lines)]
        base.executemany("INSERT INTO bank (reference, serial, value, named, employer, cents, purpose, note)"
                         f" VALUES (?1, ?2, {value}, ?3, ?3, {cents}, 'C', '')", more)
        base.executemany("INSERT INTO credits (employer, purpose, day, serial, cents, ref)"
                         f" VALUES (?3, 'C', {value}, ?2, {cents}, ?1)", more)
        base.execute("UPDATE meta SET serial = max(serial, ?1)", [lines])


def prepare(options, lines, folder):
    """A clerk's desk at a store of so many lines, and how each kind of request is sent there."""
    server = Server("program", str(options.program), os.path.join(folder, str(lines)), DAY, "desk = 0\n")
    server.init()
    server.start()
    desk, repeats = Desk(server), options.repeats
    print(f"sending {lines:,} bank lines", file=sys.stderr)
    fill(desk, lines, options.suspense, repeats)
    server.stop()
    fill_tables(server.store(), lines)
    server.start()
    # From a month on behind all others, one row after another.
    months = [f"{2030 + place // 12}-{place % 12 + 1:02}" for place in range(repeats)]
    sends = {
        "suspense": lambda _: desk.take(request("GET", "/suspense", "desk")),
        "import": lambda place: desk.post("/bank", HEADER + records(lines + place, 1, lambda _: FIRST)),
        "waiting": lambda place: desk.post("/bank", HEADER + records(lines + repeats + place, 1, lambda _: "")),
        "assign": lambda place: desk.post("/assign", f'{{"employer":{FIRST + place % FIRMS},"reference":"L{place}"}}'),
        "end": lambda place: desk.post(f"/employers/{FIRST + FIRMS + place}/end", '{"last":"2024-06"}'),
        "rates": lambda place: desk.post(
            "/rates", '{"contribution":2000,"due_day":20,"entitlement":1425,'
            f'"from":"{months[place]}","interest":100,"report_day":15}}'),
    }
    return desk, sends


def measure(desks, repeats):
    """The mean milliseconds of each kind of request at each desk, the desks in turns."""
    took = [[0.0] * len(KINDS) for _ in desks]
    for column, kind in enumerate(KINDS):
        times = max(repeats // 10, 1) if kind == "suspense" else repeats
        for first in range(0, times, BATCH):
            places = range(first, min(first + BATCH, times))
            for line, (desk, sends) in enumerate(desks):
                took[line][column] += desk.measured(places, sends[kind]) / times
    return took


def read_options():
    parser = option_parser(__doc__)
    parser.add_argument("--lines", default=[1_000, 90_000, 110_000, 1_000_000],
                        type=lambda text: [int(count) for count in text.split(",")])
    parser.add_argument("--suspense", type=int, default=1_000)
    parser.add_argument("--repeats", type=int, default=100)
    return parser.parse_args()


def main():
    options = read_options()
    with tempfile.TemporaryDirectory(dir=options.folder) as folder:
        desks = [prepare(options, lines, folder) for lines in options.lines]
        found = zip(options.lines, measure(desks, options.repeats))
        for desk, _ in desks:
            desk.server.stop()
    row("Bank lines", *KINDS)
    row(*["---"] * (1 + len(KINDS)))
    for lines, took in found:
        row(f"{lines:,}", *(f"{each:.3f} ms" for each in took))


if __name__ == "__main__":
    main()
