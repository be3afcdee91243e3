#!/usr/bin/env python3
"""Whether a firm's statement costs more than a step for each row: 10,000 payments, ten times as many, and the most.

    python3 bench/statement.py [PROGRAM] [--repeats 10] [--folder FOLDER]

PROGRAM is the built program where none is named. A store has one firm, which has reported each month from 2000-01 on,
a contribution of 10,000.00 each, all at one row of rates, and has paid by bank lines of 239.99, of which 100 come in
73 days. So each month but the last ends within a payment, each payment is used up, and each month is paid one to three
begun months late. The sizes are 240 months with 10,000 payments; 2,400 months, as many as there are, with 100,000
payments, the most that a firm may have of either purpose; and the same with 100,000 payments of interest of 1.00 besides.
The smallest and the largest one come once more with a last payment that pays all and is prepaid in part: where no part of
a month is open, the office reads the payments to tell what is prepaid.

For quickness the rows are put by Python's own sqlite3 into the tables that the program's `init` made, while it doesn't
run, in the order in which serving puts them, each contribution with what is open of it, and its weight. That this comes
to the same is looked at in each run: two stores of a firm of 480 months with 20,000 payments, and 10,000 of interest, are
filled, one in each way, and compared: their forms, and all tables row by row, by rowids. Of 240 months the pieces are
also compared with those of an allocation without any shortcut, and examples/recompute.sql must tell nothing of the store.

Then each store is served on the day after the last payment, and the statement and what the firm owes are asked for so
many times in turns. Each answer must be the one that is worked out here, a statement byte for byte; the script ends at
the first that isn't. The table has the least milliseconds by the processor time of the server's process, the ratio to the
first size, the bytes of the statement, and of the server's process the most memory that it has had when it begins to
serve, before any question, the most that it has had at the end, and by how much it grew at most to answer once.

The files lie below FOLDER, /dev/shm where there is one, so that the figures are the program's and not the disk's.
"""
import contextlib
import json
import os
import sqlite3
import sys
import tempfile
import time
from datetime import date, timedelta
from itertools import zip_longest
from pathlib import Path

sys.dont_write_bytecode = True
from accounts import Account, begun_months  # noqa: E402
from documents import Measured  # noqa: E402
from limits import count_alike, day_number, read_store  # noqa: E402
from serve import print_machine, row, tell  # noqa: E402
from server import HEADER, Server, option_parser  # noqa: E402
from suspense import Desk, FILE  # noqa: E402

RECOMPUTE = Path(__file__).resolve().parent.parent / "examples/recompute.sql"
# What the last payment has more where all is paid.
MORE = 150_000
# Months, payments of contributions, payments of interest, and what the last payment has more.
SIZES = ((240, 10_000, 0, 0), (2_400, 100_000, 0, 0), (2_400, 100_000, 100_000, 0),
         (240, 10_000, 0, MORE), (2_400, 100_000, 100_000, MORE))
# Of the stores that are compared.
ALIKE = (480, 20_000, 10_000, 0)
NO, NAME, WORKER = 1_001, "Bau Nord", 7
RATES = """[[rate]]
from = "2000-01"
contribution = 2000
report_day = 15
due_day = 20
interest = 100
entitlement = 1425
"""
GROSS, CONTRIBUTION = 5_000_000, 1_000_000
# No sum of payments is one of contributions.
CENTS = {"C": 23_999, "I": 100}
# The first payment's.
FIRST_DAY = 11_057


def month_name(month):
    """The months are those from 2000-01 on."""
    return f"{2000 + month // 12}-{month % 12 + 1:02}"


def day_text(day):
    return str(date(1970, 1, 1) + timedelta(day))


def due_day(month):
    return day_number(month_name(month + 1) + "-20")


def paid_on(place):
    return FIRST_DAY + place * 73 // 100


def euros(cents):
    return f"{cents // 100}.{cents % 100:02}".rjust(14)


class Firm:
    """A firm of so many months and payments: what a clerk sends of it, and what follows."""

    def __init__(self, months, count, interest, more):
        self.months, self.last = range(months), month_name(months - 1)
        self.day = paid_on(max(count, interest) - 1) + 1
        # Day, serial, cents and reference, by purpose.
        self.credits = {"C": self.paid("C", count, 0), "I": self.paid("I", interest, count)}
        day, serial, cents, reference = self.credits["C"][-1]
        self.credits["C"][-1] = day, serial, cents + more, reference
        self.pieces = list(self.allocated())
        self.settled = self.settled_months()

    def paid(self, purpose, count, before):
        return [(paid_on(place), before + place + 1, CENTS[purpose], f"{purpose}{place:010}")
                for place in range(count)]

    def allocated(self):
        """The pieces, by a walk: each payment pays what is open of a month, and the rest of the next one."""
        month, left = 0, CONTRIBUTION
        for day, serial, cents, reference in self.credits["C"]:
            while cents and month < len(self.months):
                share = min(left, cents)
                yield month, day, serial, share, reference
                left, cents = left - share, cents - share
                if left == 0:
                    month, left = month + 1, CONTRIBUTION

    def settled_months(self):
        """Of each month its due day, what is open of it, and its weight, as its row has it."""
        settled = [[due_day(month), CONTRIBUTION, 0] for month in self.months]
        for month, day, _, cents, _ in self.pieces:
            settled[month][1] -= cents
            settled[month][2] += cents * begun_months(settled[month][0], day)
        return settled

    def look_at_pieces(self):
        """Ends where they aren't what the stretches of each month and of each payment have in common."""
        credits = {(day, serial): (cents, reference) for day, serial, cents, reference in self.credits["C"]}
        plain = Account(dict.fromkeys(self.months, CONTRIBUTION), credits).allocated()
        if sorted(plain) != self.pieces:
            sys.exit("the pieces aren't those of a plain allocation")

    def files(self):
        """The bank's files, and how many lines each has."""
        for purpose, credits in self.credits.items():
            lines = [f"{reference},{day_text(day)},{NO},{cents},{purpose},\n"
                     for day, _, cents, reference in credits]
            for first in range(0, len(lines), FILE):
                part = lines[first:first + FILE]
                yield HEADER + "".join(part), len(part)

    def statement(self):
        """The text of its statement on its day."""
        pieces, interest = {month: [] for month in self.months}, 0
        for month, *piece in self.pieces:
            pieces[month].append(piece)
        lines = [f"statement {NO} {day_text(self.day)}", f"name {NAME}", f"member {month_name(0)} {self.last}"]
        for month, (due, left, weight) in zip(self.months, self.settled):
            # At 1 per cent for each begun month.
            bears = (weight + left * begun_months(due, self.day)) // 100
            interest += bears
            lines.append(f"charge {month_name(month)} due {day_text(due)} version 1 "
                         f"{euros(CONTRIBUTION)} {euros(left)} {euros(bears)}")
            lines += [f"  paid {day_text(day)} {euros(cents)} {reference}"
                      for day, _, cents, reference in pieces[month]]
        for day, _, cents, reference in self.credits["I"]:
            interest -= cents
            lines.append(f"interest-paid {day_text(day)} {euros(cents)} {reference}")
        owed = self.owed()
        lines += [f"prepaid {euros(owed['prepaid'])}", f"arrears {euros(owed['arrears'])}",
                  f"interest {euros(max(interest, 0))}", ""]
        return "\n".join(lines).encode()

    def owed(self):
        charged = CONTRIBUTION * len(self.months)
        due = CONTRIBUTION * sum(due_day(month) < self.day for month in self.months)
        credited = sum(cents for _, _, cents, _ in self.credits["C"])
        return {"arrears": max(due - credited, 0), "charged": charged, "credited": credited,
                "prepaid": max(credited - charged, 0)}

    def new_server(self, program, folder, name):
        """A server on the firm's day, over a new store without it."""
        server = Server("program", program, os.path.join(folder, name), day_text(self.day), "desk = 0\n")
        Path(server.path("rates.toml")).write_text(RATES)
        server.init()
        return server

    def serve(self, server):
        """Fills a store through the office."""
        server.start()
        desk = Desk(server)
        desk.post("/employers", f'{{"employer":{NO},"name":"{NAME}","start":"{month_name(0)}"}}')
        for month in self.months:
            desk.post(f"/employers/{NO}/reports/{month_name(month)}",
                      f'{{"lines":[{{"gross":{GROSS},"worker":{WORKER}}}]}}')
        for file, _ in self.files():
            desk.post("/bank", file)
        desk.post(f"/employers/{NO}/end", f'{{"last":"{self.last}"}}')
        server.stop()

    def put_rows(self, server):
        """Fills a store by the rows that the same requests leave."""
        with contextlib.closing(sqlite3.connect(server.store())) as base, base:
            for table, rows in self.rows().items():
                width = len(base.execute(f"SELECT * FROM {table} LIMIT 0").description)
                base.executemany(f"INSERT INTO {table} VALUES ({','.join('?' * width)})", rows)
            base.execute("UPDATE meta SET day = ?, entries = ?, serial = ?",
                         (self.day, len(list(self.kept())), sum(map(len, self.credits.values()))))

    def rows(self):
        """By table, in the order in which serving puts them."""
        months = self.months
        return {
            "employers": [(NO, NAME, 0, months[-1])],
            "reports": [(NO, month, 1) for month in months],
            "wages": [(NO, month, WORKER, GROSS) for month in months],
            "charges": [(NO, month, due, CONTRIBUTION, left, weight)
                        for month, (due, left, weight) in zip(months, self.settled)],
            "pieces": [(NO, *piece) for piece in self.pieces],
            "bank": [(reference, serial, day, NO, NO, cents, purpose, "")
                     for purpose, credits in self.credits.items() for day, serial, cents, reference in credits],
            "credits": [(NO, purpose, *credit)
                        for purpose, credits in self.credits.items() for credit in credits],
            "requests": [(0, number, self.day, command.encode(), kind, a, b, 0)
                         for number, (command, kind, a, b) in enumerate(self.kept(), 1)],
        }

    def kept(self):
        """The kept requests: their bytes, and the kind and the numbers of their replies."""
        yield f"employer {NO} {month_name(0)} {NAME}", 1, 0, 0
        for month in self.months:
            yield f"report {NO} {month_name(month)} {WORKER}:{GROSS}", 2, 1, CONTRIBUTION
        for file, count in self.files():
            yield "bank " + file, 3, count, 0
        yield f"end {NO} {self.last}", 1, 0, 0


def look_alike(program, folder):
    """Ends where a store filled by rows isn't what serving the same requests leaves; tells how large they are."""
    firm, stores = Firm(*ALIKE), []
    for name, fill in (("served", firm.serve), ("put", firm.put_rows)):
        server = firm.new_server(program, folder, name)
        fill(server)
        stores.append(read_store(server.store()))
    tell(f"{count_alike(*stores):,} rows are equal by both ways")


def look_from_outside(store):
    """Ends where examples/recompute.sql tells anything."""
    with contextlib.closing(sqlite3.connect(store)) as base:
        for statement in RECOMPUTE.read_text().split(";"):
            for found in base.execute(statement):
                sys.exit(f"examples/recompute.sql tells {found}")


class Taken:
    """What a server took for statements and for what the firm owes, and its memory in kilobytes."""

    def __init__(self, firm, server, repeats):
        wanted = firm.statement()
        self.bytes = len(wanted)
        self.start = server.start()
        self.statement, self.owed = Measured(server), Measured(server)
        self.alone = self.peak = self.statement.status("VmHWM")
        for _ in range(repeats):
            self.look(self.statement, f"/employers/{NO}/statement", lambda body: body, wanted)
            self.look(self.owed, f"/employers/{NO}/owed", json.loads, firm.owed())
        server.stop()

    def look(self, measured, path, read, wanted):
        found = read(measured.ask(path))
        # Each question forgets the peak before it.
        self.peak = max(self.peak, measured.status("VmHWM"))
        if found != wanted:
            sys.exit(f"{path} is answered {difference(found, wanted)}")


def difference(found, wanted):
    if isinstance(found, dict):
        return f"{found}, due is {wanted}"
    lines = enumerate(zip_longest(found.splitlines(), wanted.splitlines()), 1)
    return next(f"in line {place} {one!r}, due is {other!r}" for place, (one, other) in lines if one != other)


def measure(size, options, folder):
    begun = time.perf_counter()
    firm = Firm(*size)
    server = firm.new_server(options.program, folder, "-".join(map(str, size)))
    firm.put_rows(server)
    if size[0] == SIZES[0][0]:
        firm.look_at_pieces()
        look_from_outside(server.store())
    tell(f"{len(firm.pieces):,} pieces put in {time.perf_counter() - begun:.0f} s")
    taken = Taken(firm, server, options.repeats)
    tell(f"measured, after a start of {taken.start:.1f} s")
    return taken


def show(found):
    row("Months", "Payments", "Of interest", "All paid", "Statement", "Ratio", "Owed", "Ratio", "Bytes",
        "Peak when it serves", "Peak at the end", "Grown by a statement", "By owed")
    row(*["---"] * 13)
    first = found[SIZES[0]]
    for (*counts, more), taken in found.items():
        cells = [f"{count:,}" for count in counts] + ["yes" if more else "no"]
        for kind in ("statement", "owed"):
            took, least = getattr(taken, kind).processor, getattr(first, kind).processor
            cells += [f"{took * 1000:.2f} ms", f"{took / least:.2f}"]
        row(*cells, f"{taken.bytes:,}", *(f"{kilobytes / 1000:.1f} MB" for kilobytes in (
            taken.alone, taken.peak, taken.statement.grown, taken.owed.grown)))


def read_options():
    parser = option_parser(__doc__)
    parser.add_argument("--repeats", type=int, default=10)
    return parser.parse_args()


def main():
    options = read_options()
    with tempfile.TemporaryDirectory(dir=options.folder) as folder:
        print_machine(os.path.realpath(folder))
        look_alike(options.program, folder)
        found = {size: measure(size, options, folder) for size in SIZES}
    show(found)


if __name__ == "__main__":
    main()
