#!/usr/bin/env python3
"""What it costs that a firm's pieces, and what is open of its charges, are kept: rows of a request, and its
time beside another build.

    python3 bench/pieces.py [PROGRAM] [--before PROGRAM] [--firms 200,2000] [--each 100] [--kinds report,..]
                            [--folder FOLDER]

PROGRAM is the built program where none is named, and the one that --before names is a build of before, whose
stores may have another layout; without it nothing stands beside. For each size and program a new store gets
so many firms by serving, month after month: each reports 24 months with one line, and the bank brings 30
payments of each. Those of every second firm end within its newest month, of which it owes a part (it is
behind); those of the others reach beyond it (it is ahead). The firms of the smallest book are in all, and
two more, to which the first request of each kind goes: it makes the plans of its statements, and isn't
measured.

Rows are counted on copies of the smallest book's store. Into these Python's own sqlite3 puts a row for each
firm behind all of its pieces, which any DELETE of its pieces takes, and one of no firm behind all rows, so
that no piece is written under the rowid of one that was deleted; and it adds to the weight of each charge,
so that a row which is written is told from one that isn't. Then one request of each kind is served, and
`pieces` and `charges` are compared by rowids with what was there. The script ends where a firm's pieces
aren't those of its charges and credits, where others were deleted or written than those that reach beyond
the first changed place, or where nothing reaches beyond it and there was a DELETE, or there was one though
all new credits come behind the others; and where what is open of a charge, or its weight, isn't that of its
pieces, or a charge was written that ends at or below the place and isn't the changed one. Rows read are not
measured but counted from the tables, as the sources look at them: the firm's charges, and its credits for
contributions or the new ones alone, and before a correction the month's charge.

Then each kind (or those that --kinds names) is measured on fresh copies of all stores, by --each requests (a
tenth as many bank files), each of another firm, and so at most half as many as the smallest book has firms.
All servers get the same requests, in turns of ten (of one bank file); statuses and bodies are compared, and
behind them the statements of their firms.

  report             of a month more, 20 lines, of firms ahead: the rest of a payment reaches the new month
  unpaid report      the same of firms behind: nothing reaches it
  payment            a bank file of one line, of firms behind: it reaches only the newest month
  prepayment         the same of firms ahead: all is paid, and no month reaches beyond the payments
  bank file          100 lines for 100 firms behind, or for as many as there are
  oldest corrected   in 20 lines, of firms behind: all pieces of the firm are put anew, the worst case
  same contribution  a correction of the same month in 20 lines of the same sum
  assignment         of a line in suspense to a firm behind
  claim, release     of a firm behind: what is claimed is set off to contributions

A first table has the rows of one request. The others have the processor time of the server's process, which
other work on the machine hardly moves, the median by the clock, requests a second in one after another (the
client's own time included), and the larger books beside the smallest; beside them stands what is wanted. The
files lie below FOLDER, /dev/shm where there is one, so that the figures are the program's.
"""
import os
import random
import shutil
import sys
import tempfile
import time
from concurrent.futures import ThreadPoolExecutor
from dataclasses import astuple, dataclass

sys.dont_write_bytecode = True
from accounts import NOBODY, Rows, contribution, expect, plant, read_accounts, rows_of_firm  # noqa: E402
from serve import MONTHS, Taken, print_machine, row, tell  # noqa: E402
from server import HEADER, Server, option_parser, request  # noqa: E402

DAY = "2026-01-31"
NEXT = "2026-01"
# Payments come in the month behind a reported one, up to its 28th; what is measured comes behind them all.
PAID_IN = [*MONTHS[1:], NEXT]
BEHIND_ALL = "2026-01-30"
PAYMENTS = 30
LINES = 20
SMALL = 1_000
FILE = 1_000
FILE_FIRMS = 100
SPARE = 2
SLICE = 10
# Numbers of requests that the books have not.
FIRST = 10**9
NUMBERS = 99_999_900
SIZES_APART = 1.2


@dataclass(frozen=True)
class Kind:
    """Whether its firms are ahead, what it puts anew, the rows it looks at before, how dear it may be."""
    ahead: bool
    puts: str
    looks: int = 0
    limit: float | None = None
    aim: float | None = None


NOTHING, NEWEST, ALL = "nothing", "newest", "all"
BANK_FILE = "bank file"
KINDS = {
    "report": Kind(True, NEWEST, limit=1.25),
    "unpaid report": Kind(False, NOTHING, limit=1.25),
    "payment": Kind(False, NEWEST),
    "prepayment": Kind(True, NOTHING),
    BANK_FILE: Kind(False, NEWEST, limit=3, aim=2),
    "oldest corrected": Kind(False, ALL, looks=1),
    "same contribution": Kind(False, NOTHING, looks=1),
    "assignment": Kind(False, NEWEST),
    "claim": Kind(False, NOTHING),
    "release": Kind(False, NEWEST),
}


class Firm:
    """A firm, drawn: its gross of each month, and its payments, half a month more or less than it owes."""

    def __init__(self, no, ahead, draw):
        self.no, self.ahead = no, ahead
        self.gross = [draw.randrange(5_000_000, 8_000_000, LINES) for _ in MONTHS]
        charges = list(map(contribution, MONTHS, self.gross))
        paid = sum(charges) + (charges[-1] // 2 if ahead else -(charges[-1] // 2))
        shares = [draw.randint(80, 120) for _ in range(PAYMENTS)]
        self.payments = [paid * share // sum(shares) for share in shares]
        self.payments[-1] += paid - sum(self.payments)
        self.months = [PAID_IN[place * len(PAID_IN) // PAYMENTS] for place in range(PAYMENTS)]
        self.days = [f"{month}-{draw.randint(1, 28):02}" for month in self.months]

    def lines_paid_in(self, month):
        return [bank_line(f"P{self.no}-{place}", self.days[place], self.no, cents)
                for place, cents in enumerate(self.payments) if self.months[place] == month]


def draw_firms(count):
    """Firms in an order of no sense, so that what is written lies all over the tables."""
    draw = random.Random(2026)
    numbers = draw.sample(range(1, NUMBERS), count)
    return [Firm(no, place % 2 == 1, draw) for place, no in enumerate(numbers)]


def bank_line(reference, day, no, cents):
    return f"{reference},{day},{no},{cents},C,\n"


def wages(grosses, no):
    """The member of a report whose lines are for workers from one with the firm's number on."""
    lines = ",".join(f'{{"gross":{gross},"worker":{no + place}}}' for place, gross in enumerate(grosses))
    return f'"lines":[{lines}]'


class Commands:
    """A clerk's commands under numbers that rise, each a kind and its bytes."""

    def __init__(self, first):
        self.sent = first

    def command(self, kind, path, body="", method="POST"):
        self.sent += 1
        return kind, request(method, path, "desk", self.sent, body)

    def file(self, kind, lines):
        return self.command(kind, "/bank", HEADER + "".join(lines))


def growth(firms, suspense):
    """The commands by which a book comes to these firms, and to so many lines in suspense."""
    commands = Commands(0)
    for firm in firms:
        body = f'{{"employer":{firm.no},"name":"Bau {firm.no} Nord","start":"{MONTHS[0]}"}}'
        yield commands.command("register", "/employers", body)
    for place, (month, paid_in) in enumerate(zip(MONTHS, PAID_IN)):
        for firm in firms:
            path = f"/employers/{firm.no}/reports/{month}"
            yield commands.command("report", path, f"{{{wages([firm.gross[place]], firm.no)}}}")
        lines = [line for firm in firms for line in firm.lines_paid_in(paid_in)]
        for first in range(0, len(lines), FILE):
            yield commands.file("import", lines[first:first + FILE])
    lines = [bank_line(f"S{place}", BEHIND_ALL, "", SMALL) for place in range(suspense)]
    yield commands.file("import", lines)


class Measured(Commands):
    """The requests that are measured. The firms are those of the smallest book, the first ones spare."""

    def __init__(self, firms):
        super().__init__(FIRST)
        self.draw = random.Random(31)
        self.firms = {ahead: [firm for firm in firms if firm.ahead == ahead] for ahead in (False, True)}

    def firms_of(self, kind, count):
        """A spare firm, and those that so many requests of a kind are of."""
        return self.firms[KINDS[kind].ahead][:1 + (FILE_FIRMS if kind == BANK_FILE else count)]

    def before(self, kind, count):
        """What is sent before these requests of a kind: the claims that are released."""
        return self.of_kind("claim", count) if kind == "release" else []

    def of_kind(self, kind, count):
        """So many requests of a kind, and in front of them one of a spare firm."""
        firms = self.firms_of(kind, count)
        if kind == BANK_FILE:
            files = [firms[:1]] + [firms[1:]] * count
            return [self.bank_file(kind, place, firms) for place, firms in enumerate(files)]
        return [self.of_firm(kind, place, firm) for place, firm in enumerate(firms)]

    def bank_file(self, kind, place, firms):
        lines = [bank_line(f"F{place}-{firm.no}", BEHIND_ALL, firm.no, SMALL) for firm in firms]
        return self.file(kind, lines)

    def of_firm(self, kind, place, firm):
        if kind.endswith("report"):
            grosses = [self.draw.randint(200_000, 400_000) for _ in range(LINES)]
            path = f"/employers/{firm.no}/reports/{NEXT}"
            return self.command(kind, path, f"{{{wages(grosses, firm.no)}}}")
        if kind.endswith("payment"):
            return self.file(kind, [bank_line(f"T{firm.no}", BEHIND_ALL, firm.no, SMALL)])
        if kind == "assignment":
            return self.command(kind, "/assign", f'{{"employer":{firm.no},"reference":"S{place}"}}')
        if kind == "claim":
            body = f'{{"cents":{SMALL},"worker":{firm.no}}}'
            return self.command(kind, f"/employers/{firm.no}/claims", body)
        if kind == "release":
            return self.command(kind, f"/claims/{place + 1}/release")
        return self.correction(kind, firm)

    def correction(self, kind, firm):
        more = 0 if KINDS[kind].puts == NOTHING else SMALL
        body = f'{{{wages([firm.gross[0] // LINES + more] * LINES, firm.no)},"version":1}}'
        return self.command(kind, f"/employers/{firm.no}/reports/{MONTHS[0]}", body, "PUT")

    def statements(self, kind, count):
        return [("statement", request("GET", f"/employers/{firm.no}/statement", "desk"))
                for firm in self.firms_of(kind, count)]


def compare(servers, requests, answers):
    """Ends at the first request that a server refuses, or that two of them answer differently."""
    for (kind, data), *found in zip(requests, *answers, strict=True):
        for server, answer in zip(servers, found, strict=True):
            if answer != found[0] or answer[0] != b"HTTP/1.1 200 OK":
                sys.exit(f"{kind}: {data[:400]!r}\n{servers[0].name}: {found[0]}\n{server.name}: {answer}")


def send_all(servers, requests):
    """Sends requests to all servers at once, without measuring."""
    with ThreadPoolExecutor(len(servers)) as pool:
        answers = pool.map(lambda server: [server.ask(data) for _, data in requests], servers)
        compare(servers, requests, list(answers))


def make_book(programs, size, firms, suspense, folder):
    """A server for each program over a store of these firms, stopped. The size leaves out the spare ones."""
    servers = []
    for name, program in programs.items():
        name = f"{name}-{size}"
        servers.append(Server(name, str(program), os.path.join(folder, name), DAY, "desk = 0\n"))
        servers[-1].init()
        servers[-1].start()
    begun, requests = time.perf_counter(), list(growth(firms, suspense))
    send_all(servers, requests)
    tell(f"{size:,} firms by {len(requests):,} requests in {time.perf_counter() - begun:.0f} s")
    for server in servers:
        server.stop()
    return servers


def check_reach(kind, no, before, after, deleted, written, was_deleted):
    """A firm's rows are those that the kind stands for."""
    puts, newest = KINDS[kind].puts, max(after.charges)
    if puts == NOTHING:
        expect(not was_deleted, kind, no, "there was a DELETE")
    elif puts == NEWEST:
        expect(written, kind, no, "nothing was written")
        expect(all(piece[0] == newest for piece in deleted | written), kind, no, "reaches an older month")
    else:
        expect((deleted, written) == (before.allocated(), after.allocated()), kind, no, "leaves pieces")


def count_rows(kind, server, measured, folder):
    """The rows of one request of a kind, on a copy of a server's store."""
    copy = server.copy(os.path.join(folder, "count"))
    plant(copy.store())
    before = read_accounts(copy.store())
    last = max(rowid for account in before.values() for rowid in account.pieces)
    expect(last in before[NOBODY].pieces, "the row of no firm is not behind all others")
    copy.start()
    send_all([copy], measured.before(kind, 1) + measured.of_kind(kind, 1)[1:])
    copy.stop()
    after = read_accounts(copy.store())
    shutil.rmtree(copy.folder)
    numbers, rows = {firm.no for firm in measured.firms_of(kind, 1)[1:]}, Rows(read=KINDS[kind].looks)
    for no in before.keys() | after.keys():
        if no == NOBODY:
            expect(before[no] == after[no], kind, "the row of no firm has changed")
        elif no in numbers:
            found = rows_of_firm(kind, no, before[no], after[no], last)
            check_reach(kind, no, before[no], after[no], *found)
            rows.add(before[no], after[no], *found)
        else:
            expect(before[no] == after[no], kind, no, "is another firm, and has changed")
    return rows


def measure(servers, requests, turn):
    """What each server takes for the requests, in turns, each of which begins with another server."""
    taken = [Taken() for _ in servers]
    for begin in range(0, len(requests), turn):
        part, answers = requests[begin:begin + turn], [None] * len(servers)
        for step in range(len(servers)):
            place = (step + begin // turn) % len(servers)
            answers[place] = taken[place].take(servers[place], part)
        compare(servers, part, answers)
    return taken


def measure_copies(kind, servers, measured, each, folder):
    """What each server takes for requests of a kind, on a copy of its store."""
    copies = [server.copy(os.path.join(folder, f"copy-{place}")) for place, server in enumerate(servers)]
    for copy in copies:
        copy.start()
    count = max(each // 10, 1) if kind == BANK_FILE else each
    spare, *requests = measured.of_kind(kind, count)
    send_all(copies, [*measured.before(kind, count), spare])
    taken = measure(copies, requests, 1 if kind == BANK_FILE else SLICE)
    send_all(copies, measured.statements(kind, count))
    for copy in copies:
        copy.stop()
        shutil.rmtree(copy.folder)
    tell(f"measured: {kind}")
    return taken


def print_rows(counts):
    print("\nRows of one request\n")
    row("Request", "Firms", "Charges", "Credits", "Read", "Deleted", "Written", "Left", "Firms with DELETE",
        "Charges written")
    row(*["---"] * 10)
    for kind, rows in counts.items():
        row(kind, *astuple(rows))


def bound(limit, aim):
    return "-" if limit is None else f"{limit:.2f}" + (f" (aim {aim:.2f})" if aim is not None else "")


def print_beside(title, figures, names, value, digits, limit_of):
    """Each kind at each size by each program, the ratio of the last program to the first, and its limit."""
    print(f"\n{title}\n")
    beside = len(names) > 1
    sizes = list(next(iter(figures.values())))
    heads = [f"{size:,}: {word}" for size in sizes for word in [*names, *["ratio"] * beside]]
    row("Request", *heads, *["wanted"] * beside)
    row(*["---"] * (1 + len(heads) + beside))
    for kind, by_size in figures.items():
        cells = []
        for taken in by_size.values():
            values = [value(taken[name]) for name in names]
            cells += [f"{each:,.{digits}f}" for each in values] + [f"{values[-1] / values[0]:.2f}"] * beside
        row(kind, *cells, *[limit_of(KINDS[kind])] * beside)


def print_sizes(figures, names):
    """The processor time of each kind at the larger books, beside that at the first one."""
    first, *others = next(iter(figures.values()))
    if not others:
        return
    print(f"\nProcessor time of a request, beside that of {first:,} firms\n")
    row("Request", *(f"{size:,}: {name}" for size in others for name in names), "at most")
    row(*["---"] * (2 + len(others) * len(names)))
    for kind, by_size in figures.items():
        times = {(size, name): taken.processor_milliseconds()
                 for size, by_name in by_size.items() for name, taken in by_name.items()}
        cells = [f"{times[size, name] / times[first, name]:.2f}" for size in others for name in names]
        row(kind, *cells, f"{SIZES_APART:.2f}")


def at_most(kind):
    return "-" if kind.limit is None else "at most " + bound(kind.limit, kind.aim)


def at_least(kind):
    return "-" if kind.limit is None else "at least " + bound(1 / kind.limit, kind.aim and 1 / kind.aim)


def print_times(figures, names):
    print_beside("Milliseconds of a request, processor time of the server", figures, names,
                 Taken.processor_milliseconds, 3, at_most)
    print_beside("Milliseconds of a request, by the clock, the median", figures, names,
                 Taken.milliseconds, 3, at_most)
    print_beside("Requests a second", figures, names, Taken.rate, 0, at_least)
    print_sizes(figures, names)


def read_options():
    parser = option_parser(__doc__)
    parser.add_argument("--before")
    parser.add_argument("--firms", default=[200, 2_000],
                        type=lambda text: sorted(int(count) for count in text.split(",")))
    parser.add_argument("--each", type=int, default=100, help="0: the rows alone")
    parser.add_argument("--kinds", default=list(KINDS), type=lambda text: text.split(","))
    options = parser.parse_args()
    if options.firms[0] < 2:
        parser.error("a book has two firms at least")
    if not KINDS.keys() >= set(options.kinds):
        parser.error("kinds are " + ",".join(KINDS))
    options.each = min(options.each, options.firms[0] // 2)
    return options


def run(options, folder):
    """The rows of each kind, and what requests of it took, by size and program."""
    programs = {"before": options.before} if options.before else {}
    programs["after"] = options.program
    firms = draw_firms(SPARE + options.firms[-1])
    sizes = options.firms if options.each else options.firms[:1]
    books = {size: make_book(programs, size, firms[:SPARE + size], 1 + max(options.each, 1), folder)
             for size in sizes}
    measured = Measured(firms[:SPARE + sizes[0]])
    counts = {kind: count_rows(kind, books[sizes[0]][-1], measured, folder) for kind in options.kinds}
    tell("rows counted")
    figures, servers = {}, [server for book in books.values() for server in book]
    for kind in options.kinds if options.each else ():
        taken = iter(measure_copies(kind, servers, measured, options.each, folder))
        figures[kind] = {size: {name: next(taken) for name in programs} for size in sizes}
    return counts, figures, list(programs)


def main():
    options = read_options()
    with tempfile.TemporaryDirectory(dir=options.folder) as folder:
        print_machine(os.path.realpath(folder))
        counts, figures, names = run(options, folder)
    print_rows(counts)
    if figures:
        print_times(figures, names)


if __name__ == "__main__":
    main()
