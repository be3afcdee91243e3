#!/usr/bin/env python3
"""Whether a request costs more as the book grows: reports of 500 lines and imports of 10,000 lines.

    python3 bench/office.py [PROGRAM] [--folder FOLDER]

PROGRAM is the built program where none is named. It serves a new store, and then a stream over records in memory, and
is sent one request after another: 800 reports of 200 firms, once each firm with 500 workers of its own, whose numbers
follow one another, and once all firms with the same 500, so that each line goes to another place of the index by
workers; and nine imports of 10,000 lines each, half of them for a firm and half for nobody. Each figure is the
processor time of the program: the median of ten requests, but for the imports, which stand for themselves. The status
is 1 where a report costs more than twice the 10th, or an import more than twice the first. Other work on the machine can
double what it meets for seconds, so where something costs that much, all is measured again, five times at most: it is
enough that nothing does in one round.

The files lie below FOLDER, /dev/shm where there is one, so that the figures are the program's and not the disk's.
"""
import json
import subprocess
import sys
import tempfile
from statistics import median

sys.dont_write_bytecode = True
from server import HEADER, Server, option_parser  # noqa: E402
from suspense import DAY, Desk, FIRST  # noqa: E402

# A request may cost so many times what an early one does, in so many rounds.
MOST = 2
ROUNDS = 6
FIRMS = 200
MONTHS = ["2024-01", "2024-02", "2024-03", "2024-04"]
LINES = 500
IMPORTS = 9
FILE_LINES = 10_000
PLACES = (10, 100, 400, 795)
# The first worker of a report of the firm at a place.
WORKERS = (
    ("own", "workers of each firm's own", lambda firm: 1 + firm * LINES),
    ("same", "the same workers", lambda firm: 1),
)


class Stream(Server):
    """The program over records in memory, which takes its requests from a pipe."""

    def init(self):
        pass

    def start(self):
        words = ("stream", self.path("rates.toml"), self.path("callers.toml"), self.day)
        self.process = subprocess.Popen([*self.words, *words], stdin=subprocess.PIPE, stdout=subprocess.PIPE)

    def send(self, data):
        self.process.stdin.write(data)
        self.process.stdin.flush()

    def fill(self):
        data = self.process.stdout.read1()
        if not data:
            raise ConnectionError(f"{self.name} has ended")
        self.bytes += data


KINDS = {"store": (Server, "Records in a store:"), "stream": (Stream, "Records in memory:")}


def desk_of(kind, program, folder):
    """A clerk of a new office of 200 firms, served as this kind of server does."""
    server = kind("the program", program, folder, DAY, "desk = 0\n")
    server.init()
    server.start()
    desk = Desk(server)
    for firm in range(FIRMS):
        desk.register(FIRST + firm)
    return desk


def report_body(first):
    return json.dumps({"lines": [{"worker": first + line, "gross": 100_000} for line in range(LINES)]})


def time_reports(desk, first_worker):
    """The milliseconds of each report."""
    times = []
    for month in MONTHS:
        for firm in range(FIRMS):
            path, body = f"/employers/{FIRST + firm}/reports/{month}", report_body(first_worker(firm))
            times.append(desk.measured([body], lambda body, path=path: desk.post(path, body)))
    return times


def bank_file(count):
    """A file whose lines no earlier one had; every other line names a firm."""
    firms = (FIRST + line % FIRMS if line % 2 == 0 else "" for line in range(FILE_LINES))
    return HEADER + "".join(f"F{count}-{line},2024-04-01,{firm},1000,C,\n" for line, firm in enumerate(firms))


def time_imports(desk):
    return [desk.measured([bank_file(count)], lambda file: desk.post("/bank", file)) for count in range(IMPORTS)]


def tell_reports(whose, times):
    """Prints what reports take, and gives it for each place."""
    print(f"{len(times)} reports of {LINES} lines, {whose}: {sum(times) / 1000:.1f} s")
    found = [median(times[place - 5:place + 5]) for place in PLACES]
    for place, here in zip(PLACES, found):
        print(f"  around report {place}: {here:.2f} ms, {here / found[0]:.2f} of the 10th")
    return found


def tell_imports(times):
    print(f"{IMPORTS} imports of {FILE_LINES} lines: {sum(times) / 1000:.1f} s")
    for count, here in enumerate(times, 1):
        print(f"  import {count}: {here:.0f} ms, {here / times[0]:.2f} of the first")
    return times


def measure(kind, what, program, folder):
    """Prints what requests take where the program serves them so, and gives the figures, row by row."""
    print(what, flush=True)
    rows = []
    for name, whose, first in WORKERS:
        desk = desk_of(kind, program, f"{folder}/{name}")
        rows.append(tell_reports(whose, time_reports(desk, first)))
        desk.server.stop()
    desk = desk_of(kind, program, f"{folder}/imports")
    rows.append(tell_imports(time_imports(desk)))
    desk.server.stop()
    return rows


def worst(rows):
    """How many times the first figure of its row a figure is."""
    return max(figure / row[0] for row in rows for figure in row)


def measure_by_rounds(kind, what, program, folder):
    """The worst ratio of the first round that is within bounds, or of the best one."""
    best = worst(measure(kind, what, program, f"{folder}-1"))
    for again in range(2, ROUNDS + 1):
        if best > MOST:
            print(f"{best:.2f} times; once more")
            best = min(best, worst(measure(kind, what, program, f"{folder}-{again}")))
    return best


def main():
    given = option_parser(__doc__).parse_args()
    with tempfile.TemporaryDirectory(dir=given.folder) as folder:
        found = max(measure_by_rounds(kind, what, given.program, f"{folder}/{name}")
                    for name, (kind, what) in KINDS.items())
    if found > MOST:
        sys.exit(f"a request costs {found:.2f} times what an early one does")


if __name__ == "__main__":
    main()
