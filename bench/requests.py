#!/usr/bin/env python3
"""Whether a request costs more as the book grows: books of 1,000 and of 100,000 accepted requests.

    python3 bench/requests.py [REPEATS [PAGES]]

It proves and builds a program of the sources in bench/requests, in the copy of the repository that bench/rows.py
uses, too, outside of it: some 9 minutes the first time where the crates are proved. The program makes a store of
each size in a temporary file: it registers 250 firms, and fills the book through the office with bank files that
have no lines. Then it takes 1,000 requests of each kind on a fresh copy of either store, one size after the other:
reports of one line, each a firm's first of its month; the same again, which are answered as before; bank files of
one new line; what a firm owes; claims of 10.00 each for a firm's worker; their releases, each set off to interest;
and the withdrawals of as many other claims. Then come 10 payout lists of 100 claims each, on days of their own, on
which these claims are made and released before; only the lists are measured. Each request is a transaction of the
office, its commit included. The whole is done three times if no other number is given. PAGES is how many pages of
4,096 bytes the store keeps in memory, 2,000 if not given, which is the kit's own number.

The files lie on /dev/shm where there is one, so that the figures are the program's and not the disk's: a commit
on a disk waits for it, at any size of the book. Starting the program and opening the file don't count. Of
each time the least is taken, both by processor time and by the clock. The table has the microseconds of one
request at either size and their ratio, and the same for one request of each kind together, but for payout lists.

Of the tables only that of the kept requests is larger in the large store, and each new request goes to its end. No
bank lines come in while the book is filled, so the table doesn't show what an import costs once 100,000 lines came
in: from then on it looks at the key of each credit of its firms, and, where a line stays without a firm, at each bank
line. Nor is a registration measured, which counts all firms once there are 10,000 requests.
"""
import argparse
import os
import sys
import tempfile
import time

sys.dont_write_bytecode = True
from programs import Program, least  # noqa: E402
from server import MEMORY  # noqa: E402

PROGRAM = Program("requests", "clear_office clear_database clear_book clear_money sqlite sqlite_std_file")
SIZES = (1_000, 100_000)
# The kinds of requests in the program's order, and how many it takes of each.
REQUESTS = 1_000
KINDS = dict.fromkeys(("report", "repeat", "import", "owed", "claim", "release", "withdraw"), REQUESTS)
LIST = "payout list of 100 claims"
COUNTS = KINDS | {LIST: 10}


def make(store, size, pages):
    """Makes a store, and tells how long that took."""
    begun = time.perf_counter()
    PROGRAM.run(store, "make", size, pages)
    seconds = time.perf_counter() - begun
    kilobytes = os.path.getsize(store) // 1024
    print(f"made a book of {size:,} requests: {seconds:.1f} s, {kilobytes:,} kB", file=sys.stderr)


def measure(store, size, pages):
    """For each kind the microseconds of one request by processor time and by the clock, on a copy of a store."""
    lines = PROGRAM.run_on_copy(store, "measure", size, pages).splitlines()
    return [tuple(int(spent) / count / 1_000 for spent in line.split())
            for line, count in zip(lines, COUNTS.values(), strict=True)]


def measured(stores, pages):
    """What each kind takes, by size."""
    return {(kind, size): spent for size, store in stores.items()
            for kind, spent in zip(COUNTS, measure(store, size, pages), strict=True)}


def main():
    words = argparse.ArgumentParser(
        description=__doc__, formatter_class=argparse.RawDescriptionHelpFormatter)
    words.add_argument("repeats", type=int, nargs="?", default=3)
    words.add_argument("pages", type=int, nargs="?", default=2_000)
    given = words.parse_args()
    PROGRAM.build()
    found = {}
    with tempfile.TemporaryDirectory(dir=MEMORY) as folder:
        stores = {size: os.path.join(folder, f"store{size}") for size in SIZES}
        for size, store in stores.items():
            make(store, size, given.pages)
        for turn in range(given.repeats):
            print(f"measuring, {turn + 1} of {given.repeats}", file=sys.stderr)
            for key, spent in measured(stores, given.pages).items():
                found[key] = least(found.get(key), spent)
    show(found)


def show(found):
    small, large = SIZES
    print("| Request | Processor at 1,000 | At 100,000 | Ratio | Clock at 1,000 | At 100,000 | Ratio |")
    print("|---|---|---|---|---|---|---|")
    for name, kinds in [*((kind, (kind,)) for kind in COUNTS), ("all together", KINDS)]:
        cells = []
        for part in range(2):
            few, many = (sum(found[kind, size][part] for kind in kinds) for size in (small, large))
            cells += [f"{few:.1f} µs", f"{many:.1f} µs", f"{many / few:.2f}"]
        print(f"| {name} | {' | '.join(cells)} |")


if __name__ == "__main__":
    main()
