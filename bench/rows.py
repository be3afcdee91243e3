#!/usr/bin/env python3
"""Measures the calls on the rows of a store, in files of 1,000 and of 100,000 rows a table.

    python3 bench/rows.py [REPEATS [PAGES]]

It proves and builds a program of the sources in bench/rows, in a copy of the repository outside of it, since
the gate would take longer with that program: some 8 minutes the first time where the crates are proved. The
copy stays for the next time. The program makes a store of each size in a temporary folder. Then it makes 1,000
calls of each kind in one transaction on a fresh copy of either store, one size after the other, and repeats the
whole, five times if no other number is given. PAGES is how many pages of 4,096 bytes the store keeps in memory,
20,000 if not given, into which both files fit; the kit's own number is 2,000.

The program measures itself, so that starting it and opening the file, which reads all of it, don't count:
processor time for the calls, so that other work on the machine hardly matters, and the clock for the
commit. Of each time the least is taken. The table has the microseconds of one call at either size and
their ratio, and for calls that write the same of the commit, shared out over the calls that it commits.
"""
import argparse
import os
import sys
import tempfile

sys.dont_write_bytecode = True
from programs import Program, least  # noqa: E402

PROGRAM = Program("rows", "clear_store clear_schema clear_book clear_bank clear_money sqlite sqlite_std_file")
SIZES = (1_000, 100_000)
CALLS = 1_000
LOOKS = ("find_employer", "find_report", "reports_of", "find_last_report", "find_rate", "find_last_rate",
         "find_line", "credits_of", "find_request", "find_counts")
WRITES = ("insert_employer", "insert_report", "replace_report", "insert_wage", "delete_wages",
          "insert_line", "insert_credit", "insert_request", "put_counts")
# These read a whole table.
SCANS = ("all_rates",)


def measure(store, kind, size, pages):
    """The microseconds of one call and of its share of the commit, on a copy of a store."""
    calls, commit = PROGRAM.run_on_copy(store, kind, size, CALLS, pages).split()
    return int(calls) / CALLS / 1_000, int(commit) / CALLS / 1_000


def measured(stores, pages):
    """What each call takes, by size."""
    return {(kind, size): measure(store, kind, size, pages)
            for kind in LOOKS + WRITES + SCANS for size, store in stores.items()}


def main():
    words = argparse.ArgumentParser(
        description=__doc__, formatter_class=argparse.RawDescriptionHelpFormatter)
    words.add_argument("repeats", type=int, nargs="?", default=5)
    words.add_argument("pages", type=int, nargs="?", default=20_000)
    given = words.parse_args()
    PROGRAM.build()
    found = {}
    with tempfile.TemporaryDirectory() as folder:
        stores = {size: os.path.join(folder, f"store{size}") for size in SIZES}
        for size, store in stores.items():
            print(f"making a store of {size:,} rows a table", file=sys.stderr)
            PROGRAM.run(store, "make", size)
        for turn in range(given.repeats):
            print(f"measuring, {turn + 1} of {given.repeats}", file=sys.stderr)
            for key, spent in measured(stores, given.pages).items():
                found[key] = least(found.get(key), spent)
    show(found)


def show(found):
    small, large = SIZES
    print("| Call | 1,000 rows | 100,000 rows | Ratio | Commit at 1,000 | At 100,000 | Ratio |")
    print("|---|---|---|---|---|---|---|")
    for kind in LOOKS + WRITES + SCANS:
        cells = []
        for part in range(2 if kind in WRITES else 1):
            few, many = found[kind, small][part], found[kind, large][part]
            cells += [f"{few:.1f} µs", f"{many:.1f} µs", f"{many / few:.1f}"]
        cells += [""] * (6 - len(cells))
        print(f"| {kind}{' (scan)' if kind in SCANS else ''} | {' | '.join(cells)} |")


main()
