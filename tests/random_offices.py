"""Sends offices requests of all kinds, drawn at random over some months, and compares their answers, byte for byte,
with what machine.py works out anew from all that was accepted, and the rows of all tables with those of its book.

    python3 tests/random_offices.py [PROGRAM]

PROGRAM is crates/clear_app/out/clear_app where it isn't given, as `rt ci` leaves it. OFFICES in the environment is how
many are drawn, from the one of the number FIRST on.
"""

import os
import sys

# No __pycache__ is left beside the sources.
sys.dont_write_bytecode = True
from compared_offices import ComparedOffices  # noqa: E402
from drawn_requests import Draw  # noqa: E402
from machine_answers import NAMES  # noqa: E402
from program_under_test import run_tests  # noqa: E402

# So many meet each rule, and the order of most.
ENOUGH = 40
FIRST, OFFICES = int(os.environ.get("FIRST", 1)), int(os.environ.get("OFFICES", ENOUGH))
DAYS, MOST_REQUESTS = 14, 25


class RandomOffices(ComparedOffices):
    def test_answers_and_tables(self):
        for seed in range(FIRST, FIRST + OFFICES):
            with self.subTest(office=seed):
                self.follow(Draw(seed), f"{seed}.db")
        if OFFICES >= ENOUGH:
            self.assertEqual(self.rules, set(NAMES))

    def follow(self, draw, store):
        self.begin(draw.book, draw.keys, store)
        for _ in range(DAYS):
            day = draw.next_day()
            requests = (draw.request() for _ in range(draw.random.randint(3, MOST_REQUESTS)))
            self.compare(draw.book, draw.keys, day, requests, store)
        self.compare_tables(draw.book, store)


if __name__ == "__main__":
    run_tests()
