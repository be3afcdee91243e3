"""Serves the request files of tests/rows on the built program, and compares its answers with those beside them.

    python3 tests/rows.py [PROGRAM]

PROGRAM is crates/clear_app/out/clear_app where it isn't given, built by clang, as `rt ci` leaves it. Beside it
`rt ci` leaves PROGRAM.by-rattle, the same built by the toolchain's own compiler: the files are served on that too,
and a line says so where it isn't there. A file that has its office for itself is the standard input of `stream`.
Files that share an office are a connection of `serve` each, over one store, on a program that is started anew.
"""

import os
import sys
import unittest

# No __pycache__ is left beside the sources.
sys.dont_write_bytecode = True
from program_under_test import ROOT, ProgramUnderTest, run_tests  # noqa: E402

ROWS = ROOT / "tests/rows"


def read_index():
    """The offices of the index: the names and days of the files that each serves, in their order."""
    offices = []
    for line in (ROWS / "index").read_text().splitlines():
        name, day, office, _shown = line.split(maxsplit=3)
        if office == "new":
            offices.append([])
        elif office != "same":
            raise ValueError(f"neither new nor same: {line}")
        offices[-1].append((name, day))
    return offices


OFFICES = read_index()


class Index(unittest.TestCase):
    def test_it_names_each_file_once(self):
        names = [name for files in OFFICES for name, _ in files]
        self.assertCountEqual([f"{name}.http" for name in names], os.listdir(ROWS / "data"))
        self.assertCountEqual(names, os.listdir(ROWS / "answers"))


class Rows(ProgramUnderTest):
    """Each class below it has a test for each office, named after its first file."""

    maxDiff = None

    def __init_subclass__(cls):
        for files in OFFICES:
            setattr(cls, f"test_{files[0][0]}", lambda self, files=files: self.serve(files))

    def serve(self, files):
        if len(files) > 1:
            self.init()
        served = self.serve_connection if len(files) > 1 else self.serve_stream
        for name, day in files:
            answers = served(name, day, (ROWS / "data" / f"{name}.http").read_bytes())
            # The decoded texts are the same just where the bytes are.
            self.assertEqual(answers, (ROWS / "answers" / name).read_bytes().decode(), name)

    def serve_stream(self, name, day, requests):
        status, answers, errors = self.run_program("stream", "sample", "sample", day, stdin=requests)
        self.assertEqual((status, errors), (0, ""), name)
        return answers

    def serve_connection(self, name, day, requests):
        server = self.serving(1, day)
        answers = self.send(server, requests)
        self.assertEqual(self.ended(server), (0, "served 1\n", ""), name)
        return answers.decode()


class ByClang(Rows):
    """On the program itself."""


class ByRattle(Rows):
    """On the program as the toolchain's own compiler builds it. `rt ci` builds that after the other."""

    @classmethod
    def setUpClass(cls):
        first = ProgramUnderTest.program
        cls.program = first.with_name(f"{first.name}.by-rattle")
        if not cls.program.is_file():
            why = "isn't there"
        elif cls.program.stat().st_mtime < first.stat().st_mtime:
            why = "is of an earlier build"
        else:
            return
        raise unittest.SkipTest(f"{cls.program} {why}, so the files were served on {first.name} alone")


if __name__ == "__main__":
    run_tests()
