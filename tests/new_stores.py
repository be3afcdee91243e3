"""The files that `init` makes a store in: a new one, an empty one, or one that was left half made.

    python3 tests/new_stores.py [PROGRAM]

PROGRAM is crates/clear_app/out/clear_app where it isn't given, as `rt ci` leaves it.
"""

import itertools
import stat
import struct
import sys

# No __pycache__ is left beside the sources.
sys.dont_write_bytecode = True
from program_under_test import DAY, run_tests  # noqa: E402
from stores import NEW, Stores  # noqa: E402


class EmptyFile(Stores):
    """A file without bytes is no store. It stays as it is, so that `init` or its owner still finds it empty."""

    def test_each_word_that_opens_a_store(self):
        self.write("fund.db", "")
        self.write("lines.csv", "reference,value_date,employer,cents,purpose,note\n")
        refusal, told = "rule 43 WrongVersion 0\n", "this file is empty\n"
        for words, errors in (
            (["statement", "fund.db", DAY, "1001"], refusal),
            (["import", "fund.db", DAY, "1", "lines.csv"], refusal),
            (["serve", "fund.db", "callers.toml", DAY, "1024", "1"], refusal),
            (["backup", "fund.db", "copy.db"], refusal),
            (["migrate", "fund.db"], refusal),
            (["look", "fund.db"], refusal + told),
        ):
            with self.subTest(words[0]):
                self.expect(words, 3, "", errors)
                self.assertEqual((self.folder / "fund.db").stat().st_size, 0)
                self.assertFalse((self.folder / "fund.db-wal").exists())
        self.init()

    def test_a_log_alone(self):
        """What a log has of a store that was moved away isn't dropped by a new store under its name."""
        self.killed()
        (self.folder / "fund.db").rename(self.folder / "moved.db")
        log = (self.folder / "fund.db-wal").read_bytes()
        self.expect(["init", "fund.db", "rates.toml"], 2, "", "fault file\n")
        self.assertEqual((self.folder / "fund.db-wal").read_bytes(), log)
        self.assertFalse((self.folder / "fund.db").exists())
        # Nor is it by one in an empty file, as it is made for another owner.
        empty = self.write("fund.db", "")
        self.expect(["init", "fund.db", "rates.toml"], 2, "", "fault file\n")
        self.assertEqual((empty.stat().st_size, (self.folder / "fund.db-wal").read_bytes()), (0, log))
        (self.folder / "moved.db").rename(self.folder / "fund.db")
        self.assertEqual(self.run_program("look", "fund.db")[1].splitlines()[2], "requests 2")

    def test_an_empty_log_alone(self):
        """A log without bytes, as a file that is no database gets one when it is opened, has nothing to lose. But who may
        read it would read what the new store accepts."""
        no_database = self.write("fund.db", "hello\n")
        self.expect(["init", "fund.db", "rates.toml"], 3, "", "rule 41 Store\n")
        log = self.folder / "fund.db-wal"
        self.assertEqual(log.stat().st_size, 0)
        no_database.unlink()
        self.expect(["init", "fund.db", "rates.toml"], 2, "", "fault file\n")
        self.assertEqual((no_database.exists(), log.stat().st_size), (False, 0))
        log.unlink()
        self.init()
        self.assertEqual([stat.S_IMODE(it.stat().st_mode) for it in (no_database, log)], [0o600, 0o600])
        self.expect(["look", "fund.db"], 0, NEW)

    def test_what_a_start_meets_first(self):
        """A file that is named wrongly is told before the store is asked for."""
        self.write("fund.db", "")
        self.expect(["serve", "fund.db", "none.toml", DAY, "1024", "1"], 2, "", "fault file\n")


class Begun(Stores):
    """What a new store begins with: an empty database, which a stop may leave half made."""

    def page_size(self):
        """The bytes of a page, as the head of the store's file has them."""
        return int.from_bytes((self.folder / "fund.db").read_bytes()[16:18], "big")

    def test_small_pages(self):
        self.init()
        self.assertEqual(self.page_size(), 1024)
        self.remove_store()
        empty = self.write("fund.db", "")
        self.init()
        self.assertEqual((self.page_size(), stat.S_IMODE(empty.stat().st_mode)), (1024, 0o666))

    def test_a_file_that_was_left_half_made(self):
        """`init` goes on with it, in the pages that were begun: those of an earlier build are of 4,096 bytes."""
        for size in (1024, 4096):
            for held in (b"\0", b"\0" + b"left" * 100, b"\0" * size):
                with self.subTest(size=size, held=len(held)):
                    self.remove_store()
                    self.write("fund.db", held)
                    self.write("fund.db-wal", begun_log(size))
                    self.init()
                    self.assertEqual(self.page_size(), 1024 if len(held) == 1 else size)
                    self.expect(["look", "fund.db"], 0, NEW)

    def test_a_file_that_only_looks_half_made(self):
        """Without the log that was begun with it, a file that has lost its first byte is no new store."""
        self.init()
        made = (self.folder / "fund.db").read_bytes()
        of_a_close = (self.folder / "fund.db-wal").read_bytes()
        for held, log in itertools.product((b"\0" * 1024, b"\0" + made[1:1024], b"\0" + made[1:]), (b"", of_a_close)):
            with self.subTest(held=len(held), log=len(log)):
                self.remove_store()
                self.write("fund.db", held)
                if log:
                    self.write("fund.db-wal", log)
                self.expect(["init", "fund.db", "rates.toml"], 3, "", "rule 41 Store\n")
                self.assertEqual((self.folder / "fund.db").read_bytes(), held)

    def remove_store(self):
        for name in ("fund.db", "fund.db-wal"):
            (self.folder / name).unlink(missing_ok=True)


def begun_log(size):
    """The log that stands beside a database of such pages before its first page is written: a head alone."""
    head = struct.pack(">6I", 0x377F0682, 3_007_000, size, 0xFFFFFFFF, 0x01000001, 2)
    first = second = 0
    for low, high in struct.iter_unpack("<2I", head):
        first = (first + low + second) % 2**32
        second = (second + high + first) % 2**32
    return head + struct.pack(">2I", first, second)


if __name__ == "__main__":
    run_tests()
