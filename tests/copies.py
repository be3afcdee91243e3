"""Copies of a store, and work on one, while other files come to stand at their paths, by the built program.

    python3 tests/copies.py [PROGRAM]

PROGRAM is crates/clear_app/out/clear_app where it isn't given, as `rt ci` leaves it.
"""

import os
import signal
import sys
from pathlib import Path

# No __pycache__ is left beside the sources.
sys.dont_write_bytecode = True
import stores  # noqa: E402
from program_under_test import DAY, run_tests  # noqa: E402
from stores import HEADER  # noqa: E402

COPIED = (0, "copied, ledger day 2024-04-30\n", "")


class Copies(stores.Stores):
    def setUp(self):
        """Two stores, so large that neither is read or copied at once."""
        super().setUp()
        self.filled()
        for number in (20, 21):
            lines = "".join(f"R{number}-{line},2024-04-21,1001,1,C,\n" for line in range(10_000))
            self.write("lines.csv", HEADER + lines)
            self.expect(["import", "fund.db", DAY, str(number), "lines.csv"], 0, "new 10000 repeats 0\n")
        self.copy("other.db")
        self.expect(["import", "other.db", DAY, "22", "bank.csv"], 0, "new 0 repeats 4\n")

    def stopped(self, moment, *words):
        """The program with these words, stopped at a moment; one that was quicker is begun anew."""
        for _ in range(50):
            running = self.start(*words)
            self.addCleanup(running.communicate)
            self.addCleanup(running.kill)
            while running.poll() is None and not moment(running):
                pass
            running.send_signal(signal.SIGSTOP)
            while running.poll() is None and self.state(running) != "T":
                pass
            if running.poll() is None and moment(running):
                return running
            running.kill()
            running.communicate()
            (self.folder / "copy.db").unlink(missing_ok=True)
        self.fail("the moment didn't come")

    def state(self, running):
        """As the kernel tells it: T is stopped."""
        return Path(f"/proc/{running.pid}/stat").read_text().rsplit(")", 1)[1].split()[0]

    def goes_on(self, running):
        running.send_signal(signal.SIGCONT)
        output, errors = running.communicate(timeout=60)
        return running.returncode, output.decode(), errors.decode()

    def part(self):
        """Which file is being written, if one is."""
        try:
            return os.stat(self.folder / "copy.db.part").st_ino
        except FileNotFoundError:
            return None

    def has_open(self, running, store):
        opened, path = f"/proc/{running.pid}/fd", os.path.realpath(self.folder / store)
        return any(os.path.realpath(f"{opened}/{it}") == path for it in os.listdir(opened))

    def test_two_copies_under_one_name(self):
        first = self.stopped(lambda _: self.part(), "backup", "fund.db", "copy.db")
        of_first = self.part()
        second = self.start("backup", "other.db", "copy.db")
        self.addCleanup(second.kill)
        while second.poll() is None and self.part() in (None, of_first):
            pass
        second.send_signal(signal.SIGSTOP)
        told = {"fund.db": self.goes_on(first), "other.db": self.goes_on(second)}
        # One of them says that it was copied, and what stands there is the copy of its store.
        copied = [store for store, outcome in told.items() if outcome == COPIED]
        self.assertEqual(len(copied), 1, told)
        self.assertEqual([it for it in told.values() if it != COPIED], [(2, "", "fault file\n")])
        # (`assertEqual` would look for where seven million bytes differ)
        content = [(self.folder / it).read_bytes() for it in ("copy.db", *copied)]
        self.assertTrue(content[0] == content[1], told)
        self.assertIsNone(self.part())

    def test_what_comes_to_stand_at_the_path_is_left(self):
        running = self.stopped(lambda _: self.part(), "backup", "fund.db", "copy.db")
        self.write("copy.db", "a text")
        self.assertEqual(self.goes_on(running), (2, "", "fault file\n"))
        self.assertEqual((self.folder / "copy.db").read_bytes(), b"a text")
        self.assertIsNone(self.part())

    def test_a_name_that_a_store_takes_for_its_own(self):
        for name in ("fund.db-journal", "new.db-wal", "new.db-journal"):
            self.expect(["backup", "fund.db", name], 2, "", "fault file\n")
            self.assertFalse((self.folder / name).exists())
        self.expect(["backup", "fund.db", "copy.db"], *COPIED)

    def test_a_store_that_is_moved_away_while_it_is_opened(self):
        """Another one is put at its path, or half of one, as a copy of it is that is still written."""
        other = (self.folder / "other.db").read_bytes()
        self.write("more.csv", HEADER + "M1,2024-04-21,1001,1,C,\n")
        for words in (["backup", "fund.db", "copy.db"], ["import", "fund.db", DAY, "30", "more.csv"]):
            for content in (other, other[:len(other) // 2]):
                running = self.stopped(lambda it: self.has_open(it, "fund.db"), *words)
                before = (self.folder / "fund.db").read_bytes()
                for end in ("", "-wal"):
                    (self.folder / f"fund.db{end}").rename(self.folder / f"away.db{end}")
                self.write("fund.db", content)
                self.assertEqual(self.goes_on(running), (3, "", "rule 41 Store\n"), words)
                self.assertFalse((self.folder / "copy.db").exists())
                self.assertIsNone(self.part())
                for end in ("", "-wal"):
                    (self.folder / f"away.db{end}").rename(self.folder / f"fund.db{end}")
                # It has nothing of what was refused.
                self.assertTrue((self.folder / "fund.db").read_bytes() == before, words)


if __name__ == "__main__":
    run_tests()
