"""What the desk (tools/desk) knows by its folder: which numbers were taken, what was done, what has no answer.

    python3 tests/desk_folder.py [PROGRAM]

PROGRAM is crates/clear_app/out/clear_app where it isn't given, as `rt ci` leaves it. What is expected is
worked out from docs/rules.md by hand.
"""

import errno
import json
import os
import resource
import sys
import threading
from pathlib import Path
from unittest import mock

# No __pycache__ is left beside the sources.
sys.dont_write_bytecode = True
from desk_under_test import DONE, FIRST_BANK, DeskUnderTest, FakeOffice, answer_bytes  # noqa: E402
from program_under_test import ROOT, run_tests  # noqa: E402

sys.path.append(str(ROOT / "tools"))
from desk_server.commands import command  # noqa: E402
from desk_server.journal import Journal, Lines  # noqa: E402
from desk_server.recent import Recent  # noqa: E402


class StoreOfBefore(DeskUnderTest):
    """The office goes on from a backup (docs/clerk.md, sections 5 and 6), and gives numbers again."""

    def to_the_backup(self):
        """January is 2000.00, of which 30.00 of interest came up until it was paid."""
        self.open_desk(None, "--rates", "rates.toml")
        self.does(DONE, self.register())
        for month, lines in (("2024-01", "7,1000000\n"), ("2024-02", ""), ("2024-03", "")):
            self.report(month, lines)
        self.does({"new": 2, "repeats": 0}, self.bank(FIRST_BANK))
        self.close_office()
        self.backup = {path.name: path.read_bytes() for path in self.folder.glob("fund.db*")}
        self.open_office(port=self.server.port)

    def go_back(self):
        self.close_office()
        for path in self.folder.glob("fund.db*"):
            path.unlink()
        for name, content in self.backup.items():
            self.write(name, content)
        self.open_office(port=self.server.port)

    def claim(self, number, amount):
        self.does({"claim": number}, self.command("claim", employer="1001", worker="7", amount=amount))

    def release(self, number, paid, to_interest):
        reply = {"paid": paid, "to_contributions": 0, "to_interest": to_interest}
        self.does(reply, self.command("release", claim=str(number)))

    def add_rates(self, contribution):
        rates = {"contribution": contribution, "entitlement": "14,25", "interest": "0,90", "report_day": "15",
                 "due_day": "20", "from": "2026-01"}
        self.does(DONE, self.command("rates", **rates))

    def test_what_the_desk_knew_behind_the_backup(self):
        self.to_the_backup()
        for number, amount, paid, to_interest in ((1, "40", 1_000, 3_000), (2, "20", 2_000, 0)):
            self.claim(number, amount)
            self.release(number, paid, to_interest)
            self.does({"items": 1, "list": number, "total": paid}, self.command("payouts"))
        self.add_rates("19,5")
        self.go_back()
        self.claim(1, "50")
        self.release(1, 2_000, 3_000)
        told = self.does({"items": 1, "list": 1, "total": 2_000}, self.command("payouts"))
        # Nothing says that this list was made before.
        self.assertEqual(set(told), {"entry", "state"})
        self.assertEqual(self.get("/api/suspense/0")[1]["lists"], [1])
        claims = self.get("/api/firms/1001")[1]["claims"]
        self.assertEqual([(it["claim"], it["cents"], it["state"]) for it in claims], [(1, 5_000, "released")])
        self.add_rates("21")
        self.assertEqual(self.expected("2026-01", "7,10000\n"), {"cents": "2100", "rate": 2100, "from": "2026-01"})


class Files(DeskUnderTest):
    """A desk that is started anew knows what was done before, whatever a file didn't take or lost."""

    def open_with_fake_office(self, *answers):
        self.answers = list(answers)
        self.office = FakeOffice(self, lambda request: self.answers.pop(0))
        self.open_desk(self.office.port)

    def start_anew(self):
        self.desk.terminate()
        self.desk.wait()
        self.open_desk(self.office.port)

    def test_a_file_of_numbers_that_is_older_than_the_log(self):
        listed = [answer_bytes(200, {"items": 1, "list": number, "total": 5}) for number in (1, 2, 3)]
        self.open_with_fake_office(*listed)
        for _ in range(2):
            self.command("payouts")
        numbers = self.log_folder / "numbers.jsonl"
        numbers.write_text(numbers.read_text().splitlines(keepends=True)[0])
        self.start_anew()
        # Under number 2 the office would tell list 2 again.
        self.assertEqual(self.command("payouts")[1]["entry"]["number"], 3)

    def test_a_desk_that_stops_before_its_log_is_written(self):
        """What was done stays in front of all others, as the log doesn't have it, and is done once."""
        claimed = answer_bytes(200, {"claim": 1})
        self.open_with_fake_office(claimed, claimed)
        claim = {"employer": "1001", "worker": "7", "amount": "10,00"}
        size = self.fill_the_log()
        resource.prlimit(self.desk.pid, resource.RLIMIT_FSIZE, (size, resource.RLIM_INFINITY))
        told = self.does({"claim": 1}, self.command("claim", **claim), "done-unwritten")
        self.assertIsNone(told["state"]["pending"])
        self.start_anew()
        self.assertEqual(self.session["state"]["pending"]["words"], "claim 1001 7 1000")
        self.faults(409, "pending", self.command("claim", **claim))
        told = self.post("/api/pending/send-again", "send-again", {"number": 1})
        self.assertIsNone(self.does({"claim": 1}, told, "repeated")["state"]["pending"])
        self.assertEqual(self.office.requests[0], self.office.requests[1])
        self.assertEqual(self.logged()[-1], (1, "repeated", "claim 1001 7 1000"))

    def fill_the_log(self):
        """A log that is longer than the desk's other files. Its size."""
        self.kill_desk()
        line = {"time": "", "number": 0, "outcome": "given-up", "kind": "end", "words": "x" * 4_000, "values": {},
                "reply": {}}
        (self.log_folder / "log.jsonl").write_text(json.dumps(line) + "\n")
        self.open_desk(self.office.port)
        return len(json.dumps(line)) + 1

    def test_a_line_that_is_taken_out(self):
        """The desk names one that isn't its own. Its number stands in the other file, so that it isn't taken again."""
        listed = [answer_bytes(200, {"items": 1, "list": number, "total": 5}) for number in (1, 2, 3)]
        self.open_with_fake_office(*listed)
        words = ["--office", str(self.office.port), "--key-file", "desk.key", "--port", "0"]
        for number, name in enumerate(("log.jsonl", "numbers.jsonl"), 1):
            self.assertEqual(self.command("payouts")[1]["entry"]["number"], number)
            self.kill_desk()
            path = self.log_folder / name
            before = path.read_text().splitlines(keepends=True)[:-1]
            path.write_text("".join(before) + "\0" * 40 + "\n")
            told = f"{path}: line {len(before) + 1} is none of the desk's\n"
            self.assertEqual(self.run_desk(*words), (2, "", told))
            path.write_text("".join(before))
            self.open_desk(self.office.port)
        self.assertEqual(self.command("payouts")[1]["entry"]["number"], 3)
        # The list whose line the log lost is made, and isn't known here.
        self.assertEqual([it[0] for it in self.logged()], [2, 3])

    def test_a_last_line_without_its_end(self):
        """It is kept where it is whole: the list stays known, and its number isn't taken again."""
        listed = [answer_bytes(200, {"items": 1, "list": number, "total": 5}) for number in (1, 2)]
        self.open_with_fake_office(*listed, answer_bytes(200, b"something\n", "text/plain"))
        self.command("payouts")
        self.kill_desk()
        before = [(self.log_folder / name).read_bytes() for name in ("log.jsonl", "numbers.jsonl")]
        for name, content in zip(("log.jsonl", "numbers.jsonl"), before):
            (self.log_folder / name).write_bytes(content.removesuffix(b"\n"))
        self.open_desk(self.office.port)
        self.assertEqual([(self.log_folder / name).read_bytes() for name in ("log.jsonl", "numbers.jsonl")], before)
        self.assertEqual(self.command("payouts")[1]["entry"]["number"], 2)
        self.assertEqual([it[0] for it in self.logged()], [1, 2])
        self.assertEqual(self.get("/api/suspense/0")[1]["lists"], [1, 2])
        self.desk.terminate()
        self.assertEqual((self.desk.stderr.read(), list(self.log_folder.glob("*.cut"))), ("", []))

    def test_a_last_line_that_is_cut_off(self):
        """The desk starts without it, says where it is, and doesn't lose those that were put there before."""
        answered = answer_bytes(200, {"items": 1, "list": 1, "total": 5})
        self.open_with_fake_office(answered)
        self.command("payouts")
        self.kill_desk()
        entry = (self.log_folder / "log.jsonl").read_bytes()
        parts = [entry[:-2], entry[:1], b"\0" * 40]
        for count, part in enumerate(parts, 1):
            for name in ("log", "numbers"):
                path = self.log_folder / f"{name}.jsonl"
                whole = path.read_bytes()
                path.write_bytes(whole + part)
                self.open_desk(self.office.port)
                aside = self.log_folder / f"{name}.cut"
                told = f"desk-log/{name}.jsonl: the last line was cut off, and stands in {aside} now\n"
                self.kill_desk()
                self.assertTrue(self.desk.stderr.read().endswith(told))
                self.assertEqual((path.read_bytes(), aside.read_bytes()),
                                 (whole, b"".join(it + b"\n" for it in parts[:count])))
                self.assertEqual(aside.stat().st_mode & 0o777, 0o600)

    def test_a_folder_that_takes_nothing_any_more(self):
        """Neither can the answer be written nor the request's file be removed."""
        journal = Journal(self.log_folder, 1, 2)
        numbered = journal.take(command("payouts", "/payouts", None, {}))
        reply = {"items": 1, "list": 1, "total": 5}
        full = OSError(errno.EROFS, "Read-only file system")
        with mock.patch.object(Lines, "append", side_effect=full), mock.patch.object(Path, "unlink", side_effect=full):
            self.assertFalse(journal.note(numbered, "done", reply)[1])
        self.assertIsNone(journal.pending)
        journal = self.anew(journal)
        self.assertEqual(journal.pending, numbered)
        with mock.patch.object(Path, "unlink", side_effect=full):
            self.assertTrue(journal.note(numbered, "repeated", reply)[1])
        journal = self.anew(journal)
        self.assertIsNone(journal.pending)
        self.assertFalse(journal.pending_path.exists())
        self.assertEqual([it[:2] for it in self.logged()], [(2, "repeated")])

    def test_claims_that_are_not_open(self):
        """What became of one that the office doesn't release isn't known, but of one that was released here."""
        over = answer_bytes(409, {"rule": 27, "name": "ClaimNotOpen", "detail": ""})
        released = answer_bytes(200, {"paid": 1, "to_contributions": 0, "to_interest": 0})
        claims = [answer_bytes(200, {"claim": number}) for number in (1, 2)]
        self.open_with_fake_office(*claims, released, over, over, answer_bytes(200, b"something\n", "text/plain"))
        for _ in claims:
            self.command("claim", employer="1001", worker="7", amount="1")
        self.command("release", claim="1")
        for claim in ("1", "2"):
            self.refuses(27, "ClaimNotOpen", "", self.command("release", claim=claim))
        self.start_anew()
        told = self.get("/api/firms/1001")[1]["claims"]
        self.assertEqual([it["state"] for it in told], ["released", "over"])

    def test_how_much_is_told_of_the_log(self):
        """The last 500 entries, and the last ten lists."""
        self.open_with_fake_office(answer_bytes(200, b"something\n", "text/plain"))
        self.kill_desk()
        lines = [{"time": "", "number": number, "outcome": "done", "kind": "payouts", "words": "payouts", "values": {},
                  "reply": {"items": 1, "list": number, "total": 5}} for number in range(1, 502)]
        (self.log_folder / "log.jsonl").write_text("".join(f"{json.dumps(it)}\n" for it in lines))
        self.open_desk(self.office.port)
        self.assertEqual([it["number"] for it in self.get("/api/log")[1]["log"]], [*range(2, 502)])
        self.assertEqual(self.get("/api/suspense/0")[1]["lists"], [*range(492, 502)])

    def test_the_last_firms_are_known(self):
        """Two hundred of them, the last one first."""
        recent = Recent(self.folder)
        for number in range(1, 202):
            recent.add(number, "Bau")
        self.assertEqual([it["employer"] for it in Recent(self.folder).told()],
                         [str(number) for number in range(201, 1, -1)])

    def test_a_file_of_firms_that_cannot_be_read(self):
        """It is made anew."""
        for text in ("{", "5", "[[1]]", '[["a","b"]]'):
            self.write("firms.json", text)
            recent = Recent(self.folder)
            self.assertEqual(recent.told(), [], text)
            recent.add(1001, "Bau")
            self.assertEqual(Recent(self.folder).told(), [{"employer": "1001", "name": "Bau"}])

    def test_firms_that_are_opened_at_once(self):
        """In two windows: while the first firm is written down, the second one comes."""
        recent = Recent(self.folder)
        second = threading.Thread(target=recent.add, args=(1002, "Bau West"))
        whole = Path.write_text

        def write(path, *words, **options):
            if second.ident is None:
                second.start()
                second.join(0.5)
            return whole(path, *words, **options)

        with mock.patch.object(Path, "write_text", write):
            recent.add(1001, "Bau Nord")
            second.join()
        firms = [{"employer": "1002", "name": "Bau West"}, {"employer": "1001", "name": "Bau Nord"}]
        self.assertEqual((recent.told(), Recent(self.folder).told()), (firms, firms))

    def anew(self, journal):
        os.close(journal.lock)
        return Journal(self.log_folder, 1, 2)


if __name__ == "__main__":
    run_tests()
