"""Runs the scripts of `examples` as a clerk does, against a served office, and compares their files and words.

    python3 tests/examples.py [PROGRAM]

PROGRAM is crates/clear_app/out/clear_app where it isn't given, as `rt ci` leaves it. What is expected is worked out
here from docs/rules.md alone.
"""

import contextlib
import datetime
import json
import os
import re
import resource
import shutil
import socket
import sqlite3
import stat
import subprocess
import sys
import tempfile

# No __pycache__ is left beside the sources.
sys.dont_write_bytecode = True
from program import HEADER, REGISTRATION, post  # noqa: E402
from program_under_test import DAY, ROOT, ProgramUnderTest, run_tests  # noqa: E402
from serving import ask  # noqa: E402

CSV_HEADER = "employer,month,worker,gross\n"
JANUARY = CSV_HEADER + "1001,2024-01,7,1000000\n"
NO_LINES = "no lines; a month in which nobody worked is reported by hand (docs/clerk.md, section 3)"
# Where no office answers.
AGAIN = "when the office answers, run the same command again: nothing is done twice\n"
ONCE_IT_IS_GONE = "once the cause is gone, run the same command again: nothing is done twice\n"
BROKEN_OFF = "broken off; to go on, run the same command again: nothing is done twice\n"
REGISTRATION_LINE = 'POST /employers 1 {"employer":1001,"name":"Bau Nord","start":"2024-01"}\n'
REPORT_LINE = 'POST /employers/1001/reports/2024-02 2 {"lines":[{"gross":100,"worker":8}]}\n'

YEAR_END = "2025-01-31"
FIRST, FIRMS = 1001, 300
RATE, INTEREST = 2000, 100


class Scripts(ProgramUnderTest):
    maxDiff = None
    store = "fund.db"

    def setUp(self):
        super().setUp()
        self.write("desk.key", "desk\n")
        self.write("firm.key", "k1001\n")

    def open_office(self, day=DAY, count=1_000):
        """An office that is served, and takes connections by now. Its address."""
        if not (self.folder / self.store).exists():
            self.init(self.store)
        self.server = self.serving(count + 1, day, self.store)
        self.connect(self.server).close()
        self.address = f"127.0.0.1:{self.server.port}"

    def close_office(self):
        self.server.kill()
        self.server.communicate()

    def command(self, name, *words, key="desk.key"):
        return [sys.executable, "-B", str(ROOT / f"examples/{name}.py"), self.address, key, *map(str, words)]

    def script(self, name, *words, status=0, errors="", **options):
        """What a script prints, which ends with this status and says this on standard error."""
        ran = subprocess.run(self.command(name, *words, **options), cwd=self.folder, capture_output=True, timeout=60)
        self.assertEqual((ran.returncode, ran.stderr.decode()), (status, errors), ran.stdout.decode())
        return ran.stdout.decode()

    def refuses_to_start(self, said, name, *words, **options):
        """A script ends with status 2, says this, and opens no connection."""
        with socket.create_server(("127.0.0.1", 0)) as listener:
            self.address = f"127.0.0.1:{listener.getsockname()[1]}"
            self.assertEqual(self.script(name, *words, status=2, errors=said, **options), "")
            listener.settimeout(0)
            self.assertRaises(BlockingIOError, listener.accept)

    def ask_desk(self, request):
        with self.connect(self.server) as peer:
            return ask(peer, request).decode()

    def statement(self, employer):
        head = f"GET /employers/{employer}/statement HTTP/1.1\r\nHost: office\r\nOffice-Key: desk\r\n\r\n"
        return self.ask_desk(head.encode())


# ---- the rules of the trade, for the fund below


class Firm:
    """One of 300 firms in the twelve months of 2024, by its place: what it reports, pays and owes."""

    def __init__(self, place):
        self.place, self.employer = place, FIRST + place
        self.missing = [month for month in range(12) if self.misses(month)]
        self.charges = {month: self.charge(month) for month in range(12) if month not in self.missing}
        self.payments = [*self.payments_by_bank()]
        self.interest_paid = 0

    def misses(self, month):
        return self.place % 10 == 3 and month == 4 or self.place % 20 == 13 and month == 11

    def wages(self, month):
        """Its workers with their gross amounts."""
        return {self.employer * 10 + at: 200_000 + 1_009 * month + 137 * self.place + 5_003 * at
                for at in range(1 + self.place % 3)}

    def charge(self, month):
        return (sum(self.wages(month).values()) * RATE + 5_000) // 10_000

    def payments_by_bank(self):
        """Most pay on the due day; some pay nothing, and some all of it late."""
        if self.place % 7 == 2:
            return
        for month, cents in self.charges.items():
            yield (datetime.date(2025, 1, 10) if self.place % 11 == 4 else due(month)), cents

    def arrears(self, day):
        owed = sum(cents for month, cents in self.charges.items() if due(month) < day)
        return max(0, owed - sum(cents for _, cents in self.payments))

    def open_at(self, month, day):
        """What is open of a month's charge on a day: payments pay the charges in the order of their months."""
        before = sum(cents for earlier, cents in self.charges.items() if earlier < month)
        paid = sum(cents for paid_on, cents in self.payments if paid_on <= day)
        return min(max(before + self.charges[month] - paid, 0), self.charges[month])

    def interest(self, day):
        """The interest of all charges, less what is paid of it."""
        total = 0
        for month in self.charges:
            begun = [due(later) for later in range(month, 24) if due(later) < day]
            total += sum(self.open_at(month, it) for it in begun) * INTEREST // 10_000
        return max(0, total - self.interest_paid)

    def release(self, cents, day):
        """Settles a claim. What is paid out."""
        to_contributions = min(cents, self.arrears(day))
        to_interest = min(cents - to_contributions, self.interest(day))
        self.payments.append((day, to_contributions))
        self.interest_paid += to_interest
        return cents - to_contributions - to_interest

    def reminder(self, day):
        """Its line in the first reminder run, if it is in default."""
        arrears, interest = self.arrears(day), self.interest(day)
        if self.missing or arrears or interest:
            first = month_name(self.missing[0]) if self.missing else "-"
            amounts = f"{in_euros(arrears):>14} {in_euros(interest):>14}"
            yield f"employer {self.employer} level 1 missing {len(self.missing)} {first} {amounts}"


def due(month):
    """The 20th of the month behind the one with this number, of which 0 is January 2024."""
    return datetime.date(2024 + (month + 1) // 12, (month + 1) % 12 + 1, 20)


def month_name(month):
    return f"{2024 + month // 12}-{month % 12 + 1:02}"


def in_euros(cents):
    return f"{cents / 100:.2f}"


def amounts_in_cents(pattern, text):
    """The sum of the amounts that the pattern finds in a text."""
    return sum(int(found.replace(".", "")) for found in re.findall(pattern, text, re.M))


class Fund(Scripts):
    """A fund of 300 firms and twelve months: registered, reported, paid and ended by the scripts."""

    def setUp(self):
        super().setUp()
        if os.access("/dev/shm", os.W_OK):
            # Most of the time would go to a disk's syncs, one for each of 3,900 requests.
            memory = tempfile.mkdtemp(prefix="clearing-", dir="/dev/shm")
            self.addCleanup(shutil.rmtree, memory)
            os.chmod(memory, 0o777)
            self.store = f"{memory}/fund.db"

    def test_a_year_and_its_month_end(self):
        firms = [Firm(place) for place in range(FIRMS)]
        self.day = datetime.date.fromisoformat(YEAR_END)
        self.open_office(YEAR_END)
        self.register(firms)
        self.report(firms)
        self.pay(firms)
        paid_out = self.claim(firms)
        self.end_the_month(firms, paid_out)

    def register(self, firms):
        self.write("firms.txt", "".join(
            f'POST /employers {at} {{"employer":{firm.employer},"name":"Bau {at}","start":"2024-01"}}\n'
            for at, firm in enumerate(firms, 1)))
        said = self.script("answer_log", "firms.txt", "firms.log")
        self.assertEqual(said, f"sent: {FIRMS}, skipped: 0, refused: 0\n")

    def report(self, firms):
        """All reports in one file, month by month; then once more, which changes nothing."""
        lines, wanted = [CSV_HEADER], []
        for month in range(12):
            name = month_name(month)
            for firm in firms:
                if month in firm.charges:
                    told = f"{1_001 + len(wanted)} {firm.employer} {name}"
                    gross = in_euros(sum(firm.wages(month).values()))
                    wanted.append(f"{told}: {in_euros(firm.charges[month])} euros for {gross} euros gross, version 1\n")
                    lines += [f"{firm.employer},{name},{worker},{gross}\n"
                              for worker, gross in firm.wages(month).items()]
        self.write("wages.csv", "".join(lines))
        wanted.append(f"reports: {len(wanted)}, refused: 0\n")
        for _ in range(2):
            self.assertEqual(self.script("reports_from_csv", 1_001, "wages.csv"), "".join(wanted))

    def pay(self, firms):
        lines = [f"P{firm.employer}-{at},{day},{firm.employer},{cents},C,\n"
                 for firm in firms for at, (day, cents) in enumerate(firm.payments)]
        unknown = "U1,2024-12-30,,5000,C,no number\nU2,2024-12-31,99,700,I,\n"
        answer = self.ask_desk(post("/bank", 10_001, HEADER + "".join(lines) + unknown))
        self.assertIn(f'{{"new":{len(lines) + 2},"repeats":0}}', answer)

    def claim(self, firms):
        """A claim of a firm that owes nothing, of one that owes more, and of one that owes interest: what is paid
        out of each."""
        lines, paid_out = [], []
        for at, (place, cents) in enumerate(((0, 50_000), (2, 60_000), (4, 70_000)), 1):
            firm = firms[place]
            claim = json.dumps({"cents": cents, "worker": firm.employer * 10})
            lines.append(f"POST /employers/{firm.employer}/claims {20_000 + 2 * at} {claim}\n")
            lines.append(f"POST /claims/{at}/release {20_001 + 2 * at}\n")
            paid_out.append((at, firm, firm.release(cents, self.day)))
        self.assertEqual([paid for _, _, paid in paid_out][:2], [50_000, 0])
        self.assertTrue(0 < paid_out[2][2] < 70_000)
        self.write("claims.txt", "".join(lines))
        self.assertEqual(self.script("answer_log", "claims.txt", "claims.log"),
                         "sent: 6, skipped: 0, refused: 0\n")
        return [it for it in paid_out if it[2]]

    def end_the_month(self, firms, paid_out):
        reminders = [line for firm in firms for line in firm.reminder(self.day)]
        self.assertTrue(0 < len(reminders) < FIRMS)
        total = sum(paid for _, _, paid in paid_out)
        words = ["month_end", "january", 30_001, f"{FIRST - 2}-{FIRST + FIRMS + 8}"]
        skipped = "999 1000 1301 1302 1303 1304 1305 1306 1307 1308 .."
        said = (f"statements: {FIRMS}\nnumbers without a firm: 11 ({skipped})\n"
                f"suspense {YEAR_END}: total 57.00\nreminders 1 {YEAR_END}: firms {len(reminders)}\n"
                f"payout 1 {YEAR_END}: total {in_euros(total)}\n")
        self.assertEqual(self.script(*words), said)
        files = self.files("january")
        self.assertEqual(files.pop(f"reminders-1-{YEAR_END}.txt"), "".join(
            f"{line}\n" for line in [f"reminders 1 {YEAR_END}", *reminders, f"firms {len(reminders)}"]))
        self.assertEqual(files.pop(f"payout-1-{YEAR_END}.txt"), f"payout 1 {YEAR_END}\n" + "".join(
            f"claim {claim} employer {firm.employer} worker {firm.employer * 10} {in_euros(paid):>14}\n"
            for claim, firm, paid in paid_out) + f"items {len(paid_out)}\ntotal {in_euros(total):>14}\n")
        self.assertEqual(files.pop(f"suspense-{YEAR_END}.txt"), f"suspense {YEAR_END}\n"
                         f"line U1 2024-12-30 C - {'50.00':>14} no number\n"
                         f"line U2 2024-12-31 I 99 {'7.00':>14}\nlines 2\ntotal {'57.00':>14}\n")
        self.compare_statements(firms, files)
        before = self.files("january")
        # Once more under the same numbers, and the firms from a file.
        self.write("range.txt", f"{FIRST - 2}-{FIRST + FIRMS - 1}\n{FIRST + FIRMS}-{FIRST + FIRMS + 8}\n")
        *first, payout = said.splitlines(keepends=True)
        again = "".join([*first, made_before(30_001), payout, made_before(30_002)])
        self.assertEqual(self.script(*words[:-1], "range.txt"), again)
        self.assertEqual(self.files("january"), before)
        # Under new numbers nothing is due, which is no fault.
        self.assertEqual(self.script("month_end", "again", 30_003, FIRST), f"statements: 1\n"
                         f"suspense {YEAR_END}: total 57.00\n"
                         "reminders: rule 30 NothingToRemind\npayouts: rule 29 NothingToPay\n")
        self.assertEqual(len(self.files("again")), 2)

    def files(self, folder):
        return {path.name: path.read_text() for path in (self.folder / folder).iterdir()}

    def compare_statements(self, firms, files):
        self.assertEqual(set(files), {f"statement-{firm.employer}-{YEAR_END}.txt" for firm in firms})
        for firm in firms:
            text = files[f"statement-{firm.employer}-{YEAR_END}.txt"]
            self.assertEqual(len(re.findall("^missing ", text, re.M)), len(firm.missing), text)
            charges = r"^charge .* version 1 +([0-9.]+) +[0-9.]+ +[0-9.]+$"
            self.assertEqual(amounts_in_cents(charges, text), sum(firm.charges.values()), text)
            for name in ("arrears", "interest"):
                amount = getattr(firm, name)(self.day)
                self.assertEqual(amounts_in_cents(rf"^{name} +([0-9.]+)$", text), amount, text)
            paid = sum(cents for _, cents in firm.payments)
            self.assertEqual(amounts_in_cents(r"^  paid [0-9-]+ +([0-9.]+) ", text), paid, text)


def made_before(number):
    return (f"its file stood in the folder: number {number} made it before, and a new one needs a new number, "
            "unless the store went back to a backup since\n")


class MonthEnd(Scripts):
    def setUp(self):
        super().setUp()
        self.open_office()
        self.ask_desk(REGISTRATION)

    def test_a_number_of_an_earlier_day(self):
        made = "reminders 1 2024-04-30: firms 1\n"
        nothing = "payouts: rule 29 NothingToPay\n"
        said = self.script("month_end", "april", 2, "1001", "1002")
        self.assertEqual(said, "statements: 1\nnumbers without a firm: 1 (1002)\n"
                               f"suspense 2024-04-30: total 0.00\n{made}{nothing}")
        self.close_office()
        self.open_office("2024-05-02")
        note = "number 2 made it on an earlier day; a new one needs a new number\n"
        said = self.script("month_end", "april", 2, "1001")
        self.assertEqual(said, f"statements: 1\nsuspense 2024-05-02: total 0.00\n{made}{note}{nothing}")
        # What was written on the earlier day is still there.
        names = sorted(path.name for path in (self.folder / "april").iterdir())
        self.assertEqual(names, [
            "reminders-1-2024-04-30.txt", "statement-1001-2024-04-30.txt", "statement-1001-2024-05-02.txt",
            "suspense-2024-04-30.txt", "suspense-2024-05-02.txt"])
        # Nobody else may read it.
        for path in (self.folder / "april", *(self.folder / "april").iterdir()):
            self.assertEqual(path.stat().st_mode & 0o077, 0, path)

    def test_the_same_number_on_the_same_day(self):
        self.script("month_end", "april", 2, "1001")
        said = self.script("month_end", "april", 2, "1001")
        self.assertEqual(said, "statements: 1\nsuspense 2024-04-30: total 0.00\nreminders 1 2024-04-30: firms 1\n"
                               f"{made_before(2)}payouts: rule 29 NothingToPay\n")

    def test_a_number_that_stands_in_several_ranges(self):
        """A firm has one statement, and a number without a firm is told once."""
        said = self.script("month_end", "april", 2, "1001", "1000-1002", "1002")
        self.assertEqual(said.splitlines()[:2], ["statements: 1", "numbers without a firm: 2 (1000 1002)"])

    def test_a_store_that_went_back_to_a_backup(self):
        """The run is made anew, and its file of before stands in the folder: no more is told than is known."""
        self.close_office()
        self.expect(["backup", "fund.db", "copy.db"], 0, "copied, ledger day 2024-04-30\n")
        for _ in range(2):
            self.open_office()
            said = self.script("month_end", "april", 2, "1001")
            self.close_office()
            for path in self.folder.glob("fund.db*"):
                path.unlink()
            shutil.copy(self.folder / "copy.db", self.folder / "fund.db")
            (self.folder / "fund.db").chmod(0o666)
        self.assertIn(f"reminders 1 2024-04-30: firms 1\n{made_before(2)}", said)
        self.assertIn("unless the store went back to a backup", said)

    def test_a_run_of_another_book(self):
        """As of a store that went back to a backup, and then came to other reminders: what stands there is left."""
        self.script("month_end", "april", 2, "1001")
        reminders = self.folder / "april/reminders-1-2024-04-30.txt"
        another = reminders.read_text().replace("1001", "1002")
        reminders.write_text(another)
        self.script("month_end", "april", 2, "1001", status=2,
                    errors="april/reminders-1-2024-04-30.txt stands with another content, and is left as it is: the "
                           "office has another reminders 1 2024-04-30 now, which number 2 made\n")
        self.assertEqual(reminders.read_text(), another)

    def test_no_firm(self):
        """Nothing is made that can't be taken back."""
        said = self.script("month_end", "april", 2, "1002-1003", status=2,
                           errors="no number is a firm's, so no run and no list is made\n")
        self.assertEqual(said, "statements: 0\nnumbers without a firm: 2 (1002 1003)\n")
        self.assertFalse((self.folder / "april").exists())
        self.write("none.txt", " \n")
        self.refuses_to_start("none.txt: no firm is named\n", "month_end", "april", 2, "none.txt")

    def test_a_disk_that_is_full(self):
        """A document that stands there stays as it is."""
        self.script("month_end", "april", 2, "1001")
        statement = self.folder / "april/statement-1001-2024-04-30.txt"
        before = statement.read_text()
        words = self.command("month_end", "april", 2, "1001")
        ran = subprocess.run(words, cwd=self.folder, capture_output=True, timeout=60, check=False,
                             preexec_fn=lambda: resource.setrlimit(resource.RLIMIT_FSIZE, (10, 10)))
        self.assertEqual((ran.returncode, ran.stderr.decode()), (2, f"[Errno 27] File too large\n{BROKEN_OFF}"))
        self.assertEqual(statement.read_text(), before)
        self.assertEqual([it.name for it in (self.folder / "april").iterdir() if it.suffix != ".txt"], [])

    def test_what_another_user_put_in_the_folder(self):
        """Under names that can be told beforehand: neither is it written into, nor does a link lead elsewhere."""
        april = self.folder / "april"
        april.mkdir(mode=0o777)
        theirs, ours = self.write("theirs", "theirs\n"), self.write("ours", "ours\n")
        names = ["statement-1001-2024-04-30.txt", "suspense-2024-04-30.txt", "reminders-1-2024-04-30.txt"]
        os.link(theirs, april / f"{names[0]}.part")
        (april / f"{names[1]}.part").symlink_to(ours)
        (april / names[2]).symlink_to(ours)
        self.script("month_end", "april", 2, "1001")
        self.assertEqual((theirs.read_text(), ours.read_text()), ("theirs\n", "ours\n"))
        for name in names:
            made = (april / name).lstat()
            self.assertTrue(stat.S_ISREG(made.st_mode), name)
            self.assertEqual((made.st_nlink, made.st_mode & 0o077), (1, 0), name)

    def test_numbers_that_do_not_serve_for_all(self):
        last = 999_999_999_999_999_999
        self.assertIn("reminders 1 2024-04-30: ", self.script("month_end", "april", last - 1, 1001))
        fault = f"2 numbers from {last} on go past {last}\n"
        self.refuses_to_start(fault, "month_end", "april", last, 1001)
        self.write("wages.csv", JANUARY + "1001,2024-02,7,1000000\n")
        self.refuses_to_start(fault, "reports_from_csv", last, "wages.csv")

    def test_refusals(self):
        self.write("no.key", "nobody\n")
        for key, number, said, errors in (
                ("no.key", 2, "", "rule 6 UnknownKey\n"),
                ("firm.key", 2, "statements: 1\n", "rule 7 NotYours\n"),
                ("desk.key", 1, "statements: 1\nsuspense 2024-04-30: total 0.00\n",
                 "reminders under number 1: rule 9 NumberReused\n")):
            printed = self.script("month_end", "april", number, 1001, key=key, status=1, errors=errors)
            self.assertEqual(printed, said)

    def test_wrong_words_and_files(self):
        self.write("firms.txt", "1001 1002-\n")
        fault = "firms.txt: 1002- is neither an employer number nor FIRST-LAST\n"
        self.refuses_to_start(fault, "month_end", "april", 2, "firms.txt")
        fault = "1002-1001: 1002-1001 is neither an employer number nor FIRST-LAST\n"
        self.refuses_to_start(fault, "month_end", "april", 2, "1002-1001")
        missing = "[Errno 2] No such file or directory: 'no.txt'\n"
        self.refuses_to_start(missing, "month_end", "april", 2, "no.txt")
        self.refuses_to_start("firms.txt: not one key\n", "month_end", "april", 2, 1001, key="firms.txt")
        self.write("firms.txt", b"1001 \xff\n")
        self.refuses_to_start("firms.txt: no text in UTF-8\n", "month_end", "april", 2, "firms.txt")
        self.assertFalse((self.folder / "april").exists())


class Reports(Scripts):
    def test_refused_reports_are_told(self):
        self.open_office()
        self.ask_desk(REGISTRATION)
        self.write("wages.csv", JANUARY + "1002,2024-01,8,1\n1001,2024-05,7,1\n1001,2024-02,7,500050\n")
        wanted = ("1 1001 2024-01: 2000.00 euros for 10000.00 euros gross, version 1\n"
                  "2 1002 2024-01: rule 7 NotYours\n3 1001 2024-05: rule 14 MonthAhead\n"
                  "4 1001 2024-02: 1000.10 euros for 5000.50 euros gross, version 1\nreports: 4, refused: 2\n")
        for _ in range(2):
            said = self.script("reports_from_csv", 1, "wages.csv", key="firm.key", status=1)
            self.assertEqual(said, wanted)
        said = self.script("reports_from_csv", 5, "wages.csv", status=1)
        self.assertIn("5 1001 2024-01: rule 15 ReportExists 1\n6 1002 2024-01: rule 11 UnknownEmployer\n", said)
        self.close_office()
        with contextlib.closing(sqlite3.connect(self.folder / "fund.db")) as store:
            kept = store.execute("SELECT number, CAST(command AS TEXT) FROM requests WHERE caller = 1001 ORDER BY 1")
            self.assertEqual(kept.fetchall(), [(1, "report 1001 2024-01 7:1000000"),
                                               (4, "report 1001 2024-02 7:500050")])

    def test_nobodys_key_ends_it(self):
        self.open_office()
        self.write("no.key", "nobody\n")
        self.write("wages.csv", JANUARY + "1001,2024-02,7,1\n")
        said = self.script("reports_from_csv", 1, "wages.csv", key="no.key", status=1,
                           errors=f"reports to be sent again, from number 1 on: 2\n{ONCE_IT_IS_GONE}")
        self.assertEqual(said, "1 1001 2024-01: rule 6 UnknownKey\n")

    def test_a_broken_file_sends_nothing(self):
        full = "".join(f"1001,2024-02,{worker},1\n" for worker in range(1, 501))
        faults = {
            "line 3: 3 fields in place of 4": JANUARY + "1001,2024-01,8\n",
            "line 3: worker is empty": JANUARY + "1001,2024-01,,1\n",
            "line 4: employer is empty": JANUARY + ",,,\n,,Summe,1000000\n",
            "line 3: employer has other signs than 1 to 18 digits": JANUARY + "Bau,2024-01,8,1\n",
            "line 3: worker isn't from 1 to 999999999": JANUARY + "1001,2024-01,0,1\n",
            "line 3: gross isn't from 0 to 10000000": JANUARY + "1001,2024-01,8,10000001\n",
            "line 3: month isn't YYYY-MM from 2000-01 to 2199-12": JANUARY + "1001,2024-13,8,1\n",
            "line 4: worker 7 stands twice in this firm's month": JANUARY + "\n1001,2024-01,007,1\n",
            "line 503: more than 500 lines in this firm's month": JANUARY + full + "1001,2024-02,501,1\n",
            "line 2: unexpected end of data": CSV_HEADER + '"1001,2024-01,7,1\n',
            NO_LINES: CSV_HEADER + "\n",
        }
        for fault, text in faults.items():
            self.refuses_file(fault, text)

    def refuses_file(self, fault, text):
        self.write("wages.csv", text)
        self.refuses_to_start(f"{fault}\nwages.csv: nothing is sent\n", "reports_from_csv", 1, "wages.csv")

    def test_amounts_in_euros(self):
        """Nobody is led to take the signs out of an amount: 1234.5 without them is a tenth of it."""
        in_cents = "gross is in cents, 1 to 18 digits alone: 123450 for 1.234,50 euros"
        for gross in ("10.00", "1234.5", '"1.234,50"', "1'234", "-100", "1E6", "100 €", 19 * "0"):
            self.refuses_file(f"line 3: {in_cents}", f"{JANUARY}1001,2024-01,8,{gross}\n")
        self.refuses_file(f"line 3: 5 fields in place of 4; {in_cents}", f"{JANUARY}1001,2024-01,8,1234,50\n")

    def test_headers_as_spreadsheets_write_them(self):
        """What stands there is told."""
        for header in ("employer;month;worker;gross", "employer\tmonth\tworker\tgross", "sep=,",
                       "employer,month,worker,gross,", "1001,2024-01,7,5", 3 * "employer,month,worker,gross,", ""):
            told = f"line 1: the header isn't {CSV_HEADER.strip()} with commas between and nothing behind: "
            self.refuses_file(f"{told}{header[:60]!r}", f"{header}\n{JANUARY}")
        for encoding in ("utf-16", "utf-16-le", "utf-16-be"):
            self.write("wages.csv", JANUARY.encode(encoding))
            self.refuses_to_start("wages.csv: no text in UTF-8\n", "reports_from_csv", 1, "wages.csv")

    def test_what_is_just_allowed(self):
        """The largest amount, 500 lines, a byte order mark, and rows without anything, as spreadsheets write them."""
        self.open_office()
        self.ask_desk(REGISTRATION)
        lines = "".join(f"1001,2024-01,{worker},10000000\r\n" for worker in range(1, 501))
        self.write("wages.csv", b"\xef\xbb\xbf" + f"{CSV_HEADER}{lines}\r\n,,,\r\n ,, ,,\r\n".encode())
        # A fifth of 500 times 100,000.00.
        told = "1 1001 2024-01: 10000000.00 euros for 50000000.00 euros gross, version 1\nreports: 1, refused: 0\n"
        self.assertEqual(self.script("reports_from_csv", 1, "wages.csv", key="firm.key"), told)


class Readme(Scripts):
    def test_each_command_line_of_the_examples(self):
        self.open_office()
        self.write("wages.csv", JANUARY)
        self.write("january.csv", JANUARY)
        self.write("requests.txt", REGISTRATION_LINE + "GET /employers/1001/owed -\n")
        lines = re.findall(r"^    python3 (.*)$", (ROOT / "examples/README.md").read_text(), re.M)
        # The firm is registered first.
        lines.sort(key=lambda line: "answer_log" not in line)
        ends = ["sent: 2, skipped: 0, refused: 0", "payouts: rule 29 NothingToPay",
                *2 * ["reports: 1, refused: 0"]]
        self.assertEqual(len(lines), len(ends))
        for line, end in zip(lines, ends):
            words = line.replace("127.0.0.1:8080", self.address).split()
            ran = subprocess.run([sys.executable, "-B", str(ROOT / words[0]), *words[1:]], cwd=self.folder,
                                 capture_output=True, timeout=60)
            self.assertEqual((ran.returncode, ran.stderr), (0, b""), line)
            self.assertEqual(ran.stdout.decode().splitlines()[-1], end)


if __name__ == "__main__":
    run_tests()
