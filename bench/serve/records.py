"""The peer's records in sqlite3, and what is done with them."""
import sqlite3

from rules import (Refusal, begun_months, check_lines, compact, day_after, euros, month_number,
                   month_text, read_file)

SCHEMA = """
CREATE TABLE meta (one INTEGER PRIMARY KEY, day TEXT, entries INT, serial INT, suspense INT) STRICT;
CREATE TABLE rates (first INTEGER PRIMARY KEY, contribution INT, report_day INT, due_day INT,
  interest INT, entitlement INT) STRICT;
CREATE TABLE employers (no INTEGER PRIMARY KEY, name TEXT, start INT) STRICT;
CREATE TABLE reports (employer INT, month INT, version INT, due TEXT, charge INT,
  PRIMARY KEY (employer, month)) STRICT, WITHOUT ROWID;
CREATE TABLE wages (employer INT, month INT, worker INT, gross INT,
  PRIMARY KEY (employer, month, worker)) STRICT, WITHOUT ROWID;
CREATE INDEX wages_by_worker ON wages (worker, employer, month, gross);
CREATE TABLE bank (serial INTEGER PRIMARY KEY, reference TEXT UNIQUE, value TEXT, named INT,
  cents INT, purpose TEXT, note TEXT, employer INT) STRICT;
CREATE TABLE credits (employer INT, purpose TEXT, day TEXT, serial INT, cents INT, reference TEXT,
  PRIMARY KEY (employer, purpose, day, serial)) STRICT, WITHOUT ROWID;
CREATE TABLE claims (no INTEGER PRIMARY KEY, employer INT, worker INT, cents INT, state TEXT, paid INT,
  list INT) STRICT;
CREATE INDEX claims_by_worker ON claims (worker, state, cents);
CREATE INDEX claims_to_pay ON claims (no) WHERE paid > 0 AND list IS NULL;
CREATE INDEX claims_by_list ON claims (list) WHERE list IS NOT NULL;
CREATE TABLE lists (no INTEGER PRIMARY KEY, day TEXT, items INT, total INT) STRICT;
CREATE TABLE requests (caller INT, number INT, day TEXT, command BLOB, reply TEXT,
  PRIMARY KEY (caller, number)) STRICT, WITHOUT ROWID;
INSERT INTO meta VALUES (1, NULL, 0, 0, 0);
"""
# Behind the last credit.
NO_MORE = None, 0, None


def pieces_of(charges, credits):
    """Of each charge what pays it, as day, cents and reference: a walk along both."""
    waiting, found = iter(credits), []
    day, left, reference = next(waiting, NO_MORE)
    for charge in charges:
        pieces = []
        while charge and left:
            piece = min(charge, left)
            pieces.append((day, piece, reference))
            charge, left = charge - piece, left - piece
            if not left:
                day, left, reference = next(waiting, NO_MORE)
        found.append(pieces)
    return found


class Office:
    """The records, and what is done with them on one day."""

    def __init__(self, store, day):
        self.day = day
        self.db = sqlite3.connect(store, isolation_level=None)
        self.run = self.db.execute
        for setting in ("journal_mode=WAL", "synchronous=FULL", "cache_size=-8000"):
            self.run("PRAGMA " + setting)

    def create(self, rates):
        self.db.executescript(SCHEMA)
        self.db.executemany("INSERT INTO rates VALUES (?, ?, ?, ?, ?, ?)", rates)

    def open(self):
        self.rates = self.run(
            "SELECT first, contribution, report_day, due_day, interest, entitlement FROM rates "
            "ORDER BY first DESC").fetchall()

    def one(self, text, *values):
        return self.run(text, values).fetchone()

    def take(self, caller, number, command, act):
        """The answer to a request, in one transaction. A query has no command."""
        self.run("BEGIN IMMEDIATE" if command else "BEGIN")
        try:
            answer = self.judge(caller, number, command, act)
            self.run("COMMIT")
            return answer
        except BaseException:
            self.run("ROLLBACK")
            raise

    def judge(self, caller, number, command, act):
        kept = command and self.one(
            "SELECT command, reply FROM requests WHERE caller = ? AND number = ?", caller, number)
        if kept:
            if kept[0] != command:
                raise Refusal(9)
            return kept[1]
        last_day, entries = self.one("SELECT day, entries FROM meta")
        if last_day and self.day < last_day:
            raise Refusal(10, last_day)
        if not command:
            return act(self)
        if entries >= 50_000_000:
            raise Refusal(18, "book")
        reply = compact(act(self))
        self.run("INSERT INTO requests VALUES (?, ?, ?, ?, ?)",
                 (caller, number, self.day, command, reply))
        self.run("UPDATE meta SET day = ?, entries = entries + 1", (self.day,))
        return reply

    def rate(self, month):
        return next(row for row in self.rates if row[0] <= month)

    def employer(self, no):
        firm = self.one("SELECT name, start FROM employers WHERE no = ?", no)
        if not firm:
            raise Refusal(11)
        return firm

    def register(self, no, name, start):
        if self.one("SELECT 1 FROM employers WHERE no = ?", no):
            raise Refusal(12)
        if self.one("SELECT count(*) FROM employers")[0] >= 10_000:
            raise Refusal(18, "employers")
        if start < self.rates[-1][0]:
            raise Refusal(32)
        self.run("INSERT INTO employers VALUES (?, ?, ?)", (no, name, start))
        return {"done": True}

    def report(self, no, month, lines, version):
        """A month's first report, or a correction of the version."""
        if month < self.employer(no)[1]:
            raise Refusal(13)
        if month > month_number(self.day):
            raise Refusal(14)
        stands = self.one("SELECT version FROM reports WHERE employer = ? AND month = ?", no, month)
        if stands and not version:
            raise Refusal(15, stands[0])
        if version and stands != (version,):
            raise Refusal(16, stands[0] if stands else 0)
        check_lines(lines, version)
        _, contribution, _, due_day, _, _ = self.rate(month)
        charge = (sum(gross for _, gross in lines) * contribution + 5000) // 10000
        self.run("INSERT OR REPLACE INTO reports VALUES (?, ?, ?, ?, ?)",
                 (no, month, version + 1, day_after(month, due_day), charge))
        if version:
            self.run("DELETE FROM wages WHERE employer = ? AND month = ?", (no, month))
        self.db.executemany("INSERT INTO wages VALUES (?, ?, ?, ?)",
                            [(no, month, worker, gross) for worker, gross in lines])
        return {"charge": charge, "version": version + 1}

    def balance(self, worker):
        """What a worker has earned, less all claims that aren't withdrawn, and at least 0."""
        earned = sum(gross * self.rate(month)[5] // 10000 for month, gross in self.run(
            "SELECT month, gross FROM wages WHERE worker = ?", (worker,)))
        claimed, = self.one("SELECT ifnull(sum(cents), 0) FROM claims "
                            "WHERE worker = ? AND state <> 'withdrawn'", worker)
        return max(0, earned - claimed)

    def claim(self, no, worker, cents):
        self.employer(no)
        if not self.one("SELECT 1 FROM wages WHERE worker = ? AND employer = ?", worker, no):
            raise Refusal(24)
        balance = self.balance(worker)
        if cents > balance:
            raise Refusal(25, balance)
        made = self.run("INSERT INTO claims (employer, worker, cents, state) VALUES (?, ?, ?, 'open')",
                        (no, worker, cents))
        return {"claim": made.lastrowid}

    def open_claim(self, claim, no=None):
        """The firm and the cents of an open claim, which has to be that of the firm, if one is given."""
        stands = self.one("SELECT employer, cents, state FROM claims WHERE no = ?", claim)
        if not stands or no not in (None, stands[0]):
            raise Refusal(26)
        if stands[2] != "open":
            raise Refusal(27)
        return stands[:2]

    def withdraw(self, no, claim):
        self.employer(no)
        self.open_claim(claim, no)
        self.run("UPDATE claims SET state = 'withdrawn' WHERE no = ?", (claim,))
        return {"done": True}

    def release(self, claim):
        no, cents = self.open_claim(claim)
        reports = self.reports(no)
        missing = self.missing(self.employer(no)[1], reports)
        if missing:
            raise Refusal(28, month_text(missing[0]))
        interest, _ = self.charges_told(no, reports)
        to_contributions = min(cents, self.sums(no)["arrears"])
        to_interest = min(cents - to_contributions, interest)
        serial = self.one("SELECT serial FROM meta")[0] + 1
        self.set_off(no, "C", serial, to_contributions, claim)
        self.set_off(no, "I", serial, to_interest, claim)
        self.run("UPDATE meta SET serial = ?", (serial,))
        paid = cents - to_contributions - to_interest
        self.run("UPDATE claims SET state = 'released', paid = ? WHERE no = ?", (paid, claim))
        return {"paid": paid, "to_contributions": to_contributions, "to_interest": to_interest}

    def set_off(self, no, purpose, serial, cents, claim):
        """Makes a credit of what a release sets off, if that is something."""
        if not cents:
            return
        count, = self.one("SELECT count(*) FROM credits WHERE employer = ? AND purpose = ?", no, purpose)
        if count >= 100_000:
            raise Refusal(18, "credits")
        self.run("INSERT INTO credits VALUES (?, ?, ?, ?, ?, ?)",
                 (no, purpose, self.day, serial, cents, f"set-off {claim}"))

    def pay_out(self):
        """Puts each claim that is still to be paid out on a list."""
        items, total = self.one("SELECT count(*), ifnull(sum(paid), 0) FROM claims "
                                "WHERE paid > 0 AND list IS NULL")
        if not items:
            raise Refusal(29)
        made = self.run("INSERT INTO lists (day, items, total) VALUES (?, ?, ?)", (self.day, items, total))
        self.run("UPDATE claims SET list = ? WHERE paid > 0 AND list IS NULL", (made.lastrowid,))
        return {"items": items, "list": made.lastrowid, "total": total}

    def payout(self, no):
        stands = self.one("SELECT day, items, total FROM lists WHERE no = ?", no)
        if not stands:
            raise Refusal(33)
        day, items, total = stands
        lines = [f"claim {claim} employer {employer} worker {worker} {euros(paid)}"
                 for claim, employer, worker, paid in self.run(
                     "SELECT no, employer, worker, paid FROM claims WHERE list = ? ORDER BY no", (no,))]
        return "\n".join([f"payout {no} {day}", *lines, f"items {items}", f"total {euros(total)}", ""])

    def worker(self, worker):
        earned = self.run("SELECT employer, month, gross FROM wages WHERE worker = ? "
                          "ORDER BY employer, month", (worker,))
        claims = self.run("SELECT no, employer, state, cents FROM claims "
                          "WHERE worker = ? AND state <> 'withdrawn' ORDER BY no", (worker,))
        lines = [f"worker {worker} {self.day}"]
        lines += [f"earned {no} {month_text(month)} {euros(gross * self.rate(month)[5] // 10000)}"
                  for no, month, gross in earned]
        lines += [f"claim {claim} employer {no} {state} {euros(cents)}" for claim, no, state, cents in claims]
        return "\n".join([*lines, f"balance {euros(self.balance(worker))}", ""])

    def take_file(self, body):
        lines = read_file(body)
        new = self.new_lines(lines)
        serial, suspense = self.one("SELECT serial, suspense FROM meta")
        firms = {no for no in {line[2] for line in new}
                 if self.one("SELECT 1 FROM employers WHERE no = ?", no)}
        rows = [(serial + place, *line, line[2] if line[2] in firms else None)
                for place, line in enumerate(new, 1)]
        suspense += sum(row[7] is None for row in rows)
        if suspense > 100_000:
            raise Refusal(18, "suspense")
        self.db.executemany("INSERT INTO bank VALUES (?, ?, ?, ?, ?, ?, ?, ?)", rows)
        self.db.executemany(
            "INSERT INTO credits VALUES (?, ?, ?, ?, ?, ?)",
            [(row[7], row[5], row[2], row[0], row[4], row[1]) for row in rows if row[7]])
        serial += len(rows)
        if serial > 100_000 and any(self.has_too_many_credits(no) for no in firms):
            raise Refusal(18, "credits")
        self.run("UPDATE meta SET serial = ?, suspense = ?", (serial, suspense))
        return {"new": len(new), "repeats": len(lines) - len(new)}

    def new_lines(self, lines):
        """The lines whose reference appears for the first time."""
        new = {}
        for place, line in enumerate(lines, 2):
            known = new.get(line[0], (0, None))[1] or self.one(
                "SELECT reference, value, named, cents, purpose, note FROM bank "
                "WHERE reference = ?", line[0])
            if known and known != line:
                raise Refusal(21, place)
            if not known:
                new[line[0]] = place, line
        for place, line in new.values():
            if line[1] > self.day:
                raise Refusal(22, place)
        return [line for _, line in new.values()]

    def has_too_many_credits(self, no):
        counts = self.run("SELECT count(*) FROM credits WHERE employer = ? GROUP BY purpose", (no,))
        return any(count > 100_000 for count, in counts)

    def credits(self, no, purpose):
        return self.run("SELECT day, cents, reference FROM credits "
                        "WHERE employer = ? AND purpose = ? ORDER BY day, serial",
                        (no, purpose)).fetchall()

    def sums(self, no):
        """A firm's contributions and payments, and its arrears and what it has prepaid."""
        charged, due = self.one(
            "SELECT ifnull(sum(charge), 0), ifnull(sum(charge) FILTER (WHERE due < ?), 0) "
            "FROM reports WHERE employer = ?", self.day, no)
        credited, = self.one(
            "SELECT ifnull(sum(cents), 0) FROM credits WHERE employer = ? AND purpose = 'C'", no)
        return {"arrears": max(0, due - credited), "charged": charged,
                "credited": credited, "prepaid": max(0, credited - charged)}

    def owed(self, no):
        self.employer(no)
        return compact(self.sums(no))

    def reports(self, no):
        return self.run("SELECT month, version, due, charge FROM reports WHERE employer = ? "
                        "ORDER BY month", (no,)).fetchall()

    def statement(self, no):
        name, start = self.employer(no)
        reports = self.reports(no)
        interest, told = self.charges_told(no, reports)
        lines = [f"statement {no} {self.day}", f"name {name}", f"member {month_text(start)} -", *told]
        lines += [f"missing {month_text(month)}" for month in self.missing(start, reports)]
        sums = self.sums(no)
        lines += [f"prepaid {euros(sums['prepaid'])}", f"arrears {euros(sums['arrears'])}",
                  f"interest {euros(interest)}", ""]
        return "\n".join(lines)

    def charges_told(self, no, reports):
        """A firm's interest arrears, and the lines that tell its charges and payments of interest."""
        for_interest = self.credits(no, "I")
        lines = []
        interest = -sum(cents for _, cents, _ in for_interest)
        pieces = pieces_of([report[3] for report in reports], self.credits(no, "C"))
        for report, paid in zip(reports, pieces):
            interest += self.tell_charge(lines, report, paid)
        lines += [f"interest-paid {day} {euros(cents)} {text}" for day, cents, text in for_interest]
        return max(0, interest), lines

    def tell_charge(self, lines, report, pieces):
        """Tells a charge and what pays it, and gives its interest."""
        month, version, due, charge = report
        left = charge - sum(cents for _, cents, _ in pieces)
        weight = left * begun_months(due, self.day)
        weight += sum(cents * begun_months(due, day) for day, cents, _ in pieces)
        interest = weight * self.rate(month)[4] // 10000
        lines.append(f"charge {month_text(month)} due {due} version {version} "
                     f"{euros(charge)} {euros(left)} {euros(interest)}")
        lines += [f"  paid {day} {euros(cents)} {text}" for day, cents, text in pieces]
        return interest

    def missing(self, start, reports):
        reported = {report[0] for report in reports}
        return [month for month in range(start, month_number(self.day)) if month not in reported
                and day_after(month, self.rate(month)[2]) < self.day]
