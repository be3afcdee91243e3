"""The clearing machine as docs/rules.md tells it: a book of what was accepted, from which each answer is worked out
anew.

It shares no code with the program, and costs what the book holds.
"""

from collections import namedtuple
from dataclasses import dataclass

from machine_values import (LAST_MONTH, Record, Refused, day_in, day_of_month, day_text, month_of, month_text,
                            records_of)

CLERK = 0
MOST_LINES, MOST_GROSS, MOST_VERSIONS = 500, 10_000_000, 10_000
NEVER_BEFORE = -1_000
# What a firm may ask for itself: the first value is the firm.
OF_A_FIRM = ("report", "correct", "claim", "withdraw", "owed", "statement")
OPEN, WITHDRAWN, RELEASED = range(3)

Credit = namedtuple("Credit", "day serial cents reference")
Charge = namedtuple("Charge", "month due cents")
Piece = namedtuple("Piece", "month day serial cents reference")
Reminder = namedtuple("Reminder", "employer level missing first arrears interest")


@dataclass
class Firm:
    name: str
    start: int
    last: int | None = None

    def is_member(self, month):
        return self.start <= month and (self.last is None or month <= self.last)


@dataclass
class Line:
    """A bank line that came in. It is in suspense as long as it has no firm."""

    record: Record
    serial: int
    firm: int | None


@dataclass
class Claim:
    number: int
    employer: int
    worker: int
    cents: int
    made: int
    state: int = OPEN
    released: int | None = None
    to_contributions: int = 0
    to_interest: int = 0
    paid: int = 0
    list: int | None = None


def begun_days(due, day):
    """The due day and the same day of each later month, as far as they lie before a day."""
    place, month = day_of_month(due), month_of(due)
    while (begun := day_in(month, place)) < day:
        yield begun
        month += 1


def begun_months(due, day):
    return sum(1 for _ in begun_days(due, day))


def allocate(charges, credits):
    """What each credit pays of each contribution: the stretches of cents that they have in common, each a stretch of
    its list, one behind the other. Charges are (month, cents), credits in order."""
    pieces, charged = [], 0
    for month, owed in charges:
        paid = 0
        for day, serial, cents, reference in credits:
            shared = min(charged + owed, paid + cents) - max(charged, paid)
            if shared > 0:
                pieces.append(Piece(month, day, serial, shared, reference))
            paid += cents
        charged += owed
    return pieces


def check_access(caller, name, values):
    if caller != CLERK and (name not in OF_A_FIRM or values[0] != caller):
        raise Refused(7)


def check_lines(lines):
    """Lines are (worker, gross)."""
    workers = [worker for worker, _ in lines]
    for place, worker in enumerate(workers):
        if worker in workers[:place]:
            raise Refused(17, worker)


def check_limits(lines):
    if len(lines) > MOST_LINES:
        raise Refused(18, "lines")
    if any(gross > MOST_GROSS for _, gross in lines):
        raise Refused(18, "gross")


class Book:
    """What was accepted over these opening rates."""

    def __init__(self, rates):
        self.rates, self.day, self.serial = list(rates), None, 0
        # By number; the versions of a report by firm and month; by reference, in the order of the serials.
        self.firms, self.reports, self.lines = {}, {}, {}
        # Set-offs are (employer, purpose, credit); lists and runs have a day and what is on them.
        self.set_offs, self.claims, self.lists, self.runs = [], [], [], []
        # The command, its reply and its day, by caller and number.
        self.kept = {}

    # ---- what follows from it

    def rate(self, month):
        return max(row for row in self.rates if row.first <= month)

    def charges(self, employer):
        """A contribution for each reported month, which is due in the next one."""
        return [Charge(month, day_in(month + 1, self.rate(month).due_day), self.contribution(employer, month))
                for of, month in sorted(self.reports) if of == employer]

    def contribution(self, employer, month):
        base = sum(gross for _, gross in self.reports[employer, month][-1])
        return (base * self.rate(month).contribution + 5_000) // 10_000

    def credits(self, employer, purpose):
        by_bank = [Credit(line.record.value, line.serial, line.record.cents, line.record.reference)
                   for line in self.lines.values() if (line.firm, line.record.purpose) == (employer, purpose)]
        return sorted(by_bank + [credit for *of, credit in self.set_offs if of == [employer, purpose]])

    def pieces(self, employer):
        charges = [(charge.month, charge.cents) for charge in self.charges(employer)]
        return allocate(charges, self.credits(employer, "C"))

    def weight(self, employer, charge, day):
        """What is open of a contribution on each day of a begun month, in sum."""
        before = sum(it.cents for it in self.charges(employer) if it.month < charge.month)
        credits, total = self.credits(employer, "C"), 0
        for begun in begun_days(charge.due, day):
            paid = sum(credit.cents for credit in credits if credit.day <= begun)
            total += charge.cents - min(max(paid - before, 0), charge.cents)
        return total

    def interest_of(self, employer, charge, day):
        return self.weight(employer, charge, day) * self.rate(charge.month).interest // 10_000

    def charged(self, employer):
        return sum(charge.cents for charge in self.charges(employer))

    def credited(self, employer, purpose="C"):
        return sum(credit.cents for credit in self.credits(employer, purpose))

    def arrears(self, employer, day):
        due = sum(charge.cents for charge in self.charges(employer) if charge.due < day)
        return max(0, due - self.credited(employer))

    def interest(self, employer, day):
        """The interest arrears."""
        borne = sum(self.interest_of(employer, charge, day) for charge in self.charges(employer))
        return max(0, borne - self.credited(employer, "I"))

    def missing(self, employer, day):
        firm = self.firms[employer]
        return [month for month in range(firm.start, min(month_of(day), LAST_MONTH) + 1)
                if firm.is_member(month) and (employer, month) not in self.reports
                and day_in(month + 1, self.rate(month).report_day) < day]

    def earned(self, worker):
        """What each line of the latest reports earns a worker: (employer, month, cents)."""
        return [(employer, month, gross * self.rate(month).entitlement // 10_000)
                for employer, month in sorted(self.reports)
                for of, gross in self.reports[employer, month][-1] if of == worker]

    def claims_of(self, worker):
        return [claim for claim in self.claims if claim.worker == worker and claim.state != WITHDRAWN]

    def balance(self, worker):
        earned = sum(cents for _, _, cents in self.earned(worker))
        return max(0, earned - sum(claim.cents for claim in self.claims_of(worker)))

    def last_reminder(self, employer):
        """The day and the level of a firm's last reminder."""
        sent = [(day, it.level) for day, reminders in self.runs for it in reminders if it.employer == employer]
        return sent[-1] if sent else (NEVER_BEFORE, 0)

    def due_level(self, employer, day):
        """The level of the reminder that is due to a firm in default, or 0."""
        last, level = self.last_reminder(employer)
        if day - last > 60:
            return 1
        return min(level + 1, 3) if day - last >= 14 else 0

    # ---- a request

    def submit(self, caller, number, day, command):
        """The reply to a command, which is its name and its values. One that is refused changes nothing."""
        name, *values = command
        check_access(caller, name, values)
        if (caller, number) in self.kept:
            known, reply, _ = self.kept[caller, number]
            if known != command:
                raise Refused(9)
            return reply
        self.check_day(day)
        reply = getattr(self, name)(day, *values)
        self.day, self.kept[caller, number] = day, (command, reply, day)
        return reply

    def check_day(self, day):
        if self.day is not None and day < self.day:
            raise Refused(10, day_text(self.day))

    def firm(self, employer):
        if employer not in self.firms:
            raise Refused(11)
        return self.firms[employer]

    # ---- commands

    def add_rate(self, day, row):
        if row.first <= max(self.rates[-1].first, month_of(day)):
            raise Refused(19)
        self.rates.append(row)
        return {"done": True}

    def register(self, day, employer, name, start):
        if employer in self.firms:
            raise Refused(12)
        if start < self.rates[0].first:
            raise Refused(32)
        self.firms[employer] = Firm(name, start)
        return {"done": True}

    def end(self, day, employer, last):
        firm = self.firm(employer)
        if last < firm.start or firm.last is not None:
            raise Refused(13)
        reported = max((month for of, month in self.reports if of == employer), default=firm.start)
        if reported > last:
            raise Refused(31, month_text(reported))
        firm.last = last
        return {"done": True}

    def check_month(self, day, employer, month):
        if not self.firm(employer).is_member(month):
            raise Refused(13)
        if month > month_of(day):
            raise Refused(14)

    def report(self, day, employer, month, lines):
        self.check_month(day, employer, month)
        if (employer, month) in self.reports:
            raise Refused(15, len(self.reports[employer, month]))
        check_lines(lines)
        check_limits(lines)
        self.reports[employer, month] = [lines]
        return self.reported(employer, month)

    def correct(self, day, employer, month, version, lines):
        self.check_month(day, employer, month)
        versions = self.reports.get((employer, month), [])
        if not versions or version != len(versions):
            raise Refused(16, len(versions))
        check_lines(lines)
        if version == MOST_VERSIONS:
            raise Refused(18, "versions")
        check_limits(lines)
        versions.append(lines)
        return self.reported(employer, month)

    def reported(self, employer, month):
        return {"charge": self.contribution(employer, month), "version": len(self.reports[employer, month])}

    def import_bank(self, day, content):
        records = records_of(content)
        known = {reference: line.record for reference, line in self.lines.items()}
        new = {}
        for number, record in records.items():
            if known.setdefault(record.reference, record) != record:
                raise Refused(21, number)
            if record.reference not in self.lines and record not in new.values():
                new[number] = record
        for number, record in new.items():
            if record.value > day:
                raise Refused(22, number)
        for record in new.values():
            self.serial += 1
            firm = record.named if record.named in self.firms else None
            self.lines[record.reference] = Line(record, self.serial, firm)
        return {"new": len(new), "repeats": len(records) - len(new)}

    def assign(self, day, employer, reference):
        self.firm(employer)
        line = self.lines.get(reference)
        if line is None or line.firm is not None:
            raise Refused(23)
        line.firm = employer
        return {"done": True}

    def claim(self, day, employer, worker, cents):
        self.firm(employer)
        if all(worker != of for (at, _), versions in self.reports.items() if at == employer for of, _ in versions[-1]):
            raise Refused(24)
        if cents > (balance := self.balance(worker)):
            raise Refused(25, balance)
        self.claims.append(Claim(len(self.claims) + 1, employer, worker, cents, day))
        return {"claim": len(self.claims)}

    def open_claim(self, number, employer=None):
        if number > len(self.claims) or employer not in (None, self.claims[number - 1].employer):
            raise Refused(26)
        if self.claims[number - 1].state != OPEN:
            raise Refused(27)
        return self.claims[number - 1]

    def withdraw(self, day, employer, number):
        self.firm(employer)
        self.open_claim(number, employer).state = WITHDRAWN
        return {"done": True}

    def release(self, day, number):
        claim = self.open_claim(number)
        if missing := self.missing(claim.employer, day):
            raise Refused(28, month_text(missing[0]))
        claim.to_contributions = min(claim.cents, self.arrears(claim.employer, day))
        claim.to_interest = min(claim.cents - claim.to_contributions, self.interest(claim.employer, day))
        claim.paid = claim.cents - claim.to_contributions - claim.to_interest
        claim.state, claim.released = RELEASED, day
        self.serial += 1
        for purpose, cents in ("C", claim.to_contributions), ("I", claim.to_interest):
            if cents:
                credit = Credit(day, self.serial, cents, f"set-off {number}")
                self.set_offs.append((claim.employer, purpose, credit))
        return {"paid": claim.paid, "to_contributions": claim.to_contributions, "to_interest": claim.to_interest}

    def make_list(self, day):
        claims = [claim for claim in self.claims if claim.paid and claim.list is None]
        if not claims:
            raise Refused(29)
        self.lists.append((day, claims))
        for claim in claims:
            claim.list = len(self.lists)
        return {"items": len(claims), "list": len(self.lists), "total": sum(claim.paid for claim in claims)}

    def remind(self, day):
        reminders = [it for employer in sorted(self.firms) if (it := self.reminder_to(employer, day))]
        if not reminders:
            raise Refused(30)
        self.runs.append((day, reminders))
        return {"firms": len(reminders), "run": len(self.runs)}

    def reminder_to(self, employer, day):
        """The reminder that is due to a firm, if one is."""
        missing, level = self.missing(employer, day), self.due_level(employer, day)
        arrears, interest = self.arrears(employer, day), self.interest(employer, day)
        if not level or not (missing or arrears or interest):
            return None
        return Reminder(employer, level, len(missing), missing[0] if missing else None, arrears, interest)
