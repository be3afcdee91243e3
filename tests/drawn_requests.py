"""Requests to an office, drawn at random so that they often meet what stands in its book: amounts that end with a
contribution, a balance or what is owed, names that come again, months around the ones that are reported.
"""

import json
import random

import strange_values as strange
from machine import OPEN, Book
from machine_values import (HEADER, LAST_MONTH, MOST_CENTS, Rate, day_in, day_number, day_text, month_in, month_of,
                            month_text)

FIRST_MONTHS = [0, month_in("2023-08"), month_in("2024-01"), month_in("2024-01"), month_in("2199-06")]
FIRST_DAY, LAST_DAY = day_number("2000-01-01"), day_number("2200-12-31")
UNKNOWN_FIRM, UNKNOWN_WORKER = 1099, 55
NAMES = ["Bau Nord", "Ä & Söhne", "x", 'A "B" \\ C', "Müller/Bau", "€uro", "😀", " "]
# How often each request is drawn; those of a firm come from the firm or from the clerk.
WEIGHTS = {
    "register": 4, "report": 14, "correct": 8, "import_bank": 12, "assign": 3, "claim": 8, "withdraw": 2,
    "release": 4, "settle": 4, "make_list": 2, "remind": 3, "end": 1, "add_rate": 1.5, "owed": 5, "statement": 9,
    "worker": 4, "suspense": 2, "payout": 2, "reminder": 2, "strange": 2,
}
QUESTIONS = ("owed", "statement", "worker", "suspense", "payout", "reminder")
OF_BOTH = ("report", "correct", "claim", "withdraw", "owed", "statement", "strange", "in_vain")


class Draw:
    """An office with its rates and keys, its book, and the day on which the next requests come."""

    def __init__(self, seed):
        self.random = random.Random(seed)
        self.first = self.pick(FIRST_MONTHS)
        self.book = Book(self.rates())
        self.firms = [1001 + at for at in range(self.random.randint(1, 5))]
        self.workers = list(range(1, self.random.randint(3, 6)))
        self.keys = {"desk": 0, "desk2": 0, "other": 7777, **{f"k{firm}": firm for firm in self.firms}}
        self.day = day_in(self.first + self.random.randint(0, 4), self.random.randint(1, 28))
        self.numbers, self.references, self.sent = {}, 0, []
        self.is_new_day, self.is_in_vain, self.planned = True, False, []

    # ---- what is drawn

    def pick(self, choices):
        return self.random.choice(choices)

    def seldom(self, chance=0.05):
        return self.random.random() < chance

    def rates(self):
        first, rows = self.first, []
        while first <= LAST_MONTH and len(rows) < 4 and not (rows and self.seldom(0.3)):
            contribution = self.pick([0, 1, 333, 1_500, 1_900, 2_000, 2_080, 9_999, 10_000])
            days = self.random.randint(1, 28), self.random.randint(1, 28)
            rows.append(Rate(first, contribution, *days, self.pick([0, 1, 50, 90, 100, 1_000]),
                             self.pick([0, 1, 1_425, 1_425, 1_500, 10_000])))
            first += self.pick([1, 2, 3, 5, 6, 12])
        return rows

    def next_day(self):
        """Mostly the same day or a later one; sometimes, for these requests alone, an earlier one, or a later one on
        which nothing is accepted."""
        self.is_new_day, self.is_in_vain = True, self.seldom(0.08)
        if self.is_in_vain:
            return min(self.day + self.pick([1, 30]), LAST_DAY)
        if self.seldom(0.1):
            return max(self.day - self.pick([1, 1, 7]), FIRST_DAY)
        later = self.day + self.pick([0, 1, 1, 3, 7, 13, 14, 15, 20, 31, 60, 61])
        self.day = min(self.pick(self.days_that_count() or [later]) if self.seldom(0.3) else later, LAST_DAY)
        return self.day

    def days_that_count(self):
        """The next days on which reports are to be in or contributions are due, and the ones after them."""
        now = month_of(self.day)
        rates = [(month, self.book.rate(month)) for month in (now - 1, now) if self.first <= month < LAST_MONTH]
        days = [day_in(month + 1, place) for month, rate in rates for place in (rate.report_day, rate.due_day)]
        return [day + more for day in days for more in (0, 1) if day > self.day]

    def request(self):
        """A request as (method, target, key, number, body). Some of those that came before come again."""
        if self.sent and not self.is_in_vain and self.seldom(0.08):
            method, target, key, number, body = self.pick(self.sent[-60:])
            return method, target, key, number, self.rewritten(body) if self.seldom(0.3) else body
        kind = self.kind()
        method, target, body = getattr(self, kind)()
        key = self.key(kind)
        number = self.number(self.keys.get(key))
        if method == "GET":
            number = self.pick([number, *strange.REQUEST_NUMBERS]) if self.seldom() else None
        self.sent.append((method, target, key, number, body))
        return self.sent[-1]

    def kind(self):
        """What comes next, and for which firm."""
        is_first, self.is_new_day = self.is_new_day, False
        if self.planned and not self.is_in_vain:
            return self.planned.pop(0)
        self.firm = UNKNOWN_FIRM if self.seldom(0.03) else self.pick(self.firms)
        if self.is_in_vain:
            return self.pick(["in_vain", self.pick(QUESTIONS)])
        # These depend on the day, where it is another one than the ledger day.
        if is_first and self.seldom(0.7):
            return "release" if self.open_claims() else "remind"
        if len(self.book.firms) < len(self.firms) and self.seldom(0.5):
            return "register"
        [kind] = self.random.choices(*zip(*WEIGHTS.items()))
        return self.settle() if kind == "settle" else kind

    def settle(self):
        """The first of a row of requests: a firm reports what is left, and claims; it pays perhaps, and is paid out."""
        reports = ["report"] * len(self.unreported())
        self.planned = [*reports, *self.pick([[], ["pay"]]), "claim", *self.pick([[], ["release"]])]
        return self.planned.pop(0)

    def key(self, kind):
        if self.seldom(0.2 if kind == "strange" else 0.03):
            return self.pick(["none", "other", *self.keys])
        if kind in OF_BOTH and self.seldom(0.45) or kind == "end" and self.seldom(0.2):
            return f"k{self.firm}"
        return "desk2" if self.seldom(0.1) else "desk"

    def number(self, caller):
        if self.seldom(0.01):
            return None
        if self.seldom(0.04):
            return str(self.random.randint(1, self.numbers.get(caller, 20)))
        if self.seldom(0.005):
            return self.pick(strange.REQUEST_NUMBERS)
        self.numbers[caller] = self.numbers.get(caller, 0) + 1
        return str(self.numbers[caller])

    def month(self, month):
        return month_text(min(max(month, 0), LAST_MONTH))

    def body(self, **members):
        """A JSON object; sometimes one thing or two are wrong with it, or it is none, or is written otherwise."""
        for _ in range(self.pick([0] * 30 + [1, 2])):
            members = self.spoiled(members)
        if self.seldom(0.005):
            members = self.pick(strange.NO_OBJECTS)
        text = json.dumps(members, ensure_ascii=self.seldom(0.5))
        return self.pick(self.written_otherwise(text)) if self.seldom(0.02) else text.encode()

    def spoiled(self, members):
        name, way = self.pick(list(members) or ["lines"]), self.random.randrange(3)
        if way == 0:
            return {it: value for it, value in members.items() if it != name}
        if way == 1:
            return members | {name: self.pick(strange.VALUES)}
        return members | dict.fromkeys(self.random.sample(strange.MEMBERS, 2), 1)

    def written_otherwise(self, text):
        numbers = [strange.with_number(text, found, self.pick(strange.NUMBERS)) for found in strange.numbers_in(text)]
        twice = strange.with_member_twice(text, self.pick(["lines", "version", "cents"]), self.pick(strange.VALUES))
        sign = strange.with_sign(text, self.pick(strange.SIGNS))
        return [*numbers, *twice, sign, *strange.with_other_bytes(text)]

    def rewritten(self, body):
        """A body with the same values, or with its lines in another order; one that is no JSON is left as it is."""
        try:
            members = dict(reversed(json.loads(body).items()))
        except (ValueError, AttributeError):
            return body
        if isinstance(members.get("lines"), list) and self.seldom(0.5):
            members["lines"].reverse()
        return json.dumps(members, indent=self.pick([None, 2])).encode()

    def cents(self, firm):
        """An amount, often one that ends with what a firm owes."""
        book, amounts = self.book, [self.random.randint(1, 300_000), self.pick([1, 50, 99, MOST_CENTS])]
        if firm in book.firms:
            arrears, interest = book.arrears(firm, self.day), book.interest(firm, self.day)
            owed = [book.charged(firm), arrears, interest, arrears + interest]
            amounts += [self.pick(owed + [charge.cents for charge in book.charges(firm)]) + self.pick([0, 0, 1, -1])
                        for _ in range(3)]
        return self.pick([amount for amount in amounts if 0 < amount <= MOST_CENTS])

    def reported(self):
        return [month for of, month in self.book.reports if of == self.firm]

    def unreported(self):
        start = self.book.firms[self.firm].start if self.firm in self.book.firms else LAST_MONTH
        return [month for month in range(start, month_of(self.day) + 1) if (self.firm, month) not in self.book.reports]

    def lines(self):
        if self.seldom(0.08):
            return self.pick(strange.LINES)
        workers = self.random.sample(self.workers, min(self.random.randint(0, 4), len(self.workers)))
        gross = [self.pick([0, 1, 50, 99, 12_345, 500_050, 1_000_000, 10_000_000, self.random.randint(0, 900_000)])
                 for _ in workers]
        lines = [{"worker": worker, "gross": of} for worker, of in zip(workers, gross)]
        return lines + self.pick([lines[:1], lines[1:], lines[::-1]]) if self.seldom(0.03) else lines

    # ---- commands

    def register(self):
        left = [firm for firm in self.firms if firm not in self.book.firms]
        employer = self.pick(left) if left and not self.seldom(0.1) else self.firm
        start = self.month(self.first + self.pick([0, 0, 0, 1, 2, 4, -1]))
        return "POST", "/employers", self.body(employer=employer, name=self.pick(NAMES), start=start)

    def report(self):
        left = self.unreported()
        month = month_of(self.day) - self.random.randint(-2, 8)
        if left and not self.seldom(0.2):
            month = self.pick(left[:1] * 4 + left)
        return "POST", f"/employers/{self.firm}/reports/{self.month(month)}", self.body(lines=self.lines())

    def correct(self):
        month = self.pick(self.reported() or [self.first])
        if self.seldom():
            month = self.pick([self.first - 1, month_of(self.day) + 1, month_of(self.day) + 2])
        version, lines = len(self.book.reports.get((self.firm, month), [])), self.lines()
        if self.seldom(0.08):
            version, lines = self.pick([0, 1, 2, 2**32 - 1, 2**32]), lines + self.pick([[], lines])
        target = f"/employers/{self.firm}/reports/{self.month(month)}"
        return "PUT", target, self.body(lines=lines, version=version)

    def import_bank(self):
        records = [record for _ in range(self.random.randint(0, 5)) for record in self.records()]
        for _ in range(self.pick([0] * 10 + [1, 2])):
            if records:
                self.spoil_record(self.pick(records))
        header = self.pick(strange.HEADERS) if self.seldom(0.03) else ",".join(HEADER)
        lines = [list(map(self.csv_field, record)) for record in records]
        if self.seldom(0.1):
            lines.insert(self.random.randint(0, len(lines)), [])
        file = strange.bank_file(header, lines, self.pick(["\n", "\n", "\r\n", "\r"]))
        mark = b"\xef\xbb\xbf" * (self.seldom(0.1) + self.seldom(0.01))
        return "POST", "/bank", mark + (file.rstrip() if self.seldom(0.2) else file)

    def spoil_record(self, record):
        if self.seldom(0.1):
            record.append(self.pick(["", "x"]))
        elif self.seldom(0.1):
            del record[self.random.randint(1, 5):]
        else:
            record[self.random.randrange(len(record))] = self.pick(strange.FIELDS)

    def csv_field(self, field):
        return strange.in_quotes(field) if self.seldom(0.1) else strange.csv_field(field)

    def records(self):
        """A record, and sometimes the same once more; one that came before is often given as it was."""
        if self.references and self.seldom(0.15):
            reference = f"B{self.random.randint(1, self.references)}"
        else:
            self.references += 1
            reference = f"B{self.references}"
        known = self.book.lines.get(reference)
        record = self.new_record(reference)
        if known:
            same = self.same_record(known.record)
            # A conflict is mostly in one field.
            if self.seldom(0.2):
                place = self.random.randint(1, 5)
                same[place] = record[place]
            record = same
        return [record, list(record)] if self.seldom(0.05) else [record]

    def same_record(self, line):
        purpose = self.pick(["C", ""]) if line.purpose == "C" else "I"
        return [line.reference, day_text(line.value), str(line.named or ""), str(line.cents), purpose, line.note]

    def new_record(self, reference):
        firm = self.pick([*self.firms * 3, "", UNKNOWN_FIRM])
        value = max(self.day - self.pick([0, 0, 1, 5, 20, 40, 90]) + 91 * self.seldom(0.01), FIRST_DAY)
        note = self.pick(["", "", "rest", "a,b", 'sagt "ja"', "Grüße"])
        return [reference, day_text(value), str(firm), str(self.cents(firm)), self.pick(["", "C", "C", "I"]), note]

    def pay(self):
        """A firm pays what it owes, in time or late."""
        self.references += 1
        record = self.new_record(f"B{self.references}")
        if self.firm in self.book.firms:
            open_cents = self.book.charged(self.firm) - self.book.credited(self.firm)
            record[2:5] = str(self.firm), str(max(open_cents, 1)), "C"
        return "POST", "/bank", strange.bank_file(",".join(HEADER), [map(strange.csv_field, record)])

    def assign(self):
        waiting = [line.record.reference for line in self.book.lines.values() if line.firm is None]
        reference = self.pick(waiting) if waiting and not self.seldom(0.1) else f"B{self.random.randint(1, 30)}"
        return "POST", "/assign", self.body(employer=self.firm, reference=reference)

    def claim(self):
        of_firm = [worker for month in self.reported() for worker, _ in self.book.reports[self.firm, month][-1]]
        worker = self.pick(of_firm if of_firm and not self.seldom() else self.workers)
        balance = self.book.balance(worker)
        amounts = [balance, balance // 2, balance + 1, self.random.randint(1, balance + 1), self.cents(self.firm)]
        return "POST", f"/employers/{self.firm}/claims", self.body(cents=self.pick(amounts), worker=worker)

    def open_claims(self):
        return [claim for claim in self.book.claims if claim.state == OPEN]

    def claim_number(self, best, *others):
        """Mostly the number of one of the best claims, where there are some, else of one of the others."""
        claims = next(filter(None, [best, *others, self.book.claims]), None)
        if self.seldom(0.1):
            claims = self.book.claims
        return self.pick(claims).number if claims and not self.seldom() else self.random.randint(1, 9)

    def withdraw(self):
        own = [claim for claim in self.open_claims() if claim.employer == self.firm]
        return "POST", f"/employers/{self.firm}/claims/{self.claim_number(own)}/withdraw", self.nothing()

    def release(self):
        """Best of a firm that misses no month, and owes something."""
        book, day, claims = self.book, self.day, self.open_claims()
        ready = [claim for claim in claims if not book.missing(claim.employer, day)]
        owing = [claim for claim in ready if book.arrears(claim.employer, day) or book.interest(claim.employer, day)]
        return "POST", f"/claims/{self.claim_number(owing, ready, claims)}/release", self.nothing()

    def make_list(self):
        return "POST", "/payouts", self.nothing()

    def remind(self):
        return "POST", "/reminders", self.nothing()

    def nothing(self):
        return b"{}" if self.seldom(0.01) else b""

    def end(self):
        last = max(self.reported() or [self.first]) + self.pick([0, 0, 1, -1, -1, 3])
        return "POST", f"/employers/{self.firm}/end", self.body(last=self.month(last))

    def add_rate(self):
        first = max(self.book.rates[-1].first, month_of(self.day)) + self.pick([0, 1, 1, 1, 2])
        days = {name: self.random.randint(1, 28) + self.seldom() for name in ("due_day", "report_day")}
        rates = {"contribution": self.pick([0, 1_800, 2_000, 10_000, 10_001]),
                 "entitlement": self.pick([0, 1_425, 10_000, 10_001]), "interest": self.pick([0, 90, 1_000, 1_001])}
        return "POST", "/rates", self.body(**days, **rates, **{"from": self.month(first)})

    def in_vain(self):
        """What is refused on any day by a rule of its own."""
        return self.pick([
            ("POST", "/claims/50000000/release", b""),
            ("POST", f"/employers/{self.firm}/claims/50000000/withdraw", b""),
            ("POST", "/assign", self.body(employer=self.firm, reference="none")),
            ("PUT", f"/employers/{self.firm}/reports/2199-12", self.body(lines=[], version=1)),
        ])

    # ---- questions

    def owed(self):
        return "GET", f"/employers/{self.firm}/owed", b""

    def statement(self):
        return "GET", f"/employers/{self.firm}/statement", b""

    def worker(self):
        return "GET", f"/workers/{self.pick([*self.workers, UNKNOWN_WORKER])}", b""

    def suspense(self):
        return "GET", "/suspense", b""

    def payout(self):
        return "GET", f"/payouts/{self.random.randint(1, len(self.book.lists) + 1)}", b""

    def reminder(self):
        return "GET", f"/reminders/{self.random.randint(1, len(self.book.runs) + 1)}", b""

    def strange(self):
        return self.pick(strange.METHODS), self.pick(strange.TARGETS), self.pick([b"", b"x"])
