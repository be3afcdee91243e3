"""The lines of the office's bank file for the booked credits of statements, and what is left out."""

from __future__ import annotations

import base64
import csv
import hashlib
import io
import itertools
import json
import re
from collections import ChainMap, Counter
from collections.abc import Iterator, MutableMapping
from dataclasses import dataclass, field, replace
from datetime import date
from decimal import Decimal
from enum import Enum
from functools import partial

from .camt import Entry, Money, Transaction, credited_by
from .earlier import HEADER, EarlierLine
from .firms import Firms, Found
from .ibans import without_spaces
from .statements import Statement
from .texts import Refusal, cut, shown, words_in

# The limits of the office (docs/formats.md).
REFERENCE = re.compile("[!-~]{1,35}")
MOST_NOTE_BYTES = 140
MOST_CENTS = 100_000_000_000
DAYS = (date(2000, 1, 1), date(2200, 12, 31))
MOST_LINES = 10_000
MOST_BYTES = 1_048_576

# By these signs a spreadsheet knows a formula, also the wide ones; and by some settings a semicolon parts its fields.
FORMULA = "=+@＝＋－＠-"
FIELD_OF_FORMULA = re.compile(rf""";(?=[\s"']*[{FORMULA}])""")

# References of this program's own making, which none of the bank's may look like.
MADE = re.compile("(bank|place)~.*")
BY_PLACE = "place~"
DIGEST_SIGNS = 26


class Reason(Enum):
    """Why something is left out."""

    DEBIT = "debit"
    RETURNED_PAYMENT = "returned payment (a debit)"
    RETURNED_TRANSFER = "returned transfer (a credit)"
    BETWEEN_ACCOUNTS = "from another account of the statements"
    PENDING = "pending"
    NOT_BOOKED = "neither booked nor pending"
    OTHER_CURRENCY = "other currency"
    NOTHING = "amount of 0"
    REPEAT = "stands in two statements"


@dataclass(frozen=True)
class LeftOut:
    reason: Reason
    called: str
    day: date | None
    money: Money
    # Its own, and those of its transactions.
    amounts: frozenset[Money]
    # Of which payout lists it is, or of which of their claims.
    payouts: tuple[str, ...]


@dataclass(frozen=True)
class Line:
    reference: str
    value: date
    employer: str
    cents: int
    purpose: str
    note: str
    found: Found

    def fields(self) -> tuple:
        return self.reference, self.value, self.employer, self.cents, self.purpose, self.note


@dataclass(frozen=True)
class Payment:
    """What becomes one line: a transaction, or an entry that its details don't part."""

    called: str
    # The bank's own, or empty.
    reference: str
    # That of its entry, or empty.
    entry_reference: str
    # By what it is known where the bank gives no reference.
    place: tuple[str, ...]
    booked: date | None
    value: date | None
    money: Money
    # Several where one amount stands for them all.
    transactions: tuple[Transaction, ...]
    is_detailed: bool

    @property
    def is_return(self) -> bool:
        return self.is_detailed and len(self.transactions) == 1 and self.transactions[0].is_return

    @property
    def name(self) -> str:
        return ", ".join(dict.fromkeys(filter(None, (it.payer for it in self.transactions))))

    @property
    def text(self) -> str:
        return " ".join(filter(None, (it.text for it in self.transactions)))


def reason_to_leave_out(entry: Entry) -> Reason | None:
    """Why no part of an entry is taken."""
    if entry.status != "BOOK":
        return Reason.PENDING if entry.status == "PDNG" else Reason.NOT_BOOKED
    if entry.money.currency != "EUR":
        return Reason.OTHER_CURRENCY
    if entry.is_return:
        return Reason.RETURNED_TRANSFER if entry.is_credit else Reason.RETURNED_PAYMENT
    return None if entry.is_credit else Reason.DEBIT


def payments_of(statement: Statement, place: int, entry: Entry) -> Iterator[Payment]:
    """The payments of a booked credit: one a transaction, or one for all where their amounts aren't what it is."""
    called = f"entry {place} of {statement.called}"
    details = entry.transactions
    is_parted = len(details) > 1 and entry.is_detailed and credited_by(details) == entry.money
    groups = [((it,), it.credited) for it in details] if is_parted else [(details, entry.money)]
    for number, (group, money) in enumerate(groups, 1):
        own = group[0] if len(group) == 1 else None
        end_to_end = own.end_to_end if own else ""
        day = str(entry.booked or entry.value)
        yield Payment(
            called=f"transaction {number} of {called}" if is_parted else called,
            reference=(own.reference if own else "") or entry.reference,
            entry_reference=entry.reference,
            place=(statement.account, statement.identifier, day, str(place), str(number), end_to_end),
            booked=entry.booked,
            value=entry.value or entry.booked,
            money=money,
            transactions=group,
            is_detailed=entry.is_detailed and not any(it.is_debit for it in group),
        )


def made_reference(kind: str, *parts: str) -> str:
    """A reference that fits the office, is always the same for these parts, and of no others."""
    digest = hashlib.sha256(json.dumps(parts).encode()).digest()
    return f"{kind}~{base64.b32encode(digest).decode().lower()[:DIGEST_SIGNS]}"


@dataclass
class BankFile:
    """The lines, and what is left out, of the statements added so far."""

    firms: Firms
    # As casefold() leaves them.
    interest_words: frozenset[str]
    # By their references.
    earlier: dict[str, EarlierLine]
    # Those of all statements.
    accounts: frozenset[str] = frozenset()
    lines: list[Line] = field(default_factory=list)
    left_out: list[LeftOut] = field(default_factory=list)
    # Each line's payment by its reference.
    payments: dict[str, Payment] = field(default_factory=dict)
    # The statement in which an entry first stood, and each time that it stood there its payments' references.
    parts: dict[tuple, tuple[Statement, list[list[str]]]] = field(default_factory=dict)

    def add(self, statement: Statement) -> None:
        used: Counter[str] = Counter()
        for place, entry in statement.entries():
            if reason := reason_to_leave_out(entry):
                called = f"entry {place} of {statement.called}"
                amounts = frozenset({entry.money}).union(*(it.amounts for it in entry.transactions))
                self.left_out.append(LeftOut(reason, called, entry.value or entry.booked, entry.money, amounts,
                                             entry.payouts))
                continue
            payments = [*payments_of(statement, place, entry)]
            self.check_parts(statement, f"entry {place} of {statement.called}", entry, payments, used)
            for payment in payments:
                self.add_payment(payment, used)

    def check_parts(self, statement: Statement, called: str, entry: Entry, payments: list[Payment],
                    used: Counter[str]) -> None:
        """Refuses an entry that came before in other parts, in a statement or an earlier file."""
        if not entry.reference:
            return
        # Two statements may have them in another order.
        own = sorted(it.reference for it in payments)
        key = statement.account, entry.reference, entry.booked, entry.value, entry.money
        first, parts = self.parts.setdefault(key, (statement, []))
        if first is statement:
            parts.append(own)
        elif own not in parts:
            raise Refusal(f"{called} stands in {first.called} with other references of its transactions, "
                          "so it would count twice; give one of the two statements")
        # The file that was made of this very statement has the same parts.
        is_known = self.are_earlier(payments, used)
        day, cents = str(entry.value or entry.booked), cents_told(entry.money)
        if not is_known and any((it.value, it.cents) == (day, cents) for it in self.earlier_lines(entry.reference)):
            raise Refusal(f"{called} stands in an earlier file as one line, {shown(entry.reference)}, and now comes "
                          "in its transactions, so it would count twice; give the statement that it was made of")
        parts = (it.reference for it in entry.transactions if it.reference and it.reference not in own)
        part = next((it for it in parts if not is_known and self.is_earlier(it, day)), None)
        if part:
            raise Refusal(f"{called} stands in an earlier file in its transactions, as {shown(part)}, and now comes as "
                          "one line, so it would count twice; give the statement that it was made of")

    def are_earlier(self, payments: list[Payment], used: Counter[str]) -> bool:
        """Whether an earlier file has each of these payments under its reference, with its amount; of each of the
        bank's references it was counted how often the statement used it before them."""
        # What is counted here stands in front of what was used: that may be as many as there are payments.
        counted = ChainMap({}, used)
        lines = ((self.earlier.get(reference_of(it, counted)), it) for it in payments if is_line(it))
        return all(line is not None and line.cents == cents_told(it.money) for line, it in lines)

    def is_earlier(self, reference: str, value: str) -> bool:
        """Whether an earlier file has a line of that day under a reference of the bank."""
        line = self.earlier.get(fit_reference(reference, 1))
        return line is not None and line.value == value

    def earlier_lines(self, reference: str) -> Iterator[EarlierLine]:
        """The lines that an earlier file has under a reference of the bank: the first one, and those behind it."""
        lines = (self.earlier.get(fit_reference(reference, count)) for count in itertools.count(1))
        return itertools.takewhile(lambda it: it is not None, lines)

    def add_payment(self, payment: Payment, used: Counter[str]) -> None:
        """Adds a payment; of each of the bank's references it is counted how often the statement used it."""
        if payment.is_return:
            return self.leave_out(Reason.RETURNED_TRANSFER, payment)
        if not payment.money.amount:
            return self.leave_out(Reason.NOTHING, payment)
        reference = reference_of(payment, used)
        if self.is_between_accounts(payment):
            return self.leave_out(Reason.BETWEEN_ACCOUNTS, payment)
        line = self.line_of(payment, reference)
        first = self.payments.setdefault(reference, payment)
        if first is payment:
            self.lines.append(line)
        elif is_same(payment, first):
            self.leave_out(Reason.REPEAT, payment)
        else:
            raise Refusal(f"{payment.called} and {first.called} are different payments, and the bank gives "
                          f"both the reference {shown(payment.reference)}; ask the bank")

    def is_between_accounts(self, payment: Payment) -> bool:
        """Whether the fund has moved its own money, from an account of which a statement stands here."""
        ibans = {without_spaces(it.iban) for it in payment.transactions}
        return payment.is_detailed and bool(ibans) and ibans <= self.accounts

    def leave_out(self, reason: Reason, payment: Payment) -> None:
        money = payment.money
        payouts = tuple(it.payout for it in payment.transactions if it.payout)
        self.left_out.append(LeftOut(reason, payment.called, payment.value, money, frozenset({money}), payouts))

    def likely_repeats(self) -> list[str]:
        """The references whose lines another statement, or an earlier file, has, too, by their day, amount and note,
        where one of the two was made here for want of the bank's."""
        earlier: dict[tuple, set[bool]] = {}
        for reference, line in self.earlier.items():
            if reference not in self.payments:
                earlier.setdefault(alike(line), set()).add(is_by_place(reference))
        # Which statements of an account have such a line, and whether under a reference made here.
        statements: dict[tuple, set[tuple[str, bool]]] = {}
        for line in self.lines:
            account, identifier, *_ = self.payments[line.reference].place
            statements.setdefault((account, *alike(line)), set()).add((identifier, is_by_place(line.reference)))

        def may_repeat(line: Line) -> bool:
            account, own, *_ = self.payments[line.reference].place
            others = {made for identifier, made in statements[account, *alike(line)] if identifier != own}
            others |= earlier.get(alike(line), set())
            return True in others or bool(others) and is_by_place(line.reference)

        return [it.reference for it in self.lines if it.found is not Found.EARLIER and may_repeat(it)]

    def line_of(self, payment: Payment, reference: str) -> Line:
        if payment.value is None:
            raise Refusal(f"{payment.called}: it has neither a value date nor a booking date")
        if not DAYS[0] <= payment.value <= DAYS[1]:
            raise Refusal(f"{payment.called}: {payment.value} doesn't lie from {DAYS[0]} to {DAYS[1]}")
        employer, found = self.firm_of(payment)
        purpose = "I" if self.is_interest(payment) else "C"
        line = Line(reference, payment.value, employer, cents_of(payment), purpose, note_of(payment), found)
        return as_earlier(line, self.earlier.get(reference))

    def firm_of(self, payment: Payment) -> tuple[str, Found]:
        """The firm of all transactions of a payment; none where they have several, or aren't all known."""
        # An account tells whose payment it is, where it isn't for another one.
        ibans = ("" if it.other_name else it.iban for it in payment.transactions)
        found = {self.firms.firm_of(iban, it.texts, payment.value.year, partial(may_be_paid, payment, it))
                 for iban, it in zip(ibans, payment.transactions)}
        is_sure = payment.is_detailed and not any(it.is_return for it in payment.transactions)
        if not is_sure or len({firm for firm, _ in found}) != 1:
            return "", Found.NOT_FOUND
        return min(found, key=lambda it: it[1].value)

    def is_interest(self, payment: Payment) -> bool:
        words = [words_in(it.texts) for it in payment.transactions]
        return payment.is_detailed and bool(words) and all(self.interest_words & it for it in words)


def may_be_paid(payment: Payment, transaction: Transaction, euros: Decimal) -> bool:
    """Whether a transaction of a payment may be of so many euros, to less than one, with fees or without; one that tells
    no amount, of several in one line, may be of as many as there are at most."""
    told = {it.amount for it in transaction.amounts}
    is_part = not told and len(payment.transactions) > 1
    is_one = any(abs(euros - it) < 1 for it in told | {payment.money.amount})
    return is_one or is_part and euros < payment.money.amount


def is_line(payment: Payment) -> bool:
    """Whether a payment may become a line: one of nothing, or one that came back, is left out."""
    return bool(payment.money.amount) and not payment.is_return


def is_by_place(reference: str) -> bool:
    """Whether it was made here for want of the bank's."""
    return reference.startswith(BY_PLACE)


def alike(line: Line | EarlierLine) -> tuple[str, str, str]:
    """What two lines of one payment have in common, whatever their references are."""
    return str(line.value), str(line.cents), line.note


def as_earlier(line: Line, earlier: EarlierLine | None) -> Line:
    """The line as an earlier file has it. One of another day, amount, payer or text is another payment, and
    stays, for the office to refuse."""
    if earlier is None or alike(earlier) != alike(line):
        return line
    return replace(line, found=Found.EARLIER, employer=earlier.employer, purpose=earlier.purpose)


def reference_of(payment: Payment, used: MutableMapping[str, int]) -> str:
    """The bank's reference as it is, where it fits and the statement has it for the first time; else one
    that is made of it, or of the place where there is none."""
    own = payment.reference
    if not own:
        return made_reference("place", *payment.place)
    used[own] += 1
    return fit_reference(own, used[own])


def fit_reference(own: str, count: int) -> str:
    """What stands for the bank's reference where a statement has it for that time."""
    if count == 1 and REFERENCE.fullmatch(own) and not MADE.fullmatch(own):
        return own
    return made_reference("bank", own, str(count))


def is_same(payment: Payment, other: Payment) -> bool:
    """Whether two statements tell of one payment."""
    def told(it: Payment) -> tuple:
        account = it.place[0]
        return account, it.entry_reference, it.booked, it.value, it.money, it.transactions
    return told(payment) == told(other)


def cents_told(money: Money) -> str:
    return f"{money.amount * 100:.0f}"


def cents_of(payment: Payment) -> int:
    cents = payment.money.amount * 100
    if cents != cents.to_integral_value():
        raise Refusal(f"{payment.called}: {payment.money.amount:f} euros aren't whole cents")
    if cents > MOST_CENTS:
        raise Refusal(f"{payment.called}: {payment.money} is more than the office takes in one line")
    return int(cents)


def note_of(payment: Payment) -> str:
    """Who paid, and the text; a sign by which a spreadsheet knows a formula stands neither first nor behind a semicolon,
    by which a spreadsheet may part the fields."""
    note = ": ".join(filter(None, (payment.name, payment.text)))
    return cut(FIELD_OF_FORMULA.sub(",", note.lstrip(f"{FORMULA} ")), MOST_NOTE_BYTES)


def row_of(fields: tuple) -> bytes:
    text = io.StringIO()
    csv.writer(text, lineterminator="\n").writerow(fields)
    return text.getvalue().encode()


def bank_file_texts(lines: list[Line]) -> list[bytes]:
    """The office's bank files of the lines, in their order: one, or as many as hold them."""
    header = row_of(HEADER)
    files, size = [[header]], len(header)
    for line in lines:
        row = row_of(line.fields())
        if len(files[-1]) > MOST_LINES or size + len(row) > MOST_BYTES:
            files.append([header])
            size = len(header)
        files[-1].append(row)
        size += len(row)
    return [b"".join(rows) for rows in files]


def total(lines: list[Line]) -> Money:
    return Money(Decimal(sum(line.cents for line in lines)) / 100, "EUR")
