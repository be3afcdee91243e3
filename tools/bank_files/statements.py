"""Statements over all their pages, and whether their balances and entries agree."""

from __future__ import annotations

from collections import Counter
from collections.abc import Iterable, Iterator
from dataclasses import dataclass
from decimal import Decimal

from .camt import Entry, Message, Money, Page
from .texts import Refusal, shown

OPENING = ("OPBD", "PRCD")
CLOSING = ("CLBD",)
INTERIM = ("ITBD",)


@dataclass(frozen=True)
class Statement:
    account: str
    identifier: str
    # By their numbers.
    pages: tuple[Page, ...]

    @property
    def called(self) -> str:
        return f"statement {shown(self.identifier)} of {shown(self.account)}"

    def entries(self) -> Iterator[tuple[int, Entry]]:
        """Each entry with its place, counted over all pages."""
        return enumerate((entry for page in self.pages for entry in page.entries), 1)

    def check(self) -> None:
        """Refuses a statement of which a page is missing, or whose balances and entries disagree."""
        self.check_page_numbers()
        opening, closing = self.balances()
        if opening.currency != closing.currency:
            raise self.refusal(f"its balances are in {opening.currency} and {closing.currency}")
        balance = opening.amount
        for page in self.pages:
            before, balance = balance, balance + booked(page, opening.currency)
            self.check_interim_balances(page, {before, balance})
        if balance != closing.amount:
            made = Money(balance, opening.currency)
            raise self.refusal(f"the opening balance {opening} and the booked entries make {made}, "
                               f"but the closing balance is {closing}")

    def balances(self) -> tuple[Money, Money]:
        """The opening and the closing balance."""
        return self.balance("opening", OPENING), self.balance("closing", CLOSING)

    def check_page_numbers(self) -> None:
        numbers = [page.number for page in self.pages]
        says_last = [page.is_last for page in self.pages]
        first = numbers[0] if says_last[0] is None else 1
        if len(set(numbers)) < len(numbers):
            raise self.refusal("it stands twice in the file, or a page of it does")
        is_whole = numbers == list(range(first, first + len(numbers)))
        if not is_whole or says_last[-1] is False or True in says_last[:-1]:
            raise self.refusal(f"a page is missing; there are {', '.join(map(str, numbers))}. "
                               "Pack the files of all pages into one zip")

    def balance(self, name: str, codes: Iterable[str]) -> Money:
        """The one balance of these codes, on whichever pages it stands."""
        found = {it.money for page in self.pages for it in page.balances if it.code in codes}
        if not found:
            raise self.refusal(f"it has no {name} balance ({' or '.join(codes)}), so it can't be checked")
        if len(found) > 1:
            raise self.refusal(f"it has several {name} balances: {', '.join(sorted(map(str, found)))}")
        return found.pop()

    def check_interim_balances(self, page: Page, ends: set[Decimal]) -> None:
        """An interim balance of a page is that before its first or behind its last entry; two are both."""
        interim = [it.money.amount for it in page.balances if it.code in INTERIM]
        if len(self.pages) == 1 or not interim:
            return
        if not ends.issuperset(interim) or len(interim) > 1 and set(interim) != ends:
            raise self.refusal(f"the interim balances of page {page.number} don't agree "
                               "with the other pages and the entries")

    def refusal(self, text: str) -> Refusal:
        return Refusal(f"{self.called}: {text}")


def booked(page: Page, currency: str) -> Decimal:
    """What the booked entries of a page add to the balance."""
    amounts = (entry.money.amount if entry.is_credit else -entry.money.amount
               for entry in page.entries if entry.status == "BOOK" and entry.money.currency == currency)
    return sum(amounts, Decimal(0))


def join_pages(pages: Iterable[Page]) -> list[Statement]:
    """The statements, in the order in which they first come; their pages are put in order."""
    groups: dict[tuple[str, str], list[Page]] = {}
    for page in pages:
        groups.setdefault((page.account, page.identifier), []).append(page)
    return [
        Statement(account, identifier, tuple(sorted(group, key=lambda page: page.number)))
        for (account, identifier), group in groups.items()
    ]


def beginnings(statements: list[Statement]) -> dict[str, list[Statement]]:
    """By the account the statements that begin where none of them ends: where there are several, one between them is
    missing, or some tell of the same days."""
    ends = Counter((it.account, it.balances()[1]) for it in statements)
    groups: dict[tuple[str, str], list[Statement]] = {}
    for it in statements:
        opening, _ = it.balances()
        if ends[it.account, opening] < 1:
            groups.setdefault((it.account, opening.currency), []).append(it)
        ends[it.account, opening] -= 1
    return {account: group for (account, _), group in groups.items() if len(group) > 1}


def check_messages(messages: Iterable[Message]) -> None:
    """Refuses messages of which a part is missing: each that isn't the last of its message is followed by one."""
    parts = [(it.number, it.is_last) for it in messages if it.number is not None]
    promised = Counter(number + 1 for number, is_last in parts if not is_last)
    if promised != Counter(number for number, _ in parts if number > 1):
        numbers = ", ".join(f"{number}{'' if is_last else ' of more'}" for number, is_last in sorted(parts))
        raise Refusal(f"a page of the bank's message is missing; there are {numbers}. "
                      "Pack the files of all pages into one zip")
