"""The clerk's table of firms: whose account an IBAN is, and which numbers are firms'."""

from __future__ import annotations

import re
from collections.abc import Callable, Iterable
from dataclasses import dataclass, field
from decimal import Decimal
from enum import Enum

from .ibans import is_iban, without_ibans, without_spaces
from .numbers import Number, numbers_in
from .patterns import NOT_MEANT
from .tables import read_rows
from .texts import DASHES, MOST_PARTS, MOST_SIGNS, MOST_SIGNS_OF_A_TEXT, PUT_TOGETHER, Fault, readings, shown

HEADER = ("iban", "employer")
EMPLOYER = re.compile("[1-9][0-9]{0,7}")
MOST_FAULTS = 20


class Found(Enum):
    """How the firm of a line is found."""

    BY_IBAN = "by the IBAN"
    BY_NUMBER = "by a number in the text"
    NOT_FOUND = "without a firm"
    EARLIER = "as in an earlier file"


@dataclass(frozen=True)
class Named:
    """The firms that a text names: those for sure, and all that it may name."""

    sure: set[str]
    possible: set[str]
    # Whether it names a second one, in the table or not, or one that isn't meant, perhaps.
    is_disputed: bool


@dataclass(frozen=True)
class Firms:
    by_iban: dict[str, str]
    numbers: frozenset[str]
    # As casefold() leaves them; where there are any, a number counts only behind one of them.
    number_words: frozenset[str] = field(default=frozenset())

    def firm_of(self, iban: str, texts: Iterable[str], year: int,
                may_be_paid: Callable[[Decimal], bool]) -> tuple[str, Found]:
        """The firm that paid from this account in this year with these parts of a text, and of which sums in euros it
        may have been any; empty where none is found."""
        firm = self.by_iban.get(without_spaces(iban))
        if firm:
            return firm, Found.BY_IBAN
        parts = [it.translate(DASHES) for it in texts]
        if len(parts) > MOST_PARTS or sum(map(len, parts)) > MOST_SIGNS or may_be_cut_off(parts):
            return "", Found.NOT_FOUND
        # The firm has to stand there by each reading, and no other one by any; for sure by that which has whole words.
        named = [self.named_in(reading, year, may_be_paid) for reading in readings(without_ibans(parts))]
        possible = named[PUT_TOGETHER].possible
        is_one = (len(possible) == 1 and possible == named[PUT_TOGETHER].sure
                  and all(it.possible == possible and not it.is_disputed for it in named))
        return (*possible, Found.BY_NUMBER) if is_one else ("", Found.NOT_FOUND)

    def named_in(self, reading: str, year: int, may_be_paid: Callable[[Decimal], bool]) -> Named:
        """The firms that a reading names."""
        numbers, others = numbers_in(reading, year)
        named = [it for it in numbers if self.may_be_named(it)]
        rest = [*others, *(it for it in numbers if not self.may_be_named(it))]
        known = [it for it in named if it.digits in self.numbers]
        beside = {it.digits for it in rest if it.digits in self.numbers and self.may_be_another(it, may_be_paid)}
        # Where several are called firms' numbers, be they in the table or not, none is sure.
        called = {it.digits.lstrip("0") for it in named if self.is_called_a_firm(it)}
        called |= {it.digits.lstrip("0") for it in others if self.is_called_a_firm_too(it)}
        return Named(
            sure={it.digits for it in known if self.is_sure(it, may_be_paid)},
            possible={it.digits for it in known} | beside,
            is_disputed=(len(called) > 1 or any(it.is_one_of_several for it in known)
                         or NOT_MEANT.search(reading) is not None),
        )

    def may_be_named(self, number: Number) -> bool:
        return bool(number.words & self.number_words) if self.number_words else not number.may_be_a_year

    def may_be_another(self, number: Number, may_be_paid: Callable[[Decimal], bool]) -> bool:
        """Whether a number of the table that names no firm for sure may be a second one's all the same."""
        if number.is_behind_a_firm_word or number.is_named_with:
            return True
        # Behind another word than the clerk's it is what that word says.
        is_told = bool(self.number_words) and number.is_told
        return not (number.may_be_a_year or number.is_short or number.is_none or is_told
                    or may_be_paid(Decimal(number.digits)))

    def is_called_a_firm(self, number: Number) -> bool:
        return not number.is_joined if self.number_words else number.is_behind_a_firm_word

    def is_called_a_firm_too(self, other: Number) -> bool:
        """Whether a number that looks like something else is called a firm's: the 1002 of Betrieb 1002 EUR 500, and of
        Betrieb 1001 und 1002 EUR 500"""
        words = other.words & self.number_words if self.number_words else other.is_behind_a_firm_word
        return (bool(words) or other.is_named_with) and not other.may_be_a_year

    def is_sure(self, number: Number, may_be_paid: Callable[[Decimal], bool]) -> bool:
        is_in_doubt = number.is_joined if self.number_words else number.is_in_doubt(may_be_paid)
        return not (is_in_doubt or number.goes_on)


def may_be_cut_off(parts: list[str]) -> bool:
    """Whether the text, or what is behind the bank's mark in it, is as long as one may be, and may end in a number."""
    texts = {text for whole in ("".join(parts), " ".join(parts)) for text in (whole, whole.rpartition("SVWZ+")[2])}
    return any(len(it) == MOST_SIGNS_OF_A_TEXT and it[-1].isdecimal() for it in texts)


def read_firms(path: str, number_words: Iterable[str] = ()) -> Firms:
    """The table of a file, or all that is wrong with it; numbers in texts count behind these words, if any."""
    by_iban: dict[str, str] = {}
    numbers: set[str] = set()
    faults: list[str] = []
    for place, fields in read_rows(path, HEADER):
        iban, employer = without_spaces(fields[0]), fields[1].strip()
        if fault := fault_of(iban, employer, by_iban):
            faults.append(f"{place}: {fault}")
        numbers.add(employer)
        # A firm without an IBAN is known by its number alone.
        if iban:
            by_iban[iban] = employer
    if faults:
        raise Fault("\n".join(faults[:MOST_FAULTS]))
    return Firms(by_iban, frozenset(numbers), frozenset(number_words))


def fault_of(iban: str, employer: str, by_iban: dict[str, str]) -> str | None:
    """What is wrong with a line of the table, behind those read so far."""
    if not EMPLOYER.fullmatch(employer):
        return f"{shown(employer) or 'nothing'} is no number of a firm (1 to 99999999)"
    if iban and not is_iban(iban):
        return f"{shown(iban)} is no IBAN, or a digit of it is wrong"
    if iban in by_iban:
        return f"{iban} stands twice; an account that pays for several firms stands at none"
    return None
