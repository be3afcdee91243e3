"""The numbers in a text that may be firms': those that are no part of a date, an amount or the like."""

from __future__ import annotations

import re
from collections.abc import Callable, Iterable, Iterator
from dataclasses import dataclass, replace
from decimal import Decimal
from functools import lru_cache

from .patterns import (
    BEFORE_A_DATE, BEFORE_A_WORD, BEGIN_OF_A_TELEPHONE, BESIDE_A_CURRENCY, CALLED_A_TELEPHONE, CENTS, COUNTED,
    DAY_WITH_A_DASH, DIGITS, FIRM_WORD, GOES_ON, IN_A_CURRENCY, JOINED, LEAST_SURE_DIGITS, LISTED, LONGEST_WORD,
    MOST_NAMED, NAMED_BEFORE, NAMED_TOGETHER, NAMED_WITH, NUMBER_WORD, OF_A_YEAR, OF_PLAIN_TEXTS, ON_BOTH_SIDES,
    OTHER_NUMBERS, PLAIN_WORD, SAID_BEFORE, SAYS_NOTHING, SHORT_DATE, STUCK_WORD, WHOLE, WORD, WORD_BEFORE, YEAR,
    YEARS,
)


@dataclass(frozen=True)
class Number:
    digits: str
    # The word right before it, as "betrieb"; of "Betrieb-Nr." all of "betrieb", "nr" and "betriebnr". Where it is
    # joined to a number, those of that one.
    words: frozenset[str]
    is_joined: bool = False
    # Whether it is the one number of a plain text.
    is_plain: bool = False
    # Whether it and the next one are of a year.
    is_before_a_year: bool = False
    # Whether they are, or it and that before.
    is_of_a_year: bool = False
    # Whether it may be the first digits of a longer one, or counts something.
    goes_on: bool = False
    # Whether it is named together with that before it, which is no year, by a word or sign that stands before no year.
    is_named_with: bool = False
    # Whether it is named together with another one that may be a firm's, be that in the table or not.
    is_one_of_several: bool = False
    # Whether it is no firm's, where no firm's word stands before it, as the 1001 of EUR 1001.
    is_none: bool = False
    # Whether the word before it, or before the number that it is joined to, says what it is, as in Rechnung 1001.
    is_told: bool = False

    @property
    def may_be_a_year(self) -> bool:
        return re.fullmatch(YEAR, self.digits) is not None

    @property
    def is_short(self) -> bool:
        return len(self.digits) < LEAST_SURE_DIGITS

    @property
    def is_like_a_count_or_a_date(self) -> bool:
        return self.is_short or SHORT_DATE.fullmatch(self.digits) is not None

    @property
    def is_behind_a_firm_word(self) -> bool:
        return not self.is_joined and any(map(FIRM_WORD.fullmatch, self.words))

    def is_in_doubt(self, may_be_paid: Callable[[Decimal], bool]) -> bool:
        """Whether it may be something else than a firm's number by what stands around it, or by its digits, as a sum
        that may be paid, in euros, once or for several months."""
        if self.is_behind_a_firm_word:
            return False
        if not self.is_plain or self.is_of_a_year:
            return True
        words = frozenset() if self.is_joined else self.words
        if words.isdisjoint(("nr", "nummer")):
            sums = (Decimal(self.digits) * months for months in range(1, 13))
            return self.is_like_a_count_or_a_date or any(map(may_be_paid, sums))
        # Monat Nr. 5; not Nr. 5
        return self.is_short and len(words) > 1


def numbers_in(text: str, year: int) -> tuple[list[Number], list[Number]]:
    """The numbers in a text of that year that are nothing else, and those that make a firm among them doubtful at most:
    they look like something else, or are parts of longer words."""
    found_others = [*OTHER_NUMBERS.finditer(text)]
    left = without(text, found_others)
    beside = [*BESIDE_A_CURRENCY.finditer(left)]
    others = [*others_in(text, found_others), *amounts_in(left, beside)]
    left = without(left, beside)
    told = told_in_plain_words(text, found_others, left)
    numbers: list[Number] = []
    places, end = set(), 0
    for found in NUMBER_WORD.finditer(left):
        number = number_at(left, found, numbers[-1:], end, year)
        if numbers and is_another(left, found, numbers, end, year):
            name_with_another(numbers, number, year)
        numbers.append(replace(number, is_plain=told is not None and told <= {number.digits}))
        places.add(found.start())
        end = found.end()
    others += (other_at(left, it, False) for it in WHOLE.finditer(left) if it.start() not in places)
    return numbers, others


def without(text: str, others: Iterable[re.Match]) -> str:
    """The text without what is something else. For what began with a digit one stands, so that what goes on into it, as
    the 1001 of 1001,24 Mai, is no number."""
    pieces, end = [], 0
    for it in others:
        pieces += text[end:it.start()], "0_" if it[0][0].isdecimal() else "_"
        end = it.end()
    return "".join((*pieces, text[end:]))


def told_in_plain_words(text: str, others: list[re.Match], left: str) -> set[str] | None:
    """The numbers of a plain text, years aside; nothing where it isn't one. What looks like something else is gone from
    what is left of it."""
    are_plain = (it.lastgroup.startswith(OF_PLAIN_TEXTS) or DAY_WITH_A_DASH.fullmatch(it[0]) for it in others)
    is_plain = (not IN_A_CURRENCY.search(text) and all(are_plain)
                and all(map(PLAIN_WORD.fullmatch, WORD.findall(left))))
    return set(DIGITS.findall(YEARS.sub("", left))) if is_plain else None


def number_at(text: str, found: re.Match, before: list[Number], end: int, year: int) -> Number:
    """The number that was found there, behind another one that ends there, if there is one."""
    begin, digits = found.span()[0], found[0]
    is_joined = bool(before and JOINED.fullmatch(text, end, begin))
    is_before_a_year = OF_A_YEAR.match(text, found.end()) is not None
    return Number(
        digits,
        before[0].words if is_joined else words_before(text, begin),
        is_joined=is_joined,
        is_before_a_year=is_before_a_year,
        is_of_a_year=is_before_a_year or any(it.is_before_a_year for it in before),
        goes_on=goes_on(text, found, year),
        is_named_with=any(not it.may_be_a_year and NAMED_WITH.fullmatch(text, end, begin) for it in before),
        is_told=before[0].is_told if is_joined else is_told(text, begin),
    )


def goes_on(text: str, found: re.Match, year: int) -> bool:
    """Whether a number may be the first digits of a longer one, or counts something."""
    more = GOES_ON.match(text, found.end())
    return more is not None and not is_date_near(more[1], year) or counts(text, found)


def counts(text: str, found: re.Match) -> bool:
    """Whether a number counts something: 12 Monate"""
    return len(found[0]) < LEAST_SURE_DIGITS and COUNTED.match(text, found.end()) is not None


def is_ordinal(text: str, found: re.Match) -> bool:
    """Whether a number may be the end of a longer one, as in Betrieb 1001+02."""
    return found[0].startswith("0") and not BEFORE_A_DATE.match(text, found.end())


def is_another(text: str, found: re.Match, before: list[Number], end: int, year: int) -> bool:
    """Whether a number is named together with those before it, of which the last one ends there, and may be a firm's."""
    digits, last = found[0], before[-1].digits
    is_less = len(digits) < min(LEAST_SURE_DIGITS, len(last)) and not is_ordinal(text, found)
    if is_less or counts(text, found) or is_date_near(digits, year):
        return False
    word = BEFORE_A_WORD.match(text, found.end())
    is_in_an_address = word is not None and not PLAIN_WORD.fullmatch(word[1])
    is_alike = any(len(it.digits) == len(digits) for it in before) and not is_in_an_address
    names = NAMED_TOGETHER.fullmatch(text, end, found.start()), is_alike and LISTED.fullmatch(text, end, found.start())
    return any(names)


def name_with_another(numbers: list[Number], other: Number, year: int) -> None:
    """Notes that the last one that is no date, and those behind it, are named together with another one. (Of a long list
    each has been noted by the one behind it.)"""
    for place in range(len(numbers) - 1, max(-1, len(numbers) - 1 - MOST_NAMED), -1):
        number = numbers[place]
        if number.digits != other.digits:
            numbers[place] = replace(number, is_one_of_several=True)
        if not number.is_joined and not is_date_near(number.digits, year):
            return


def is_date_near(digits: str, year: int) -> bool:
    """Whether digits may be a year, a month or a day of some years before this one up to the next, without points."""
    return dates_near(year).fullmatch(digits) is not None


@lru_cache
def dates_near(year: int) -> re.Pattern:
    years = range(year - 5, year + 2)
    whole, short = "|".join(map(str, years)), "|".join(f"{it % 100:02}" for it in years)
    month, day = "(?:0[1-9]|1[0-2])", "(?:0[1-9]|[12][0-9]|3[01])"
    return re.compile(f"(?:{whole})(?:{month}(?:{day})?)?|(?:{short}){month}(?:{day})?|"
                      f"(?:{day})?{month}(?:{whole}|{short})|[1-9](?:{whole})")


def others_in(text: str, others: Iterable[re.Match]) -> Iterator[Number]:
    """The numbers of what looks like something else, and may be firms' all the same."""
    for found in others:
        numbers = [*WHOLE.finditer(text, *found.span())]
        count = count_of_none(text, found, len(numbers))
        yield from (other_at(text, it, place < count) for place, it in enumerate(numbers))


def count_of_none(text: str, found: re.Match, count: int) -> int:
    """How many of so many numbers in what looks like something else are that for sure, from the first one on."""
    kind, _, _ = found.lastgroup.partition("_")
    if kind in ("reference", "date"):
        return count
    if kind == "amount":
        return 0 if ON_BOTH_SIDES.search(found[0]) else 1
    # (Of two with an area, and of three with a country.)
    if kind == "telephone" and BEGIN_OF_A_TELEPHONE.match(text, found.start()):
        return 3
    return 2 if kind == "telephone" and ends_in(CALLED_A_TELEPHONE, text, found.start()) else 0


def amounts_in(text: str, beside: Iterable[re.Match]) -> Iterator[Number]:
    """The numbers beside a currency that has no amount yet."""
    for found in beside:
        yield from (other_at(text, it, True) for it in WHOLE.finditer(text, *found.span()))


def other_at(text: str, found: re.Match, is_none: bool) -> Number:
    is_none = is_none or CENTS.match(text, found.end()) is not None
    return Number(
        found[0],
        words_before(text, found.start()),
        is_named_with=(not is_none and len(found[0]) >= LEAST_SURE_DIGITS
                       and ends_in(NAMED_BEFORE, text, found.start()) is not None),
        is_none=is_none,
        is_told=is_told(text, found.start()),
    )


def is_told(text: str, begin: int) -> bool:
    """Whether the word before a number that begins there says what it is."""
    said = ends_in(SAID_BEFORE, text, begin)
    return said is not None and not SAYS_NOTHING.fullmatch(said[1])


def words_before(text: str, begin: int) -> frozenset[str]:
    if stuck := ends_in(STUCK_WORD, text, begin):
        return frozenset({stuck[0]})
    before = ends_in(WORD_BEFORE, text, begin)
    word, label = before.groups("") if before else ("", "")
    return frozenset({word, label, word + label} - {""})


def ends_in(pattern: re.Pattern, text: str, end: int) -> re.Match | None:
    """What stands before that place, as far as a longest word."""
    return pattern.search(text, max(0, end - LONGEST_WORD), end)
