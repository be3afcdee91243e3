"""A payout list of the office, and why nothing is transferred by one."""

import datetime
import itertools
import re
from dataclasses import dataclass, replace

# Of one SEPA credit transfer.
MOST_CENTS = 99_999_999_999

# Of lists, claims and employers.
NUMBER = "[1-9][0-9]{0,7}"
AMOUNT = r"( *[0-9]{1,16}\.[0-9]{2})"
TITLE = re.compile(f"payout ({NUMBER}) ([0-9-]+)")
CLAIM = re.compile(f"claim ({NUMBER}) employer ({NUMBER}) worker ([1-9][0-9]{{0,8}}) {AMOUNT}")
ITEMS = re.compile(f"items (0|{NUMBER})")
TOTAL = re.compile(f"total {AMOUNT}")
DAY = re.compile("[0-9]{4}-[0-9]{2}-[0-9]{2}")


@dataclass(frozen=True)
class Item:
    """A claim on the list, and what is paid out of it to its firm."""

    claim: int
    employer: int
    worker: int
    cents: int


@dataclass(frozen=True)
class PayoutList:
    """A payout list as it was read; its count and its total are those of its last two lines, or of what is left."""

    number: int
    day: datetime.date
    items: list[Item]
    count: int
    total: int

    def parted(self, without: set[int]) -> tuple["PayoutList", list[Item]]:
        """The list with all claims but these, with their count and total, and what is left out."""
        left_out = [it for it in self.items if it.claim in without]
        items = [it for it in self.items if it.claim not in without]
        return replace(self, items=items, count=len(items), total=sum(it.cents for it in items)), left_out


def euros(cents: int) -> str:
    return f"{cents // 100}.{cents % 100:02}"


def day_of(text: str) -> datetime.date:
    if not DAY.fullmatch(text):
        raise ValueError(f"{text[:40]!r} is no day YYYY-MM-DD")
    try:
        return datetime.date.fromisoformat(text)
    except ValueError:
        raise ValueError(f"{text!r} is no day of the calendar") from None


def cents_of(field: str) -> int:
    """An amount of a document: euros, a point and two digits, right in 14 places."""
    cents = int(field.strip(" ").replace(".", ""))
    if f"{euros(cents):>14}" != field:
        raise ValueError(f"{field!r} isn't written as an amount of the office")
    return cents


def parse_list(text: str) -> PayoutList:
    """A payout list of docs/formats.md. A ValueError says what is wrong."""
    *lines, behind = text.split("\n")
    if behind or len(lines) < 3:
        raise ValueError("no payout list, or not a whole one")
    patterns = [TITLE, *[CLAIM] * (len(lines) - 3), ITEMS, TOTAL]
    found = []
    for number, (pattern, line) in enumerate(zip(patterns, lines), 1):
        match = pattern.fullmatch(line)
        if not match:
            raise ValueError(f"line {number} isn't one of a payout list: {line[:80]!r}")
        found.append(match)
    title, *claims, items, total = found
    listed = [Item(int(it[1]), int(it[2]), int(it[3]), cents_of(it[4])) for it in claims]
    return PayoutList(int(title[1]), day_of(title[2]), listed, int(items[1]), cents_of(total[1]))


def faults_of(payout: PayoutList, without: set[int]) -> list[str]:
    """Why nothing is transferred by a list without these of its claims."""
    if not payout.items:
        return ["nothing is to be transferred: the list has no claim"]
    claims = {it.claim for it in payout.items}
    faults = [f"claim {claim} isn't on the list, and is to be left out" for claim in sorted(without - claims)]
    if not claims - without:
        faults.append("nothing is to be transferred: each claim is left out")
    for earlier, later in itertools.pairwise(payout.items):
        if later.claim <= earlier.claim:
            faults.append(f"claim {later.claim} stands twice, or not in its place")
    for item in payout.items:
        if item.claim not in without and not 1 <= item.cents <= MOST_CENTS:
            faults.append(f"claim {item.claim}: {euros(item.cents)} euros are no SEPA payment, "
                          f"which is of 0.01 to {euros(MOST_CENTS)}")
    if payout.count != len(payout.items):
        faults.append(f"the list says {payout.count} items, and has {len(payout.items)} claims")
    total = sum(item.cents for item in payout.items)
    if payout.total != total:
        faults.append(f"the list says {euros(payout.total)} in total, "
                      f"and its claims come to {euros(total)}")
    return faults
