"""The request numbers of a desk, made of date, desk and count, as the clerk's manual suggests.

202404300100007 is the 7th number of desk 1 on 2024-04-30: eight digits of the date, two of the desk, five
of the count. Two desks with different numbers never meet, and the numbers of one desk only rise, also
where the clock goes back.
"""

import datetime

from .faults import Fault

# The office takes greater ones, but a page reads a number as a float, and from 2^53 on it may send another
# one back.
LAST_NUMBER = 9_007_199_254_740_990
COUNTS = 100_000
DESKS = 100


def first_of_day(day: datetime.date, desk: int) -> int:
    return (int(day.strftime("%Y%m%d")) * DESKS + desk) * COUNTS + 1


def next_number(last: int, day: datetime.date, desk: int, first: int | None) -> int:
    """The next number above the last one that was used (0 before the first). `first` is where the clerk
    lets them begin, in the place of date, desk and count."""
    if last >= LAST_NUMBER:
        raise Fault("numbers-full", 409)
    if first is not None:
        return max(first, last + 1)
    begin = first_of_day(day, desk)
    if last < begin:
        return begin
    if last // COUNTS % DESKS != desk or last % COUNTS == COUNTS - 1:
        # The next one would be another desk's.
        raise Fault("numbers-end", 409)
    return last + 1


def is_meant(told: int, number: int) -> bool:
    """Whether a page that tells this number means that one, which it has rounded where an earlier desk took
    it above the last one of today."""
    return told == number or (LAST_NUMBER < number < 2 * told < 4 * number and float(told) == float(number))
