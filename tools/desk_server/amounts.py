"""Reads what a clerk types: amounts, rates, months and numbers. Amounts are whole cents, and no float is
in between."""

import re

from .faults import FieldFault

MOST_CENTS = 100_000_000_000
MOST_EMPLOYER = 99_999_999
MOST_WORKER = 999_999_999
MOST_CLAIM = 50_000_000
MOST_VERSION = 4_294_967_295
NAME_BYTES = 60

# What stands between thousands, and in front of the cents.
SEPARATORS = {"de": (".", ","), "en": (",", ".")}
SPACES = " \t\u00a0\u202f"
NUMBER = re.compile(r"[1-9][0-9]{0,17}")
YEAR_FIRST = re.compile(r"(2[01][0-9]{2})-(0?[1-9]|1[0-2])")
MONTH_FIRST = re.compile(r"(0?[1-9]|1[0-2])[./](2[01][0-9]{2})")
NAME_FIRST = re.compile(r"([^\W\d_]+)\.?[ \u00a0]+(2[01][0-9]{2})")
# As the page shows them, in English and German, without their full stops.
MONTH_NAMES = (
    "jan", "feb", "mar märz", "apr", "may mai", "jun juni", "jul juli", "aug", "sept", "oct okt", "nov", "dec dez")
MONTHS = {name: number for number, names in enumerate(MONTH_NAMES, 1) for name in names.split()}
REFERENCE = re.compile(r"[!-~]{1,35}")
# A terminal may obey them, those behind 0x7F too, as where a statement or the log is shown there.
CONTROL = re.compile(r"[\x00-\x1f\x7f-\x9f]")
# Marks, embeddings, overrides and isolates: what stands behind one may be shown in another order than it has.
TURNING = re.compile("[\u061c\u200e\u200f\u202a-\u202e\u2066-\u2069]")
# Blanks, further control characters, and signs of which nothing is drawn: Unicode's default ignorable ones, and
# the empty one of braille.
UNSEEN = re.compile(
    "[\\s\x80-\x9f\u00ad\u034f\u061c\u115f\u1160\u17b4\u17b5\u180b-\u180f\u200b-\u200f\u202a-\u202e\u2060-\u206f"
    "\u2800\u3164\ufe00-\ufe0f\ufeff\uffa0\ufff0-\ufff8\U0001bca0-\U0001bca3\U0001d173-\U0001d17a"
    "\U000e0000-\U000e0fff]*")


def read_cents(text: str, language: str) -> int | None:
    """The cents of an amount in euros as a clerk of this language writes it, or None: `1.234,56` in
    German, `1,234.56` in English. It has two decimals or none, so that a separator of the other language
    is told and not misread."""
    group, point = map(re.escape, SEPARATORS[language])
    form = rf"([0-9]{{1,12}}|[1-9][0-9]{{0,2}}(?:{group}[0-9]{{3}}){{1,3}})(?:{point}([0-9]{{2}}))?"
    found = re.fullmatch(form, text.strip(SPACES + "€"))
    if not found:
        return None
    return int(re.sub(group, "", found[1])) * 100 + int(found[2] or "0")


def read_hundredths(text: str, language: str) -> int | None:
    """The hundredths of a percentage, as 1425 for `14,25` in German; or None."""
    point = re.escape(SEPARATORS[language][1])
    found = re.fullmatch(rf"([0-9]{{1,3}})(?:{point}([0-9]{{1,2}}))?", text.strip(SPACES + "%"))
    if not found:
        return None
    return int(found[1]) * 100 + int((found[2] or "").ljust(2, "0"))


def amount(field: str, text: str, language: str) -> int:
    cents = read_cents(text, language)
    if cents is None:
        raise FieldFault(field, "amount")
    if not 1 <= cents <= MOST_CENTS:
        raise FieldFault(field, "amount-range")
    return cents


def percentage(field: str, text: str, language: str, most: int) -> int:
    hundredths = read_hundredths(text, language)
    if hundredths is None or hundredths > most:
        raise FieldFault(field, field)
    return hundredths


def number(field: str, text: str, most: int) -> int:
    found = NUMBER.fullmatch(text.strip(SPACES))
    if not found or int(found[0]) > most:
        raise FieldFault(field, field)
    return int(found[0])


def month(field: str, text: str) -> str:
    """A month as the office takes it, `2024-01`; a clerk may write 2024-1, 01/2024 or 01.2024 too, or as the page shows
    it, Jan 2024 or Jan. 2024."""
    text = text.strip(SPACES)
    if found := YEAR_FIRST.fullmatch(text):
        year, its = found.groups()
    elif found := MONTH_FIRST.fullmatch(text):
        its, year = found.groups()
    else:
        found = NAME_FIRST.fullmatch(text)
        if not found or found[1].casefold() not in MONTHS:
            raise FieldFault(field, "month")
        its, year = MONTHS[found[1].casefold()], found[2]
    return f"{year}-{int(its):02}"


def name(field: str, text: str) -> str:
    text = text.strip()
    try:
        size = len(text.encode())
    except UnicodeEncodeError:
        raise FieldFault(field, "name") from None
    if not 1 <= size <= NAME_BYTES:
        raise FieldFault(field, "name")
    if CONTROL.search(text) or TURNING.search(text):
        raise FieldFault(field, "name-turned")
    if UNSEEN.fullmatch(text):
        raise FieldFault(field, "name-unseen")
    return text


def reference(field: str, text: str) -> str:
    text = text.strip()
    if not REFERENCE.fullmatch(text):
        raise FieldFault(field, "reference")
    return text
