"""IBANs: whether one is right, and where they stand in a text, however they are parted."""

from __future__ import annotations

import re
from collections.abc import Iterable

from payment_files.accounts import IBAN_LENGTHS

IBAN = re.compile("[A-Z]{2}[0-9]{2}[A-Z0-9]{11,30}")
# What may stand between two signs of one: `DE89 3704`, `DE89-3704`, or a place where the bank cut the text.
BETWEEN = "[ \n./-]{0,2}"
BEGIN = re.compile(f"(?=([A-Za-z]\n?[A-Za-z]){BETWEEN}[0-9])")
NEXT_SIGN = re.compile(f"{BETWEEN}([A-Za-z0-9])")
# Each country's have so many digits, and few other texts have.
LEAST_DIGITS = 10


def without_spaces(iban: str) -> str:
    return "".join(iban.split()).upper()


def is_iban(text: str) -> bool:
    """Whether it is written as an IBAN, and its check digits are right."""
    if not IBAN.fullmatch(text):
        return False
    digits = "".join(str(int(sign, 36)) for sign in text[4:] + text[:4])
    return "02" <= text[2:4] <= "98" and int(digits) % 97 == 1


def without_ibans(parts: Iterable[str]) -> list[str]:
    """The parts of a text, each IBAN overwritten by as many signs that are no number."""
    text = "\n".join(parts)
    kept, at = [], 0
    for begin in BEGIN.finditer(text):
        start, end = begin.start(), end_of_iban(text, begin)
        if end and start >= at:
            kept += text[at:start], re.sub("[^\n]", "_", text[start:end])
            at = end
    return "".join([*kept, text[at:]]).split("\n")


def end_of_iban(text: str, begin: re.Match) -> int:
    """Where an IBAN ends that begins here; 0 where none does."""
    length = IBAN_LENGTHS.get(begin[1].replace("\n", "").upper(), 0)
    signs, end = "", begin.start()
    while len(signs) < length and (sign := NEXT_SIGN.match(text, end)):
        signs, end = signs + sign[1], sign.end()
    if not length or len(signs) < length or text[end:end + 1].isalnum():
        return 0
    # As of most countries, of Italy and of France.
    has_one_letter = sum(map(str.isalpha, signs[2:])) <= 1
    is_right = is_iban(signs.upper()) and sum(map(str.isdecimal, signs)) >= LEAST_DIGITS
    before = text[max(0, begin.start() - 4):begin.start()]
    # Behind a letter, as in `GmbHDE89 3704 ..`, it is less likely one.
    is_word = not before[-1:].isalnum() or before.lower() == "iban"
    found = is_right or has_one_letter if is_word else is_right and has_one_letter
    return end if found else 0
