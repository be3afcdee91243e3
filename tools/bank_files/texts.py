"""What ends the program, and texts of others made fit to be shown and written."""

import re
import unicodedata
from collections.abc import Iterable
from enum import IntEnum
from itertools import accumulate

# Control characters, and those without a width that hide something or turn the direction of writing.
UNSHOWN = re.compile("[\x00-\x1f\x7f-\x9f\u00ad\u061c\u200b-\u200f\u2028-\u202e\u2060-\u206f\ufeff]")
MOST_SHOWN = 60
# Every dash, for str.translate().
DASHES = dict.fromkeys(map(ord, "‐‑‒–—―−"), "-")
# Of a text in more parts no firm is known, and no word is put together at a single place: banks have some 10.
MOST_PARTS = 100
# Nor of a longer one: banks have some 500 signs at most.
MOST_SIGNS = 5_000
# So many a payer may write; software cuts there, too.
MOST_SIGNS_OF_A_TEXT = 140
# The place of a reading among those of a text.
PUT_TOGETHER = 1
# The parts into which banks cut a text have so many signs; one that has is cut for certain, or by chance.
WHOLE_PARTS = (27, 35, 65, 70, 140)
# Where a number or a word may go on from one part of a text to the next.
SEAM = re.compile("|".join((
    # 1001|,24
    r"(?<=[^\W_])\n(?=[.,:/'’-])",
    # 1001,|24
    r"(?<=[0-9][.,:/'’-])\n(?=[0-9–-])",
    # R-|1001, 1001-|A, +|49 421 1001
    r"(?<=[^\W_]-)\n(?=[^\W_])", r"(?<=\+)\n(?=[0-9])",
    # 10|01
    r"(?<=[0-9])\n(?=[0-9])",
    # Zin|sen; not Bau AG|Nr. 1001, nor betr|Nr. 1001, nor NOTPROVIDED|SVWZ+Betrieb 1001, nor Bau Nord|Betrieb 1001
    r"(?<=[^\W\d_])\n(?!(?i:(?:(?<=\bag\n)|(?<=\bbetr\n))(?:nr|nummer))|(?:SVWZ|[EKMC]REF|CRED|ABWA)\+|"
    r"(?:Betriebs?|BETRIEBS?|Firma|FIRMA|Mitglieds?|MITGLIEDS?|BKN)\b)(?=[^\W\d_])",
    # RE2024A|1001, where the part before is a whole one; not Betrieb|1001
    *(rf"(?<=^.{{{signs - 1}}}[^\W\d_])(?<![^\W\d_]{{4}})\n(?=[0-9])" for signs in WHOLE_PARTS),
)), re.MULTILINE)


class Status(IntEnum):
    DONE = 0
    REFUSED = 1
    UNREADABLE = 2
    # As a shell tells of Ctrl-C.
    BROKEN_OFF = 130


class Fault(Exception):
    """What ends the program, in words, with its status."""

    def __init__(self, text: str, status: Status = Status.UNREADABLE):
        super().__init__(text)
        self.status = status


class Refusal(Fault):
    """Why a statement that can be read isn't taken."""

    def __init__(self, text: str):
        super().__init__(text, Status.REFUSED)


def plain(text: str) -> str:
    """The text on one line, without control characters, with single spaces; a letter in one writing."""
    return " ".join(UNSHOWN.sub(" ", unicodedata.normalize("NFC", text)).split())


def shown(text: str) -> str:
    """As much of a text as a message shows."""
    return plain(text)[:MOST_SHOWN]


def readings(parts: Iterable[str]) -> list[str]:
    """The parts of a text apart, and with what the bank may have cut in two put together: at all places, and at
    each one alone, for a search."""
    text = "\n".join(parts)
    seams = [*SEAM.finditer(text)]
    joined = (text[:it.start()] + text[it.end():] for it in seams if len(seams) < MOST_PARTS)
    return [it.replace("\n", " ").casefold() for it in (text, put_together(text), *joined)]


def put_together(text: str) -> str:
    """The text, put together at all places where the bank may have cut it."""
    whole = text
    # A part may be a lone sign, which goes on into the next part only where it is put to that before it.
    while (more := SEAM.sub("", whole)) != whole:
        whole = more
    return whole


def words_in(parts: Iterable[str]) -> set[str]:
    """The words of all readings of a text: one that is put together at a single place is of the parts beside it."""
    text = "\n".join(parts)
    lines = text.split("\n")
    places = accumulate(len(it) + 1 for it in lines)
    pairs = {place - 1: before + behind for place, before, behind in zip(places, lines, lines[1:])}
    joined = (pairs[it.start()] for it in SEAM.finditer(text))
    return set(re.findall(r"\w+", "\n".join((text, put_together(text), *joined)).casefold()))


def cut(text: str, most_bytes: int) -> str:
    """The text up to so many bytes of UTF-8, cut between two characters."""
    return text.encode()[:most_bytes].decode(errors="ignore").rstrip()
