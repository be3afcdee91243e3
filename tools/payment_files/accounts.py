"""Whose account it is, in the letters of SEPA, and its IBAN."""

import re
import string
import unicodedata
from dataclasses import dataclass

MOST_NAME = 70
IBAN = re.compile("[A-Z]{2}[0-9]{2}[A-Z0-9]{1,30}")

# The countries of SEPA with the lengths of their IBANs: first those of the European Economic Area.
IBAN_LENGTHS = {
    "AT": 20, "BE": 16, "BG": 22, "CY": 28, "CZ": 24, "DE": 22, "DK": 18, "EE": 20, "ES": 24,
    "FI": 18, "FR": 27, "GR": 27, "HR": 21, "HU": 28, "IE": 22, "IS": 26, "IT": 27, "LI": 21,
    "LT": 20, "LU": 20, "LV": 21, "MT": 31, "NL": 18, "NO": 15, "PL": 28, "PT": 25, "RO": 24,
    "SE": 24, "SI": 19, "SK": 24,
    "AD": 24, "AL": 28, "CH": 21, "GB": 22, "GI": 23, "MC": 27, "MD": 24, "ME": 22, "MK": 19,
    "RS": 22, "SM": 27, "VA": 22,
}
# Those in whose IBANs no letter stands behind the country.
DIGITS_ALONE = frozenset("AT BE CZ DE DK EE ES FI HR HU IS LT ME NO PL PT RS SE SI SK VA".split())

SEPA_SIGNS = frozenset(string.ascii_letters + string.digits + "/-?:().,'+ ")
# Signs that have a spelling of their own; accents are dropped without it.
SPELLINGS = str.maketrans({
    "ä": "ae", "ö": "oe", "ü": "ue", "Ä": "Ae", "Ö": "Oe", "Ü": "Ue", "ß": "ss", "ẞ": "SS",
    "æ": "ae", "Æ": "Ae", "œ": "oe", "Œ": "Oe", "ø": "oe", "Ø": "Oe", "þ": "th", "Þ": "Th",
    "ð": "d", "Ð": "D", "đ": "d", "Đ": "D", "ł": "l", "Ł": "L", "ı": "i",
    "&": "+", ";": ",", "_": "-", "~": "-", "−": "-", "\\": "/", "|": "/",
    # The slashes of fractions, as ½ has one.
    "\u2044": "/", "\u2215": "/",
    "[": "(", "{": "(", "]": ")", "}": ")", '"': "'", "`": "'", "´": "'", "‚": "'", "„": "'",
})
# What is written for a sign of one of these kinds: an accent, a space, a dash, a quotation mark.
KINDS = {"Mn": "", "Zs": " ", "Pd": "-", "Pi": "'", "Pf": "'"}


@dataclass(frozen=True)
class Account:
    """Whose account it is, in the signs of SEPA, and its IBAN: empty where it isn't known yet."""

    name: str
    iban: str


def sepa_sign(sign: str) -> str:
    """What is written for a sign whose accents stand behind it."""
    if sign in SEPA_SIGNS:
        return sign
    kind = unicodedata.category(sign)
    if kind in KINDS:
        return KINDS[kind]
    if kind[0] in "PS":
        return "."
    raise ValueError(f"{sign!r} can't be written in the letters of SEPA, which are A to Z")


def spelling(word: str) -> str:
    """A word without umlauts; one in capitals stays so."""
    spelled = word.translate(SPELLINGS)
    return spelled.upper() if word.isupper() else spelled


def spelled_words(text: str) -> str:
    return " ".join(map(spelling, text.split(" ")))


def sepa_text(text: str) -> str:
    # Twice: a sign with a spelling of its own may have an accent on it.
    spelled = spelled_words(unicodedata.normalize("NFKD", spelled_words(unicodedata.normalize("NFC", text))))
    return " ".join("".join(map(sepa_sign, spelled)).split())


def account_name(text: str) -> str:
    """The name of an account's owner in the signs of SEPA. A ValueError says what is wrong."""
    name = sepa_text(text)
    if not re.search("[A-Za-z0-9]", name):
        raise ValueError("the name has no letter")
    if len(name) > MOST_NAME:
        raise ValueError(f"the name has {len(name)} signs in SEPA, and {MOST_NAME} are the most")
    return name


def checked_iban(text: str) -> str:
    """An IBAN without its spaces, in capital letters. A ValueError says what is wrong."""
    iban = "".join(text.split())
    # Capitals only of ASCII: those of other letters may be ASCII, too.
    iban = iban.upper() if iban.isascii() else iban
    if not IBAN.fullmatch(iban):
        raise ValueError(f"{text[:40]!r} isn't an IBAN")
    length = IBAN_LENGTHS.get(iban[:2])
    if length is None:
        raise ValueError(f"{iban} is of no country in SEPA")
    if len(iban) != length:
        raise ValueError(f"{iban} has {len(iban)} signs in place of {length}")
    if iban[:2] in DIGITS_ALONE and not iban[2:].isdecimal():
        raise ValueError(f"{iban} has a letter behind {iban[:2]}, where digits alone stand")
    digits = "".join(str(int(sign, 36)) for sign in iban[4:] + iban[:4])
    if not "02" <= iban[2:4] <= "98" or int(digits) % 97 != 1:
        raise ValueError(f"{iban} is mistyped: its check digits don't agree")
    return iban
