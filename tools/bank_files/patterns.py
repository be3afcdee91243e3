"""What numbers in a text, and the words beside them, look like."""

from __future__ import annotations

import re

# ---- parts of the patterns below, all for a text as casefold() leaves it, in which each dash is "-"

# (The longer ones first.)
MONTH_NAME = (
    "(?:january|januar|jänner|jaenner|jän|jaen|jan|february|februar|feber|febr|feb|märz|maerz|march|mär|maer|mar|mrz|"
    "april|apr|mai|may|june|juni|jun|july|juli|jul|august|aug|september|sept|sep|oktober|october|okt|oct|november|nov|"
    "dezember|december|dez|dec)")
MONTH = rf"{MONTH_NAME}\b\.?"
YEAR = "(?:19[0-9]{2}|2[01][0-9]{2}|2200)"
# A day of a month, and what may stand between a month and its year.
DAY = rf"[0-3]?[0-9](?:\. ?[01]?[0-9]\.|\.?[ /-]?\b{MONTH})"
MONTH_OF_YEAR = r"[01]?[0-9](?: ?/ ?(?:19|2[01])?[0-9]{2}|\.(?:19|2[01])[0-9]{2})(?![0-9])"
NO_DATE = f"(?!{DAY}|{MONTH_OF_YEAR})"
BEHIND_MONTH = f"[ ./'’‘´`-]{{0,3}}{NO_DATE}"
# What stands between the first and the last of several days or months, and between two amounts.
TO_WORD = r"(?:bis|to|und|u\.)"
AND = "(?:[+&]|und|bis)"
CURRENCY_NAME = "(?:t?eur|euros?|usd|chf|gbp|pln|czk|huf|ron|dm|cent|sfr|zł|kč)"
CURRENCY = rf"(?:\b{CURRENCY_NAME}\b|[€$£¤])"
# Also as `EUR_` and `BetragEUR`.
ANY_CURRENCY = rf"(?:(?:(?<![^\W_])|(?<=betrag|eitrag)|(?<=summe)){CURRENCY_NAME}(?![^\W_])|[€$£¤])"
GROUPS = "[0-9]{1,3}(?:[ .'’][0-9]{3})+"
# Where digits begin that don't go on from others, as the 24 of 1001,24 does.
BEGIN = "(?<![0-9])(?<![0-9][.,:/-])"
NOT_BEHIND_A_NAME = r"(?<!betrieb )(?<!betrieb: )(?<!firma )(?<!nummer )(?<!nummer: )(?<!nr[ .])(?<!nr[.:] )(?<!nr\.: )"
# Cents may be letters or dashes: `1001,OO`, `1001,--`.
AMOUNT = rf"{BEGIN}(?:{GROUPS}|[0-9]+)(?:[.,](?:[0-9o]+|-+))?(?![0-9])"
# Where no telephone's number goes on, as in 500 EUR +49 421 1001.
NO_TELEPHONE = r"(?![ :.=]{0,2}\+[1-9][0-9]{0,2} ?[(/0-9])"
AMOUNT_BEHIND = f"{NO_TELEPHONE}[ :.=+]{{0,3}}{NO_DATE}{AMOUNT}"

# ---- the patterns

# Behind a number an amount with its currency, which has cents and so needs no other number: 1001 EUR 500,00
WITH_CENTS = f"{AMOUNT} {CURRENCY} ?[0-9.]*[0-9],[0-9]{{2}}(?![0-9])"
# What has digits and isn't a firm's number, by its kind, each with an example.
KINDS = (
    # The payer's own reference and the like, up to the bank's next mark: EREF+1001 SVWZ+
    ("reference", r"\b(?:[a-z]ref|coam|oamt|ocmt|chrg|debt|cred|abw[ae]|mdat|purp) ?[+:].*?(?=\b[a-z]{1,4} ?\+|$)"),
    # The first of two amounts: 1001 + 500 EUR, 1001 / 500 EUR; not Betrieb 1001 / 500 EUR
    # (Each amount is read in one way, since the ways of several in a row are multiplied.)
    ("first", f"{NOT_BEHIND_A_NAME}(?:(?:(?>{AMOUNT}) ?{AND} ?){{1,9}}(?={AMOUNT} ?{CURRENCY})|"
              f"{AMOUNT} ?/ ?(?=[0-9]+ ?{CURRENCY}))"),
    # An amount before its currency, or on both sides: 1001 EUR, 1001, 24 EUR, 1001 EUR 500; not that of 1001 EUR 500,00
    ("amount", rf"(?!{WITH_CENTS}){AMOUNT}(?:[.,] [0-9]{{2}})? ?[-*/(]?{CURRENCY}(?:{AMOUNT_BEHIND})?"),
    # An amount behind its currency: EUR 1001
    ("amount", f"{CURRENCY}[*/;|+( -]{{0,2}}{AMOUNT_BEHIND}"),
    # An amount without its cents, a percentage, and hours: 1001,- 1001,OO 5 % 1001 Std
    ("amount", rf"{AMOUNT} ?(?:[.,]-|%|std\b|stunden\b)|{BEGIN}[0-9]+[.,]oo\b"),
    # Digits in groups, and those behind them: 1 001, 60 123 4567
    ("group", f"(?<![0-9]){GROUPS}(?:[.,][0-9]+|(?: {NO_DATE}[0-9]+)+)?(?![0-9])"),
    # A telephone's number: +49 421 1001, (0421) 1001, 0421 / 1001, 030 1001
    ("telephone", r"(?<![\w+])(?:(?:\+|00)[1-9][0-9]*(?![0-9])(?: ?\(0?[0-9]{0,5}\))?|\(0[0-9]{2,5}\)|"
                  "0[0-9]{2,4}(?= ?/)|0(?:[0-9]{2}){1,2}(?= ))"
                  rf"(?:[ /-]{{0,3}}{NO_DATE}[0-9]+(?![0-9]|[.,][0-9])){{1,9}}"),
    # A quarter, and a week: 1. Quartal 24, Q1 24, KW 24
    ("date", rf"(?:(?<![0-9])[1-4]\.? ?|\b)q(?:uartal)?(?![a-z])\.?(?: ?[1-4](?![0-9]))?"
             rf"(?:[ ./'-]{{0,3}}{NO_DATE}(?:20)?[0-9]{{2}}(?![0-9]))?"),
    ("date", r"\bkw\.? ?[0-9]{1,2}(?![0-9])(?: ?[/-] ?(?:20)?[0-9]{2}(?![0-9]))*"),
    # A date, and a day with the name of its month: 12. 5. 24, 30. April 24
    ("date", f"(?<![0-9]){DAY}(?:{BEHIND_MONTH}(?:(?:19|2[01])[0-9]{{2}}|[0-9]{{1,2}})(?![0-9]))?"),
    # A month with its day or year: Mai 24
    ("date", rf"\b{MONTH}{BEHIND_MONTH}[0-9]{{1,2}}(?![0-9])"),
    # A month of a year in digits, and a date with strokes: 03/2024, 24/05/24
    ("date", f"(?<![0-9])(?:{BEGIN}[0-3]?[0-9] ?/ ?)?[01]?[0-9] ?/ ?(?:19|2[01])?[0-9]{{2}}"
             r"(?![0-9]|\. ?[01]?[0-9]\.)"),
    # The first of several days, of which the last has the rest of the date: 1. bis 15.5.24
    ("date", rf"(?<![0-9])[0-3]?[0-9](?:\. ?[-/+&]|\.? {TO_WORD}) ?(?={DAY})"),
    # The first of several months: 10 - 12/2024
    ("date", rf"(?<![0-9])(?:1[0-2]|0?[1-9])(?: ?[-+&]| {TO_WORD}) ?(?={MONTH_OF_YEAR})"),
)
OTHER_NUMBERS = re.compile("|".join(f"(?P<{kind}_{place}>{pattern})" for place, (kind, pattern) in enumerate(KINDS)))
# What a telephone's number with its country begins with, or what is said before it: +49 421 1001, Tel. 0421 / 1001
BEGIN_OF_A_TELEPHONE = re.compile(r"(?:\+|00)[1-9][0-9]{0,2}(?![0-9])")
CALLED_A_TELEPHONE = re.compile(r"\b(?:tel|telefon|telefax|fax|fon|phone|mobil|handy)\W{0,3}\Z")
# Kinds that a plain text may have, and what looks like an amount without its cents: the first day of 01.03.-31.03.2024
OF_PLAIN_TEXTS = ("reference", "date")
DAY_WITH_A_DASH = re.compile(r"[0-9]{1,2}(?:\.[0-9]{1,2})?\.-")
# An amount on either side of a currency: which of the two is one isn't known.
ON_BOTH_SIDES = re.compile(rf"[0-9]\W*{CURRENCY}[^0-9]*[0-9]")
# The same, once those are gone: a number on either side of a currency that has no amount yet.
# EUR **1001**, (1001) EUR
BESIDE_A_CURRENCY = re.compile(rf"{ANY_CURRENCY}[\W_]{{0,6}}{AMOUNT}|{AMOUNT}[\W_]{{0,4}}{ANY_CURRENCY}")
# Digits that are a word: no part of a longer word, a date or a fraction, as 03-1001 or 1001/1, nor R-1001 or 1001-A.
NUMBER_WORD = re.compile(r"(?<!\w)(?<![0-9_][.,:/-])(?<!\b[a-z]-)[0-9]+(?!\w)(?! ?[.,][0-9]|[:/-][0-9])(?!-[a-z]\b)")
# A date of 2020 to 2039 without points, each with an example.
SHORT_DATE = re.compile("|".join((
    # 1224
    "1[0-2][23][0-9]",
    # 52024, 122024, and the first quarter as 20241
    "(?:[1-9]|1[0-2])20[23][0-9]", "20[23][0-9][1-4]",
    # 202405, 20240515
    "20[23][0-9](?:0[1-9]|1[0-2])(?:0[1-9]|[12][0-9]|3[01])?",
    # 150524, 15052024, 10524
    "(?:[1-9]|[12][0-9]|3[01])(?:0[1-9]|1[0-2])(?:20)?[23][0-9]",
    # 2405, 240515
    "[23][0-9](?:0[1-9]|1[0-2])(?:0[1-9]|[12][0-9]|3[01])?",
)))
# What joins a number to that before it: 1001, 1003 and 1001 und 1003; not 1001 (1003)
JOINED = re.compile(r"[^\w#(]{1,3}(?:(?:und|u|and|sowie|oder|or|bzw|bis)\W{1,2})?")
# What names two numbers together, months and amounts aside: 1001 und 1010, 1001 / 1010, 1001 Mai und auch Nr. 1010
BETWEEN = rf"(?:\W{{0,3}}(?:{MONTH_NAME}(?!\w)|[0-9]+[.,][0-9]{{2}}(?![0-9])|0?_(?!\w)))*"
AND_ALSO = "und|u|and|i|oraz|ve|si|și|sowie|mit|inkl|incl|zzgl|plus|oder|or|lub|veya|sau|bzw|jetzt|neu|auf"
TOGETHER = f"(?:{AND_ALSO}|bis|[&+/]|->)"
NAMED_TOGETHER = re.compile(
    rf"{BETWEEN}\W{{0,2}}{TOGETHER}(?:\W{{1,2}}(?:auch|für|fuer))?(?:\W{{1,2}}(?:nr|nummer|no))?\W{{0,3}}")
# The same where no year is meant behind it: 1001 und 2003; not 1001 / 2003, which may be of that year
NAMED_WITH = re.compile(rf"(?!.*(?:/|\bbis\b)){NAMED_TOGETHER.pattern}")
# The same before a second number that looks like an amount: the 1002 of 1001 und 1002 EUR 500
NAMED_BEFORE = re.compile(rf"[0-9]\W{{0,2}}{TOGETHER}(?:\W{{1,2}}(?:nr|nummer|no))?\W{{1,3}}\Z")
# So many numbers before another one are named with it at most.
MOST_NAMED = 12
# What stands between two numbers of as many digits in a list: 1001, 1010, and behind an amount 1001 500,00 1010
LISTED = re.compile(
    rf"{BETWEEN}(?: ?[,;|] ?| - )(?:(?:nr|nummer|no)\W{{1,3}})?|{BETWEEN}\W{{0,3}}(?:[0-9]+[.,][0-9]{{2}}|0?_) ")
# The word behind the second one, by which it is no firm's, as in an address: 28195 Bremen
BEFORE_A_WORD = re.compile(r" ([^\W\d_]+)")
# A month of a year or a day behind a number: 02 2024, 02 Mai
BEFORE_A_DATE = re.compile(rf"[ ./-]{{1,3}}(?:[0-9]|{MONTH})")
# Further digits behind a blank or the like, which may be of the same number: 1234 5678, 1234'5678, or in smaller groups,
# 12 34 56, 1234 56 7; not 1001 500,00 nor 1001 05 24
GOES_ON = re.compile(r"(?: |'|[.-] )([0-9]{3,}|(?!(?:0?[1-9]|1[0-2]) (?:20)?[0-9]{2}(?! ?[0-9]))[0-9]{1,2} [0-9]+)"
                     "(?![0-9]|[.,:/-][0-9])")
# What is counted by a number of few digits, right behind it: 12 Monate, 24 h
COUNTED = re.compile(
    r" ?(?:monate?n?|tagen?|tage|wochen?|jahren?|jahre|h|std|stunden|arbeit\w*|leute|personen|grad|prozent|km|m)\b")
# What makes of a number that of a year, behind it: 1001 / 24, 1001 / 2024
OF_A_YEAR = re.compile(rf" ?/ ?(?:{YEAR}|[0-9]{{2}})(?!\w|[.,:/-][0-9]| ?[./-] ?[0-9]+\b)")
# The word right before a number: Betrieb 1001, Betrieb-Nr. 1001, AG-Nr. 1001, Betr.-Nr. 1001; of `Bau AG, Nr. 1001` and
# `Betr.: Nr. 1001` it is `nr`
WORD_BEFORE = re.compile(
    # (Maler-Betrieb is none of a firm's number, and SOKA-Betriebs-Nr. is.)
    r"(?<!\w)(?:(?<![^\W\d_]-)|(?<=soka-))(\w+)"
    r"(?:(?!(?<=\bag)(?!-)|(?<=\bbetr)(?!\.?-|\.n))\W{1,3}(nr|nummer|no))?\W{1,3}\Z")
LONGEST_WORD = 60
# A word for a firm's number, which is no date and of no year: Betrieb 1224, Mitglieds-Nr. 1001 / 24; not Malerbetrieb,
# but behind words of contributions, as where the bank has put two together
FIRM = "(?:betriebskonto|betriebs?|bkn|firmen|firma|mitglieds?|mitgl)"
CONTRIBUTIONS = "beitr(?:ag|äge|aege)"
FIRM_WORD = re.compile(
    rf"(?:{MONTH_NAME}|{CONTRIBUTIONS}s?|soka|ulak|zvk|danke)*{FIRM}(?:nr|nummer)?|"
    "(?:ag|arbeitgeber|betr)(?:nr|nummer)")
# One of fewer is often a month, a count or an hour: Monat 9, 9 Arbeiter
LEAST_SURE_DIGITS = 4
# The words of a plain text, which tells of contributions alone, also where the bank has put two of them together:
# Beitrag Mai 2024, 1001 (The longer ones first: none is read in a second way.)
PLAIN_WORD = re.compile("(?:" + "|".join((
    MONTH_NAME, f"betriebe|{FIRM}|nummer|nr",
    # (A payment alone may have a number.)
    "(?:beitrags|urlaubskassen|monats|nach|raten|rest|sammel|voraus|zins)zahlung|zinsen|svwz",
    rf"{CONTRIBUTIONS}(?:skonto|s)?|soka(?:\W{{0,3}}bau)?|ulak|zvk|(?:urlaubs|ferien|sozial)kassen?|urlaubs",
    "monat[es]?|quartale?|jahr|für|fuer|im|und|bis|danke|no|n",
)) + ")++")
WORD = re.compile(r"\bsoka\W{0,3}bau\b|[^\W\d_]+")
# The word before a number that says what it is, and those that don't: Rechnung Nr. 1003; und 1003, für 1003
SAID_BEFORE = re.compile(r"([^\W\d_]+)(?:[ .:-]{1,3}(?:nr|nummer|no))?[ .:#-]{1,3}\Z")
SAYS_NOTHING = re.compile(
    rf"{PLAIN_WORD.pattern}|{CURRENCY_NAME}|{AND_ALSO}|for|auch|statt|sondern|bitte|dazu|tochter|künftig|fa|betr|"
    "beitr")
# Words before a number by which it may be an earlier one, or one that isn't meant, and those of other bodies, which have
# members, too: statt Betrieb 1001, IHK Mitglieds-Nr. 1001
OF_ANOTHER = "|".join((
    "nicht", "keine?", "(?:an)?statt", "anstelle", "sondern", r"fr(?:ü|ue|\W)?her(?:e[nrs]?)?", "vormals", "zuvor",
    "vorher", "bislang", "ursprünglich", r"vorgänger\w*", "ehem(?:als|alige[nrs]?)?", "bisher(?:ige[nrs]?)?", "alte?",
    r"(?:rechts)?nachfolger\w*", "ohne", "außer|ausser", "umbuchung", "falsch(?:e[nrs]?)?", "irrtümlich", "irrtuemlich",
    "versehentlich", "not", "formerly", "zamiast", "nie", "eski", "fosta",
    "ihk", "hwk", "aok", "ikk", "bkk", "dak", "barmer", r"\w*krankenkasse", "knappschaft", r"\w*innung\w*", r"\w*kammer",
    "kreishandwerkerschaft", "berufsgenossenschaft", "bg[- ]?bau", "ig[- ]?bau", "finanzamt", "bundesagentur", "minijob",
    "malerkasse", "soka-dach", r"\w*verband",
))
# The same where a firm's word follows at once: BG-Mitgliedsnr. 1001, Fremdfirma 1001
CALLED_OTHERWISE = (
    "(?:ba|bg|sv|tk|ex)[- ](?=firm|mitgl|betr|arbeitg)|(?:nicht|fremd|sub|alt|ex)-?(?:firm|mitgl|betr)[a-z]*")
# They are of one part of a sentence: not `Skonto nicht abgezogen, Betrieb 1001`, nor `Alt GmbH Betrieb 1001`. Or such a
# word stands behind the number: Betrieb 1001 erloschen
FORM_OF_A_FIRM = r"\b(?:gmbh|kg|ohg|gbr|ug|co)\b"
NOT_MEANT = re.compile(
    rf"\b(?:(?:{OF_ANOTHER})\b|{CALLED_OTHERWISE})(?:(?!{FORM_OF_A_FIRM})[^,;0-9]){{0,40}}[0-9]|"
    r"[0-9] (?:ist )?(?:erloschen|aufgelöst|abgemeldet|falsch)\b")
# Where one stands, the number may be an amount, too.
IN_A_CURRENCY = re.compile(CURRENCY)
# What such a text may have besides its one number: years with their months, and dates, as `05.2024`, `2024-05`, `0524`,
# `122024`; not `1224`, which may be an amount.
YEARS = re.compile("(?<![0-9])(?:" + "|".join((
    "(?:[01]?[0-9][./-])?20[1-3][0-9](?:-[01][0-9])?", "0[1-9](?:0[1-9]|1[0-2])?(?:20)?[23][0-9]",
    f"(?=[0-9]{{5}})(?:{SHORT_DATE.pattern})",
)) + ")(?![0-9])")
# What was put for something else isn't one.
DIGITS = re.compile("[0-9]+(?![0-9_])")
# All digits of a number, and what makes an amount of them, with cents or in groups: 1500,00 and 1.500
WHOLE = re.compile(r"(?<![0-9])(?:[0-9]{4,}|(?<![0-9][.,'’])[0-9]{1,3})(?![0-9_])")
CENTS = re.compile(r"[.,'’](?:[0-9]{1,3}(?![0-9_])|-|oo)")
# The word that ends right before a number: Betrieb1001
STUCK_WORD = re.compile(r"[^\W\d_]+\Z")
