"""What the machine of machine.py answers, byte for byte, as docs/http.md and docs/formats.md tell it: requests to
commands and questions, the documents, and bank files. How bytes are cut into requests isn't its matter.
"""

import json
import math
import re

from machine import OPEN, check_access
from machine_values import (MOST_CENTS, MOST_CLAIM, MOST_EMPLOYER, MOST_WORKER, Rate, Refused, day_text, month_in,
                            month_text, number_in, plain_text, reference_in)

MOST_NUMBER = 999_999_999_999_999_999
# How deep objects and arrays of a body may stand in one another.
MOST_DEPTH = 127

NAMES = {
    4: "NoRoute", 5: "BadMethod", 6: "UnknownKey", 7: "NotYours", 8: "BadBody", 9: "NumberReused", 10: "DayBack",
    11: "UnknownEmployer", 12: "EmployerExists", 13: "MonthOutside", 14: "MonthAhead", 15: "ReportExists",
    16: "StaleVersion", 17: "WorkerTwice", 18: "OverLimit", 19: "RateOrder", 20: "BadCsv", 21: "RefConflict",
    22: "ValueAhead", 23: "NotInSuspense", 24: "NotEmployed", 25: "OverBalance", 26: "UnknownClaim",
    27: "ClaimNotOpen", 28: "MissingReport", 29: "NothingToPay", 30: "NothingToRemind", 31: "EndBeforeReports",
    32: "NoRate", 33: "UnknownDocument",
}
STATUSES = {4: "404 Not Found", 5: "405 Method Not Allowed", 6: "401 Unauthorized", 7: "403 Forbidden",
            8: "400 Bad Request"}


def number(text):
    """A number of JSON: a whole one is written in digits alone."""
    if math.isinf(float(text)):
        raise ValueError(f"too large: {text}")
    return int(text) if text.isdecimal() else float(text)


def no_number(text):
    raise ValueError(f"no JSON: {text}")


def checked_object(pairs):
    """An object of JSON, the last of the members of one name. Half a surrogate pair is no sign, and so a ValueError."""
    json.dumps(pairs, ensure_ascii=False).encode()
    return dict(pairs)


def depth(value):
    inner = value.values() if isinstance(value, dict) else value if isinstance(value, list) else None
    return 0 if inner is None else 1 + max(map(depth, inner), default=0)


def json_object(body):
    """The object that a body is, or a ValueError. It is stricter than Python: in UTF-8 without a byte order mark, with
    numbers below 1.8e308."""
    found = json.loads(body.decode(), parse_int=number, parse_float=number, parse_constant=no_number,
                       object_pairs_hook=checked_object)
    if not isinstance(found, dict) or depth(found) > MOST_DEPTH:
        raise ValueError("no object of this depth")
    return found


def members(body, **kinds):
    """The values of a JSON object that has just these members; the first that is wrong is named."""
    try:
        found = json_object(body)
    except ValueError:
        raise Refused(8, "body") from None
    values = {name: kind(found[name]) if name in found else None for name, kind in kinds.items()}
    wrong = [name for name, value in values.items() if value is None]
    further = sorted(found.keys() - kinds.keys(), key=str.encode)
    for name in wrong + further:
        raise Refused(8, name)
    return values


def whole(least, most):
    return lambda value: value if type(value) is int and least <= value <= most else None


def text(read):
    return lambda value: read(value) if isinstance(value, str) else None


def report_lines(value):
    """Lines of a report as (worker, gross)."""
    kinds = {"worker": whole(1, MOST_WORKER), "gross": whole(0, 2**64 - 1)}
    if not isinstance(value, list) or any(not isinstance(it, dict) or it.keys() != kinds.keys() for it in value):
        return None
    lines = [tuple(kind(it[name]) for name, kind in kinds.items()) for it in value]
    return None if any(None in line for line in lines) else lines


MONTH, EMPLOYER = text(month_in), whole(1, MOST_EMPLOYER)


def rate_row(body):
    found = members(body, contribution=whole(0, 10_000), due_day=whole(1, 28), entitlement=whole(0, 10_000),
                    **{"from": MONTH}, interest=whole(0, 1_000), report_day=whole(1, 28))
    return Rate(found.pop("from"), **found)


def in_order(names, **kinds):
    """What reads a body: the members in the order of the command's values."""
    return lambda body: tuple(members(body, **kinds)[name] for name in names.split())


def nothing(body):
    if body:
        raise Refused(8, "body")
    return ()


NAME, REFERENCE = text(lambda it: plain_text(it, 1, 60)), text(reference_in)
READERS = {
    "add_rate": lambda body: (rate_row(body),),
    "register": in_order("employer name start", employer=EMPLOYER, name=NAME, start=MONTH),
    "end": in_order("last", last=MONTH),
    "report": in_order("lines", lines=report_lines),
    "correct": in_order("version lines", lines=report_lines, version=whole(1, 2**32 - 1)),
    "claim": in_order("worker cents", cents=whole(1, MOST_CENTS), worker=whole(1, MOST_WORKER)),
    "assign": in_order("employer reference", employer=EMPLOYER, reference=REFERENCE),
    "withdraw": nothing, "release": nothing, "make_list": nothing, "remind": nothing,
    # A file is read when it is judged.
    "import_bank": lambda body: (body,),
}

PARAMETERS = {"e": lambda it: number_in(it, MOST_EMPLOYER), "w": lambda it: number_in(it, MOST_WORKER),
              "n": lambda it: number_in(it, MOST_CLAIM), "m": month_in}
ROUTES = {
    "/rates": {"POST": "add_rate"},
    "/employers": {"POST": "register"},
    "/employers/{e}/end": {"POST": "end"},
    "/employers/{e}/reports/{m}": {"POST": "report", "PUT": "correct"},
    "/employers/{e}/claims": {"POST": "claim"},
    "/employers/{e}/claims/{n}/withdraw": {"POST": "withdraw"},
    "/claims/{n}/release": {"POST": "release"},
    "/bank": {"POST": "import_bank"},
    "/assign": {"POST": "assign"},
    "/payouts": {"POST": "make_list"},
    "/reminders": {"POST": "remind"},
    "/employers/{e}/owed": {"GET": "owed"},
    "/employers/{e}/statement": {"GET": "statement"},
    "/workers/{w}": {"GET": "worker"},
    "/suspense": {"GET": "suspense"},
    "/payouts/{n}": {"GET": "payout"},
    "/reminders/{n}": {"GET": "reminder"},
}


def find_route(target):
    """The names of a path by their methods, and its parameters. A target that is none has no methods."""
    for path, methods in ROUTES.items():
        pattern = re.sub(r"\{(\w)\}", r"(?P<\1>[^/]*)", path)
        if found := re.fullmatch(pattern, target):
            values = tuple(PARAMETERS[name](value) for name, value in found.groupdict().items())
            return ({}, ()) if None in values else (methods, values)
    return {}, ()


# ---- documents


def euros(cents):
    return f"{cents // 100}.{cents % 100:02}".rjust(14)


def owed(book, day, employer):
    book.firm(employer)
    charged, credited = book.charged(employer), book.credited(employer)
    return {"arrears": book.arrears(employer, day), "charged": charged, "credited": credited,
            "prepaid": max(0, credited - charged)}


def statement(book, day, employer):
    firm, pieces = book.firm(employer), book.pieces(employer)
    yield f"statement {employer} {day_text(day)}"
    yield f"name {firm.name}"
    yield f"member {month_text(firm.start)} {month_or_none(firm.last)}"
    for charge in book.charges(employer):
        yield charge_line(book, employer, charge, day)
        for piece in pieces:
            if piece.month == charge.month:
                yield f"  paid {day_text(piece.day)} {euros(piece.cents)} {piece.reference}"
    for credit in book.credits(employer, "I"):
        yield f"interest-paid {day_text(credit.day)} {euros(credit.cents)} {credit.reference}"
    for month in book.missing(employer, day):
        yield f"missing {month_text(month)}"
    yield f"prepaid {euros(max(0, book.credited(employer) - book.charged(employer)))}"
    yield f"arrears {euros(book.arrears(employer, day))}"
    yield f"interest {euros(book.interest(employer, day))}"


def charge_line(book, employer, charge, day):
    paid = sum(piece.cents for piece in book.pieces(employer) if piece.month == charge.month)
    version = len(book.reports[employer, charge.month])
    amounts = f"{euros(charge.cents)} {euros(charge.cents - paid)} {euros(book.interest_of(employer, charge, day))}"
    return f"charge {month_text(charge.month)} due {day_text(charge.due)} version {version} {amounts}"


def month_or_none(month):
    return "-" if month is None else month_text(month)


def worker(book, day, number):
    yield f"worker {number} {day_text(day)}"
    for employer, month, cents in book.earned(number):
        yield f"earned {employer} {month_text(month)} {euros(cents)}"
    for claim in book.claims_of(number):
        state = "open" if claim.state == OPEN else "released"
        yield f"claim {claim.number} employer {claim.employer} {state} {euros(claim.cents)}"
    yield f"balance {euros(book.balance(number))}"


def suspense(book, day):
    lines = [line.record for line in book.lines.values() if line.firm is None]
    yield f"suspense {day_text(day)}"
    for line in lines:
        named, note = line.named or "-", f" {line.note}" if line.note else ""
        yield f"line {line.reference} {day_text(line.value)} {line.purpose} {named} {euros(line.cents)}{note}"
    yield f"lines {len(lines)}"
    yield f"total {euros(sum(line.cents for line in lines))}"


def document(made, number):
    """The day of a list or a run, and what is on it."""
    if number > len(made):
        raise Refused(33)
    return made[number - 1]


def payout(book, day, number):
    made, claims = document(book.lists, number)
    yield f"payout {number} {day_text(made)}"
    for claim in claims:
        yield f"claim {claim.number} employer {claim.employer} worker {claim.worker} {euros(claim.paid)}"
    yield f"items {len(claims)}"
    yield f"total {euros(sum(claim.paid for claim in claims))}"


def reminder(book, day, number):
    made, reminders = document(book.runs, number)
    yield f"reminders {number} {day_text(made)}"
    for it in reminders:
        missing = f"missing {it.missing} {month_or_none(it.first)}"
        yield f"employer {it.employer} level {it.level} {missing} {euros(it.arrears)} {euros(it.interest)}"
    yield f"firms {len(reminders)}"


DOCUMENTS = {"statement": statement, "worker": worker, "suspense": suspense, "payout": payout, "reminder": reminder}


def tell(book, caller, day, name, values):
    """The answer to a question."""
    check_access(caller, name, values)
    book.check_day(day)
    if name == "owed":
        return owed(book, day, *values)
    return "".join(f"{line}\n" for line in DOCUMENTS[name](book, day, *values))


# ---- answers


def answer_to(book, keys, day, request):
    """The bytes that are answered to a request of (method, target, key, number, body) on a day."""
    method, target, key, number, body = request
    methods, values = find_route(target)
    try:
        if not methods:
            raise Refused(4)
        if method not in methods:
            raise Refused(5)
        if key not in keys:
            raise Refused(6)
        said = reply_to(book, keys[key], day, methods[method], values, number, body)
        return answer_bytes("200 OK", said, method)
    except Refused as why:
        further = {5: f"Allow: {', '.join(methods)}\r\n", 6: "WWW-Authenticate: Office-Key\r\n"}.get(why.rule, "")
        said = {"detail": why.detail, "name": NAMES[why.rule], "rule": why.rule}
        return answer_bytes(STATUSES.get(why.rule, "409 Conflict"), said, method, further)


def reply_to(book, caller, day, name, values, number, body):
    if name in (*DOCUMENTS, "owed"):
        return tell(book, caller, day, name, values)
    if number is None or not (numbered := number_in(number.strip(" \t"), MOST_NUMBER)):
        raise Refused(8, "Request-Number")
    return book.submit(caller, numbered, day, (name, *values, *READERS[name](body)))


def answer_bytes(status, said, method, further=""):
    """A text, or an object as JSON; HEAD is answered without the body."""
    is_text = isinstance(said, str)
    body = said if is_text else json.dumps(said, ensure_ascii=False, separators=(",", ":"), sort_keys=True)
    kind = "text/plain; charset=utf-8" if is_text else "application/json"
    head = f"HTTP/1.1 {status}\r\nContent-Type: {kind}\r\nContent-Length: {len(body.encode())}\r\n{further}\r\n"
    return (head if method == "HEAD" else head + body).encode()
