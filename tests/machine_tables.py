"""The tables that stand for a book of machine.py, as docs/formats.md tells them: their rows, by key."""

from machine import begun_months
from machine_values import month_text

# The members of replies, by their kinds, which count from 1.
KINDS = (["done"], ["version", "charge"], ["new", "repeats"], ["claim"], ["to_contributions", "to_interest", "paid"],
         ["list", "items", "total"], ["run", "firms"])


def tables_of(book):
    return {
        "meta": [meta(book)],
        "rates": sorted(book.rates),
        "employers": sorted((number, firm.name, firm.start, firm.last) for number, firm in book.firms.items()),
        "reports": sorted((*of, len(versions)) for of, versions in book.reports.items()),
        "wages": sorted((*of, *line) for of, versions in book.reports.items() for line in versions[-1]),
        "charges": [row for number in sorted(book.firms) for row in charges(book, number)],
        "pieces": [(number, *piece) for number in sorted(book.firms) for piece in book.pieces(number)],
        "bank": [bank(line) for _, line in sorted(book.lines.items())],
        "credits": [(number, purpose, *credit) for number in sorted(book.firms) for purpose in "CI"
                    for credit in book.credits(number, purpose)],
        "claims": [claim(it) for it in book.claims],
        "lists": [(number, day, len(claims), sum(it.paid for it in claims))
                  for number, (day, claims) in enumerate(book.lists, 1)],
        "runs": [(number, day, len(reminders)) for number, (day, reminders) in enumerate(book.runs, 1)],
        "reminders": [(number, *it) for number, (_, reminders) in enumerate(book.runs, 1) for it in reminders],
        "requests": [request(of, *kept) for of, kept in sorted(book.kept.items())],
    }


def meta(book):
    return (1, 1, book.day, len(book.kept), book.serial, len(book.claims), len(book.lists), len(book.runs))


def charges(book, employer):
    """Each contribution with what no piece of it pays, and its pieces' cents for each month begun until their days."""
    for charge in book.charges(employer):
        pieces = [piece for piece in book.pieces(employer) if piece.month == charge.month]
        weight = sum(piece.cents * begun_months(charge.due, piece.day) for piece in pieces)
        yield (employer, *charge, charge.cents - sum(piece.cents for piece in pieces), weight)


def bank(line):
    reference, value, named, *rest = line.record
    return (reference, line.serial, value, named, line.firm, *rest)


def claim(it):
    return (it.number, it.employer, it.worker, it.cents, it.state, it.made, it.released, it.to_contributions,
            it.to_interest, it.paid, it.list)


def request(of, command, reply, day):
    return (*of, day, command_bytes(*command), *reply_numbers(reply))


def reply_numbers(reply):
    """The kind of a reply, and its numbers, of which there are three."""
    kind = next(kind for kind, names in enumerate(KINDS, 1) if set(names) == reply.keys())
    numbers = [reply[name] for name in KINDS[kind - 1] if name != "done"]
    return kind, *(numbers + [0, 0, 0])[:3]


def command_bytes(name, *values):
    """The bytes under which a command is kept."""
    if name == "import_bank":
        return b"bank " + values[0]
    return " ".join(map(str, command_words(name, values))).encode()


def command_words(name, values):
    match name:
        case "add_rate":
            (row,) = values
            yield from ("rate", month_text(row.first), *row[1:])
        case "register":
            employer, called, start = values
            yield from ("employer", employer, month_text(start), called)
        case "report" | "correct":
            employer, month, *version, lines = values
            yield from (name, employer, month_text(month), *version, *(f"{worker}:{gross}" for worker, gross in lines))
        case "end":
            yield from ("end", values[0], month_text(values[1]))
        case "assign":
            yield from ("assign", values[1], values[0])
        case "claim" | "withdraw" | "release" | "remind":
            yield from (name, *values)
        case "make_list":
            yield "payout"
