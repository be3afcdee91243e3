"""Usage: python3 examples/month_end.py ADDRESS KEYFILE FOLDER NUMBER FIRMS [FIRMS ...]

A clerk's month end: the statement of each firm, the lines in suspense, a reminder run under NUMBER
and a payout list under NUMBER + 1. Each document comes into a file of FOLDER that is named by its
first line. FIRMS is an employer number, a range FIRST-LAST, or a text file of these; a number
without a firm is skipped, and without any firm nothing is made. All are of one day: where the office
was started anew on another one meanwhile, it ends before the run, or behind what that day made, and is
to be run again. Run again under the same NUMBER it makes no second run or list.
"""

import itertools
import re
from collections import Counter
from pathlib import Path
from typing import NamedTuple

from office import (
    Fault, Office, check_numbers, command_line, printable, read_text, request_number, run, write_whole)

FIRMS = re.compile(r"([1-9][0-9]{0,7})(?:-([1-9][0-9]{0,7}))?")
# So many of the skipped numbers are told.
MOST_TOLD = 10
UNKNOWN_EMPLOYER = 11
STARTED_ANEW = "the office was started anew on another day meanwhile"


class Kind(NamedTuple):
    """What a command makes: its path, the member of the answer that numbers it, and the rule by
    which there is nothing to do."""

    path: str
    member: str
    nothing: int


REMINDERS = Kind("/reminders", "run", 30)
PAYOUTS = Kind("/payouts", "list", 29)


def read_firms(words):
    """The ranges of employer numbers that the words give, or the files that they name."""
    ranges = []
    for word in words:
        for part in [word] if FIRMS.fullmatch(word) else read_text(word).split():
            ends = FIRMS.fullmatch(part)
            firms = ends and range(int(ends[1]), int(ends[2] or ends[1]) + 1)
            if not firms:
                raise Fault(f"{word}: {part} is neither an employer number nor FIRST-LAST", 2)
            ranges.append(firms)
    if not ranges:
        raise Fault(f"{' '.join(words)}: no firm is named", 2)
    return ranges


def file_of(folder, title):
    """The file of a document by its first line, which names it and its day."""
    return folder / f"{title.replace(' ', '-')}.txt"


def save(folder, answer):
    """Writes a document into its file. Its first line."""
    title = answer.done().title
    folder.mkdir(parents=True, exist_ok=True)
    write_whole(file_of(folder, title), answer.text.encode())
    return title


def save_and_tell(folder, answer):
    title = save(folder, answer)
    print(printable(f"{title}: {' '.join(answer.text.splitlines()[-1].split())}"))
    return title


def day_of(title):
    return title.split()[-1]


def save_statements(office, folder, firms):
    """Saves the statement of each firm. How many are of each day."""
    # A number may stand in several ranges.
    saved, skipped = set(), {}
    for firm in firms:
        answer = office.ask("GET", f"/employers/{firm}/statement")
        if answer.rule == UNKNOWN_EMPLOYER:
            skipped[firm] = None
        else:
            saved.add(save(folder, answer))
    print(f"statements: {len(saved)}")
    if skipped:
        told = " ".join(map(str, itertools.islice(skipped, MOST_TOLD)))
        more = " .." if len(skipped) > MOST_TOLD else ""
        print(f"numbers without a firm: {len(skipped)} ({told}{more})")
    if not saved:
        raise Fault("no number is a firm's, so no run and no list is made", 2)
    return Counter(map(day_of, saved))


def check_days(statements, day):
    """A Fault where not all statements, so many of each day, are of the day of the lines in suspense."""
    if set(statements) != {day}:
        told = ", ".join(f"{statements[it]} of {it}" for it in sorted(statements))
        raise Fault(f"statements: {told}; lines in suspense: of {day}: {STARTED_ANEW}, so no run and no list is made",
                    3)


def stands_already(folder, document, number):
    """Whether the file of a run or a list stands in the folder. It never changes: a Fault where another book made the
    one there, which perhaps was transferred."""
    file = file_of(folder, document.title)
    if file.is_symlink() or not file.exists():
        return False
    if file.read_bytes() != document.text.encode():
        raise Fault(f"{file} stands with another content, and is left as it is: the office has another "
                    f"{document.title} now, which number {number} made", 2)
    return True


def make_and_save(office, folder, kind, number, day):
    """Has a run or a list made under this number by an office of this day, and saves it."""
    answer = office.ask("POST", kind.path, number)
    if answer.rule == kind.nothing:
        print(f"{kind.path[1:]}: {answer.refusal}")
        return
    if answer.rule:
        raise Fault(f"{kind.path[1:]} under number {number}: {answer.refusal}", 1)
    made = answer.members[kind.member]
    document = office.ask("GET", f"{kind.path}/{made}").done()
    stood = stands_already(folder, document, number)
    title = save_and_tell(folder, document)
    if day_of(title) > day:
        raise Fault(f"{title} is of a later day than the statements: {STARTED_ANEW}", 3)
    if day_of(title) < day:
        print(f"number {number} made it on an earlier day; a new one needs a new number")
    elif stood:
        print(f"its file stood in the folder: number {number} made it before, and a new one needs a new number, "
              "unless the store went back to a backup since")


def main():
    words = command_line(
        __doc__,
        ("folder", {"type": Path, "help": "it is made where it isn't there"}),
        ("number", {"type": request_number, "help": "the next two numbers of the desk are taken"}),
        ("firms", {"nargs": "+", "help": "a number, FIRST-LAST, or a file of these"}),
    )
    firms = read_firms(words.firms)
    check_numbers(words.number, 2)
    office = Office(words.address, words.key)
    # What only asks comes first: a run and a list can't be taken back.
    statements = save_statements(office, words.folder, itertools.chain(*firms))
    day = day_of(save_and_tell(words.folder, office.ask("GET", "/suspense")))
    check_days(statements, day)
    make_and_save(office, words.folder, REMINDERS, words.number, day)
    make_and_save(office, words.folder, PAYOUTS, words.number + 1, day)
    return 0


if __name__ == "__main__":
    run(main)
