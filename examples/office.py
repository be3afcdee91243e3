"""The client of a served office, and what the scripts beside it share.

    office = Office(("127.0.0.1", 8080), "desk")
    print(office.ask("GET", "/suspense").done().text)
"""

import argparse
import contextlib
import http.client
import json
import os
import re
import signal
import sys
import tempfile
from pathlib import Path
from typing import NamedTuple

# In seconds. The office serves one connection after another, so others may come first.
TIMEOUT = 60
# Of an answer: some three times what 100,000 lines in suspense take.
MOST_BYTES = 67_108_864
LAST_NUMBER = 999_999_999_999_999_999
# The key goes unenciphered, so to this machine alone, or into a tunnel that begins here.
ADDRESS = re.compile(r"(127\.0\.0\.1|localhost):([0-9]{1,5})")
KEY = re.compile(r"[!-~]{1,64}")
DAY = "[0-9]{4}-[0-9]{2}-[0-9]{2}"
AGAIN = "run the same command again: nothing is done twice"
BROKEN_OFF = f"broken off; to go on, {AGAIN}"
# The members of a refusal.
REFUSAL = {"detail", "name", "rule"}
DONE, REPORTED = {"done"}, {"charge", "version"}
# What an office answers to a request that it does (docs/http.md), by the method and the path, in which # is a number or
# a month: the members of a reply, or the first word of a document.
ANSWERS = {
    "POST /rates": DONE,
    "POST /employers": DONE,
    "POST /employers/#/end": DONE,
    "POST /employers/#/reports/#": REPORTED,
    "PUT /employers/#/reports/#": REPORTED,
    "POST /employers/#/claims": {"claim"},
    "POST /employers/#/claims/#/withdraw": DONE,
    "POST /claims/#/release": {"paid", "to_contributions", "to_interest"},
    "POST /bank": {"new", "repeats"},
    "POST /assign": DONE,
    "POST /payouts": {"items", "list", "total"},
    "POST /reminders": {"firms", "run"},
    "GET /employers/#/owed": {"arrears", "charged", "credited", "prepaid"},
    "GET /employers/#/statement": "statement",
    "GET /workers/#": "worker",
    "GET /suspense": "suspense",
    "GET /payouts/#": "payout",
    "GET /reminders/#": "reminders",
}


class Fault(Exception):
    """What ends a script, with its status: 1 for a refusal, 2 for the command line and files, 3
    for an office that can't be reached."""

    def __init__(self, text, status):
        super().__init__(text)
        self.status = status


class Answer(NamedTuple):
    # Its method and path.
    request: str
    status: int
    reason: str
    text: str

    @property
    def title(self):
        """The first line, which names a document and ends with its day."""
        return self.text.partition("\n")[0]

    @property
    def members(self):
        """The members of a body in JSON, which is any but that of a document."""
        try:
            members = json.loads(self.text)
        except (RecursionError, ValueError):
            members = None
        if not isinstance(members, dict):
            raise self.no_answer_of_an_office()
        return members

    @property
    def is_of_its_kind(self):
        """Whether the body is what an office answers to this request where it does it."""
        kind = ANSWERS.get(re.sub("(?<=/)[0-9-]+", "#", self.request))
        if kind is None:
            return False
        if isinstance(kind, str):
            words = [kind, *re.findall("[0-9]+", self.request), DAY]
            return re.fullmatch(" ".join(words), self.title) is not None
        members = self.members
        return set(members) == kind and all(it is True if kind is DONE else type(it) is int for it in members.values())

    @property
    def rule(self):
        """The number of the rule that refuses the request, 0 where it is done. A Fault of what no office
        answers to it."""
        if self.status == 200 and self.is_of_its_kind:
            return 0
        if self.status != 200:
            members = self.members
            if set(members) == REFUSAL and type(members["rule"]) is int and members["rule"] > 0:
                return members["rule"]
        raise self.no_answer_of_an_office()

    def no_answer_of_an_office(self):
        """The Fault of an answer that something else gave, as a proxy or another program on the port."""
        return Fault(printable(f"no answer of an office: {self.status} {self.reason}"), 3)

    @property
    def refusal(self):
        told = self.members
        return printable(f"rule {told.get('rule')} {told.get('name')} {told.get('detail')}".rstrip())

    def done(self):
        """The same answer, of a request that is to be done."""
        if self.rule != 0:
            raise Fault(self.refusal, 1)
        return self


def stops(status):
    """Whether the next request would fare no better than one with this status: the key is
    nobody's, or the office has failed or has no memory."""
    return status == 401 or status >= 500


class Office:
    """One connection, which is kept, and made anew where the office has ended it."""

    def __init__(self, address, key, timeout=TIMEOUT):
        self.key = key
        self.connection = http.client.HTTPConnection(*address, timeout=timeout)
        # Whether the last request was sent once more: it may have been done before its answer.
        self.asked_again = False

    def ask(self, method, path, number=None, body=""):
        """The answer to a request. One that has none is sent once more: it is done once, by its
        number."""
        self.asked_again = False
        try:
            return self.ask_once(method, path, number, body)
        except (http.client.HTTPException, OSError):
            self.connection.close()
        self.asked_again = True
        try:
            return self.ask_once(method, path, number, body)
        except (http.client.HTTPException, OSError) as why:
            self.connection.close()
            address = f"{self.connection.host}:{self.connection.port}"
            raise Fault(f"no answer from {address}: {printable(str(why).strip())}", 3) from why

    def ask_once(self, method, path, number, body):
        fields = {"Office-Key": self.key}
        if number is not None:
            fields["Request-Number"] = str(number)
        # A connection that is closed is made by the next request.
        self.connection.request(method, path, body.encode() or None, fields)
        answer = self.connection.getresponse()
        # An answer of the office always has its length.
        if answer.length is None or answer.length > MOST_BYTES:
            raise http.client.HTTPException(f"no length of at most {MOST_BYTES} bytes")
        return Answer(f"{method} {path}", answer.status, answer.reason, answer.read().decode(errors="replace"))


def printable(text):
    """A text that others wrote, so that a terminal only shows it."""
    return "".join(sign if sign.isprintable() else "?" for sign in text)


def euros(cents):
    return f"{cents // 100}.{cents % 100:02}"


def read_text(path):
    with contextlib.suppress(UnicodeError):
        text = Path(path).read_text(encoding="utf-8-sig")
        # One in UTF-16 without a mark may pass for UTF-8, with zeros in it.
        if "\0" not in text:
            return text
    raise Fault(f"{path}: no text in UTF-8", 2)


def read_key(path):
    key = read_text(path).strip()
    if not KEY.fullmatch(key):
        raise Fault(f"{path}: not one key", 2)
    return key


def read_address(word):
    found = ADDRESS.fullmatch(word)
    if not found or int(found[2]) > 65_535:
        raise argparse.ArgumentTypeError(f"{word} isn't 127.0.0.1:PORT: the key is sent to this machine alone")
    # By its name this machine may be ::1 too, where another user may listen on the same port.
    return "127.0.0.1", int(found[2])


def request_number(word):
    if not re.fullmatch("[1-9][0-9]{0,17}", word):
        raise argparse.ArgumentTypeError(f"{word} isn't from 1 to {LAST_NUMBER}")
    return int(word)


def check_numbers(first, count):
    """Ends the script before anything is sent where its numbers don't serve for all of it."""
    if first + count - 1 > LAST_NUMBER:
        raise Fault(f"{count} numbers from {first} on go past {LAST_NUMBER}", 2)


def write_whole(path, content):
    """Writes a file whole or not at all; one that stands there is replaced. The part has a name that nobody can
    tell beforehand: in a folder of several users one might stand there already, theirs or a link."""
    handle, part = tempfile.mkstemp(prefix=".part-", dir=path.parent)
    try:
        with open(handle, "wb") as file:
            file.write(content)
            file.flush()
            os.fsync(file.fileno())
        os.replace(part, path)
    except BaseException:
        with contextlib.suppress(FileNotFoundError):
            os.unlink(part)
        raise


def command_line(text, *arguments):
    """The words of a script's command line: ADDRESS, KEYFILE, and the arguments given, each a name
    with its options. The text is the script's docstring, its usage first."""
    usage, _, description = text.removeprefix("Usage: ").partition("\n\n")
    form = argparse.RawDescriptionHelpFormatter
    parser = argparse.ArgumentParser(usage=usage, description=description, formatter_class=form)
    parser.add_argument("address", metavar="ADDRESS", type=read_address, help="as 127.0.0.1:8080")
    parser.add_argument("key", metavar="KEYFILE", type=read_key, help="a file of the key alone")
    for name, options in arguments:
        parser.add_argument(name, metavar=name.upper(), **options)
    return parser.parse_args()


def tell(*lines):
    """Tells these lines on standard error. Where it is closed, or on a full disk, the status alone says what happened."""
    if sys.stderr is not None:
        try:
            print(*lines, sep="\n", file=sys.stderr)
        except OSError:
            # What is left to tell would fail once more.
            sys.stderr = None


def outcome(work):
    """The status of some work, which returns it or ends by a fault, which is told."""
    try:
        return work()
    except SystemExit as end:
        # Of a wrong command line, or of --help.
        return end.code
    except Fault as fault:
        tell(fault)
        if fault.status == 3:
            tell(f"when the office answers, {AGAIN}")
        return fault.status
    except KeyboardInterrupt:
        tell(BROKEN_OFF)
        return 130
    except OSError as why:
        tell(why)
        # Without a name it is a write that failed: on a disk that is full, or to `head`, which has read enough.
        if why.filename is None:
            tell(BROKEN_OFF)
            # What is left to print would fail once more.
            sys.stdout = None
        return 2


def flush():
    """Writes what was printed and isn't written yet."""
    if sys.stdout is not None:
        sys.stdout.flush()
    return 0


def take_stops():
    """Has SIGTERM and SIGHUP break the script off as Ctrl-C does; one that is ignored, as by `nohup`, stays so."""
    # (Not every system has SIGHUP.)
    for number in (signal.SIGTERM, getattr(signal, "SIGHUP", signal.SIGTERM)):
        if signal.getsignal(number) is signal.SIG_DFL:
            signal.signal(number, signal.default_int_handler)


def run(script):
    """Runs a script, which returns its status; tells its fault. Its files are its user's alone."""
    take_stops()
    os.umask(0o077)
    # A letter that standard output can't have is told as `?`; standard error has an escape for it.
    if sys.stdout is not None:
        sys.stdout.reconfigure(errors="replace")
    # Where standard error is closed, argparse would tell a wrong command line elsewhere, or fail.
    if sys.stderr is None:
        sys.stderr = open(os.devnull, "w", errors="replace")
    status = outcome(script)
    # Whatever ended the script: a write that fails as Python ends has a status of its own.
    sys.exit(outcome(flush) or status)
