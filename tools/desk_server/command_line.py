"""The command line of the desk: reads its words and files, and serves the page until it is stopped."""

import argparse
import os
import pwd
import re
import sys
from pathlib import Path

from stops import take_stops
from told import put_out

from .assets import read_assets
from .bank_check import end_checks
from .desk import Desk
from .faults import StartFault, Status
from .journal import Journal
from .numbers import LAST_NUMBER
from .office import Office
from .rates import read_rates
from .routes import Routes
from .safety import Tokens
from .server import HOST, Server

DESCRIPTION = """A page in the browser for one clerk, in front of an office that is served on this machine
(clearing serve). It is reached from this machine alone, by its own user, and the browser never sees the
office's key."""
STATUSES = """The status is 0 when it was stopped (Ctrl-C), 2 for the command line and its files, 3 where the
port is taken. In the folder stand numbers.jsonl (the request numbers that were taken), pending.json (a
request that has no answer yet), log.jsonl (what was done, refused and repeated), and firms.json (the firms
that were opened). Keep it: the numbers go on from there."""
KEY = re.compile(r"[!-~]{1,64}")


def port(word: str) -> int:
    if not re.fullmatch("[0-9]{1,5}", word) or int(word) > 65_535:
        raise argparse.ArgumentTypeError(f"{word} is no port")
    return int(word)


def desk_number(word: str) -> int:
    if not re.fullmatch("[1-9][0-9]?", word):
        raise argparse.ArgumentTypeError(f"{word} isn't from 1 to 99")
    return int(word)


def request_number(word: str) -> int:
    if not re.fullmatch("[1-9][0-9]{0,17}", word) or int(word) > LAST_NUMBER:
        raise argparse.ArgumentTypeError(f"{word} isn't from 1 to {LAST_NUMBER}")
    return int(word)


def user(word: str) -> int:
    try:
        return pwd.getpwnam(word).pw_uid
    except (KeyError, ValueError):
        raise argparse.ArgumentTypeError(f"{word} is no user of this machine") from None


def parser() -> argparse.ArgumentParser:
    made = argparse.ArgumentParser(prog="desk", description=DESCRIPTION, epilog=STATUSES)
    made.add_argument("--office", type=port, required=True, metavar="PORT",
                      help="the port on which the office is served")
    made.add_argument("--office-user", type=user, metavar="NAME",
                      help="the user who serves the office, where that is neither the desk's user nor root; "
                           "another user's program on that port gets neither key nor request")
    made.add_argument("--key-file", type=Path, required=True, metavar="FILE",
                      help="a file of a clerk's key alone")
    made.add_argument("--port", type=port, required=True, help="the port of the page; 0 takes a free one")
    made.add_argument("--log", type=Path, metavar="FOLDER",
                      help="the folder of numbers and log, made if it isn't there (desk-log beside the key)")
    made.add_argument("--clearing", type=Path, metavar="PATH",
                      help="the office's program, which checks bank files first")
    made.add_argument("--rates", type=Path, metavar="FILE",
                      help="the rate file of the store: the page tells what a report will be charged")
    made.add_argument("--desk", type=desk_number, default=1, metavar="N",
                      help="the number of this desk, 1 to 99, another one for each desk of the fund (1)")
    made.add_argument("--first-number", type=request_number, metavar="NUMBER",
                      help="where the request numbers begin, in the place of date, desk and count; "
                           f"{LAST_NUMBER} is the most")
    return made


def read_key(path: Path) -> str:
    key = path.read_text(encoding="ascii", errors="replace").strip()
    if not KEY.fullmatch(key):
        raise StartFault(f"{path}: not one key")
    return key


def make_server(words: argparse.Namespace) -> Server:
    """The server of the page. It takes its port first, so that nothing is made where that is taken."""
    key = read_key(words.key_file)
    rates = None if words.rates is None else read_rates(words.rates)
    program = None if words.clearing is None else words.clearing.resolve()
    try:
        server = Server(words.port, read_assets())
    except OSError as why:
        raise StartFault(f"port {words.port}: {why.strerror}", Status.NO_PORT) from None
    folder = words.log or words.key_file.resolve().parent / "desk-log"
    journal = Journal(folder, words.desk, words.first_number)
    settings = {"office": words.office, "desk": words.desk, "folder": str(folder.resolve())}
    for lines in filter(lambda it: it.aside, (journal.numbers, journal.log)):
        print(f"{lines.path}: the last line was cut off, and stands in {lines.aside} now", file=sys.stderr)
    if journal.pending is not None:
        told = f"request {journal.pending.number} ({journal.pending.command.words})"
        print(f"{told} has no answer yet: the page offers it", file=sys.stderr)
    office = Office(words.office, key, words.office_user)
    server.routes = Routes(Desk(office, journal, rates, program), Tokens(), settings)
    return server


def main() -> int:
    words = parser().parse_args()
    # What the desk keeps is its user's alone.
    os.umask(0o077)
    try:
        server = make_server(words)
    except StartFault as fault:
        print(fault, file=sys.stderr)
        return fault.status
    except OSError as why:
        print(why, file=sys.stderr)
        return Status.COMMAND_LINE
    take_stops()
    try:
        put_out(f"desk on http://{HOST}:{server.server_port}/, office on {HOST}:{words.office}\n".encode())
        server.serve_forever()
    except OSError as why:
        print(why, file=sys.stderr)
        return Status.COMMAND_LINE
    except KeyboardInterrupt:
        pass
    finally:
        end_checks()
    return Status.DONE
