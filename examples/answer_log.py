"""Usage: python3 examples/answer_log.py ADDRESS KEYFILE REQUESTS LOG

Sends the requests of a file, one a line: method, path, number or `-`, and the body as JSON or
nothing. Appends each to LOG with its answer and the time, as a line of JSON. What LOG has answered
already is skipped, so the same command goes on with a batch that broke off, and tells each of its
refusals. A refusal is an answer, but neither that of a key that is nobody's (HTTP status 401) or
another's (rule 7), nor that of an office that could not do it (500 and above), nor one for the day
on which the office is served (rules 10, 14 and 22): what had it is sent again. If a line is no
request, or a command stands twice, nothing is sent.
"""

import fcntl
import json
import re
from collections import defaultdict
from datetime import datetime
from pathlib import Path

from office import Answer, Fault, Office, command_line, read_text, run, stops

REQUEST = re.compile(r"(GET|POST|PUT) (/[!-~]*) (?:-|([1-9][0-9]{0,17}))(?: (.*))?")

# The rules that refuse a request for its key, or for the day of the office: before the ledger day, a
# month or a value date ahead.
OF_KEY_OR_DAY = (7, 10, 14, 22)
# Of each entry.
BEGINNING = b'{"time": "'


def read_requests(path):
    """The requests of a file, each with its line, method, target, number and body."""
    requests, commands = [], {}
    for place, line in enumerate(map(str.strip, read_text(path).split("\n")), 1):
        if line:
            parts = REQUEST.fullmatch(line)
            try:
                # However its body is written: it is the values that make a command.
                values = json.dumps(json.loads(parts[4] or "{}"), sort_keys=True)
            except (RecursionError, TypeError, ValueError):
                raise Fault(f"{path}: line {place} is no request", 2) from None
            method, target, number, body = parts.groups(default="")
            command = method, target, number, values
            if method != "GET" and commands.setdefault(command, place) != place:
                again = f"line {place} is line {commands[command]} again, under its number"
                raise Fault(f"{path}: {again}: it would be done once", 2)
            requests.append((line, method, target, number or None, body))
    return requests


def logged_refusal(entry):
    """The refusal of an answer in the log, empty where the request was done. None where it is to be sent again,
    as where an earlier build of this script took for an answer what no office gives."""
    status = int(entry["status"][:3])
    if stops(status):
        return None
    request = " ".join(entry["request"].split(" ")[:2])
    answer = Answer(request, status, entry["status"][4:], entry["answer"])
    try:
        return None if answer.rule in OF_KEY_OR_DAY else refusal_of(answer)
    except Fault:
        return None


def refusal_of(answer):
    return answer.refusal if answer.rule else ""


def read_answered(log):
    """By request the refusal of each of its answers in the log. A last line that broke off is taken out."""
    log.seek(0)
    *lines, rest = log.read().split(b"\n")
    answered = defaultdict(list)
    try:
        for entry in map(json.loads, lines):
            refusal = logged_refusal(entry)
            if refusal is not None:
                answered[entry["request"]].append(refusal)
    except (AttributeError, KeyError, RecursionError, TypeError, ValueError):
        raise Fault(f"{log.name}: no answer log", 2) from None
    # Nothing is cut off a file that is something else.
    if not BEGINNING.startswith(rest[:len(BEGINNING)]):
        raise Fault(f"{log.name}: no answer log", 2)
    if rest:
        log.truncate(log.tell() - len(rest))
    return answered


def send(office, request, log):
    """The refusal of a request, empty where it is done; the answer is in the log by then. What no office
    answers is a Fault, and not in the log."""
    line, method, target, number, body = request
    answer = office.ask(method, target, number, body)
    refusal = refusal_of(answer)
    entry = {
        "time": datetime.now().astimezone().isoformat(timespec="seconds"),
        "request": line,
        "status": f"{answer.status} {answer.reason}",
        "answer": answer.text,
    }
    log.write(json.dumps(entry, ensure_ascii=False).encode() + b"\n")
    log.flush()
    if stops(answer.status):
        raise Fault(f"stopped: {refusal}", 1)
    return refusal


def send_all(office, requests, log):
    """Sends what the log has not answered, and tells each refusal, and how many were sent, skipped and refused
    and are left, also where a Fault ends it. How many are refused."""
    answered = read_answered(log)
    sent = skipped = refused = 0
    try:
        for request in requests:
            line, method, target, number, _ = request
            if answered[line]:
                refusal = answered[line].pop(0)
                skipped += 1
            else:
                refusal = send(office, request, log)
                sent += 1
            if refusal:
                refused += 1
                print(f"{method} {target} {number or '-'}: {refusal}")
    finally:
        left = len(requests) - sent - skipped
        print(f"sent: {sent}, skipped: {skipped}, refused: {refused}" + (f", left: {left}" if left else ""))
    return refused


def main():
    words = command_line(
        __doc__,
        ("requests", {"help": "the file of requests"}),
        ("log", {"type": Path, "help": "it is made where it isn't there"}),
    )
    requests = read_requests(words.requests)
    if words.log.exists() and not words.log.is_file():
        raise Fault(f"{words.log}: what was answered can't be read there again", 2)
    with open(words.log, "a+b") as log:
        try:
            fcntl.flock(log, fcntl.LOCK_EX | fcntl.LOCK_NB)
        except BlockingIOError:
            raise Fault(f"{words.log}: another batch is written into it", 2) from None
        refused = send_all(Office(words.address, words.key), requests, log)
    return 1 if refused else 0


if __name__ == "__main__":
    run(main)
