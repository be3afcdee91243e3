#!/usr/bin/env python3
"""The clearing office in Python over sqlite3, to measure the program beside it.

    python3 bench/serve/peer.py init STORE RATES
    python3 bench/serve/peer.py serve STORE CALLERS DAY PORT COUNT

It takes these words of the program, and its requests but for new rates, ends of memberships, assignments,
reminders and the document of the lines in suspense. It judges them by the same rules and gives the same
answers. Its store is a database of its own with SQLite's write-ahead log and a sync at each commit, and
each request is one transaction. A report's contribution is kept beside it; a statement's pieces and
interest, and a worker's balance, are worked out anew. Answers to HEAD aren't told apart.
"""
import json
import re
import socket
import sys
import tomllib
from http import HTTPStatus

sys.dont_write_bytecode = True
from records import Office  # noqa: E402
from rules import Refusal, has_control, month_number  # noqa: E402

EMPLOYER, MONTH = "[1-9][0-9]{0,7}", "2[01][0-9]{2}-(?:0[1-9]|1[0-2])"
# The number of a claim or of a payout list, and of a worker.
COUNTED = "[1-9][0-9]{0,6}|[1-4][0-9]{7}|50000000"
WORKER = "[1-9][0-9]{0,8}"
is_month = re.compile(MONTH).fullmatch
is_request_number = re.compile("[1-9][0-9]{0,17}").fullmatch
is_length = re.compile("[0-9]+").fullmatch
PHRASES = {status.value: status.phrase for status in HTTPStatus} | {413: "Content Too Large"}
LAST_REQUEST = 1_000
PATIENCE = 10


def is_count(value, least, most):
    return type(value) is int and least <= value <= most


def is_name(value):
    return (type(value) is str and 1 <= len(value.encode(errors="replace")) <= 60
            and not has_control(value))


def are_lines(value):
    return type(value) is list and all(
        type(line) is dict and line.keys() == {"gross", "worker"}
        and is_count(line["gross"], 0, 2**64 - 1) and is_count(line["worker"], 1, 999_999_999)
        for line in value)


KINDS = {
    "employer": lambda value: is_count(value, 1, 99_999_999),
    "name": is_name,
    "start": lambda value: type(value) is str and is_month(value),
    "lines": are_lines,
    "version": lambda value: is_count(value, 1, 2**32 - 1),
    "cents": lambda value: is_count(value, 1, 100_000_000_000),
    "worker": lambda value: is_count(value, 1, 999_999_999),
}


def members(body, *names):
    """The values of these members, of a JSON object that has no others."""
    try:
        said = json.loads(body.decode())
    except ValueError:
        raise Refusal(8, "body") from None
    if type(said) is not dict:
        raise Refusal(8, "body")
    wrong = [name for name in names if name not in said or not KINDS[name](said[name])]
    wrong += sorted(said.keys() - set(names))
    if wrong:
        raise Refusal(8, wrong[0])
    return [said[name] for name in names]


# What a request is: its bytes (a query has none), its firm if a firm may send it, and what does it.
def registration(body):
    no, name, start = members(body, "employer", "name", "start")
    command = f"employer {no} {start} {name}".encode()
    return command, None, lambda office: office.register(no, name, month_number(start))


def report(body, no, month):
    lines, = members(body, "lines")
    return reading_of_lines(["report", no, month], lines, 0)


def correction(body, no, month):
    lines, version = members(body, "lines", "version")
    return reading_of_lines(["correct", no, month, str(version)], lines, version)


def reading_of_lines(words, lines, version):
    lines = [(line["worker"], line["gross"]) for line in lines]
    command = " ".join(words + ["%d:%d" % line for line in lines]).encode()
    no, month = int(words[1]), month_number(words[2])
    return command, no, lambda office: office.report(no, month, lines, version)


def holiday_claim(body, no):
    cents, worker = members(body, "cents", "worker")
    command = f"claim {no} {worker} {cents}".encode()
    return command, int(no), lambda office: office.claim(int(no), worker, cents)


def without_body(body):
    if body:
        raise Refusal(8, "body")


def withdrawal(body, no, claim):
    without_body(body)
    command = f"withdraw {no} {claim}".encode()
    return command, int(no), lambda office: office.withdraw(int(no), int(claim))


def release(body, claim):
    without_body(body)
    return f"release {claim}".encode(), None, lambda office: office.release(int(claim))


def payout_list(body):
    without_body(body)
    return b"payout", None, lambda office: office.pay_out()


def bank_file(body):
    return b"bank " + body, None, lambda office: office.take_file(body)


def owed(_, no):
    return None, int(no), lambda office: office.owed(int(no))


def statement(_, no):
    return None, int(no), lambda office: office.statement(int(no))


def worker_text(_, no):
    return None, None, lambda office: office.worker(int(no))


def payout(_, no):
    return None, None, lambda office: office.payout(int(no))


ROUTES = [(re.compile(path).fullmatch, ways) for path, ways in (
    (f"/employers/({EMPLOYER})/reports/({MONTH})", {"POST": report, "PUT": correction}),
    (f"/employers/({EMPLOYER})/claims", {"POST": holiday_claim}),
    (f"/employers/({EMPLOYER})/claims/({COUNTED})/withdraw", {"POST": withdrawal}),
    (f"/claims/({COUNTED})/release", {"POST": release}),
    (f"/employers/({EMPLOYER})/owed", {"GET": owed}),
    (f"/employers/({EMPLOYER})/statement", {"GET": statement}),
    ("/employers", {"POST": registration}),
    ("/bank", {"POST": bank_file}),
    ("/payouts", {"POST": payout_list}),
    (f"/workers/({WORKER})", {"GET": worker_text}),
    (f"/payouts/({COUNTED})", {"GET": payout}),
)]


class Requests:
    """The requests of a connection."""

    def __init__(self, connection):
        self.connection, self.bytes = connection, b""

    def fill(self):
        more = self.connection.recv(65536)
        self.bytes += more
        return len(more) > 0

    def next(self):
        """The next request as method, target, fields, body and whether it closes; or None."""
        head = self.head()
        if head is None:
            return None
        try:
            line, *rows = head.decode("latin-1").split("\r\n")
            method, target, version = line.split(" ")
            fields = {}
            for name, value in (row.split(":", 1) for row in rows):
                fields.setdefault(name.lower(), []).append(value.strip(" \t"))
        except ValueError:
            raise Refusal(1) from None
        if len(rows) > 64:
            raise Refusal(2)
        if version not in ("HTTP/1.0", "HTTP/1.1") or (
                version == "HTTP/1.1" and len(fields.get("host", ())) != 1):
            raise Refusal(1)
        closes = version == "HTTP/1.0" or "close" in map(str.lower, fields.get("connection", ()))
        return method, target, fields, self.body(body_length(method, fields)), closes

    def head(self):
        """The next head without its last line end, or None at the end of the input."""
        while True:
            self.bytes = self.bytes.lstrip(b"\r\n")
            end = self.bytes.find(b"\r\n\r\n")
            if end >= 0:
                break
            if len(self.bytes) >= 16_384:
                raise Refusal(2)
            if not self.fill():
                if self.bytes:
                    raise Refusal(1)
                return None
        if end + 4 > 16_384:
            raise Refusal(2)
        head, self.bytes = self.bytes[:end], self.bytes[end + 4:]
        return head

    def body(self, length):
        while len(self.bytes) < length:
            if not self.fill():
                raise Refusal(3)
        body, self.bytes = self.bytes[:length], self.bytes[length:]
        return body


def body_length(method, fields):
    if "transfer-encoding" in fields:
        raise Refusal(3, status=501)
    if "expect" in fields:
        raise Refusal(3, status=417)
    lengths = fields.get("content-length", ())
    if not lengths:
        if method in ("POST", "PUT"):
            raise Refusal(3, status=411)
        return 0
    if len(lengths) > 1 or not is_length(lengths[0]):
        raise Refusal(3)
    if int(lengths[0]) > 1_048_576:
        raise Refusal(2)
    return int(lengths[0])


def find_route(method, target):
    for path, ways in ROUTES:
        if found := path(target):
            if method not in ways:
                raise Refusal(5, extra=f"Allow: {', '.join(ways)}\r\n")
            return ways[method], found.groups()
    raise Refusal(4)


def answer(office, callers, method, target, fields, body):
    """The body of the answer to a request."""
    reading, values = find_route(method, target)
    keys = fields.get("office-key", ())
    if len(keys) != 1 or keys[0] not in callers:
        raise Refusal(6, extra="WWW-Authenticate: Office-Key\r\n")
    number = None
    if method != "GET":
        numbers = fields.get("request-number", ())
        if len(numbers) != 1 or not is_request_number(numbers[0]):
            raise Refusal(8, "Request-Number")
        number = int(numbers[0])
    command, firm, act = reading(body, *values)
    caller = callers[keys[0]]
    if caller not in (0, firm):
        raise Refusal(7)
    return office.take(caller, number, command, act)


def answer_bytes(status, text, extra, closes):
    body = text.encode()
    kind = "application/json" if text.startswith("{") else "text/plain; charset=utf-8"
    end = "Connection: close\r\n" if closes else ""
    return (f"HTTP/1.1 {status} {PHRASES[status]}\r\nContent-Type: {kind}\r\n"
            f"Content-Length: {len(body)}\r\n{extra}{end}\r\n").encode() + body


def serve_connection(office, callers, connection):
    requests = Requests(connection)
    for count in range(1, LAST_REQUEST + 1):
        closes = count == LAST_REQUEST
        try:
            request = requests.next()
            if request is None:
                return
            closes = closes or request[4]
            said = 200, answer(office, callers, *request[:4]), ""
        except Refusal as refusal:
            closes = closes or refusal.rule <= 3
            said = refusal.status, refusal.text, refusal.extra
        connection.sendall(answer_bytes(*said, closes))
        if closes:
            return


def take(office, callers, connection):
    connection.settimeout(PATIENCE)
    with connection:
        try:
            serve_connection(office, callers, connection)
        except OSError:
            print("fault net", file=sys.stderr)


def serve(store, callers, day, port, count):
    with open(callers, "rb") as file:
        callers = tomllib.load(file)
    office = Office(store, day)
    office.open()
    with socket.create_server(("127.0.0.1", int(port))) as listener:
        for _ in range(int(count)):
            take(office, callers, listener.accept()[0])
    print(f"served {count}")


def init(store, rates):
    with open(rates, "rb") as file:
        rows = tomllib.load(file)["rate"]
    Office(store, None).create(
        [(month_number(row["from"]), row["contribution"], row["report_day"], row["due_day"],
          row["interest"], row["entitlement"]) for row in rows])


if __name__ == "__main__":
    {"init": init, "serve": serve}[sys.argv[1]](*sys.argv[2:])
