#!/usr/bin/env python3
"""Kills the server again and again, and looks whether all that it acknowledged is there.

    python3 bench/kill.py [PROGRAM] [--times 100] [--seed 1] [--folder FOLDER]

It makes a store in a temporary folder below FOLDER (/var/tmp, which must lie on a disk), starts the built
program (or the one named) on it, and sends registrations, reports and bank files, each drawn by the seed.
In each round the server is killed by SIGKILL after some forty of them at most: between two requests, in
the middle of sending one, or at some moment after one was sent whole; in every fifth round once more
while it opens the store. Then it is started again on the same store. What the firms of the round owe
must be what the acknowledged requests make, where the one request in flight may be done or not. That one
is sent again, and must have its reply. The number of each acknowledged request must stand: another
request under it, which would be refused anyway, must be told so. Then the request itself is sent again
and must have the reply that it had, byte for byte. At the end all rounds' requests are looked for so.

A kill shows what becomes of a process that ends at any moment. It doesn't show what a disk loses that
loses its power: what was written is in the system's memory then, whether it was synced or not.

It prints how many rounds there were, how many requests were acknowledged, how many of them were found
and how many lost, and what became of the requests in flight; then what `sqlite3` says of the store's
integrity, if there is that command. If anything is lost or wrong, the status is 1; so it is where no
request in flight was found done, or none was found not done, since the kills then came at no moment that matters.
"""
import argparse
import json
import os
import random
import shutil
import subprocess
import sys
import tempfile
import time
from dataclasses import dataclass, field

sys.dont_write_bytecode = True
from server import HEADER, PROGRAM, Server, request  # noqa: E402

DAY = "2025-12-31"
OK = b"HTTP/1.1 200 OK"
MONTHS = [(year, month) for year in (2024, 2025) for month in range(1, 13)]
ROUND = 40


@dataclass
class Firm:
    """What a firm has by the requests that were done: its months, its charges with their due days."""
    months: int = 0
    charges: list = field(default_factory=list)
    credited: int = 0

    def owed(self):
        """The body of what it owes."""
        charged = sum(cents for _, cents in self.charges)
        due = sum(cents for day, cents in self.charges if day < DAY)
        said = {"arrears": max(0, due - self.credited), "charged": charged,
                "credited": self.credited, "prepaid": max(0, self.credited - charged)}
        return json.dumps(said, separators=(",", ":")).encode()


@dataclass
class Command:
    """A command: its kind, number and bytes, its firms, and what it does to each of them."""
    kind: str
    number: int
    data: bytes
    firms: list
    change: object
    reply: tuple = None


class Book:
    """Draws commands, and knows what those that were done make of the firms."""

    def __init__(self, seed):
        self.random = random.Random(seed)
        self.firms, self.done = {}, []
        self.sent = self.lines = 0
        # How many seconds a command of a kind took last, and the opening of the store.
        self.pace = {}

    def draw(self):
        self.sent += 1
        open_firms = [no for no, firm in self.firms.items() if firm.months < len(MONTHS)]
        kind = self.random.random()
        if not open_firms or kind < 0.1:
            return self.registration(1000 + self.sent)
        if kind < 0.8:
            return self.report(self.random.choice(open_firms))
        return self.bank_file(self.random.choices(list(self.firms), k=self.random.randint(1, 100)))

    def command(self, kind, path, body, firms, change):
        data = request("POST", path, "desk", self.sent, body)
        return Command(kind, self.sent, data, firms, change)

    def registration(self, no):
        body = f'{{"employer":{no},"name":"Bau {no}","start":"2024-01"}}'
        return self.command("register", "/employers", body, [no], lambda no, firm: None)

    def report(self, no):
        year, month = MONTHS[self.firms[no].months]
        gross = [self.random.randint(100, 500_000) for _ in range(self.random.randint(1, 20))]
        lines = ",".join(f'{{"gross":{cents},"worker":{place}}}'
                         for place, cents in enumerate(gross, 1))
        cents = (sum(gross) * (2000 if year == 2024 else 1900) + 5000) // 10000
        due = f"{year + month // 12}-{month % 12 + 1:02}-20"

        def change(_, firm):
            firm.months += 1
            firm.charges.append((due, cents))
        path = f"/employers/{no}/reports/{year}-{month:02}"
        return self.command("report", path, f'{{"lines":[{lines}]}}', [no], change)

    def bank_file(self, firms):
        rows, cents = [], dict.fromkeys(firms, 0)
        for no in firms:
            self.lines += 1
            paid = self.random.randint(1, 1_000_000)
            cents[no] += paid
            rows.append(f"R{self.lines},2025-{self.lines % 12 + 1:02}-10,{no},{paid},C,\n")

        def change(no, firm):
            firm.credited += cents[no]
        return self.command("import", "/bank", HEADER + "".join(rows), list(cents), change)

    def moment(self, kind):
        """A moment while a command of the kind, or the opening, is under way or just done."""
        return self.random.uniform(0, 1.2 * self.pace.get(kind, 0.001))

    def note(self, command, reply):
        """Notes that a command was done and had this reply."""
        if reply[0] != OK:
            sys.exit(f"refused: {command.data[:200]!r}: {reply}")
        for no in command.firms:
            command.change(no, self.firms.setdefault(no, Firm()))
        command.reply = reply
        self.done.append(command)


def owed(server, no):
    status, body = server.ask(request("GET", f"/employers/{no}/owed", "desk"))
    return body if status == OK else None


def is_kept(server, command):
    """Whether a command stands under its number: nobody's report is refused for that, or anyway."""
    other = request("POST", "/employers/99999999/reports/2024-01", "desk", command.number,
                    '{"lines":[]}')
    name = json.loads(server.ask(other)[1])["name"]
    return {"NumberReused": True, "UnknownEmployer": False}[name]


def stands(server, book, firms):
    """Whether these firms owe what was done."""
    return all(owed(server, no) == (book.firms[no].owed() if no in book.firms else None)
               for no in firms)


def strike(server, book):
    """Kills the server at some moment. Gives the command in flight that wasn't acknowledged, if any."""
    moment = book.random.random()
    if moment < 0.2:
        server.stop()
        return None
    command = book.draw()
    if moment < 0.4:
        server.send(command.data[:book.random.randrange(1, len(command.data))])
    else:
        server.send(command.data)
        time.sleep(book.moment(command.kind))
    server.process.kill()
    server.process.wait()
    reply = last_answer(server)
    server.part()
    if reply is None:
        return command
    book.note(command, reply)
    return None


def last_answer(server):
    """The answer that was on its way, if it came whole."""
    try:
        return server.answer()
    except ConnectionError:
        return None


def restart(server, book, number):
    if number % 5 == 0:
        server.launch()
        time.sleep(book.moment("open"))
        server.stop()
    book.pace["open"] = server.start()


class Tally:
    """What was found, and what became of the commands in flight."""

    def __init__(self):
        self.found, self.wrong = 0, []
        self.flights = {"done": 0, "not done": 0}

    def settle(self, server, book, command):
        """Tells whether the command in flight was done, sends it again, and then it is to be found."""
        was_done = is_kept(server, command)
        self.flights["done" if was_done else "not done"] += 1
        if not was_done:
            self.look(server, book, command.firms)
        book.note(command, server.ask(command.data))
        self.look(server, book, command.firms)
        return self.find(server, [command])

    def look(self, server, book, firms):
        if not stands(server, book, firms):
            self.wrong.append(f"what is owed isn't what was done: one of the firms {sorted(firms)}")

    def find(self, server, commands):
        """How many of the acknowledged commands are there. One that is lost is done anew."""
        found = 0
        for command in commands:
            was_kept = is_kept(server, command)
            if server.ask(command.data) == command.reply and was_kept:
                found += 1
            else:
                self.wrong.append(f"lost: {command.data[:200]!r}")
        return found


def play(server, book, tally, number):
    """A round: some commands, a kill, and a look at what is there."""
    first = len(book.done)
    for _ in range(book.random.randrange(ROUND)):
        command = book.draw()
        begun = time.perf_counter()
        book.note(command, server.ask(command.data))
        book.pace[command.kind] = time.perf_counter() - begun
    flying = strike(server, book)
    restart(server, book, number)
    firms = {no for command in book.done[first:] for no in command.firms}
    tally.look(server, book, firms.difference(flying.firms if flying else ()))
    tally.found += tally.find(server, book.done[first:])
    if flying:
        tally.found += tally.settle(server, book, flying)
    tally.look(server, book, firms)


def end(server, book, tally):
    """All that was ever acknowledged, and the integrity of the store, which the server closes itself."""
    tally.find(server, book.done)
    tally.look(server, book, book.firms)
    server.stop()
    server.start(connections=1)
    tally.look(server, book, list(book.firms)[:1])
    server.part()
    if server.process.wait(60) != 0:
        tally.wrong.append("the server didn't end by itself")
    if shutil.which("sqlite3"):
        said = subprocess.run(["sqlite3", server.store(), "PRAGMA integrity_check"],
                              capture_output=True, text=True)
        print("integrity:", (said.stdout + said.stderr).strip())
        if said.stdout != "ok\n":
            tally.wrong.append("the store isn't whole")


def read_options():
    parser = argparse.ArgumentParser(description=__doc__.splitlines()[0])
    parser.add_argument("program", nargs="?", default=PROGRAM)
    parser.add_argument("--times", type=int, default=100)
    parser.add_argument("--seed", type=int, default=1)
    parser.add_argument("--folder", default="/var/tmp")
    return parser.parse_args()


def main():
    options = read_options()
    book, tally = Book(options.seed), Tally()
    with tempfile.TemporaryDirectory(dir=options.folder) as folder:
        server = Server("program", str(options.program), os.path.join(folder, "program"), DAY,
                        "desk = 0\n")
        server.init()
        server.start()
        for number in range(1, options.times + 1):
            play(server, book, tally, number)
        end(server, book, tally)
    print(f"{options.times} rounds, {len(book.done)} acknowledged requests, {tally.found} found, "
          f"{len(book.done) - tally.found} lost; in flight {tally.flights['done']} done, "
          f"{tally.flights['not done']} not done")
    for outcome, count in tally.flights.items():
        if count == 0:
            tally.wrong.append(f"no request in flight was found {outcome}")
    for line in tally.wrong[:20]:
        print(line)
    sys.exit(1 if tally.wrong else 0)


if __name__ == "__main__":
    main()
