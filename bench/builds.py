#!/usr/bin/env python3
"""What requests take with one build of the program beside another, over books that the same requests made.

    python3 bench/builds.py BEFORE AFTER [--shapes 12x20x12,24x20x30,100x300x100] [--firms 100] [--each 100] [--folder FOLDER]

A shape is a firm's months, its workers and its payments: 100 firms of that shape are filled into a new store of each build, with
the same requests; the payments leave a part of the newest month open. Then, in turns of ten: what firms owe, their statements, a
report of a further month, and a bank file of 100 lines for 100 firms, dated on the day, of which each pays a part of the newest
months; last, one reminder run. All answers of both builds are compared; at the first difference it ends. The table has the
milliseconds of a request by the processor time of the server's process, how many times as much the first build takes, and the
requests a second by the clock, the client's own time and the disk's included.

The files lie below FOLDER, /dev/shm where there is one, so that the figures are the program's and not the disk's; to have the
disk's part, name a folder on one.
"""
import argparse
import os
import random
import sys
import tempfile
import time

sys.dont_write_bytecode = True
from serve import row  # noqa: E402
from server import HEADER, MEMORY, Server, request  # noqa: E402
from suspense import FILE, FIRST  # noqa: E402

SLICE = 10
KINDS = ("owed", "statement", "report", "import", "reminders")
GROSS = 350_000


def month_name(place):
    return f"{2024 + place // 12}-{place % 12 + 1:02}"


def contribution(place, workers):
    """At the rates of server.RATES."""
    return workers * GROSS * (20 if place < 12 else 19) // 100


class Book:
    """The requests of one shape, drawn by a fixed seed."""

    def __init__(self, shape, firms):
        self.months, self.workers, self.payments = (int(part) for part in shape.split("x"))
        self.firms = list(range(FIRST, FIRST + firms))
        self.day = f"{month_name(self.months + 2)}-28"
        self.random, self.sent, self.lines = random.Random(shape), 0, 0

    def post(self, path, body):
        self.sent += 1
        return request("POST", path, "desk", self.sent, body)

    def report(self, no, place):
        lines = ",".join(f'{{"gross":{GROSS},"worker":{worker}}}' for worker in range(1, self.workers + 1))
        return self.post(f"/employers/{no}/reports/{month_name(place)}", f'{{"lines":[{lines}]}}')

    def line(self, no, day, cents):
        self.lines += 1
        return f"B{self.lines},{day},{no},{cents},C,\n"

    def filling(self):
        owed = sum(contribution(place, self.workers) for place in range(self.months))
        each = (owed - contribution(self.months - 1, self.workers) // 2) // self.payments
        for no in self.firms:
            yield self.post("/employers", f'{{"employer":{no},"name":"Bau {no}","start":"2024-01"}}')
            yield from (self.report(no, place) for place in range(self.months))
        lines = [self.line(no, f"{month_name(1 + place * self.months // self.payments)}-21", each)
                 for no in self.firms for place in range(self.payments)]
        for first in range(0, len(lines), FILE):
            yield self.post("/bank", HEADER + "".join(lines[first:first + FILE]))

    def of_kind(self, kind, count):
        """Requests of a kind. Each firm makes one further report at most."""
        if kind == "reminders":
            return [self.post("/reminders", "")]
        if kind == "report":
            return [self.report(no, self.months) for no in self.random.sample(self.firms, min(count, len(self.firms)))]
        if kind == "import":
            return [self.post("/bank", HEADER + "".join(self.line(no, self.day, 1_000) for no in self.firms[:100]))
                    for _ in range(max(count // SLICE, 1))]
        return [request("GET", f"/employers/{no}/{kind}", "desk") for no in self.random.choices(self.firms, k=count)]


def same(kind, requests, answers):
    for data, one, other in zip(requests, *answers, strict=True):
        if one != other:
            sys.exit(f"{kind}: the answers to {data[:300]!r} differ: {one} and {other}")
        if one[0] != b"HTTP/1.1 200 OK":
            sys.exit(f"{kind}: {data[:300]!r} is refused: {one}")


def measured(servers, kind, requests):
    """The milliseconds of a request with each build, in turns, and the requests a second."""
    taken, passed = [0.0 for _ in servers], [0.0 for _ in servers]
    for first in range(0, len(requests), SLICE):
        part, answers = requests[first:first + SLICE], []
        for place, server in enumerate(servers):
            begun, start = server.processor_seconds(), time.perf_counter()
            answers.append([server.ask(data) for data in part])
            passed[place] += time.perf_counter() - start
            taken[place] += server.processor_seconds() - begun
        same(kind, part, answers)
    return [1000 * seconds / len(requests) for seconds in taken], [len(requests) / seconds for seconds in passed]


def measure(shape, programs, folder, options):
    book = Book(shape, options.firms)
    servers = [Server(name, program, os.path.join(folder, f"{shape}-{name}"), book.day, "desk = 0\n")
               for name, program in programs]
    for server in servers:
        server.init()
        server.start()
    for data in book.filling():
        same("filling", [data], [[server.ask(data)] for server in servers])
    for kind in KINDS:
        (before, after), rates = measured(servers, kind, book.of_kind(kind, options.each))
        row(shape, kind, f"{before:.3f}", f"{after:.3f}", f"{before / after:.2f}", *(f"{rate:,.0f}" for rate in rates))
    for server in servers:
        server.stop()


def main():
    words = argparse.ArgumentParser(description=__doc__.split("\n")[0])
    words.add_argument("before")
    words.add_argument("after")
    words.add_argument("--shapes", default="12x20x12,24x20x30,100x300x100")
    words.add_argument("--firms", type=int, default=100)
    words.add_argument("--each", type=int, default=100)
    words.add_argument("--folder", default=MEMORY)
    options = words.parse_args()
    programs = [("before", os.path.abspath(options.before)), ("after", os.path.abspath(options.after))]
    row("months x workers x payments", "request", "before, ms", "after, ms", "times", "before, a second", "after, a second")
    print("|---" * 7 + "|", flush=True)
    with tempfile.TemporaryDirectory(dir=options.folder) as folder:
        for shape in options.shapes.split(","):
            measure(shape, programs, folder, options)


if __name__ == "__main__":
    main()
