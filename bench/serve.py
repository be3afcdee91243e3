#!/usr/bin/env python3
"""Requests a second of the program beside a peer in Python, and what a request costs as the book grows.

    python3 bench/serve.py [PROGRAM] [--before PROGRAM] [--kinds owed,..] [--sizes 1000,10000,100000]
                           [--each 100] [--folder FOLDER]

The peer, bench/serve/peer.py, answers these requests in Python over its own sqlite3, and has none for new
rates, ends of memberships, assignments, reminders and the lines in suspense; another build of the program
takes its place where --before names one. The script starts both (the
built program, or the one named) on new stores in a temporary folder below FOLDER (/var/tmp, which must
lie on a disk), sends both the same requests over a keep-alive connection each, a new one after 1,000
requests, and compares status and body of all answers; at the first difference it tells it and ends.

The book grows by firms with eleven reports of 20 lines each, and a bank file of 100 lines for ten firms;
firms' numbers are drawn at random, so what is written lies all over the tables. At each size the servers
are stopped, and copies of their stores are opened and measured, so that the book has so many accepted
requests when that begins. The servers take turns of ten requests of a kind: what firms owe, statements of
firms drawn from the whole book (11 charges, 10 payments), the documents of such firms' workers (11 lines
of earnings), reports of further months, registrations; then the mix, which is growth as above with a query
after two of five commands; then claims of ten new firms that have reported every month (23 charges, 10 or
30 payments), releases of half of them and withdrawals of the others; then, over 100 new firms that have
reported 23 months and paid them by 30 payments, the report of the newest month of each, bank files of 100
lines, one for each of these firms, which pay a part of that month, and such files of interest, of which no
pieces are kept; then bank files of 100 lines for 100 firms of the book, on days drawn from all its months,
so that a payment moves those behind it. Where nearly 100,000 bank lines came in, more come until they are
past that, and bank files again. --kinds names those that are measured.

A first table has requests a second, in one after another, the client's own time included; a second one
the median milliseconds of a request by the clock; a third the processor time of the server's process,
which other work on the machine hardly moves. In the last two the ratio is to the first size.
"""
import argparse
import os
import platform
import random
import shutil
import sqlite3
import sys
import tempfile
import time
from concurrent.futures import ThreadPoolExecutor
from dataclasses import dataclass, field
from itertools import islice
from pathlib import Path
from statistics import median

sys.dont_write_bytecode = True
from server import HEADER, PROGRAM, Server, request  # noqa: E402

HERE = Path(__file__).resolve().parent
DAY = "2025-12-31"
MONTHS = [f"{year}-{month:02}" for year in (2024, 2025) for month in range(1, 13)]
# The first so many months of each firm are reported while the book grows.
REPORTED = 11
FIRMS = 10_000
LINES = 20
# So many months of each firm that claims are reported: none is missing on the day.
ALL_REPORTED = 23
# Commands that ten firms make: registrations, reports, a bank file.
BLOCK = 10 + 10 * REPORTED + 1
MIX_BLOCKS = 5
SLICE = 10
# Beyond so many bank lines ever the limit on lines in suspense isn't told from the serials.
MANY_LINES = 100_000
# In the order in which they are measured: bank files come last, since they make statements longer.
KINDS = ("owed", "statement", "worker", "report", "register", "mix", "claim", "release", "withdraw",
         "newest report", "newest payments", "newest interest", "import")
# Firms whose newest month is reported and paid: so many months and payments of each before.
NEWEST_FIRMS, NEWEST_MONTHS, NEWEST_PAYMENTS = 100, 23, 30
NEWEST_GROSS, NEWEST_CENTS = 350_000, 1_000
PAST = "import past 100,000 lines"


class Requests:
    """Requests drawn by a fixed seed, each a kind and its bytes."""

    def __init__(self):
        self.random = random.Random(2025)
        self.numbers = self.random.sample(range(1, 100_000_000), FIRMS)
        self.new = list(self.numbers)
        self.grown = []
        self.sent = self.lines = 0
        self.growth = self.commands()

    def keys(self):
        """The caller file: a clerk, and a key for each firm that there will be."""
        return "desk = 0\n" + "".join(f"k{no} = {no}\n" for no in self.numbers)

    def command(self, kind, path, key, body):
        self.sent += 1
        return kind, request("POST", path, key, self.sent, body)

    def register(self, no):
        body = f'{{"employer":{no},"name":"Bau {no} Nord","start":"2024-01"}}'
        return self.command("register", "/employers", "desk", body)

    def report(self, no, month):
        lines = ",".join(f'{{"gross":{self.random.randint(200_000, 400_000)},"worker":{no + place}}}'
                         for place in range(LINES))
        return self.command("report", f"/employers/{no}/reports/{month}", f"k{no}",
                            f'{{"lines":[{lines}]}}')

    def bank_file(self, firms):
        return self.command("import", "/bank", "desk", HEADER + "".join(map(self.line, firms)))

    def line(self, no):
        self.lines += 1
        day = f"{self.random.choice(MONTHS[1:22])}-{self.random.randint(1, 28):02}"
        cents = self.random.randint(1_000_000, 1_300_000)
        return f"R{self.lines:09},{day},{no},{cents},C,payment {self.lines}\n"

    def owed(self):
        no = self.random.choice(self.grown)
        return "owed", request("GET", f"/employers/{no}/owed", f"k{no}")

    def statement(self):
        no = self.random.choice(self.grown)
        return "statement", request("GET", f"/employers/{no}/statement", "desk")

    def worker(self):
        no = self.random.choice(self.grown) + self.random.randrange(LINES)
        return "worker", request("GET", f"/workers/{no}", "desk")

    def commands(self):
        """Commands without end, in blocks of ten firms."""
        while True:
            firms = [self.new.pop() for _ in range(10)]
            yield from (self.register(no) for no in firms)
            for month in MONTHS[:REPORTED]:
                yield from (self.report(no, month) for no in firms)
            yield self.bank_file(firms * 10)
            self.grown += firms

    def claiming(self):
        """Commands by which ten new firms join, report each month and pay: some too little, some more."""
        firms = [self.new.pop() for _ in range(10)]
        self.claimants = firms
        yield from (self.register(no) for no in firms)
        for month in MONTHS[:ALL_REPORTED]:
            yield from (self.report(no, month) for no in firms)
        yield self.bank_file(firms * 10 + firms[5:] * 20)

    def claim(self, place):
        no = self.claimants[place % 10]
        body = f'{{"cents":{self.random.randint(1_000, 50_000)},"worker":{no + place // 10 % LINES}}}'
        return self.command("claim", f"/employers/{no}/claims", f"k{no}", body)

    def release(self, place):
        return self.command("release", f"/claims/{place + 1}/release", "desk", "")

    def withdraw(self, place):
        no = self.claimants[place % 10]
        return self.command("withdraw", f"/employers/{no}/claims/{place + 1}/withdraw", f"k{no}", "")

    def newest_report(self, no, month):
        lines = ",".join(f'{{"gross":{NEWEST_GROSS},"worker":{no + place}}}' for place in range(LINES))
        return self.command("newest report", f"/employers/{no}/reports/{MONTHS[month]}", f"k{no}",
                            f'{{"lines":[{lines}]}}')

    def newest_line(self, no, day, cents, purpose="C"):
        self.lines += 1
        return f"N{self.lines:09},{day},{no},{cents},{purpose},\n"

    def newest_file(self, kind, purpose):
        return self.command(kind, "/bank", "desk", HEADER + "".join(
            self.newest_line(no, DAY, NEWEST_CENTS, purpose) for no in self.payers))

    def paying(self):
        """Commands by which new firms join, report all months but the newest, and pay them to the cent."""
        self.payers = [self.new.pop() for _ in range(NEWEST_FIRMS)]
        yield from (self.register(no) for no in self.payers)
        for month in range(NEWEST_MONTHS):
            yield from (self.newest_report(no, month) for no in self.payers)
        # (20 % of the wages of the first twelve months, and 19 % of the others)
        owed = LINES * NEWEST_GROSS * (12 * 20 + (NEWEST_MONTHS - 12) * 19) // 100
        each = owed // NEWEST_PAYMENTS
        for place in range(NEWEST_PAYMENTS):
            day = f"{MONTHS[1 + place * NEWEST_MONTHS // NEWEST_PAYMENTS]}-21"
            cents = each if place else owed - each * (NEWEST_PAYMENTS - 1)
            lines = "".join(self.newest_line(no, day, cents) for no in self.payers)
            yield self.command("newest payments", "/bank", "desk", HEADER + lines)

    def mix(self):
        for command in islice(self.commands(), MIX_BLOCKS * BLOCK):
            yield command
            if self.random.random() < 0.4:
                yield self.random.choice((self.owed, self.statement))()

    def of_kind(self, kind, count):
        if kind == "owed":
            return [self.owed() for _ in range(count)]
        if kind == "statement":
            return [self.statement() for _ in range(count)]
        if kind == "worker":
            return [self.worker() for _ in range(count)]
        if kind == "register":
            return [self.register(self.new.pop()) for _ in range(count)]
        if kind == "mix":
            return list(self.mix())
        if kind == "claim":
            return [self.claim(place) for place in range(2 * count)]
        if kind == "release":
            return [self.release(place) for place in range(count)]
        if kind == "withdraw":
            return [self.withdraw(place) for place in range(count, 2 * count)]
        if kind == "newest report":
            return [self.newest_report(no, NEWEST_MONTHS) for no in self.payers]
        if kind in ("newest payments", "newest interest"):
            purpose = "C" if kind == "newest payments" else "I"
            return [self.newest_file(kind, purpose) for _ in range(max(count // SLICE, 1))]
        if kind == "import":
            return [self.bank_file(self.random.choices(self.grown, k=100)) for _ in range(count)]
        months = self.random.sample(range(len(self.grown) * (24 - REPORTED)), count)
        return [self.report(self.grown[place // (24 - REPORTED)],
                            MONTHS[REPORTED + place % (24 - REPORTED)]) for place in months]

    def many_lines(self):
        """Bank files until more than 100,000 lines came in, where that is not far."""
        files = []
        while 0.8 * MANY_LINES < self.lines <= MANY_LINES:
            files.append(self.bank_file(self.random.choices(self.grown, k=10_000)))
        return files


@dataclass
class Taken:
    """What a server took for some requests."""
    seconds: list = field(default_factory=list)
    processor: float = 0.0

    def take(self, server, requests):
        begun = server.processor_seconds()
        answers = []
        for _, data in requests:
            start = time.perf_counter()
            answers.append(server.ask(data))
            self.seconds.append(time.perf_counter() - start)
        self.processor += server.processor_seconds() - begun
        return answers

    def rate(self):
        return len(self.seconds) / sum(self.seconds)

    def milliseconds(self):
        return median(self.seconds) * 1000

    def processor_milliseconds(self):
        return self.processor / len(self.seconds) * 1000


class Comparison:
    """Counts equal answers, and ends at the first that differ, or that refuse what isn't odd."""

    def __init__(self, servers):
        self.names, self.equal = [server.name for server in servers], 0

    def add(self, requests, answers, others):
        for (kind, data), answer, other in zip(requests, answers, others, strict=True):
            if answer != other:
                sys.exit(self.difference(kind, data, b"\n".join(answer), b"\n".join(other)))
            if kind != "odd" and answer[0] != b"HTTP/1.1 200 OK":
                sys.exit(f"{kind}: both refuse {data[:400]!r}: {answer}")
            self.equal += 1

    def difference(self, kind, data, answer, other):
        place = next((place for place, (one, two) in enumerate(zip(answer, other)) if one != two),
                     min(len(answer), len(other)))
        parts = [f"{name}: .. {text[max(0, place - 60):place + 100]!r}"
                 for name, text in zip(self.names, (answer, other))]
        return "\n".join([f"{kind}: the answers to {data[:400]!r} differ at byte {place}", *parts])


def odd_requests():
    """Requests of which most are refused, each for another reason, for a new office."""
    firm = '{"employer":1001,"name":"Bau Nord","start":"2024-02"}'
    lines = '{"lines":[{"gross":1000000,"worker":7}]}'
    twice = '{"lines":[{"gross":1,"worker":7},{"gross":1,"worker":7}]}'
    gross = '{"lines":[{"gross":10000001,"worker":7}]}'
    report, file = "/employers/1001/reports/2024-0", HEADER + "B1,2024-02-25,1001,150000,C,\n"
    rows = [
        ("POST", report + "2", "desk", 1, lines), ("POST", "/employers", "desk", 1, firm),
        ("POST", "/employers", "desk", 1, firm), ("POST", "/employers", "desk", 2, firm),
        ("POST", report + "2", "desk", 1, lines), ("POST", report + "2", "nobody", 2, lines),
        ("POST", report + "1", "desk", 2, lines), ("POST", report + "2", "desk", 2, twice),
        ("POST", report + "2", "desk", 2, gross), ("POST", report + "2", "desk", 0, lines),
        ("POST", report + "2", "desk", 2, "[]"), ("POST", report + "2", "desk", 2, '{"lines":7}'),
        ("POST", report + "2", "desk", 2, lines), ("POST", report + "2", "desk", 2, lines),
        ("POST", report + "2", "desk", 3, lines), ("POST", report + "0", "desk", 3, lines),
        ("POST", "/employers/1001/reports/2026-01", "desk", 3, lines),
        ("POST", "/bank", "desk", 3, file), ("POST", "/bank", "desk", 3, file),
        ("POST", "/bank", "desk", 4, file), ("POST", "/bank", "desk", 5, file + "B1,2024-02-25,,1,,\n"),
        ("POST", "/bank", "desk", 5, HEADER + "B2,2026-01-01,,1,,\n"),
        ("POST", "/bank", "desk", 5, HEADER + "B2,2024-02-30,,1,,\n"),
        ("POST", "/bank", "desk", 5, HEADER + "B2,2024-02-25,,1,,one,more\n"),
        ("POST", "/bank", "desk", 5, HEADER + "B3,2024-02-25,,1,I,nobody's\n"),
        ("GET", "/employers/1001/owed", "k1", None, ""), ("GET", "/suspense/1", "desk", None, ""),
        ("GET", "/employers/1002/owed", "desk", None, ""), ("GET", "/bank", "desk", None, ""),
        ("GET", "/employers/1001/statement", "desk", None, ""),
        *odd_claims(),
    ]
    return [("odd", request(*row)) for row in rows]


def odd_claims():
    """Claims, withdrawals and releases behind those: of a firm that owes both, and then nothing."""
    firm = '{"employer":1003,"name":"Bau Ost","start":"2025-11"}'
    other = '{"employer":1,"name":"x","start":"2025-12"}'
    lines = '{"lines":[{"gross":1000000,"worker":7},{"gross":0,"worker":8}]}'
    claims, line = "/employers/1003/claims", "C1,2025-12-21,1003,150000,,\n"

    def claim(cents, worker=7):
        return f'{{"cents":{cents},"worker":{worker}}}'

    return [
        ("POST", "/employers", "desk", 20, firm), ("POST", "/employers", "desk", 21, other),
        ("POST", claims, "desk", 22, claim(1)), ("POST", "/bank", "desk", 22, HEADER + line),
        ("POST", "/employers/1003/reports/2025-11", "desk", 23, lines),
        ("POST", claims, "desk", 24, claim(1, 8)), ("POST", claims, "desk", 24, claim(0)),
        ("POST", claims, "desk", 24, '{"worker":7}'), ("POST", claims, "desk", 24, claim(1, '7,"a":1')),
        ("POST", claims, "desk", 24, claim(300_000)), ("POST", claims, "k1", 24, claim(1)),
        ("POST", claims, "desk", 24, claim(50_000)), ("POST", claims, "desk", 24, claim(50_000)),
        ("POST", claims, "desk", 25, claim(50_000)), ("POST", claims, "desk", 26, claim(200_000)),
        ("POST", "/employers/1/claims/1/withdraw", "k1", 1, ""), ("GET", claims, "desk", None, ""),
        ("POST", claims + "/3/withdraw", "desk", 26, ""), ("POST", claims + "/1/withdraw", "desk", 26, " "),
        ("POST", claims + "/0/withdraw", "desk", 26, ""), ("POST", "/claims/1/release", "k1", 2, ""),
        ("POST", "/claims/1/release", "desk", 26, "{}"), ("POST", "/claims/50000001/release", "desk", 26, ""),
        ("POST", "/claims/50000000/release", "desk", 26, ""), ("POST", "/claims/1/release", "desk", 26, ""),
        ("POST", "/claims/1/release", "desk", 26, ""), ("GET", "/employers/1003/statement", "desk", None, ""),
        ("POST", "/claims/1/release", "desk", 27, ""), ("POST", claims + "/1/withdraw", "desk", 27, ""),
        ("POST", claims + "/2/withdraw", "desk", 27, ""), ("POST", "/claims/2/release", "desk", 28, ""),
        ("POST", claims, "desk", 29, claim(50_000)), ("POST", "/claims/3/release", "desk", 30, ""),
        ("GET", "/employers/1003/owed", "desk", None, ""),
        ("GET", "/employers/1003/statement", "desk", None, ""),
        *odd_payouts(),
    ]


def odd_payouts():
    """Payout lists behind those, and the documents of lists and workers."""
    return [
        ("GET", "/payouts/1", "desk", None, ""), ("POST", "/payouts", "k1", 3, ""),
        ("POST", "/payouts", "desk", 40, " "), ("POST", "/payouts", "desk", 0, ""),
        ("POST", "/payouts", "desk", 40, ""), ("POST", "/payouts", "desk", 40, ""),
        ("POST", "/payouts", "desk", 41, ""), ("POST", "/payouts", "desk", 29, ""),
        ("GET", "/payouts/1", "desk", None, ""), ("GET", "/payouts/1", "k1", None, ""),
        ("GET", "/payouts/0", "desk", None, ""), ("GET", "/payouts/2", "desk", None, ""),
        ("POST", "/payouts/1", "desk", 41, ""), ("GET", "/payouts", "desk", None, ""),
        ("GET", "/payouts/50000000", "desk", None, ""), ("GET", "/payouts/50000001", "desk", None, ""),
        ("GET", "/workers/7", "desk", None, ""), ("GET", "/workers/8", "desk", None, ""),
        ("GET", "/workers/9", "desk", None, ""), ("GET", "/workers/7", "k1", None, ""),
        ("GET", "/workers/07", "desk", None, ""), ("GET", "/workers/999999999", "desk", None, ""),
        ("GET", "/workers/1000000000", "desk", None, ""), ("POST", "/workers/7", "desk", 41, ""),
    ]


def send_both(servers, comparison, requests):
    """Sends requests to both servers at once, without measuring."""
    with ThreadPoolExecutor(len(servers)) as pool:
        answers = pool.map(lambda server: [server.ask(data) for _, data in requests], servers)
        comparison.add(requests, *answers)


def grow(servers, comparison, requests, count):
    """Sends so many commands."""
    stream = islice(requests.growth, count)
    while part := list(islice(stream, 1_000)):
        send_both(servers, comparison, part)


def measure(servers, comparison, requests):
    """What each server takes for the requests, slice by slice in turns; of a few, one by one."""
    taken = [Taken() for _ in servers]
    size = SLICE if len(requests) > SLICE else 1
    for begin in range(0, len(requests), size):
        part = requests[begin:begin + size]
        first = begin // size % 2
        answers = {place: taken[place].take(servers[place], part) for place in (first, 1 - first)}
        comparison.add(part, answers[0], answers[1])
    return taken


# What is sent ahead of the first of some kinds, which isn't measured.
AHEAD = {"claim": Requests.claiming, "newest report": Requests.paying}
# Kinds that build on others.
BEHIND = {"release": "claim", "withdraw": "claim", "newest payments": "newest report",
          "newest interest": "newest report"}


def measure_copies(servers, comparison, requests, options, folder):
    """By kind what each server takes on a copy of its store, and how long it took to start."""
    copies = [server.copy(os.path.join(folder, "copy-" + server.name)) for server in servers]
    grown, lines = len(requests.grown), requests.lines
    taken = {"start": [Taken([server.start()]) for server in copies]}
    needed = {*options.kinds, *(BEHIND[kind] for kind in options.kinds if kind in BEHIND)}
    for kind in (kind for kind in KINDS if kind in needed):
        if kind in AHEAD:
            send_both(copies, comparison, list(AHEAD[kind](requests)))
        taken[kind] = measure(copies, comparison, requests.of_kind(kind, options.each))
    if "import" in needed and (files := requests.many_lines()):
        send_both(copies, comparison, files)
        taken[PAST] = measure(copies, comparison, requests.of_kind("import", options.each))
    del requests.grown[grown:]
    requests.lines = lines
    for server in copies:
        server.stop()
        shutil.rmtree(server.folder)
    return taken


def run(servers, comparison, requests, options, folder):
    """The figures by size and kind."""
    figures, count = {}, 0
    for server in servers:
        server.init()
    for size in options.sizes:
        for server in servers:
            server.start()
        begun = time.perf_counter()
        grow(servers, comparison, requests, size - count)
        tell(f"{size} accepted requests after {time.perf_counter() - begun:.0f} s more")
        for server in servers:
            server.stop()
        count = size
        figures[size] = measure_copies(servers, comparison, requests, options, folder)
        tell(f"measured, {comparison.equal} answers equal")
    return figures


def check_odd_requests(options, folder):
    """Both servers judge alike, on new stores."""
    servers = contenders(options, folder, "desk = 0\nk1 = 1\n")
    comparison = Comparison(servers)
    for server in servers:
        server.init()
        server.start()
    for odd in odd_requests():
        send_both(servers, comparison, [odd])
    for server in servers:
        server.stop()
    tell(f"{comparison.equal} answers to odd requests equal")


def contenders(options, folder, keys):
    other = ("before", options.before) if options.before else ("peer", HERE / "serve/peer.py")
    return [Server(name, os.path.abspath(path), os.path.join(folder, name), DAY, keys)
            for name, path in (("program", options.program), other)]


def tell(line):
    print(line, file=sys.stderr, flush=True)


def row(*cells):
    print("| " + " | ".join(map(str, cells)) + " |")


def print_rates(names, kinds, figures):
    print("\nRequests a second\n")
    heads = [f"{size:,}: {name}" for size in figures for name in (*names, "ratio")]
    row("Request", *heads)
    row(*["---"] * (1 + len(heads)))
    for kind in kinds:
        cells = []
        for taken in figures.values():
            program, other = (one.rate() for one in taken[kind])
            cells += [f"{program:,.0f}", f"{other:,.0f}", f"{program / other:.2f}"]
        row(kind, *cells)


def print_growth(title, names, figures, kinds, value):
    """Each kind's milliseconds at each size, and their ratios to the first size."""
    print(f"\n{title}\n")
    heads = [head for size in list(figures)[1:] for head in (f"{size:,}", "ratio")]
    row("Request", "Server", f"{list(figures)[0]:,}", *heads)
    row(*["---"] * (3 + len(heads)))
    for kind in kinds:
        for place, name in enumerate(names):
            first, *others = (value(taken[kind][place]) for taken in figures.values())
            cells = [cell for other in others for cell in (f"{other:.2f}", f"{other / first:.2f}")]
            row(kind, name, f"{first:.2f}", *cells)


def print_past(names, figures):
    """Bank files where more than 100,000 bank lines came in, beside those before them."""
    for size, taken in figures.items():
        for place, name in enumerate(names):
            if PAST in taken:
                print(f"\n{name}, {size:,}: {PAST} {taken[PAST][place].milliseconds():.2f} ms, "
                      f"before {taken['import'][place].milliseconds():.2f} ms")


def sync_milliseconds(folder):
    """The median of 200 writes of 4,096 bytes with a sync each."""
    times = []
    with tempfile.TemporaryFile(dir=folder, buffering=0) as file:
        for _ in range(200):
            begun = time.perf_counter()
            file.write(bytes(4096))
            os.fdatasync(file.fileno())
            times.append(time.perf_counter() - begun)
    return median(times) * 1000


def print_machine(folder):
    with open("/proc/cpuinfo") as file:
        model = next(line.split(":")[1].strip() for line in file if line.startswith("model name"))
    with open("/proc/mounts") as file:
        mounts = [line.split()[:3] for line in file]
    device, _, system = max((mount for mount in mounts if folder.startswith(mount[1])),
                            key=lambda mount: len(mount[1]))
    print(f"{os.cpu_count()} processors ({model}), kernel {platform.release()}, {system} on {device}, "
          f"a sync of 4,096 bytes {sync_milliseconds(folder):.2f} ms; Python "
          f"{platform.python_version()}, its SQLite {sqlite3.sqlite_version}; load at the beginning "
          f"{os.getloadavg()[0]:.1f}")


def read_options():
    parser = argparse.ArgumentParser(description=__doc__.splitlines()[0])
    parser.add_argument("program", nargs="?", default=PROGRAM)
    parser.add_argument("--before")
    parser.add_argument("--kinds", default=KINDS, type=lambda text: text.split(","))
    parser.add_argument("--sizes", default=[1_000, 10_000, 100_000],
                        type=lambda text: [int(size) for size in text.split(",")])
    parser.add_argument("--each", type=int, default=100)
    parser.add_argument("--folder", default="/var/tmp")
    return parser.parse_args()


def main():
    options = read_options()
    print_machine(os.path.realpath(options.folder))
    with tempfile.TemporaryDirectory(dir=options.folder) as folder:
        check_odd_requests(options, os.path.join(folder, "odd"))
        requests = Requests()
        servers = contenders(options, folder, requests.keys())
        comparison = Comparison(servers)
        figures = run(servers, comparison, requests, options, folder)
    print(f"{comparison.equal:,} answers of both are equal.")
    names, kinds = [server.name for server in servers], [kind for kind in KINDS if kind in options.kinds]
    print_rates(names, kinds, figures)
    print_growth("Milliseconds of a request, by the clock", names, figures, ("start", *kinds),
                 Taken.milliseconds)
    print_growth("Milliseconds of a request, processor time of the server", names, figures,
                 kinds, Taken.processor_milliseconds)
    print_past(names, figures)


if __name__ == "__main__":
    main()
