#!/usr/bin/env python3
"""What the documents of payout lists and of workers take, of the program beside a peer in Python: time and memory.

    python3 bench/documents.py [PROGRAM] [--lists 1000,10000] [--months 2400] [--repeats 10] [--folder FOLDER]

PROGRAM is the built program where none is named; the peer is bench/serve/peer.py. Both get the same requests on new
stores, and what they answer is compared. For a payout list, firms of 500 workers each report a first month, which isn't
due yet, claim for so many of the workers, and a clerk releases all claims and puts them on one list. For a worker, one
firm reports so many months from 2000-01 on, and claims once for its one worker.

Then each document is asked for ten times if no other number is given, the program and the peer in turns. A table
has, for each, its lines and its kilobytes, the least milliseconds of an answer by the processor time of the server's
process and by the clock, which has the client's part in it, and the kilobytes by which the process grew at most to
give one: its memory grows with the first answer, and is then used again.

The files lie below FOLDER, /dev/shm where there is one, so that the figures are the program's and not the disk's.
"""
import os
import sys
import tempfile
import time
from pathlib import Path

sys.dont_write_bytecode = True
from serve import row  # noqa: E402
from server import RATES, Server, option_parser, request  # noqa: E402

HERE = Path(__file__).resolve().parent
PEER = HERE / "serve/peer.py"
# The most lines that a report may have, so the workers of a firm.
WORKERS = 500
# Nothing that is reported of January is due, and no month is missing.
LIST_DAY = "2024-01-31"
# Each month that there is may be reported.
WORKER_DAY = "2200-12-31"
WORKER = 7


class Requests:
    """The requests of one caller under numbers that rise."""

    def __init__(self):
        self.sent = 0

    def post(self, path, body=""):
        self.sent += 1
        return request("POST", path, "desk", self.sent, body)

    def register(self, no, start):
        return self.post("/employers", f'{{"employer":{no},"name":"Bau {no}","start":"{start}"}}')

    def report(self, no, month, workers):
        lines = ",".join(f'{{"gross":350000,"worker":{worker}}}' for worker in workers)
        return self.post(f"/employers/{no}/reports/{month}", f'{{"lines":[{lines}]}}')

    def claim(self, no, worker):
        return self.post(f"/employers/{no}/claims", f'{{"cents":40000,"worker":{worker}}}')

    def list_of(self, count):
        """All that leads to a payout list of so many claims."""
        firms = range(1_000, 1_000 * (1 + -(-count // WORKERS)), 1_000)
        for no in firms:
            yield self.register(no, "2024-01")
            yield self.report(no, "2024-01", range(no, no + WORKERS))
        claims = [(no, no + place) for no in firms for place in range(WORKERS)][:count]
        yield from (self.claim(no, worker) for no, worker in claims)
        yield from (self.post(f"/claims/{place}/release") for place in range(1, count + 1))
        yield self.post("/payouts")

    def worker_of(self, months):
        """All that leads to a worker's document of so many months."""
        yield self.register(1, "2000-01")
        for place in range(months):
            yield self.report(1, f"{2000 + place // 12}-{place % 12 + 1:02}", [WORKER])
        yield self.claim(1, WORKER)


class Measured:
    """A server, and what it took to answer with a document."""

    def __init__(self, server):
        self.server = server
        self.processor = self.clock = float("inf")
        self.grown = 0

    def status(self, name):
        """Kilobytes of the server's process."""
        with open(f"/proc/{self.server.process.pid}/status") as file:
            return next(int(line.split()[1]) for line in file if line.startswith(name + ":"))

    def forget_peak(self):
        with open(f"/proc/{self.server.process.pid}/clear_refs", "w") as file:
            file.write("5")

    def ask(self, path):
        """The body of the answer."""
        self.forget_peak()
        held, processor, clock = self.status("VmRSS"), self.server.processor_seconds(), time.perf_counter()
        answer = self.server.ask(request("GET", path, "desk"))
        self.clock = min(self.clock, time.perf_counter() - clock)
        self.processor = min(self.processor, self.server.processor_seconds() - processor)
        self.grown = max(self.grown, self.status("VmHWM") - held)
        if answer[0] != b"HTTP/1.1 200 OK":
            sys.exit(f"{self.server.name} refuses {path}: {answer}")
        return answer[1]


def fill(servers, requests):
    """Sends the requests to each server, and compares what they answer."""
    for data in requests:
        answers = [server.ask(data) for server in servers]
        if answers[0] != answers[1] or answers[0][0] != b"HTTP/1.1 200 OK":
            sys.exit(f"{data[:200]!r} is answered {answers}")


def start(program, folder, day, rates):
    servers = []
    for name, path in (("program", program), ("peer", PEER)):
        server = Server(name, str(path), os.path.join(folder, name), day, "desk = 0\n")
        Path(server.path("rates.toml")).write_text(rates)
        server.init()
        server.start()
        servers.append(server)
    return servers


def measure(servers, path, repeats):
    """What each server took, and the document."""
    measured = [Measured(server) for server in servers]
    for _ in range(repeats):
        texts = [each.ask(path) for each in measured]
        if texts[0] != texts[1]:
            sys.exit(f"{path}: the documents differ: {texts[0][:400]!r}, {texts[1][:400]!r}")
    for server in servers:
        server.stop()
    return measured, texts[0]


def documents(options, folder):
    """Each document with what it is, and what it took."""
    for count in options.lists:
        print(f"making a list of {count:,} claims", file=sys.stderr)
        servers = start(options.program, os.path.join(folder, f"list{count}"), LIST_DAY, RATES)
        fill(servers, Requests().list_of(count))
        yield f"payout list of {count:,} claims", *measure(servers, "/payouts/1", options.repeats)
    print(f"making a worker of {options.months:,} months", file=sys.stderr)
    rates = RATES.replace("2024-01", "2000-01")
    servers = start(options.program, os.path.join(folder, "worker"), WORKER_DAY, rates)
    fill(servers, Requests().worker_of(options.months))
    yield f"worker of {options.months:,} months", *measure(servers, f"/workers/{WORKER}", options.repeats)


def read_options():
    parser = option_parser(__doc__)
    parser.add_argument("--lists", default=[1_000, 10_000],
                        type=lambda text: [int(count) for count in text.split(",")])
    parser.add_argument("--months", type=int, default=2_400)
    parser.add_argument("--repeats", type=int, default=10)
    return parser.parse_args()


def main():
    options = read_options()
    with tempfile.TemporaryDirectory(dir=options.folder) as folder:
        found = list(documents(options, folder))
    row("Document", "Server", "lines", "kB", "ms, processor", "ms, clock", "grown, kB")
    row(*["---"] * 7)
    for name, measured, text in found:
        for each in measured:
            row(name, each.server.name, f"{text.count(10):,}", f"{len(text) / 1024:.0f}",
                f"{each.processor * 1000:.2f}", f"{each.clock * 1000:.2f}", f"{each.grown:,}")


if __name__ == "__main__":
    main()
