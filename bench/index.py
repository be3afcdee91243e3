#!/usr/bin/env python3
"""What the indexes by worker cost a report and a start, and what a claim takes: 1,000 and 100,000 wage rows.

    python3 bench/index.py [PROGRAM [OTHER]] [--repeats 5] [--folder FOLDER]

PROGRAM is the built program where none is named; OTHER is another build, as one from before the indexes. Each
makes stores of its own, since it refuses a store of another layout: of 2 firms and of 200 firms, each with a report
of 500 workers, whom no other firm has. Then the script starts each program on fresh copies of its stores, and sends
20 claims for different workers, 10 reports of 20 lines and 4 of 500 lines, each a firm's first of its month and for
workers that it has; a program without claims is sent the reports alone. That is done five times if no other number
is given, the programs and the sizes in turns.

The files lie below FOLDER, /dev/shm where there is one, so that the figures are the program's and not the disk's.
Of each time the least is taken: of a start, and of the requests of a kind on one copy the mean by the processor
time of the server's process, and the median by the clock, which has the client's part in it. The ratio is that of
PROGRAM to OTHER.
"""
import os
import random
import shutil
import sys
import tempfile
from dataclasses import dataclass, field

sys.dont_write_bytecode = True
from serve import DAY, MONTHS, Taken, row  # noqa: E402
from server import Server, option_parser, request  # noqa: E402

# How many workers each firm has, and with how many firms that makes 1,000 and 100,000 wage rows.
WORKERS = 500
SIZES = {1_000: 2, 100_000: 200}
# The kinds of requests with their numbers, in the order in which they are sent.
KINDS = {"claim": 20, "report of 20 lines": 10, "report of 500 lines": 4}


class Requests:
    """Requests about so many firms, drawn by a fixed seed."""

    def __init__(self, firms):
        self.random = random.Random(2025)
        # No two firms are nearer than 1,000, so the numbers of their workers don't meet.
        self.firms = [1_000 * place + 1 for place in self.random.sample(range(1, 90_000), firms)]
        self.sent = 0

    def post(self, path, body):
        self.sent += 1
        return request("POST", path, "desk", self.sent, body)

    def making(self):
        """Registers the firms, and reports their first month."""
        for no in self.firms:
            yield self.post("/employers", f'{{"employer":{no},"name":"Bau {no}","start":"2024-01"}}')
        for no in self.firms:
            yield self.report(no, MONTHS[0], WORKERS)

    def report(self, no, month, count):
        workers = sorted(self.random.sample(range(WORKERS), count))
        lines = ",".join(f'{{"gross":{self.random.randint(200_000, 400_000)},"worker":{no + place}}}'
                         for place in workers)
        return self.post(f"/employers/{no}/reports/{month}", f'{{"lines":[{lines}]}}')

    def claim(self, no, place):
        return self.post(f"/employers/{no}/claims", f'{{"cents":100,"worker":{no + place}}}')

    def measured(self):
        """By kind the requests that are measured."""
        places = self.random.sample(range(WORKERS), KINDS["claim"])
        found = {"claim": [self.claim(self.random.choice(self.firms), place) for place in places]}
        months = [(no, month) for no in self.firms for month in MONTHS[1:12]]
        chosen = iter(self.random.sample(months, sum(KINDS.values()) - KINDS["claim"]))
        for kind, count in (("report of 20 lines", 20), ("report of 500 lines", 500)):
            found[kind] = [self.report(*next(chosen), count) for _ in range(KINDS[kind])]
        return found


@dataclass
class Build:
    """A program, and of each size its store and the requests that follow on it."""
    name: str
    program: str
    servers: dict = field(default_factory=dict)
    requests: dict = field(default_factory=dict)
    kilobytes: dict = field(default_factory=dict)
    has_claims: bool = True

    def make(self, size, firms, folder):
        """Makes a store of the size."""
        server = Server(self.name, self.program, os.path.join(folder, f"{self.name}-{size}"), DAY, "desk = 0\n")
        requests = Requests(firms)
        server.init()
        server.start()
        for data in requests.making():
            answer = server.ask(data)
            if answer[0] != b"HTTP/1.1 200 OK":
                sys.exit(f"{self.name} refuses {data[:200]!r}: {answer}")
        server.stop()
        # Another start brings the log over, so that the copies begin with the file alone.
        server.start()
        server.stop()
        self.servers[size], self.requests[size] = server, requests.measured()
        self.kilobytes[size] = os.path.getsize(server.store()) // 1024

    def measure(self, size, folder):
        """By kind what a copy of a store of the size took: processor time and clock, in milliseconds."""
        copy = self.servers[size].copy(os.path.join(folder, "copy"))
        seconds = copy.start()
        found = {"start": (copy.processor_seconds() * 1000, seconds * 1000)}
        for kind, requests in self.requests[size].items():
            taken = Taken()
            if kind == "claim" and not self.has_claims:
                continue
            answers = taken.take(copy, [(kind, data) for data in requests])
            if kind == "claim" and answers[0][0] == b"HTTP/1.1 404 Not Found":
                self.has_claims = False
            elif refused := [answer for answer in answers if answer[0] != b"HTTP/1.1 200 OK"]:
                sys.exit(f"{self.name} refuses a {kind}: {refused[0]}")
            else:
                found[kind] = taken.processor_milliseconds(), taken.milliseconds()
        copy.stop()
        shutil.rmtree(copy.folder)
        return found


def read_options():
    parser = option_parser(__doc__)
    parser.add_argument("other", nargs="?")
    parser.add_argument("--repeats", type=int, default=5)
    return parser.parse_args()


def measured(builds, folder):
    """What each kind takes, by size and build."""
    return {(kind, size, build.name): spent for size in SIZES for build in builds
            for kind, spent in build.measure(size, folder).items()}


def main():
    options = read_options()
    builds = [Build("program", options.program)]
    if options.other:
        builds.append(Build("other", options.other))
    found = {}
    with tempfile.TemporaryDirectory(dir=options.folder) as folder:
        for build in builds:
            for size, firms in SIZES.items():
                print(f"making {size:,} wage rows with {build.name}", file=sys.stderr)
                build.make(size, firms, folder)
        for turn in range(options.repeats):
            print(f"measuring, {turn + 1} of {options.repeats}", file=sys.stderr)
            for key, spent in measured(builds, folder).items():
                found[key] = tuple(map(min, found.get(key, spent), spent))
    show(found, builds)


def cells_of(values, ratio):
    """These cells, and their ratio where there are two."""
    return [*values, ratio] if len(values) > 1 else values


def show(found, builds):
    for part, title in enumerate(("processor time of the server", "the clock")):
        print(f"\nMilliseconds by {title}\n")
        heads = [head for size in SIZES for head in cells_of([f"{size:,}: {build.name}" for build in builds], "ratio")]
        row("Request", *heads)
        row(*["---"] * (1 + len(heads)))
        for kind in ("start", *KINDS):
            cells = []
            for size in SIZES:
                times = [found.get((kind, size, build.name), (None, None))[part] for build in builds]
                ratio = f"{times[0] / times[-1]:.2f}" if all(times) else "-"
                cells += cells_of([f"{spent:.2f}" if spent else "-" for spent in times], ratio)
            row(kind, *cells)
    for build in builds:
        sizes = ", ".join(f"{kilobytes:,} kB at {size:,}" for size, kilobytes in build.kilobytes.items())
        print(f"\nThe file of the store of {build.name}: {sizes} wage rows.")


if __name__ == "__main__":
    main()
