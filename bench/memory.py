#!/usr/bin/env python3
"""What becomes of an office where one allocation is refused, for each in turn.

    python3 bench/memory.py [PROGRAM]

It starts the built program (`./clearing`'s, or the one named) once for each allocation that a run makes, with that
one refused, and sends the requests of a script one after another: the main job, a firm's first account, or a claim of
which a part is set off. They go over standard input to records in memory, and over a connection to a store in a file,
which lies in memory, too.

A request that is answered that there is no memory did nothing: what is answered of each firm and each worker is what
it was before. Sent again, it has the answer that it has with ample memory. Where a stream ends for want of memory, all
requests are sent again over a new one, and have the answers that they have with ample memory: over a further
connection to the same office, or to a new office where the records ended with the program. At the end all firms and
workers are what they are with ample memory.

Records in memory lie on files that grow as they are written: where there is no memory for that, it may be a fault of
the store. Nothing is answered behind it, and an office that is started anew has all requests sent again. A run with
nothing refused comes first: it counts the allocations, and must be served whole. What comes before the first answer
is the same for each script, and is tried with the first one alone. It needs gcc.
"""
import contextlib
import os
import shutil
import socket
import subprocess
import sys
import tempfile
from collections import Counter
from concurrent.futures import ThreadPoolExecutor
from dataclasses import dataclass, field
from pathlib import Path

sys.dont_write_bytecode = True
from server import HEADER, MEMORY, PROGRAM, request  # noqa: E402

HERE = Path(__file__).resolve().parent
RATES, CALLERS = (HERE.parent / "examples" / name for name in ("rates.toml", "callers.toml"))
NO_MEMORY, STORE = b"rule 40 Memory\n", b"rule 41 Store\n"
# Runs beside one another have ports of their own.
FIRST_PORT, PORTS = 21_000, 9_000


@dataclass
class Script:
    """Requests with their answers; questions that tell of each firm and worker, with their answers before each request."""
    name: str
    day: str
    exchanges: list
    questions: list
    documents: list = field(default_factory=list)


def post(path, number, body, key="desk"):
    return request("POST", path, key, number, body)


def get(path):
    return request("GET", path, "desk")


def report(employer, month, number, worker, gross, key="desk"):
    body = f'{{"lines":[{{"gross":{gross},"worker":{worker}}}]}}'
    return post(f"/employers/{employer}/reports/{month}", number, body, key)


def registration(employer, name, number):
    return post("/employers", number, f'{{"employer":{employer},"name":"{name}","start":"2024-01"}}')


DONE = b'{"done":true}'
JANUARY = report(1001, "2024-01", 1, 7, 1_000_000, "k1001"), b'{"charge":200000,"version":1}'
OWED = request("GET", "/employers/1001/owed", "k1001")
MAIN_JOB = Script("the main job", "2024-04-30", [
    (registration(1001, "Bau Nord", 1), DONE),
    JANUARY,
    (OWED, b'{"arrears":200000,"charged":200000,"credited":0,"prepaid":0}'),
], [get("/employers/1001/owed"), get("/employers/1001/statement"), get("/workers/7")])

PAYMENTS = HEADER + "B1,2024-02-25,1001,150000,C,\nB2,2024-04-21,1001,200000,,January rest\n"
FIRST_ACCOUNT = Script("a first account", "2024-04-30", [
    (registration(1001, "Bau Nord", 1), DONE),
    # Behind a refusal the office asks its store whether it still stands.
    (registration(1001, "Bau Nord", 2), b'{"detail":"","name":"EmployerExists","rule":12}'),
    JANUARY,
    (report(1001, "2024-02", 2, 7, 500_050, "k1001"), b'{"charge":100010,"version":1}'),
    (post("/bank", 3, PAYMENTS), b'{"new":2,"repeats":0}'),
    (OWED, b'{"arrears":0,"charged":300010,"credited":350000,"prepaid":49990}'),
], MAIN_JOB.questions)

SET_OFF = Script("a set-off", "2024-03-10", [
    (registration(1002, "Hoch Tief", 1), DONE),
    (registration(1004, "Bau Ost", 2), DONE),
    (report(1002, "2024-01", 3, 9, 400_000), b'{"charge":80000,"version":1}'),
    (report(1004, "2024-01", 4, 9, 250_000), b'{"charge":50000,"version":1}'),
    (post("/bank", 5, HEADER + "B1,2024-02-21,1004,20000,C,\n"), b'{"new":1,"repeats":0}'),
    (post("/employers/1004/claims", 6, '{"cents":80000,"worker":9}'), b'{"claim":1}'),
    (post("/claims/1/release", 7, ""), b'{"paid":49500,"to_contributions":30000,"to_interest":500}'),
], [get(f"/employers/{employer}/{what}") for employer in (1002, 1004) for what in ("owed", "statement")]
    + [get("/workers/9")])
SCRIPTS = [FIRST_ACCOUNT, SET_OFF, MAIN_JOB]


@dataclass
class Tried:
    """The program that is tried, what refuses its allocations, and a new store."""
    program: str
    shim: Path
    store: Path

    def start(self, refused, *words, **streams):
        """Starts the program with this allocation refused. With None nothing is counted."""
        environment = dict(os.environ)
        if refused is not None:
            environment |= {"LD_PRELOAD": str(self.shim), "REFUSE": str(refused)}
        streams = {"stdin": subprocess.PIPE, "stdout": subprocess.PIPE, "stderr": subprocess.PIPE} | streams
        return subprocess.Popen([self.program, *map(str, words)], env=environment, **streams)


def read_answer(coming):
    """The body of the next answer, or None where there is none."""
    length = 0
    while line := coming.readline():
        if line.lower().startswith(b"content-length:"):
            length = int(line.split(b":")[1])
        if line == b"\r\n":
            return coming.read(length)
    return None


class Office:
    """The program at work on a script, in a folder of its own. Each kind says how it is reached."""

    def __init__(self, tried, script, refused, folder):
        self.tried, self.script, self.refused, self.folder = tried, script, refused, folder
        self.sending = self.coming = None
        self.begun, self.first_line = False, b""
        # How it is to end: the status, and what it says on standard error.
        self.end = 0, b""

    def ask(self, asked):
        """The answer to a request, or None where there is none."""
        if self.sending is None:
            return None
        try:
            self.sending.write(asked)
            self.sending.flush()
            got = read_answer(self.coming)
        except (BrokenPipeError, ConnectionResetError):
            return None
        self.begun |= got is not None
        return got

    def documents(self):
        return [self.ask(question) for question in self.script.questions]

    def ended(self):
        """How the program ends, but for what it tells when connections are taken."""
        self.part()
        with self.process:
            lines = [self.first_line, *self.process.stderr]
        told = b"".join(line for line in lines if not line.startswith((b"ready on", b"this day lies")))
        return self.process.returncode, told

    def expect(self, found, wanted):
        if found != wanted:
            sys.exit(f"{self.kind}, {self.script.name}, allocation {self.refused}: {found}, and not {wanted}")


class Streamed(Office):
    """On its standard streams, over records in memory, which end with it. It has begun with its first answer."""

    kind = "records in memory"

    def __init__(self, *of):
        super().__init__(*of)
        self.process = self.tried.start(self.refused, "stream", "sample", "sample", self.script.day)
        self.sending, self.coming = self.process.stdin, self.process.stdout

    def part(self):
        with contextlib.suppress(BrokenPipeError):
            self.process.stdin.close()

    def anew(self, is_fault):
        """A new office for all requests. A rule that is answered leaves the status at 0."""
        if is_fault:
            self.expect(self.ask(OWED), None)
        self.expect(self.ended(), (0, b"") if is_fault else (3, NO_MEMORY))
        return Streamed(self.tried, self.script, None, self.folder)


class Served(Office):
    """On a port, over a store in a file. It takes two connections, and has begun when it takes the first."""

    kind = "a store in a file"

    def __init__(self, *of):
        super().__init__(*of)
        store = Path(self.folder) / "fund.db"
        if not store.exists():
            shutil.copy(self.tried.store, store)
        self.port = FIRST_PORT + (self.refused or 0) % PORTS
        self.process = self.tried.start(
            self.refused, "serve", store, CALLERS, self.script.day, self.port, 2, stdin=subprocess.DEVNULL)
        self.first_line = self.process.stderr.readline()
        self.begun, self.left = self.first_line.startswith(b"ready on"), 2
        if self.begun:
            self.connect()

    def connect(self):
        self.peer = socket.create_connection(("127.0.0.1", self.port), timeout=60)
        self.sending = self.coming = self.peer.makefile("rwb")
        self.left -= 1

    def hang_up(self):
        with contextlib.suppress(BrokenPipeError, ConnectionResetError):
            self.sending.close()
        self.peer.close()

    def part(self):
        """Ends the connection, and makes the one that is left, so that the program ends."""
        while self.begun:
            self.hang_up()
            if not self.left:
                break
            self.connect()

    def anew(self, is_fault):
        """The same office over its other connection; behind a fault of the store it is started anew."""
        self.hang_up()
        self.connect()
        if not is_fault:
            self.end = 0, NO_MEMORY
            return self
        self.expect(is_rule(self.ask(OWED), 42), True)
        self.expect(self.ended(), (0, STORE))
        return Served(self.tried, self.script, None, self.folder)


def is_rule(answer, number):
    return answer is not None and answer.endswith(f'"rule":{number}}}'.encode())


def run(tried, kind, script, refused):
    """How a run went of which one allocation is refused, in a word, and how often rule 40 was told."""
    told = 0
    with tempfile.TemporaryDirectory(dir=MEMORY) as folder:
        office = kind(tried, script, refused, folder)
        for place, (asked, wanted) in enumerate(script.exchanges):
            got = office.ask(asked)
            if is_rule(got, 40):
                told += 1
                office.expect(office.documents(), script.documents[place])
                got = office.ask(asked)
            if got is None or is_rule(got, 41):
                return broken_off(office, got is not None), told
            office.expect(got, wanted)
        return finish(office), told


def broken_off(office, is_fault):
    """In which way a stream broke off. Unless it was before anything, all requests are sent again."""
    if not office.begun:
        office.expect(office.ended(), (3, NO_MEMORY))
        return "unbegun"
    again = office.anew(is_fault)
    for asked, wanted in again.script.exchanges:
        again.expect(again.ask(asked), wanted)
    finish(again)
    return "failed" if is_fault else "ended"


def finish(office):
    """In which way an office ends when all is answered: as it should, or there was no memory to read on."""
    end = office.ended()
    if office.refused and end[1] == NO_MEMORY:
        return "ended"
    office.expect(end, office.end)
    return "served"


def complete(tried, script):
    """Notes what is told before each request, with ample memory, and lets the questions be the last requests."""
    office = Streamed(tried, script, None, None)
    for asked, wanted in script.exchanges:
        script.documents.append(office.documents())
        office.expect(office.ask(asked), wanted)
    last = office.documents()
    office.expect(office.ended(), office.end)
    script.documents += [last] * len(last)
    script.exchanges += zip(script.questions, last)


def count_allocations(tried, kind, script):
    """How many allocations a run makes that is refused none of them, and is served."""
    with tempfile.TemporaryDirectory(dir=MEMORY) as folder:
        office = kind(tried, script, 0, folder)
        for asked, wanted in script.exchanges:
            office.expect(office.ask(asked), wanted)
        status, counted = office.ended()
    office.expect((status, counted.strip().isdigit() and int(counted) > 0), (0, True))
    return int(counted)


def try_scripts(tried, kind, pool):
    """Runs each script for each of its allocations, but for those before a first answer, which the first script has."""
    first = 1
    for script in SCRIPTS:
        count = count_allocations(tried, kind, script)
        runs = list(pool.map(lambda refused: run(tried, kind, script, refused), range(first, count + 1)))
        hows = Counter(how for how, _ in runs)
        print(f"{script.name}, {kind.kind}: {count} allocations, refused one by one from number {first} on:")
        print(f"  {hows['unbegun']} times the program ended with rule 40 before anything was done;")
        print(f"  {hows['ended']} times a stream ended, and {hows['failed']} times by a fault of the store;")
        print(f"  {sum(told for _, told in runs)} requests were told that there is no memory;", flush=True)
        first += hows["unbegun"]


def main():
    program = sys.argv[1] if len(sys.argv) > 1 else str(PROGRAM)
    with tempfile.TemporaryDirectory(dir=MEMORY) as folder, ThreadPoolExecutor(os.cpu_count()) as pool:
        tried = Tried(program, Path(folder) / "refuse.so", Path(folder) / "new.db")
        subprocess.run(
            ["gcc", "-shared", "-fPIC", "-O1", "-o", tried.shim, HERE / "memory/refuse.c", "-ldl"], check=True)
        subprocess.run([program, "init", tried.store, RATES], check=True, stdout=subprocess.DEVNULL)
        for script in SCRIPTS:
            complete(tried, script)
        for kind in (Streamed, Served):
            try_scripts(tried, kind, pool)
    print("All other requests were answered as with ample memory, and so were all that were sent again.")


if __name__ == "__main__":
    main()
