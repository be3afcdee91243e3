"""A program that serves an office on a port, and one keep-alive connection to it, for the scripts here."""
import argparse
import atexit
import os
import re
import shutil
import socket
import subprocess
import sys
import time
from pathlib import Path

PROGRAM = Path(__file__).resolve().parent.parent / "crates/clear_app/out/clear_app"
# Stores lie in memory where that can be, so that figures are the program's and not the disk's.
MEMORY = "/dev/shm" if os.path.isdir("/dev/shm") else None
RATES = """[[rate]]
from = "2024-01"
contribution = 2000
report_day = 15
due_day = 20
interest = 100
entitlement = 1425
[[rate]]
from = "2025-01"
contribution = 1900
report_day = 15
due_day = 20
interest = 90
entitlement = 1425
"""
# The header of a bank file.
HEADER = "reference,value_date,employer,cents,purpose,note\n"
# How many connections a server is told to take: more than come.
CONNECTIONS = 1_000_000
# The peer drops a connection that is silent for 10 seconds, the program one that is for 30.
SILENCE = 5
# So many seconds a store may take to open.
OPENING = 300
LENGTH = re.compile(rb"\r\nContent-Length: ([0-9]+)")


def option_parser(text):
    """The options of a script that measures a program: which one, and where its stores lie."""
    parser = argparse.ArgumentParser(description=text, formatter_class=argparse.RawDescriptionHelpFormatter)
    parser.add_argument("program", nargs="?", default=str(PROGRAM))
    parser.add_argument("--folder", default=MEMORY)
    return parser


def request(method, path, key, number=None, body=""):
    """The bytes of a request; a query has no number."""
    head = f"{method} {path} HTTP/1.1\r\nHost: office\r\nOffice-Key: {key}\r\n"
    if number is not None:
        head += f"Request-Number: {number}\r\nContent-Length: {len(body)}\r\n"
    return (head + "\r\n" + body).encode()


def free_port():
    with socket.socket() as probe:
        probe.bind(("127.0.0.1", 0))
        return probe.getsockname()[1]


class Server:
    """A program with a store in a folder of its own. A program whose name ends with .py is Python's."""

    def __init__(self, name, program, folder, day, keys):
        self.name, self.folder, self.day = name, folder, day
        self.words = [sys.executable, program] if program.endswith(".py") else [program]
        self.process = self.connection = None
        self.bytes, self.last = b"", 0.0
        os.makedirs(self.path("store"))
        for file, text in (("rates.toml", RATES), ("callers.toml", keys)):
            with open(self.path(file), "w") as written:
                written.write(text)

    def path(self, name):
        return os.path.join(self.folder, name)

    def store(self):
        return self.path("store/office.db")

    def init(self):
        subprocess.run([*self.words, "init", self.store(), self.path("rates.toml")],
                       check=True, stdout=subprocess.DEVNULL)

    def copy(self, folder):
        """A server like this one on a copy of its store. This one must have been stopped."""
        copy = object.__new__(Server)
        copy.__dict__.update(self.__dict__, folder=folder)
        shutil.copytree(self.folder, folder)
        return copy

    def launch(self, connections=CONNECTIONS):
        """Starts the server, and doesn't wait until it serves."""
        port = free_port()
        self.address = ("127.0.0.1", port)
        words = ("serve", self.store(), self.path("callers.toml"), self.day, port, connections)
        with open(self.path("errors"), "ab") as errors:
            self.process = subprocess.Popen([*self.words, *map(str, words)],
                                            stdout=subprocess.DEVNULL, stderr=errors)
        atexit.register(self.process.kill)

    def start(self, connections=CONNECTIONS):
        """Gives the seconds until the server takes a connection."""
        begun = time.perf_counter()
        self.launch(connections)
        while not self.connect():
            if self.process.poll() is not None or time.perf_counter() - begun > OPENING:
                with open(self.path("errors")) as errors:
                    sys.exit(f"{self.name} doesn't serve: {errors.read()}")
            time.sleep(0.002)
        return time.perf_counter() - begun

    def stop(self):
        """Ends the server by SIGKILL: its store must stand at any moment."""
        self.process.kill()
        self.process.wait()
        self.part()

    def connect(self):
        try:
            self.connection = socket.create_connection(self.address)
        except ConnectionRefusedError:
            return False
        self.connection.setsockopt(socket.IPPROTO_TCP, socket.TCP_NODELAY, 1)
        self.bytes, self.last = b"", time.perf_counter()
        return True

    def part(self):
        if self.connection is not None:
            self.connection.close()
            self.connection = None

    def send(self, data):
        """Sends bytes, over a new connection where the last one has ended or was silent for long."""
        if self.connection is not None and time.perf_counter() - self.last > SILENCE:
            self.part()
        if self.connection is None and not self.connect():
            raise ConnectionError(f"{self.name} has ended")
        self.connection.sendall(data)

    def ask(self, data):
        """The answer to a request: its status line and its body."""
        self.send(data)
        return self.answer()

    def answer(self):
        """The next answer. Where the connection ends before it is whole, a ConnectionError."""
        while (end := self.bytes.find(b"\r\n\r\n")) < 0:
            self.fill()
        head = self.bytes[:end]
        whole = end + 4 + int(LENGTH.search(head)[1])
        while len(self.bytes) < whole:
            self.fill()
        body, self.bytes = self.bytes[end + 4:whole], self.bytes[whole:]
        self.last = time.perf_counter()
        if b"\r\nConnection: close" in head:
            self.part()
        return head[:head.index(b"\r\n")], body

    def fill(self):
        more = self.connection.recv(65536)
        if not more:
            raise ConnectionError(f"{self.name} sent no whole answer")
        self.bytes += more

    def processor_seconds(self):
        """What the process has used of processors since it began (Linux's clock of a process)."""
        return time.clock_gettime((~self.process.pid << 3) | 2)
