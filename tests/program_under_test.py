"""What the scripts beside this one share: the built program, the folder in which it runs, and how it is started."""

import os
import re
import shutil
import signal
import socket
import subprocess
import sys
import tempfile
import time
import unittest
from pathlib import Path

ROOT = Path(__file__).resolve().parent.parent
BUILT = ROOT / "crates/clear_app/out/clear_app"
NOBODY = 65534 if os.geteuid() == 0 else None

# A shell that starts these scripts in the background has them, and what they start, leave an interrupt aside, and `nohup`
# a hangup: not so here.
signal.signal(signal.SIGINT, signal.default_int_handler)
signal.signal(signal.SIGHUP, signal.SIG_DFL)

ROW_2024 = """[[rate]]
from = "2024-01"
contribution = 2000
report_day = 15
due_day = 20
interest = 100
entitlement = 1425
"""
ROW_2025 = """[[rate]]
from = "2025-01"
contribution = 1900
report_day = 15
due_day = 20
interest = 90
entitlement = 1425
"""
RATES = ROW_2024 + ROW_2025
CALLERS = "desk = 0\nk1001 = 1001\nk1002 = 1002\n"
DAY = "2024-04-30"
# What `serve` tells first: where it is ready, on which day, the ledger day, and what a strange day means.
READY = r"ready on 127\.0\.0\.1:{port}, day {day}, ledger day (?:-|[0-9-]{{10}})\n(?:this day lies [^\n]*\n)?"


class ProgramUnderTest(unittest.TestCase):
    """A folder with the sample's rates and callers, in which the program runs."""

    program = BUILT

    def setUp(self):
        self.folder = Path(tempfile.mkdtemp(prefix="clearing-"))
        self.addCleanup(shutil.rmtree, self.folder)
        self.folder.chmod(0o777)
        shutil.copy(self.program, self.folder / "clearing")
        (self.folder / "clearing").chmod(0o755)
        self.write("rates.toml", RATES)
        self.write("callers.toml", CALLERS)

    def write(self, name, content):
        path = self.folder / name
        path.write_bytes(content if isinstance(content, bytes) else content.encode())
        path.chmod(0o666)
        return path

    def start(self, *words, **options):
        """Starts the program with these words; its standard streams are pipes where nothing else is said."""
        streams = {it: subprocess.PIPE for it in ("stdin", "stdout", "stderr")}
        command = [str(self.folder / "clearing"), *words]
        return subprocess.Popen(command, cwd=self.folder, user=NOBODY, **{**streams, **options})

    def run_program(self, *words, stdin=b"", **options):
        """Status, standard output and standard error of the program with these words."""
        with self.start(*words, **options) as running:
            output, errors = running.communicate(stdin, timeout=60)
        return running.returncode, (output or b"").decode(), errors.decode()

    def expect(self, words, status, output="", errors="", **options):
        self.assertEqual(self.run_program(*words, **options), (status, output, errors), words)

    def init(self, store="fund.db"):
        self.expect(["init", store, "rates.toml"], 0, "schema 1\n")

    # ---- servers

    def serving(self, count, day=DAY, store="fund.db", port=None, **options):
        """The program as it serves so many connections of the store, on a port that is free."""
        if port is None:
            with socket.create_server(("127.0.0.1", 0)) as probe:
                port = probe.getsockname()[1]
        words = ["serve", store, "callers.toml", day, str(port), str(count)]
        server = self.start(*words, stdin=subprocess.DEVNULL, **options)
        server.port, server.day = port, day
        self.addCleanup(server.communicate)
        self.addCleanup(server.kill)
        return server

    def connect(self, server):
        """A connection, as soon as the server takes one."""
        for _ in range(1_500):
            try:
                return socket.create_connection(("127.0.0.1", server.port), timeout=30)
            except ConnectionRefusedError:
                self.assertIsNone(server.poll(), "the server has ended")
                time.sleep(0.02)
        raise AssertionError("no connection in 30 seconds")

    def send(self, server, requests):
        """What a peer reads that sends these bytes, ends its side, and reads to the end."""
        with self.connect(server) as peer:
            peer.sendall(requests)
            peer.shutdown(socket.SHUT_WR)
            return self.read_all(peer)

    def read_all(self, peer):
        parts = []
        while part := peer.recv(65536):
            parts.append(part)
        return b"".join(parts)

    def ended(self, server):
        """Status, standard output, and standard error behind what tells that the server is ready."""
        output, errors = server.communicate(timeout=60)
        told = errors.decode()
        ready = re.match(READY.format(port=server.port, day=server.day), told)
        self.assertTrue(ready, told)
        return server.returncode, output.decode(), told[ready.end():]


def run_tests():
    """Runs the tests of the script that was started, on the program that its first word names, if it is a file."""
    if len(sys.argv) > 1 and Path(sys.argv[1]).is_file():
        ProgramUnderTest.program = Path(sys.argv.pop(1)).resolve()
    own = vars(sys.modules["__main__"]).values()
    is_needed = any(isinstance(it, type) and issubclass(it, ProgramUnderTest) for it in own)
    if is_needed and not ProgramUnderTest.program.is_file():
        sys.exit(f"{ProgramUnderTest.program} isn't there: `rt ci` builds it")
    tests = unittest.main(exit=False).result
    for _, why in tests.skipped:
        print(f"left out: {why}")
    failed = len(tests.failures) + len(tests.errors)
    print(f"{tests.testsRun - failed} passed, {failed} failed")
    sys.exit(failed > 0)
