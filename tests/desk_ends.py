"""How the desk ends: what it leaves where it is stopped, and where it can't say that it is ready.

    python3 tests/desk_ends.py [PROGRAM]

PROGRAM is crates/clear_app/out/clear_app where it isn't given, as `rt ci` leaves it. It isn't asked here: what checks
a bank file is a script that waits.
"""

import os
import signal
import subprocess
import sys
import threading
from pathlib import Path

# No __pycache__ is left beside the sources.
sys.dont_write_bytecode = True
from desk_under_test import DESK, DeskUnderTest, free_port  # noqa: E402
from program_under_test import run_tests  # noqa: E402


class Ends(DeskUnderTest):
    def child_runs(self):
        """Whether what the script started still runs."""
        try:
            state = Path(f"/proc/{(self.folder / 'child').read_text().strip()}/stat").read_text()
        except FileNotFoundError:
            return False
        return state.rpartition(")")[2].split()[0] != "Z"

    def test_a_check_of_a_bank_file_ends_with_the_desk(self):
        """And whatever it has started: a launcher may build the program first."""
        program = self.write("slow", f"#!/bin/sh\nsleep 300 &\necho $! > {self.folder}/child\nwait\n")
        program.chmod(0o755)
        self.open_desk(free_port(), "--clearing", str(program))

        def check():
            try:
                self.post("/api/check/bank", "check-bank", b"", **{"Content-Type": "application/octet-stream"})
            except OSError:
                pass

        checking = threading.Thread(target=check)
        checking.start()
        self.addCleanup(checking.join)
        self.wait_for(self.child_runs)
        self.desk.send_signal(signal.SIGTERM)
        self.assertEqual(self.desk.wait(30), 0)
        self.wait_for(lambda: not self.child_runs())

    def test_a_window_that_is_closed(self):
        """It ends as by Ctrl-C, and under `nohup` it goes on."""
        self.open_desk(free_port())
        self.desk.send_signal(signal.SIGHUP)
        self.assertEqual(self.desk.wait(30), 0)
        self.open_desk(free_port(), preexec_fn=lambda: signal.signal(signal.SIGHUP, signal.SIG_IGN))
        self.desk.send_signal(signal.SIGHUP)
        self.assertEqual(self.ask("GET", "/api/session")[0], 200)

    def test_an_address_that_cannot_be_printed(self):
        """Nobody would know where the desk is."""
        reader, closed = os.pipe()
        os.close(reader)
        self.addCleanup(os.close, closed)
        words = [sys.executable, "-B", str(DESK), "--office", "8080", "--key-file", "desk.key", "--port", "0"]
        ran = subprocess.run(words, cwd=self.folder, stdout=closed, stderr=subprocess.PIPE, timeout=60, check=False)
        self.assertEqual((ran.returncode, ran.stderr), (2, b"[Errno 32] Broken pipe\n"))


if __name__ == "__main__":
    run_tests()
