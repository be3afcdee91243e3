"""Stops the program at any moment, by signals and kills, and looks what its store has then.

    python3 tests/stops.py [PROGRAM]

PROGRAM is crates/clear_app/out/clear_app where it isn't given, as `rt ci` leaves it.
"""

import os
import random
import resource
import signal
import socket
import sqlite3
import struct
import sys
import time

# No __pycache__ is left beside the sources.
sys.dont_write_bytecode = True
import program  # noqa: E402
from program import BANK, FEBRUARY, HEADER, JANUARY, REGISTRATION, post  # noqa: E402
from program_under_test import DAY, run_tests  # noqa: E402
from serving import OWED, ask, connect_when_ready, read_answer  # noqa: E402

SECOND = '{"employer":1002,"name":"Bau Süd","start":"2024-01"}'


class Stops(program.Program):
    def test_signals(self):
        self.init()
        for number, ended in enumerate((signal.SIGINT, signal.SIGTERM), 1):
            server = self.serving(9)
            with self.connect(server) as peer:
                answer = ask(peer, REGISTRATION)
                self.assertIn(b'{"done":true}', answer)
                server.send_signal(ended)
                self.assertEqual(self.ended(server), (-ended, "", ""), number)

    def test_a_script_that_starts_it_in_the_background(self):
        """A shell has such a program leave SIGINT aside; SIGTERM stops it."""
        self.init()
        server = self.serving(9, preexec_fn=lambda: signal.signal(signal.SIGINT, signal.SIG_IGN))
        with self.connect(server) as peer:
            server.send_signal(signal.SIGINT)
            self.assertIn(b'{"done":true}', ask(peer, REGISTRATION))
            server.send_signal(signal.SIGTERM)
            self.assertEqual(self.ended(server), (-signal.SIGTERM, "", ""))

    def test_no_descriptors(self):
        """Where the system gives no connections for 10 seconds, serving ends, and says that it isn't done."""
        self.init()
        # Three streams, the store, its log and the listener are all that may be open.
        server = self.serving(1_000_000, preexec_fn=lambda: resource.setrlimit(resource.RLIMIT_NOFILE, (6, 6)))
        self.assertEqual(self.ended(server), (3, "", "fault net\n" * 101))

    def test_a_stopped_program_goes_on(self):
        self.init()
        server = self.serving(1)
        with self.connect(server) as peer:
            self.stop_a_while(server)
            self.assertIn(b'{"done":true}', ask(peer, REGISTRATION))
            self.stop_a_while(server)
            self.assertIn(b'"version":1', ask(peer, JANUARY))
            # Inside of a request the system breaks the read off: it is made again.
            peer.sendall(FEBRUARY[:20])
            time.sleep(0.2)
            self.stop_a_while(server)
            self.assertIn(b'"version":1', ask(peer, FEBRUARY[20:]))
        self.assertEqual(self.ended(server), (0, "served 1\n", ""))

    def test_a_program_that_is_stopped_while_it_answers(self):
        """The answers are larger than the system's own buffers, so that a write waits for the peer: it is made again."""
        self.init()
        server = self.serving(1, day="2200-12-31")
        with socket.socket() as peer:
            peer.setsockopt(socket.SOL_SOCKET, socket.SO_RCVBUF, 65_536)
            connect_when_ready(peer, server)
            peer.sendall(REGISTRATION + OWED.replace(b"/owed", b"/statement") * 300)
            time.sleep(3)
            # A write that took a part ends with that at a stop, and the next one waits with all of the rest.
            for _ in range(4):
                self.stop_a_while(server)
                time.sleep(0.2)
            peer.shutdown(socket.SHUT_WR)
            answers = self.read_all(peer)
        self.assertEqual(answers.count(b"statement 1001 2200-12-31\n"), 300)
        self.assertEqual(self.ended(server), (0, "served 1\n", ""))

    def stop_a_while(self, server):
        """Stops the program, as Ctrl-Z does, and lets it go on."""
        server.send_signal(signal.SIGSTOP)
        time.sleep(0.2)
        server.send_signal(signal.SIGCONT)

    def test_a_window_that_is_stopped(self):
        """As by Ctrl-S: what is told waits until it goes on, and so do the clients."""
        self.init()
        window, inside = os.openpty()
        server = self.serving(2, stderr=inside)
        with self.connect(server) as peer:
            self.assertIn(b'{"done":true}', ask(peer, REGISTRATION))
            os.write(window, b"\x13")
            time.sleep(0.2)
            # A reset, of which the office tells.
            peer.setsockopt(socket.SOL_SOCKET, socket.SO_LINGER, struct.pack("ii", 1, 0))
        with self.connect(server) as other:
            other.sendall(OWED)
            other.settimeout(1)
            self.assertRaises(TimeoutError, other.recv, 1)
            os.write(window, b"\x11")
            other.settimeout(30)
            self.assertIn(b'"charged":0', read_answer(other))
        self.assertEqual(server.communicate(timeout=60), (b"served 2\n", None))
        self.assertEqual(os.read(window, 1_000).splitlines()[1:], [b"fault net"])
        os.close(inside)
        os.close(window)

    def test_the_same_port_again(self):
        self.init()
        server = self.serving(9)
        with self.connect(server) as peer:
            self.assertIn(b'{"done":true}', ask(peer, REGISTRATION))
            server.kill()
            server.communicate()
            again = self.serving(1, port=server.port)
            self.assertIn(b'"version":1', self.send(again, JANUARY))
            self.assertEqual(self.ended(again), (0, "served 1\n", ""))

    def test_standard_output_that_is_closed(self):
        self.filled()
        for words in (["statement", "fund.db", DAY, "1001"], ["init", "new.db", "rates.toml"]):
            reading, writing = os.pipe()
            os.close(reading)
            with os.fdopen(writing, "wb") as closed:
                self.expect(words, 3, "", "fault stream\n", stdout=closed, restore_signals=False)
        self.expect(["init", "new.db", "rates.toml"], 3, "", "rule 43 WrongVersion 1\n")

    def test_an_end_leaves_all_in_the_file_of_the_store(self):
        self.filled()
        self.assertEqual(self.firms(), [1001])
        self.expect(["import", "fund.db", DAY, "2", "bank.csv"], 0, "new 2 repeats 0\n")
        self.assertEqual(self.firms("SELECT count(*) FROM bank"), [2])

    def test_a_start_brings_the_log_over(self):
        self.filled()
        server = self.serving(9)
        with self.connect(server) as peer:
            self.assertIn(b'{"done":true}', ask(peer, post("/employers", 2, SECOND)))
            server.send_signal(signal.SIGINT)
            self.ended(server)
        self.assertEqual(self.firms(), [1001])
        self.assertEqual(self.run_program("statement", "fund.db", DAY, "1001")[0], 0)
        self.assertEqual(self.firms(), [1001, 1002])
        server = self.serving(9)
        with self.connect(server) as peer:
            self.assertIn(b'{"new":2,"repeats":0}', ask(peer, post("/bank", 3, BANK)))
            server.kill()
            server.communicate()
        again = self.serving(9)
        with self.connect(again) as peer:
            self.assertIn(b'"credited":350000', ask(peer, OWED))
            again.kill()
            again.communicate()
        self.assertEqual(self.firms("SELECT count(*) FROM bank"), [2])

    def firms(self, query="SELECT no FROM employers ORDER BY no"):
        """What the file of the store says by itself, without its log."""
        copy = self.write("copy.db", (self.folder / "fund.db").read_bytes())
        with sqlite3.connect(copy) as store:
            found = [row[0] for row in store.execute(query)]
        store.close()
        for left in self.folder.glob("copy.db*"):
            left.unlink()
        return found

    def test_a_kill_while_a_store_is_made(self):
        moments = random.Random(1)
        for count in range(20):
            store = f"{count}.db"
            running = self.start("init", store, "rates.toml")
            time.sleep(moments.uniform(0, 0.03))
            running.kill()
            running.communicate()
            made = self.run_program("init", store, "rates.toml")
            self.assertIn(made, [(0, "schema 1\n", ""), (3, "", "rule 43 WrongVersion 1\n")])
            self.expect(["statement", store, DAY, "1001"], 1, "", "rule 11 UnknownEmployer\n")

    def test_a_kill_while_a_file_is_imported(self):
        self.filled()
        moments = random.Random(2)
        for count in range(2, 12):
            lines = "".join(f"R{count}-{line},2024-04-21,1001,1,C,\n" for line in range(1_000))
            self.write("bank.csv", HEADER + lines)
            words = ["import", "fund.db", DAY, str(count), "bank.csv"]
            running = self.start(*words)
            time.sleep(moments.uniform(0, 0.2))
            running.kill()
            running.communicate()
            # Whether it was done or not, it is done once, and answered as it is then.
            self.expect(words, 0, "new 1000 repeats 0\n")
        self.expect(["import", "fund.db", DAY, "12", "bank.csv"], 0, "new 0 repeats 1000\n")


if __name__ == "__main__":
    run_tests()
