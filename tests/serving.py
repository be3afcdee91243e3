"""Serves clients as they are: idle, slow, silent, several at once, with large bodies; the store that is served; and what is
told when connections are taken. How it stops is tried in tests/stops.py.

    python3 tests/serving.py [PROGRAM]

PROGRAM is crates/clear_app/out/clear_app where it isn't given, as `rt ci` leaves it. No test waits for more than some
40 seconds where the program does as it should, and none for more than 60 where it doesn't.
"""

import contextlib
import functools
import http.client
import itertools
import os
import re
import socket
import stat
import sys
import threading
import time
from concurrent.futures import ThreadPoolExecutor

# No __pycache__ is left beside the sources.
sys.dont_write_bytecode = True
import program  # noqa: E402
from program import BANK, FEBRUARY, HEADER, JANUARY, REGISTRATION, post  # noqa: E402
from program_under_test import DAY, run_tests  # noqa: E402

LENGTH = re.compile(rb"\r\nContent-Length: ([0-9]+)")
OWED = b"GET /employers/1001/owed HTTP/1.1\r\nHost: office\r\nOffice-Key: desk\r\n\r\n"
MAX_BODY = 1_048_576


def read_answer(peer):
    """The bytes of the next answer, on a connection that may stay open. EOFError where it ends before."""
    got = b""
    while (end := got.find(b"\r\n\r\n")) < 0 or len(got) < end + 4 + int(LENGTH.search(got)[1]):
        part = peer.recv(65536)
        if not part:
            raise EOFError(got)
        got += part
    return got


def ask(peer, request):
    peer.sendall(request)
    return read_answer(peer)


def connect_when_ready(peer, server):
    while peer.connect_ex(("127.0.0.1", server.port)) != 0:
        assert server.poll() is None
        time.sleep(0.02)


def trickle(peer, pieces, pause):
    """Sends a piece, waits for an answer or so long, and so on. It is over once the other side ends the connection,
    after 40 seconds, or with the last piece, behind which this side ends."""
    until = time.monotonic() + 40
    with contextlib.suppress(OSError):
        for piece in pieces:
            peer.sendall(piece)
            peer.settimeout(pause)
            with contextlib.suppress(TimeoutError):
                if peer.recv(65536) == b"" or time.monotonic() > until:
                    return
        peer.shutdown(socket.SHUT_WR)


def go_on(peer, data, pause):
    """Sends this again and again, and reads nothing, until the connection is reset or 40 seconds are over."""
    until = time.monotonic() + 40
    with contextlib.suppress(OSError):
        while time.monotonic() < until:
            peer.sendall(data)
            time.sleep(pause)


def bytes_of(data):
    return [data[at:at + 1] for at in range(len(data))]


def tried_anew(test):
    """Three tries, each in a folder of its own, for a test that a second decides: a machine may stand still for one."""
    @functools.wraps(test)
    def tried(self):
        for _ in range(2):
            try:
                return test(self)
            except Exception:  # noqa: BLE001, the last try tells
                self.doCleanups()
                self.setUp()
        return test(self)
    return tried


def halves(*requests):
    return [half for request in requests for half in (request[:50], request[50:])]


class Kept:
    """A client that keeps its connection between calls, and makes a new one where the office has ended it."""

    def __init__(self, test, server):
        self.test, self.server, self.peer = test, server, None

    def ask(self, request):
        while True:
            if self.peer is None:
                self.peer = self.test.connect(self.server)
            try:
                return ask(self.peer, request)
            except (EOFError, ConnectionError):
                self.part()

    def part(self):
        self.peer.close()
        self.peer = None


class Clients(program.Program):
    def test_an_idle_connection_gives_way(self):
        self.init()
        server = self.serving(2)
        with self.connect(server) as idle:
            self.assertIn(b'{"done":true}', ask(idle, REGISTRATION))
            begun = time.monotonic()
            with self.connect(server) as other:
                self.assertIn(b'"version":1', ask(other, JANUARY))
                self.assertLess(time.monotonic() - begun, 15)
            self.assertEqual(idle.recv(1), b"")
        self.assertEqual(self.ended(server), (0, "served 2\n", ""))

    def test_a_silent_connection_gives_way_after_a_second(self):
        self.init()
        server = self.serving(2)
        with self.connect(server) as silent:
            time.sleep(0.2)
            begun = time.monotonic()
            with self.connect(server) as other:
                self.assertIn(b'{"done":true}', ask(other, REGISTRATION))
            self.assertLess(time.monotonic() - begun, 15)
            self.assertEqual(silent.recv(1), b"")
        status, output, _errors = self.ended(server)
        self.assertEqual((status, output), (0, "served 2\n"))

    def test_a_request_that_has_begun_is_not_cut_off(self):
        self.init()
        server = self.serving(2)
        with self.connect(server) as first:
            first.sendall(REGISTRATION[:50])
            time.sleep(0.2)
            with self.connect(server) as other:
                time.sleep(2)
                self.assertIn(b'{"done":true}', ask(first, REGISTRATION[50:]))
                self.assertIn(b'"version":1', ask(other, JANUARY))
        self.assertEqual(self.ended(server), (0, "served 2\n", ""))

    def test_a_request_that_came_in_part_with_the_one_before_has_begun(self):
        self.init()
        server = self.serving(2)
        with self.connect(server) as first:
            self.assertIn(b'{"done":true}', ask(first, REGISTRATION + JANUARY[:50]))
            with self.connect(server) as other:
                time.sleep(1.5)
                self.assertIn(b'"version":1', ask(first, JANUARY[50:]))
                self.assertIn(b'"charged":200000', ask(other, OWED))
        self.assertEqual(self.ended(server), (0, "served 2\n", ""))

    @tried_anew
    def test_a_connection_that_its_answer_ends_keeps_nobody_waiting(self):
        self.init()
        server = self.serving(2)
        with self.connect(server) as first:
            last = REGISTRATION.replace(b"\r\n\r\n", b"\r\nConnection: close\r\n\r\n")
            self.assertIn(b'{"done":true}', ask(first, last))
            begun = time.monotonic()
            with self.connect(server) as other:
                self.assertIn(b'"version":1', ask(other, JANUARY))
                self.assertLess(time.monotonic() - begun, 1)
        self.assertEqual(self.ended(server), (0, "served 2\n", ""))

    def test_the_next_connection_is_waited_for(self):
        self.init()
        server = self.serving(2)
        with self.connect(server) as first:
            self.assertIn(b'{"done":true}', ask(first, REGISTRATION))
            # Meanwhile others are looked for.
            time.sleep(0.2)
        time.sleep(0.3)
        self.assertIsNone(server.poll())
        self.assertIn(b'"version":1', self.send(server, JANUARY))
        self.assertEqual(self.ended(server), (0, "served 2\n", ""))

    def test_a_peer_that_parts_before_its_answers(self):
        self.filled()
        server = self.serving(2)
        with self.connect(server) as peer:
            peer.sendall(OWED * 500)
        self.assertIn(b'"charged":300010', self.send(server, OWED))
        self.assertEqual(self.ended(server), (0, "served 2\n", "fault net\n"))

    @tried_anew
    def test_the_last_connection_is_not_cut_off(self):
        self.init()
        server = self.serving(1)
        with self.connect(server) as last, self.connect(server):
            self.assertIn(b'{"done":true}', ask(last, REGISTRATION))
            time.sleep(1.5)
            self.assertIn(b'"version":1', ask(last, JANUARY))
        self.assertEqual(self.ended(server), (0, "served 1\n", ""))

    def test_a_connection_a_call(self):
        self.filled()
        server = self.serving(100)
        begun = time.monotonic()
        peers = []
        for _ in range(100):
            peers.append(self.connect(server))
            self.addCleanup(peers[-1].close)
            self.assertIn(b'"charged":300010', ask(peers[-1], OWED))
        # A second's wait for each would make a hundred.
        self.assertLess(time.monotonic() - begun, 40)
        # The last one isn't cut off for others.
        peers[-1].close()
        self.assertEqual(self.ended(server), (0, "served 100\n", ""))

    def test_two_clients_in_turn(self):
        self.filled()
        server = self.serving(100)
        peers = []
        begun = time.monotonic()
        for _ in range(100):
            # Each of the two keeps the connection of its last call, and makes a new one all the same.
            peers.append(self.connect(server))
            self.addCleanup(peers[-1].close)
            self.assertIn(b'"charged":300010', ask(peers[-1], OWED))
            if len(peers) > 2:
                peers[-3].close()
        self.assertLess(time.monotonic() - begun, 40)
        peers[-1].close()
        self.assertEqual(self.ended(server), (0, "served 100\n", ""))

    @tried_anew
    def test_a_new_connection_has_a_second_for_its_first_byte(self):
        self.filled()
        server = self.serving(2)
        with self.connect(server) as late, self.connect(server) as other:
            other.sendall(OWED)
            time.sleep(0.4)
            self.assertIn(b'"charged":300010', ask(late, OWED))
            self.assertIn(b'"charged":300010', read_answer(other))
        self.assertEqual(self.ended(server), (0, "served 2\n", ""))

    def test_two_clients_at_once(self):
        self.filled()
        server = self.serving(1_000)

        def call(_):
            client = Kept(self, server)
            answers = [client.ask(OWED) for _ in range(50)]
            client.part()
            return answers

        begun = time.monotonic()
        with ThreadPoolExecutor(2) as threads:
            for answers in threads.map(call, range(2)):
                for answer in answers:
                    self.assertIn(b'"charged":300010', answer)
        self.assertLess(time.monotonic() - begun, 40)
        server.kill()


class Slow(program.Program):
    """They are served by an office each, side by side: the slowest ends after some 32 seconds."""

    BANK = post("/bank", 7, HEADER + "\n" * 1_000)
    SLOWLY = halves(REGISTRATION, JANUARY, FEBRUARY, OWED)
    # What a peer sends at once, what piece by piece, so many seconds apart; what is told, and between which seconds.
    KINDS = {
        "pause": (REGISTRATION[:40], [], 0, "fault net\n", 8, 20),
        "head": (b"", bytes_of(b"GET / HTTP/1.1\r\nX: " + b"x" * 1_000), 3, "fault net\n", 27, 38),
        "body": (BANK[:200], bytes_of(BANK[200:]), 3, "fault net\n", 27, 38),
        # Each request has its own 30 seconds.
        "several": (b"", SLOWLY, 8, "", 31, 42),
        "idle": (REGISTRATION, [], 0, "", 27, 38),
        "silent": (b"", [], 0, "", 27, 38),
    }

    @tried_anew
    def test_slow_peers(self):
        with ThreadPoolExecutor(len(self.KINDS) + 1) as threads:
            kinds = [threads.submit(self.slow, kind) for kind in self.KINDS]
            deaf = threads.submit(self.deaf)
        for kind in [*kinds, deaf]:
            kind.result()

    def slow(self, kind):
        at_once, pieces, pause, told, least, most = self.KINDS[kind]
        self.init(f"{kind}.db")
        server = self.serving(1, store=f"{kind}.db")
        with self.connect(server) as peer:
            peer.sendall(at_once)
            if pieces:
                threading.Thread(target=trickle, args=(peer, pieces, pause), daemon=True).start()
            self.ends(kind, server, told, least, most)

    def deaf(self):
        """A peer that reads nothing has little room for answers, and is cut off 10 seconds after the system took the last part
        of one. Each answer is a statement with some 2,120 missing months, so that the system's own buffers don't hold them."""
        self.init("deaf.db")
        server = self.serving(1, day="2200-12-31", store="deaf.db")
        with socket.socket() as peer:
            peer.setsockopt(socket.SOL_SOCKET, socket.SO_RCVBUF, 2_048)
            peer.setsockopt(socket.IPPROTO_TCP, socket.TCP_MAXSEG, 536)
            connect_when_ready(peer, server)
            peer.sendall(REGISTRATION)
            asked = OWED.replace(b"/owed", b"/statement")
            threading.Thread(target=go_on, args=(peer, asked * 100, 0), daemon=True).start()
            self.ends("deaf", server, "fault net\n", 8, 38)

    def ends(self, kind, server, told, least, most):
        begun = time.monotonic()
        self.assertEqual(self.ended(server), (0, "served 1\n", told), kind)
        self.assertTrue(least < time.monotonic() - begun < most, (kind, time.monotonic() - begun))


class Bodies(program.Program):
    def test_bodies_that_are_too_large(self):
        self.init()
        sizes = (MAX_BODY + 1, 1_200_000, 2_000_000, 4_000_000)
        server = self.serving(2 * len(sizes))
        for size in sizes:
            request = post("/bank", 1, HEADER.ljust(size, "\n"))
            with self.connect(server) as peer:
                peer.sendall(request)
                self.assertIn(b'"rule":2}', self.read_all(peer))
            client = http.client.HTTPConnection("127.0.0.1", server.port, timeout=30)
            fields = {"Office-Key": "desk", "Request-Number": "1"}
            client.request("POST", "/bank", HEADER.ljust(size, "\n"), fields)
            answer = client.getresponse()
            self.assertEqual((answer.status, answer.read()), (413, b'{"detail":"","name":"TooLarge","rule":2}'))
            client.close()
        status, output, _errors = self.ended(server)
        self.assertEqual((status, output), (0, f"served {2 * len(sizes)}\n"))

    @tried_anew
    def test_a_refused_peer_that_goes_on_sending_is_left_two_seconds(self):
        self.init()
        server = self.serving(2)
        with self.connect(server) as peer:
            self.assertIn(b"HTTP/1.1 400 Bad Request", ask(peer, b"no request\r\n\r\n"))
            threading.Thread(target=go_on, args=(peer, b"x", 0.1), daemon=True).start()
            begun = time.monotonic()
            with self.connect(server) as other:
                self.assertIn(b'{"done":true}', ask(other, REGISTRATION))
            self.assertTrue(1 < time.monotonic() - begun < 5, time.monotonic() - begun)
        status, output, _errors = self.ended(server)
        self.assertEqual((status, output), (0, "served 2\n"))

    def test_the_largest_body(self):
        self.init()
        server = self.serving(1)
        request = post("/bank", 1, HEADER.ljust(MAX_BODY, "\n"))
        self.assertIn(b'{"new":0,"repeats":0}', self.send(server, request))
        self.assertEqual(self.ended(server), (0, "served 1\n", ""))


class Store(program.Program):
    def test_who_may_read_it(self):
        def no_mask():
            os.umask(0)

        def mode(name):
            return stat.S_IMODE((self.folder / name).stat().st_mode)

        self.expect(["init", "fund.db", "rates.toml"], 0, "schema 1\n", preexec_fn=no_mask)
        self.assertEqual(mode("fund.db"), 0o600)
        server = self.serving(1, preexec_fn=no_mask)
        self.assertIn(b'{"done":true}', self.send(server, REGISTRATION))
        self.assertEqual(self.ended(server), (0, "served 1\n", ""))
        self.assertEqual((mode("fund.db"), mode("fund.db-wal")), (0o600, 0o600))
        # An empty file that stands keeps its mode.
        self.write("empty.db", "").chmod(0o640)
        if program.NOBODY:
            os.chown(self.folder / "empty.db", program.NOBODY, program.NOBODY)
        self.init("empty.db")
        self.assertEqual(mode("empty.db"), 0o640)

    def test_no_file_is_made_under_a_name_that_no_store_can_have(self):
        for name in (":memory:", "file:fund.db"):
            self.expect(["init", name, "rates.toml"], 3, "", "rule 41 Store\n")
            self.assertFalse((self.folder / name).exists())

    def test_a_second_office(self):
        self.init()
        server = self.serving(2)
        self.assertIn(b'{"done":true}', self.send(server, REGISTRATION))
        with socket.create_server(("127.0.0.1", 0)) as probe:
            port = str(probe.getsockname()[1])
        self.expect(["serve", "fund.db", "callers.toml", DAY, port, "1"], 3, "", "rule 41 Store\n")
        self.assertIn(b'"version":1', self.send(server, JANUARY))
        self.assertEqual(self.ended(server), (0, "served 2\n", ""))

    def test_a_store_that_is_removed_or_replaced(self):
        for name, replaced in itertools.product(("one.db", "one.db-wal"), (False, True)):
            self.init("one.db")
            server = self.serving(3, store="one.db")
            self.assertIn(b'{"done":true}', self.send(server, REGISTRATION))
            (self.folder / name).rename(self.folder / "away.db")
            if replaced:
                self.write(name, (self.folder / "away.db").read_bytes())
            with self.connect(server) as peer:
                try:
                    peer.sendall(JANUARY)
                    self.assertEqual(self.read_all(peer), b"")
                except ConnectionError:
                    pass
            self.assertEqual(self.ended(server), (3, "", "rule 41 Store\n"))
            if (name, replaced) == ("one.db-wal", False):
                # What the log had was brought over at the end.
                self.assertIn("requests 1\n", self.run_program("look", "one.db")[1])
            for left in self.folder.glob("*.db*"):
                left.unlink()

    def test_a_store_that_is_moved_and_linked_back(self):
        """Whoever opens it by the link looks for its log beside the file: what the log has must not stay behind."""
        self.init("one.db")
        server = self.serving(3, store="one.db")
        self.assertIn(b'{"done":true}', self.send(server, REGISTRATION))
        (self.folder / "away").mkdir()
        (self.folder / "away").chmod(0o777)
        (self.folder / "one.db").rename(self.folder / "away/one.db")
        (self.folder / "one.db").symlink_to("away/one.db")
        # The connection may be gone before the request is.
        with contextlib.suppress(OSError):
            self.assertEqual(self.send(server, JANUARY), b"")
        self.assertEqual(self.ended(server), (3, "", "rule 41 Store\n"))
        self.assertIn("requests 1\n", self.run_program("look", "one.db")[1])


class Ready(program.Program):
    def told(self, server):
        """What was told on standard error by the end of one connection on which nothing was sent."""
        self.assertEqual(self.send(server, b""), b"")
        output, errors = server.communicate(timeout=60)
        self.assertEqual((server.returncode, output), (0, b"served 1\n"))
        return errors.decode()

    def test_what_is_told(self):
        self.init()
        ready = "ready on 127.0.0.1:{}, day {}, ledger day {}\n"
        server = self.serving(1)
        self.assertEqual(self.told(server), ready.format(server.port, DAY, "-"))
        server = self.serving(1)
        self.assertIn(b'{"done":true}', self.send(server, REGISTRATION))
        self.assertEqual(self.ended(server), (0, "served 1\n", ""))
        refused = "this day lies before the ledger day: every new request will be refused\n"
        moved = (
            "this day lies more than 31 days after the ledger day: "
            "the first accepted request moves the ledger day there for good\n"
        )
        for day, meaning in [(DAY, ""), ("2024-05-31", ""), ("2024-06-01", moved), ("2024-04-29", refused)]:
            server = self.serving(1, day)
            self.assertEqual(self.told(server), ready.format(server.port, day, DAY) + meaning)

    def test_it_is_told_once_connections_are_taken(self):
        self.init()
        server = self.serving(1)
        self.assertTrue(server.stderr.readline().startswith(b"ready on "))
        with socket.create_connection(("127.0.0.1", server.port), timeout=30) as peer:
            self.assertIn(b'{"done":true}', ask(peer, REGISTRATION))
        server.communicate()

    def test_a_day_that_is_too_early(self):
        self.filled()
        server = self.serving(1, "2024-04-29")
        answers = self.send(server, post("/bank", 2, BANK) + OWED)
        self.assertEqual(answers.count(b'{"detail":"2024-04-30","name":"DayBack","rule":10}'), 2, answers)
        # A repeat is answered as it was.
        self.assertEqual(self.ended(server), (0, "served 1\n", ""))
        server = self.serving(1, "2024-04-29")
        self.assertIn(b'{"done":true}', self.send(server, REGISTRATION))
        self.assertEqual(self.ended(server), (0, "served 1\n", ""))


if __name__ == "__main__":
    run_tests()
