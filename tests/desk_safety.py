"""Keeps the desk (tools/desk) from everybody but its own page, and looks into its command line and its
folder.

    python3 tests/desk_safety.py [PROGRAM]

PROGRAM is crates/clear_app/out/clear_app where it isn't given, as `rt ci` leaves it.
"""

import contextlib
import datetime
import encodings.idna  # noqa: F401 (by which a socket reads a host; another user may not see this Python's folder)
import http.client
import json
import os
import resource
import signal
import socket
import sys
import threading
import unittest
from email.message import Message
from pathlib import Path
from unittest import mock

# No __pycache__ is left beside the sources.
sys.dont_write_bytecode = True
from desk_under_test import (  # noqa: E402
    BANK_HEADER, DONE, DeskUnderTest, FakeOffice, answer_bytes, free_port, read_message)
from program_under_test import NOBODY, ROOT, run_tests  # noqa: E402

sys.path.append(str(ROOT / "tools"))
from desk_server import owners  # noqa: E402
from desk_server.faults import Fault  # noqa: E402
from desk_server.office import NoAnswer, Office  # noqa: E402
from desk_server.safety import check_source  # noqa: E402
from desk_server.server import MOST_CONNECTIONS, Server  # noqa: E402

WORDS = ["--office", "8080", "--key-file", "desk.key", "--port", "0"]


class CommandLine(DeskUnderTest):
    """The words and files with which the desk is started."""

    def refuses_to_start(self, told, *words, status=2):
        code, output, errors = self.run_desk(*words)
        self.assertEqual((code, output), (status, ""), words)
        self.assertIn(told, errors)
        self.assertFalse(self.log_folder.exists())

    def test_help(self):
        code, output, errors = self.run_desk("--help")
        self.assertEqual((code, errors), (0, ""))
        for word in ("--office", "--key-file", "--port", "--log", "--clearing", "--rates", "--desk",
                     "--first-number", "9007199254740990", "--office-user"):
            self.assertIn(word, output)

    def test_wrong_words(self):
        for words in (WORDS[2:], WORDS[:2] + WORDS[4:], WORDS[:4], ["--office", "65536", *WORDS[2:]],
                      [*WORDS, "--desk", "0"], [*WORDS, "--desk", "100"], [*WORDS, "--first-number", "01"],
                      [*WORDS, "--first-number", "1" * 19], [*WORDS, "more"]):
            self.refuses_to_start("usage: desk ", *words)
        told = "no-such-user is no user of this machine\n"
        self.refuses_to_start(told, *WORDS, "--office-user", "no-such-user")
        # From 2^53 on a page knows no whole number from the next one.
        for number in (2 ** 53 - 1, 2 ** 53 + 1, 10 ** 17 + 1):
            told = f"{number} isn't from 1 to 9007199254740990\n"
            self.refuses_to_start(told, *WORDS, "--first-number", str(number))

    def test_wrong_files(self):
        good = ["--office", "8080", "--port", "0", "--key-file"]
        self.refuses_to_start("No such file or directory: 'no.key'\n", *good, "no.key")
        self.refuses_to_start("rates.toml: not one key\n", *good, "rates.toml")
        for content in ("", "two keys\n", "k" * 65, "k\u00e4"):
            self.write("wrong.key", content)
            self.refuses_to_start("wrong.key: not one key\n", *good, "wrong.key")
        row = "[[rate]]\nfrom = \"2024-01\"\ncontribution = 2000\nreport_day = 15\ndue_day = 20\ninterest = 100\n"
        for content, told in (
                ("rate = 1\n", "no rate file"), ("", "no rate file"), ("[[rate]\n", "no TOML"), (b"\xff", "no TOML"),
                (row, "block 1: other members"),
                (row + "entitlement = 10001\n", "block 1: entitlement isn't from 0 to 10000"),
                (row + "entitlement = 1.0\n", "block 1: entitlement isn't"),
                (row + "entitlement = true\n", "block 1: entitlement isn't"),
                ((row + "entitlement = 1\n") * 2, "block 2: from isn't after that of the row before"),
                (row.replace("2024-01", "2024-13") + "entitlement = 1\n", "block 1: from is no month")):
            self.write("wrong.toml", content)
            self.refuses_to_start(f"wrong.toml: {told}", *good, "desk.key", "--rates", "wrong.toml")

    def test_a_port_that_is_taken(self):
        with socket.create_server(("127.0.0.1", 0)) as taken:
            port = str(taken.getsockname()[1])
            self.refuses_to_start(f"port {port}: Address already in use\n", *WORDS[:-1], port, status=3)

    def test_stops(self):
        for stop in (signal.SIGINT, signal.SIGTERM):
            self.open_desk(free_port())
            self.desk.send_signal(stop)
            self.assertEqual(self.desk.wait(30), 0)
            self.assertEqual(self.desk.stderr.read(), "")


class Safety(DeskUnderTest):
    """Nobody but the page that the desk served reaches the office through it."""

    def setUp(self):
        super().setUp()
        self.office = FakeOffice(self, lambda request: answer_bytes(200, DONE))
        self.open_desk(self.office.port)
        self.own = f"http://127.0.0.1:{self.port}"

    def tearDown(self):
        self.assertEqual(self.office.requests, [])
        self.assertEqual(self.lines("numbers.jsonl"), [])

    def raw(self, request):
        with socket.create_connection(("127.0.0.1", self.port), timeout=30) as peer:
            peer.sendall(request)
            return read_message(peer)

    def post_with(self, headers, path="/api/commands/payouts", body=b'{"language":"de"}'):
        status, _, told = self.ask("POST", path, body, headers)
        return status, json.loads(told)

    def test_a_wrong_host(self):
        for host in ("evil.example", f"evil.example:{self.port}", "127.0.0.1", f"127.0.0.1:{self.port + 1}", "",
                     f"127.0.0.1:{self.port}.evil.example"):
            for path in ("/", "/api/session", "/desk.js"):
                self.faults(403, "host", self.get(path, Host=host))
            self.faults(403, "host", self.post_with({**self.headers("payouts"), "Host": host}))
        for head in (b"", f"Host: 127.0.0.1:{self.port}\r\nHost: 127.0.0.1:{self.port}\r\n".encode()):
            self.assertRegex(self.raw(b"GET /api/session HTTP/1.1\r\n" + head + b"\r\n"), rb"^HTTP/1.1 40[03] ")

    def test_a_wrong_origin(self):
        for origin in ("http://evil.example", "null", f"https://127.0.0.1:{self.port}", "http://127.0.0.1",
                       f"http://localhost:{self.port}", f"{self.own}/"):
            self.faults(403, "origin", self.post_with({**self.headers("payouts"), "Origin": origin}))
            self.faults(403, "origin", self.get("/api/session", Origin=origin))
        without = self.headers("payouts")
        del without["Origin"]
        self.faults(403, "origin", self.post_with(without))
        for site in ("cross-site", "same-site"):
            for path in ("/api/session", "/api/suspense/0", "/documents/suspense.txt"):
                self.faults(403, "origin", self.get(path, **{"Sec-Fetch-Site": site}))
            self.faults(403, "origin", self.post_with({**self.headers("payouts"), "Sec-Fetch-Site": site}))
            # A link may lead to the page.
            self.assertEqual(self.ask("GET", "/", headers={"Sec-Fetch-Site": site})[0], 200)
        self.assertEqual(self.get("/api/session", Origin=self.own, **{"Sec-Fetch-Site": "same-origin"})[0], 200)

    def test_a_name_by_which_another_user_is_reached(self):
        """At ::1 another user may listen on this port. A page that a browser has from there, as localhost, is of
        the same origin as one that it has from the desk by that name."""
        localhost = {"Host": f"localhost:{self.port}", "Origin": f"http://localhost:{self.port}"}
        for path in ("/", "/api/session"):
            self.faults(403, "host", self.get(path, **localhost))
        self.faults(403, "host", self.post_with({**self.headers("payouts"), **localhost}))

    def test_the_port_that_a_browser_leaves_out(self):
        own = Message()
        own["Host"], own["Origin"] = "127.0.0.1", "http://127.0.0.1"
        check_source(own, 80, True)
        with self.assertRaises(Fault):
            check_source(own, 8090, True)

    def test_a_wrong_token(self):
        for token in ("", "0" * 64, self.session["tokens"]["reminders"], "ä"):
            headers = {**self.headers("payouts"), "Desk-Token": token.encode("utf-8")}
            self.faults(403, "token", self.post_with(headers))
        without = self.headers("payouts")
        del without["Desk-Token"]
        self.faults(403, "token", self.post_with(without))
        tokens = list(self.session["tokens"].values())
        self.assertEqual(len(set(tokens)), len(tokens))

    def test_bodies(self):
        # A bank file of one byte too many, a request of one, and what is still being sent when it is refused.
        for size in (1_048_577, 1_048_576 + 65_537, 12 * 1_048_576):
            told = self.post_with(self.headers("bank"), "/api/commands/bank", bytes(size))
            self.faults(413, "file-too-large", told)
        for body in (b"", b"[]", b"1", b'{"language":"fr"}', b'{"language":1}', b"\xff", b"[" * 100_000,
                     b'{"language":"de","employer":1001}'):
            self.faults(400, "form", self.post_with(self.headers("claim"), "/api/commands/claim", body))
        plain = {**self.headers("payouts"), "Content-Type": "text/plain"}
        self.faults(415, "form", self.post_with(plain))
        chunked = {**self.headers("payouts"), "Transfer-Encoding": "chunked"}
        self.faults(501, "head", self.post_with(chunked, body=b"0\r\n\r\n"))
        head = "".join(f"{name}: {value}\r\n" for name, value in self.headers("payouts").items())
        head = f"POST /api/commands/payouts HTTP/1.1\r\nHost: 127.0.0.1:{self.port}\r\n{head}"
        for length in ("", "Content-Length: -1\r\n", "Content-Length: 1\r\nContent-Length: 1\r\n"):
            self.assertRegex(self.raw(f"{head}{length}\r\n".encode()), rb"^HTTP/1.1 4(00|11) ")

    def test_paths(self):
        for path in ("/../desk", "/../../docs/http.md", "/desk_page/index.html", "/..%2fdesk", "/words.de.json/",
                     "//etc/passwd", "/api/firms/1001/../1002", "/api/firms/0", "/api/firms/1001?x", "/index.html",
                     "/api/payouts/1%2f", "/documents/statement-.txt", "/documents/worker-7.txt/x", "/desk.js?x",
                     f"http://127.0.0.1:{self.port}/"):
            self.faults(404, "path", self.get(path))
        self.faults(404, "path", self.post_with(self.headers("payouts"), "/api/commands/nothing"))
        self.faults(404, "path", self.post_with(self.headers("payouts"), "/api/session"))

    def test_a_browser_that_asks_for_another_page(self):
        """It is told what to open, and gets nothing of its own request back."""
        html = {"Accept": "text/html,application/xhtml+xml,*/*;q=0.8"}
        texts = set()
        cases = (("/<b>", {}, 404), ("/", {"Host": f"localhost:{self.port}"}, 403), ("/", {"Host": "x\"><b>"}, 403),
                 ("/api/log", {"Sec-Fetch-Site": "cross-site"}, 403))
        for path, headers, expected in cases:
            status, told, body = self.ask("GET", path, headers={**html, **headers})
            self.assertEqual((status, told["Content-Type"]), (expected, "text/html; charset=utf-8"), path)
            texts.add(body)
            self.assertIn("fault", json.loads(self.ask("GET", path, headers=headers)[2]))
        (text,) = texts
        link = f'<a href="http://127.0.0.1:{self.port}/">http://127.0.0.1:{self.port}/</a>'
        self.assertRegex(text.decode(), f"Open {link}, where the desk is.*\n.*Bitte {link} öffnen")
        self.faults(404, "path", self.post_with({**self.headers("payouts"), **html}, "/nothing"))

    def test_methods(self):
        for method in ("PUT", "DELETE", "OPTIONS", "PATCH", "TRACE", "BREW"):
            status, headers, body = self.ask(method, "/api/session", headers={"Origin": self.own})
            self.assertEqual((status, json.loads(body)["fault"], headers["Allow"]), (405, "method", "GET, POST"))
        self.assertEqual(self.ask("HEAD", "/")[0], 405)

    def test_heads(self):
        for request in (b"\x16\x03\x01\x00\r\n\r\n", b"GET\r\n\r\n", b"GET / HTTP/9.9\r\n\r\n",
                        b"GET /" + b"a" * 70_000 + b" HTTP/1.1\r\n\r\n",
                        b"GET / HTTP/1.1\r\n" + b"A: b\r\n" * 200 + b"\r\n"):
            told = self.raw(request)
            self.assertRegex(told, rb"^(HTTP/1.1 [45][0-9]{2} |\{)", request[:40])
            self.assertNotIn(b"<", told)

    def test_what_each_answer_says(self):
        for path in ("/", "/desk.css", "/desk.js", "/api/session", "/nothing"):
            _, headers, body = self.ask("GET", path)
            policy = headers["Content-Security-Policy"]
            self.assertTrue(policy.startswith("default-src 'self';"), policy)
            for part in ("base-uri 'none'", "form-action 'self'", "frame-ancestors 'none'"):
                self.assertIn(part, policy)
            self.assertNotIn("unsafe", policy)
            for name, value in (("X-Content-Type-Options", "nosniff"), ("Referrer-Policy", "no-referrer"),
                                ("Cache-Control", "no-store"), ("X-Frame-Options", "DENY"),
                                ("Cross-Origin-Opener-Policy", "same-origin"),
                                ("Cross-Origin-Resource-Policy", "same-origin")):
                self.assertEqual(headers[name], value)
            self.assertIsNone(headers["Access-Control-Allow-Origin"])
            self.assertNotIn(b"Office-Key", body)
            self.assertEqual(int(headers["Content-Length"]), len(body))

    @unittest.skipUnless(NOBODY, "only root can be another user")
    def test_another_user_of_the_machine(self):
        """No page at all, whatever is asked for."""
        host = f" HTTP/1.1\r\nHost: 127.0.0.1:{self.port}\r\nOrigin: {self.own}\r\n\r\n".encode()
        for request in (b"GET /", b"GET /desk.js", b"GET /api/session", b"GET /documents/suspense.txt",
                        b"POST /api/commands/payouts"):
            with self.connect_as_another() as peer, contextlib.suppress(ConnectionError):
                peer.sendall(request + host)
                self.assertEqual(read_message(peer), b"")

    @unittest.skipUnless(NOBODY, "only root can be another user")
    def test_another_user_who_holds_connections(self):
        """They take none of the desk's 32 places."""
        held = [self.connect_as_another() for _ in range(40)]
        for peer in held:
            self.addCleanup(peer.close)
            with contextlib.suppress(OSError):
                peer.sendall(b"G")
        with socket.create_connection(("127.0.0.1", self.port), timeout=10) as own:
            own.sendall(f"GET /api/session HTTP/1.1\r\nHost: 127.0.0.1:{self.port}\r\n\r\n".encode())
            self.assertTrue(read_message(own).startswith(b"HTTP/1.1 200 "))

    def connect_as_another(self):
        with as_another():
            return socket.create_connection(("127.0.0.1", self.port), timeout=30)


@contextlib.contextmanager
def as_another(user=NOBODY):
    """As another user of this machine, whose are the sockets that are made here."""
    os.seteuid(user)
    try:
        yield
    finally:
        os.seteuid(0)


class Places(unittest.TestCase):
    def test_threads_that_cannot_be_begun(self):
        """As where the user has as many processes as may be. Each gives its place back."""
        with Server(0, {}) as server, mock.patch.object(threading.Thread, "start", side_effect=RuntimeError):
            for _ in range(MOST_CONNECTIONS):
                with self.assertRaises(RuntimeError):
                    server.process_request(None, None)
            self.assertTrue(server.places.acquire(blocking=False))


class OfficesPort(DeskUnderTest):
    """The key goes to the office alone, whoever else listens on its port."""

    @unittest.skipUnless(NOBODY, "only root can be another user")
    def test_another_user_on_the_offices_port(self):
        with as_another(NOBODY - 1):
            stranger = FakeOffice(self, lambda request: answer_bytes(200, DONE))
        self.open_desk(stranger.port)
        told = {"reason": "stranger", "port": stranger.port}
        self.assertEqual(self.faults(502, "no-answer", self.get("/api/suspense/0")), told)
        status, members = self.register()
        self.assertEqual((status, members["entry"]["outcome"], members["entry"]["reply"]), (502, "lost", told))
        self.assertEqual(members["state"]["pending"]["number"], 1)
        # What was taken is two connections and not a byte of them.
        self.wait_for(lambda: stranger.requests == [b"", b""])
        stranger.end()
        self.open_office(port=stranger.port)
        self.does(DONE, self.post("/api/pending/send-again", "send-again", {"number": 1}), "repeated")

    @unittest.skipUnless(NOBODY, "only root can be another user")
    def test_an_office_of_a_user_of_its_own(self):
        with as_another():
            office = FakeOffice(self, lambda request: answer_bytes(200, DONE))
        # As the tests start a desk, it is told of that user.
        self.open_desk(office.port)
        self.does(DONE, self.register())

    @unittest.skipUnless(NOBODY, "only root can be another user")
    def test_another_user_who_holds_the_other_end(self):
        """An office listens on the port, and yet the connection isn't with it."""
        with as_another(NOBODY - 1):
            stranger = socket.create_server(("127.0.0.1", 0))
        address = stranger.getsockname()
        connection = socket.create_connection(address)
        with as_another(NOBODY - 1), stranger:
            taken, _ = stranger.accept()

        def connect(request):
            request.sock = connection

        with taken, socket.create_server(address):
            with mock.patch.object(http.client.HTTPConnection, "connect", connect):
                with self.assertRaises(NoAnswer) as told:
                    Office(address[1], "desk", seconds=1).document("/suspense")
            self.assertEqual((told.exception.reason, taken.recv(100)), ("stranger", b""))

    def test_a_listener_that_the_kernel_does_not_tell(self):
        office = FakeOffice(self, lambda request: answer_bytes(200, DONE))
        with mock.patch.object(owners, "listener", return_value=None):
            with self.assertRaises(NoAnswer) as told:
                Office(office.port, "desk").document("/suspense")
        self.assertEqual(told.exception.reason, "unseen")
        self.wait_for(lambda: office.requests == [b""])


class Owners(unittest.TestCase):
    """Whose connection it is, as the kernel answers and as it lists it."""

    def setUp(self):
        self.listener = socket.create_server(("127.0.0.1", 0))
        self.listener.settimeout(30)
        self.addCleanup(self.listener.close)

    def connect(self):
        """A connection's end here, and the addresses of the other end and of this one."""
        peer = socket.create_connection(self.listener.getsockname())
        self.addCleanup(peer.close)
        connection, address = self.listener.accept()
        self.addCleanup(connection.close)
        return peer, address, connection.getsockname()

    def owners(self, peer, here):
        """By the list; the kernel's answer is the same, or none where it answers no such questions."""
        listed = owners.listed_owner(peer, here)
        self.assertIn(owners.asked_owner(peer, here), (None, listed))
        return listed

    def test_a_connection_of_ones_own(self):
        _, peer, here = self.connect()
        self.assertEqual(self.owners(peer, here), os.geteuid())
        self.assertTrue(owners.is_own(peer, here))

    @unittest.skipUnless(NOBODY, "only root can be another user")
    def test_a_connection_of_another_user(self):
        with as_another():
            _, peer, here = self.connect()
        self.assertEqual(self.owners(peer, here), NOBODY)
        self.assertFalse(owners.is_own(peer, here))

    @unittest.skipUnless(NOBODY, "only root can be another user")
    def test_a_machine_without_the_list(self):
        """As where /proc has nothing but processes: another user isn't taken for this one."""
        with as_another():
            _, peer, here = self.connect()
        with mock.patch.object(owners, "CONNECTIONS", Path("/nowhere")):
            self.assertFalse(owners.is_own(peer, here))
            self.assertIsNone(owners.listed_listener(here))

    def test_no_connection(self):
        """Both ends of one that has ended, one that never was, and one in whose place a port is listened on."""
        other, peer, here = self.connect()
        other.close()
        nobody = ("127.0.0.1", 1)
        for one, two in ((peer, here), (here, peer), (peer, nobody), (here, nobody)):
            self.assertIsNone(self.owners(one, two))
            self.assertFalse(owners.is_own(one, two))

    def holders(self, peer, here):
        """By the kernel's answer where it answers, and by the list."""
        listed = owners.listed_owner(peer, here, None)
        self.assertIn(owners.holder(peer, here), (listed, os.geteuid()))
        return listed

    def test_who_holds_the_other_end(self):
        peer = socket.create_connection(self.listener.getsockname())
        self.addCleanup(peer.close)
        # Nobody has accepted it yet.
        self.assertIn(self.holders(peer.getpeername(), peer.getsockname()), (0, os.geteuid()))
        connection, _ = self.listener.accept()
        self.assertEqual(self.holders(peer.getpeername(), peer.getsockname()), os.geteuid())
        # An office that has failed answers and ends before it reads.
        connection.close()
        self.assertIn(self.holders(peer.getpeername(), peer.getsockname()), (0, os.geteuid()))
        self.assertIsNone(self.holders(("127.0.0.1", 1), peer.getsockname()))

    def listeners(self, address):
        """By the kernel's answer where it answers, and by the list."""
        listed = owners.listed_listener(address)
        self.assertEqual(owners.listener(address), listed)
        return listed

    def test_who_listens(self):
        address = self.listener.getsockname()
        self.assertEqual(self.listeners(address), os.geteuid())
        # Connections of the port change nothing, nor that who listens does so for all addresses.
        self.connect()
        self.assertEqual(self.listeners(address), os.geteuid())
        with socket.create_server(("0.0.0.0", 0)) as everywhere:
            self.assertEqual(self.listeners(("127.0.0.1", everywhere.getsockname()[1])), os.geteuid())
        self.listener.close()
        self.assertIsNone(self.listeners(address))

    @unittest.skipUnless(NOBODY, "only root can be another user")
    def test_another_user_who_listens(self):
        for host in ("127.0.0.1", "0.0.0.0"):
            with as_another():
                other = socket.create_server((host, 0))
            with other:
                self.assertEqual(self.listeners(("127.0.0.1", other.getsockname()[1])), NOBODY)

    @unittest.skipUnless(NOBODY and socket.has_dualstack_ipv6(), "only root can be another user")
    def test_another_user_who_listens_by_both_protocols(self):
        with as_another():
            other = socket.create_server(("::", 0), family=socket.AF_INET6, dualstack_ipv6=True)
        with other:
            self.assertIn(owners.listener(("127.0.0.1", other.getsockname()[1])), (None, NOBODY))

    def test_no_list_is_made_where_the_kernel_answers(self):
        other, peer, here = self.connect()
        other.close()
        if not owners.is_asked():
            self.skipTest("the kernel answers no questions here")
        with mock.patch.object(owners, "listed_owner", side_effect=AssertionError):
            self.assertFalse(owners.is_own(peer, here))


class Numbers(DeskUnderTest):
    def test_numbers_are_written_before_they_are_sent(self):
        seen = []

        def answer(request):
            seen.append([it["number"] for it in self.lines("numbers.jsonl")])
            seen.append((self.log_folder / "pending.json").exists())
            return answer_bytes(200, DONE)

        self.open_desk(FakeOffice(self, answer).port, first="77")
        self.does(DONE, self.register())
        self.assertEqual(seen, [[77], True])
        self.assertEqual(self.lines("numbers.jsonl")[0]["words"], "register 1001 Bau Nord 2024-01")
        datetime.datetime.fromisoformat(self.lines("numbers.jsonl")[0]["time"])
        # A lower first number takes none of those that were used.
        self.kill_desk()
        self.open_desk(self.session["office"], first="5")
        self.assertEqual(self.register()[1]["entry"]["number"], 78)

    def test_numbers_of_date_desk_and_count(self):
        office = FakeOffice(self, lambda request: answer_bytes(200, DONE))
        before = datetime.date.today()
        self.open_desk(office.port, "--desk", "7", first=None)
        numbers = [self.register()[1]["entry"]["number"] for _ in range(3)]
        days = {f"{day:%Y%m%d}" for day in (before, datetime.date.today())}
        self.assertIn(str(numbers[0]), {f"{day}0700001" for day in days})
        self.assertEqual(numbers, sorted(set(numbers)))
        # The folder is that of desk 7: another desk's numbers can't go on behind it.
        self.kill_desk()
        self.open_desk(office.port, "--desk", "6", first=None)
        self.faults(409, "numbers-end", self.register())

    def test_the_last_number_of_all(self):
        office = FakeOffice(self, lambda request: answer_bytes(200, DONE))
        self.open_desk(office.port, first="9007199254740990")
        self.assertEqual(self.register()[1]["entry"]["number"], 9_007_199_254_740_990)
        self.faults(409, "numbers-full", self.register())
        self.kill_desk()
        # So it is where they begin anew by date, desk and count.
        self.open_desk(office.port, first=None)
        self.faults(409, "numbers-full", self.register())
        self.assertEqual(len(office.requests), 1)

    def test_two_desks_on_one_folder(self):
        self.open_desk(free_port())
        code, output, errors = self.run_desk(*WORDS)
        self.assertEqual((code, output), (2, ""))
        self.assertIn("desk-log: another desk works with this folder\n", errors)

    def test_a_full_disk_sends_nothing(self):
        office = FakeOffice(self, lambda request: answer_bytes(200, DONE))

        def so_small():
            resource.setrlimit(resource.RLIMIT_FSIZE, (50, 50))

        self.open_desk(office.port, preexec_fn=so_small)
        self.faults(500, "journal", self.register())
        self.assertEqual((office.requests, (self.log_folder / "numbers.jsonl").read_bytes()), ([], b""))

    def fill_the_log(self):
        """A desk with a long log, whose files don't get longer than that from now on."""
        line = {"time": "2024-01-01T08:00:00+01:00", "number": 1, "outcome": "refused", "kind": "claim",
                "words": "x" * 4_000, "values": {"employer": 1, "worker": 1, "cents": 1}, "reply": {}}
        self.log_folder.mkdir(0o700)
        (self.log_folder / "log.jsonl").write_text(json.dumps(line) + "\n")
        self.open_desk(FakeOffice(self, lambda request: self.answers.pop(0)).port, first="2")
        self.limit_files(len(json.dumps(line)) + 1)

    def limit_files(self, size):
        resource.prlimit(self.desk.pid, resource.RLIMIT_FSIZE, (size, resource.RLIM_INFINITY))

    def test_a_log_that_takes_no_more(self):
        """The request was sent and done, and so it is told. Nothing further is sent before the log has it."""
        self.answers = [answer_bytes(200, {"claim": 1}), answer_bytes(200, {"claim": 2})]
        self.fill_the_log()
        claim = {"employer": "1001", "worker": "7", "amount": "10,00"}
        told = self.does({"claim": 1}, self.command("claim", **claim), "done-unwritten")
        self.assertEqual((told["entry"]["number"], told["state"]["pending"]), (2, None))
        # The page's log has it, as it is in no file.
        self.assertEqual(self.get("/api/log")[1]["log"][-1]["outcome"], "done")
        self.assertEqual(self.faults(500, "journal", self.command("claim", **claim)), {"why": "File too large"})
        self.assertEqual([it["number"] for it in self.lines("numbers.jsonl")], [2])
        self.limit_files(resource.RLIM_INFINITY)
        self.does({"claim": 2}, self.command("claim", **claim))
        self.assertEqual([it[:2] for it in self.logged()[1:]], [(2, "done"), (3, "done")])

    def test_a_log_that_takes_no_more_and_no_answer(self):
        """The request stays; it isn't dropped where that can't be written down."""
        self.answers = [None, None, None, answer_bytes(409, {"rule": 29, "name": "NothingToPay", "detail": ""})]
        self.fill_the_log()
        status, told = self.command("payouts")
        self.assertEqual((status, told["entry"]["outcome"], told["state"]["pending"]["number"]), (502, "lost", 2))
        dropped = self.post("/api/pending/give-up", "give-up", {"number": 2})
        self.assertEqual(self.faults(500, "not-dropped", dropped), {"why": "File too large"})
        self.assertEqual(dropped[1]["state"]["pending"]["number"], 2)
        status, told = self.post("/api/pending/send-again", "send-again", {"number": 2})
        self.assertEqual((status, told["entry"]["outcome"], told["entry"]["reply"]["rule"], told["state"]["pending"]),
                         (409, "refused-unwritten", 29, None))

    def test_a_files_name_that_a_terminal_would_obey(self):
        """Nor is a long one logged as a whole."""
        self.open_desk(FakeOffice(self, lambda request: answer_bytes(200, {"new": 0, "repeats": 0})).port)
        for name in ("april%C2%9B2J%1B%5D.csv", "a" * 81):
            self.bank(BANK_HEADER, name)
        self.assertEqual([it["values"]["file"] for it in self.lines("log.jsonl")], ["april 2J ].csv", "a" * 80])

    def test_who_may_read_the_folder(self):
        self.open_desk(FakeOffice(self, lambda request: answer_bytes(200, DONE)).port)
        self.register()
        for path in (self.log_folder, *self.log_folder.iterdir()):
            self.assertEqual(path.stat().st_mode & 0o077, 0, path)

    def folder_is_others(self):
        code, output, errors = self.run_desk(*WORDS)
        self.assertEqual((code, output), (2, ""))
        self.assertIn("desk-log: others may write this folder\n", errors)

    def test_a_folder_that_others_may_write(self):
        self.log_folder.mkdir()
        self.log_folder.chmod(0o770)
        self.folder_is_others()

    @unittest.skipUnless(NOBODY, "only root can be another user")
    def test_a_folder_of_another_user(self):
        self.log_folder.mkdir(0o700)
        os.chown(self.log_folder, NOBODY, -1)
        self.folder_is_others()

    def test_files_that_are_not_the_desks(self):
        for name, content in (("numbers.jsonl", "{}\n"), ("numbers.jsonl", "1\n"), ("log.jsonl", "none\n"),
                              ("log.jsonl", '{"number": 1, "outcome": "done"}\n'), ("pending.json", "{}")):
            self.log_folder.mkdir(0o700, exist_ok=True)
            (self.log_folder / name).write_text(content)
            code, output, errors = self.run_desk(*WORDS)
            self.assertEqual((code, output), (2, ""), content)
            self.assertIn(f"{name}: ", errors)
            (self.log_folder / name).unlink()


if __name__ == "__main__":
    run_tests()
