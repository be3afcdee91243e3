"""Reaches the program through nginx, as examples/nginx.conf sets it up, over TLS.

    python3 tests/proxy.py [PROGRAM]

PROGRAM is crates/clear_app/out/clear_app where it isn't given, as `rt ci` leaves it. Only the ports, and the places of
the logs, the certificate and the passing files, are others. It needs nginx and openssl, and is left out without them.
"""

import re
import resource
import shutil
import socket
import ssl
import subprocess
import sys
import time
import unittest

# No __pycache__ is left beside the sources.
sys.dont_write_bytecode = True
import program  # noqa: E402
from program import FIRST_ANSWERS, FIRST_REQUESTS, HEADER, JANUARY, REGISTRATION, post  # noqa: E402
from program_under_test import ROOT, run_tests  # noqa: E402

# So few files a process has where the proxy is started, that the test is short; commonly they are 1,024.
FILES = 64
LENGTH = re.compile(rb"\r\nContent-Length: ([0-9]+)")
OWED = b"GET /employers/1001/owed HTTP/1.1\r\nHost: fund\r\nOffice-Key: k1001\r\n\r\n"
MAX_BODY = 1_048_576


def messages(stream):
    """The head and the body of each request or answer of a stream."""
    while stream:
        head, _, rest = stream.partition(b"\r\n\r\n")
        length = LENGTH.search(head)
        size = int(length[1]) if length else 0
        yield head, rest[:size]
        stream = rest[size:]


def with_field(request, field):
    return request.replace(b"\r\n\r\n", b"\r\n" + field + b"\r\n\r\n", 1)


def status(head):
    return int(head.split()[1])


@unittest.skipUnless(shutil.which("nginx") and shutil.which("openssl"), "nginx or openssl isn't here")
class Proxy(program.Program):
    def setUp(self):
        super().setUp()
        self.init()
        self.server = self.serving(1_000)
        self.connect(self.server).close()
        with socket.create_server(("127.0.0.1", 0)) as probe:
            self.port = probe.getsockname()[1]
        subprocess.run(["openssl", "req", "-x509", "-newkey", "rsa:2048", "-nodes", "-days", "2", "-subj", "/CN=fund",
                        "-addext", "subjectAltName=DNS:fund", "-keyout", "fund.key", "-out", "fund.crt"],
                       cwd=self.folder, check=True, stderr=subprocess.DEVNULL)
        self.start_nginx()

    def start_nginx(self):
        text = (ROOT / "examples/nginx.conf").read_text()
        passing = "".join(f"{it}_temp_path {self.folder}/{it};\n"
                          for it in ("client_body", "proxy", "fastcgi", "uwsgi", "scgi"))
        for here, there in [
            ("user www-data;\n", ""),
            ("/var/log/nginx", str(self.folder)),
            ("/etc/nginx", str(self.folder)),
            ("127.0.0.1:8080", f"127.0.0.1:{self.server.port}"),
            ("127.0.0.1:8443", f"127.0.0.1:{self.port}"),
            ("http {\n", f"http {{\n{passing}"),
        ]:
            self.assertIn(here, text)
            text = text.replace(here, there)
        configuration = self.write("nginx.conf", text)
        words = ["nginx", "-e", "stderr", "-c", str(configuration), "-g", f"daemon off; pid {self.folder}/nginx.pid;"]
        files = FILES, resource.getrlimit(resource.RLIMIT_NOFILE)[1]
        self.nginx = subprocess.Popen(words, cwd=self.folder, stdin=subprocess.DEVNULL, stdout=subprocess.DEVNULL,
                                      stderr=subprocess.PIPE,
                                      preexec_fn=lambda: resource.setrlimit(resource.RLIMIT_NOFILE, files))
        # By SIGTERM, so that nginx ends its workers.
        self.addCleanup(self.nginx.communicate)
        self.addCleanup(self.nginx.terminate)

    def firm(self):
        """A firm's connection to the proxy, as soon as it takes one."""
        context = ssl.create_default_context(cafile=self.folder / "fund.crt")
        for _ in range(500):
            try:
                peer = socket.create_connection(("127.0.0.1", self.port), timeout=60)
                break
            except ConnectionRefusedError:
                self.assertIsNone(self.nginx.poll(), "nginx has ended")
                time.sleep(0.02)
        else:
            raise AssertionError("no connection in 10 seconds")
        peer = context.wrap_socket(peer, server_hostname="fund")
        self.addCleanup(peer.close)
        return peer

    def slow_firm(self):
        """A connection on which the end of a body is still to come. Its head has come in time."""
        peer = self.firm()
        peer.sendall(JANUARY[:-5])
        return peer

    def ask(self, peer, request):
        """The head and the body of the answer to a request."""
        peer.sendall(request)
        return self.read_answer(peer)

    def read_answer(self, peer):
        got = b""
        while (end := got.find(b"\r\n\r\n")) < 0 or len(got) < end + 4 + int(LENGTH.search(got)[1]):
            part = peer.recv(65536)
            self.assertTrue(part, got)
            got += part
            if got.startswith(b"HTTP/1.1 100 ") and got.find(b"\r\n\r\n") >= 0:
                got = got[got.find(b"\r\n\r\n") + 4:]
        return got[:end], got[end + 4:]

    def test_the_first_run(self):
        wanted = [(status(head), body) for head, body in messages(FIRST_ANSWERS)]
        requests = [head + b"\r\n\r\n" + body for head, body in messages(FIRST_REQUESTS)]
        self.assertEqual(len(requests), len(wanted))
        # Over one connection that is kept, and again, a request a connection that isn't.
        kept = self.firm()
        for request, answer in zip(requests, wanted):
            head, body = self.ask(kept, request)
            self.assertEqual((status(head), body), answer)
            self.assertIn(b"\r\nConnection: keep-alive", head)
        for request, answer in zip(requests, wanted):
            peer = self.firm()
            head, body = self.ask(peer, with_field(request, b"Connection: close"))
            self.assertEqual((status(head), body), answer)
            self.assertIn(b"\r\nConnection: close", head)
            self.assertEqual(peer.recv(1), b"")
        self.assertEqual(self.ask(kept, OWED)[1], wanted[-1][1])

    def test_bodies(self):
        peer = self.firm()
        request = post("/bank", 1, HEADER.ljust(MAX_BODY, "\n"))
        for number, asked in enumerate((request, with_field(request, b"Expect: 100-continue")), 1):
            head, body = self.ask(peer, asked)
            self.assertEqual((status(head), body), (200, b'{"new":0,"repeats":0}'), number)
        chunked = re.sub(rb"Content-Length: [0-9]+", b"Transfer-Encoding: chunked", REGISTRATION.split(b"{")[0])
        body = REGISTRATION[REGISTRATION.index(b"{"):]
        chunks = b"".join(b"%x\r\n%s\r\n" % (len(it), it) for it in (body[:9], body[9:])) + b"0\r\n\r\n"
        head, body = self.ask(peer, chunked.replace(b"Request-Number: 1", b"Request-Number: 2") + chunks)
        self.assertEqual((status(head), body), (200, b'{"done":true}'))
        # nginx refuses by the length, before a body comes.
        head, _body = self.ask(self.firm(), post("/bank", 3, HEADER.ljust(MAX_BODY + 1, "\n")).partition(b"reference")[0])
        self.assertEqual(status(head), 413)

    def test_fields(self):
        peer = self.firm()
        self.ask(peer, REGISTRATION)
        # nginx adds a Connection.
        for count, wanted in ((63, 200), (64, 413)):
            more = b"\r\n".join(b"X-%d: y" % it for it in range(count - 2))
            self.assertEqual(status(self.ask(peer, with_field(OWED, more))[0]), wanted)
        for twice, wanted in ((b"Office-Key: k1001", 401), (b"Host: fund", 400)):
            self.assertEqual(status(self.ask(self.firm(), with_field(OWED, twice))[0]), wanted)
        peer.sendall(OWED.replace(b"GET", b"HEAD"))
        self.assertEqual(status(peer.recv(65536)), 405)
        self.assertIn(b'"charged":0', self.ask(peer, OWED)[1])

    def test_what_the_proxy_refuses_by_itself(self):
        for request, wanted in (
                (OWED.replace(b"Host: fund\r\n", b""), 400),
                (with_field(OWED, b"X: " + b"y" * 8_200), 400),
                (OWED.replace(b"GET", b"TRACE"), 405),
                (OWED.replace(b"/owed", b"/" + b"o" * 8_200), 414),
                (with_field(OWED, b"Transfer-Encoding: gzip"), 501),
                (OWED.replace(b"HTTP/1.1", b"HTTP/2.0"), 505)):
            head, body = self.ask(self.firm(), request)
            self.assertEqual((status(head), body[:6]), (wanted, b"<html>"))

    def test_a_slow_firm_keeps_nobody_waiting(self):
        other = self.firm()
        self.ask(other, REGISTRATION)
        slow = self.slow_firm()
        time.sleep(0.5)
        begun = time.monotonic()
        self.assertIn(b'"charged":0', self.ask(other, OWED)[1])
        # The office would leave the slow one 10 seconds for its next byte.
        self.assertLess(time.monotonic() - begun, 8)
        self.assertIn(b'"version":1', self.ask(slow, JANUARY[-5:])[1])

    def test_one_address_has_so_many_requests_at_a_time(self):
        self.ask(self.firm(), REGISTRATION)
        slow = [self.slow_firm() for _ in range(20)]
        # Until nginx has read the last of their heads the next one is answered.
        for _ in range(100):
            if status(self.ask(self.firm(), OWED)[0]) == 503:
                break
            time.sleep(0.05)
        else:
            raise AssertionError("a further request is answered")
        self.assertIn(b'"version":1', self.ask(slow[0], JANUARY[-5:])[1])
        for peer in slow:
            peer.close()
        for _ in range(100):
            if status(self.ask(self.firm(), OWED)[0]) == 200:
                break
            time.sleep(0.05)
        else:
            raise AssertionError("no further request is answered")

    def test_one_address_has_so_many_requests_a_second(self):
        """Five, with a key or without: so nobody uses up the connections that the office serves. The others wait."""
        peer = self.firm()
        self.ask(peer, REGISTRATION)
        begun = time.monotonic()
        for _ in range(6):
            self.assertEqual(status(self.ask(peer, OWED)[0]), 200)
            self.assertEqual(status(self.ask(peer, OWED.replace(b"k1001", b"nobody"))[0]), 401)
        self.assertGreater(time.monotonic() - begun, 2)

    def test_connections_without_a_request_keep_nobody_out(self):
        endless = self.firm()
        endless.sendall(OWED[:9])
        for _ in range(FILES):
            self.addCleanup(socket.create_connection(("127.0.0.1", self.port), timeout=60).close)
        self.assertEqual(status(self.ask(self.firm(), REGISTRATION)[0]), 200)
        # A head has 10 seconds; nginx by itself leaves it 60.
        endless.settimeout(40)
        self.assertEqual(endless.recv(1), b"")

    def test_an_office_that_is_stopped(self):
        peer = self.firm()
        self.ask(peer, REGISTRATION)
        self.server.kill()
        self.server.communicate()
        self.assertEqual(status(self.ask(peer, JANUARY)[0]), 502)
        again = self.serving(9, port=self.server.port)
        self.connect(again).close()
        self.assertIn(b'"version":1', self.ask(peer, JANUARY)[1])

    def test_no_key_and_no_body_stand_in_the_logs(self):
        peer = self.firm()
        for request in (REGISTRATION, JANUARY, OWED):
            self.ask(peer, request)
        # A key below a blank line that stands too early, and a body that is longer than its length says.
        for request, refused in ((OWED.replace(b"Office-Key", b"\r\nOffice-Key"), 1),
                                 (JANUARY.replace(b"Content-Length: 40", b"Content-Length: 9"), 2)):
            with self.firm() as other:
                other.sendall(request + b"\r\n")
                self.assertEqual(self.read_all(other).count(b"HTTP/1.1 400 Bad Request"), refused)
        self.server.kill()
        self.server.communicate()
        self.ask(peer, OWED)
        self.nginx.terminate()
        self.nginx.wait()
        logs = (self.folder / "access.log").read_text(), (self.folder / "error.log").read_text()
        self.assertEqual(logs[0].count("/employers/1001/owed"), 3)
        self.assertIn("Connection refused", logs[1])
        for log in logs:
            self.assertNotRegex(log, "desk|k1001|Nord|gross")


if __name__ == "__main__":
    run_tests()
