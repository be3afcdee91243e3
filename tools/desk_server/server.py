"""The desk's HTTP server on 127.0.0.1: judges each request's head, and hands it to the routes."""

import contextlib
import http
import http.server
import re
import socket
import sys
import threading
import time
import traceback
from typing import Any, Callable

from .assets import Asset
from .faults import Fault
from .owners import is_own
from .routes import MOST_REQUEST, Request, Response, Routes, json_response
from .safety import HEADERS, check_site, check_source, one

HOST = "127.0.0.1"
# In seconds, for each read and write of a connection.
SOCKET_SECONDS = 20
MOST_CONNECTIONS = 32
# What a peer may still send behind a refusal, so that it gets to read it: bytes, and seconds.
MOST_DROPPED = 16 * 1_048_576
DROP_SECONDS = 2
LENGTH = re.compile(r"[0-9]{1,10}")
METHODS = "GET, POST"
# The forms that take a bank's file. Of the others only a report could be as large.
BANK_FORMS = ("bank", "check-bank")
# Where a browser has asked for a page that isn't the desk's. Nothing of what it asked for stands there.
SIGNPOST = """<!doctype html>
<html lang="en">
<meta charset="utf-8">
<title>Desk</title>
<p>Open <a href="{address}">{address}</a>, where the desk is. There is no page here.</p>
<p lang="de">Bitte <a href="{address}">{address}</a> öffnen: dort ist der Arbeitsplatz. Hier ist keine Seite.</p>
</html>
"""


def refusal(fault: Fault) -> Response:
    return json_response({"fault": fault.code, "carried": fault.carried}, fault.http_status)


def signpost(fault: Fault, port: int) -> Response:
    text = SIGNPOST.format(address=f"http://{HOST}:{port}/")
    return Response(fault.http_status, text.encode(), "text/html; charset=utf-8")


class Handler(http.server.BaseHTTPRequestHandler):
    protocol_version = "HTTP/1.1"
    timeout = SOCKET_SECONDS
    # A head and its body go out together, and a large body doesn't wait until its head is acknowledged.
    wbufsize = -1
    disable_nagle_algorithm = True
    server: "Server"

    def version_string(self) -> str:
        return "desk"

    def log_message(self, *_words: Any) -> None:
        """Nothing: the log of what was done is the journal's."""

    def send_error(self, code: int, message: str | None = None, explain: str | None = None) -> None:
        """What the library itself refuses: a head that isn't one, or another method."""
        self.close_connection = True
        if code == http.HTTPStatus.NOT_IMPLEMENTED:
            self.send(refusal(Fault("method", 405)), {"Allow": METHODS})
        else:
            self.send(refusal(Fault("head", int(code))))

    def do_GET(self) -> None:
        self.answer(self.answer_get)

    def do_POST(self) -> None:
        self.answer(self.answer_post)

    def answer(self, find: Callable[[], Response]) -> None:
        # One request a connection: what was left unread of one is never taken for the next one.
        self.close_connection = True
        try:
            check_source(self.headers, self.server.server_port, self.command == "POST")
            response = find()
        except Fault as fault:
            response = signpost(fault, self.server.server_port) if self.is_for_a_page() else refusal(fault)
        except Exception:
            traceback.print_exc(file=sys.stderr)
            response = refusal(Fault("internal", 500))
        self.send(response)

    def is_for_a_page(self) -> bool:
        """Whether a browser shows the answer by itself. What the page asks for takes any kind."""
        return self.command == "GET" and "text/html" in self.headers.get("Accept", "")

    def answer_get(self) -> Response:
        path, mark, _ = self.path.partition("?")
        if mark and path != "/":
            raise Fault("path", 404)
        if asset := self.server.assets.get(path):
            return Response(200, asset.content, asset.kind)
        check_site(self.headers)
        response = self.server.routes.get(path)
        if response is None:
            raise Fault("path", 404)
        return response

    def answer_post(self) -> Response:
        form = self.server.routes.form_of(self.path)
        if form is None:
            raise Fault("path", 404)
        check_site(self.headers)
        self.server.routes.tokens.check(form, one(self.headers, "Desk-Token"))
        request = Request(
            word=form, body=self.read_body(form), kind=self.headers.get_content_type(),
            is_confirmed=one(self.headers, "Desk-Confirmed") == "yes",
            file_name=one(self.headers, "Desk-File") or "",
        )
        return self.server.routes.post(self.path, request)

    def read_body(self, form: str) -> bytes:
        if one(self.headers, "Transfer-Encoding") is not None:
            raise Fault("head", 501)
        length = one(self.headers, "Content-Length")
        if length is None or not LENGTH.fullmatch(length):
            raise Fault("head", 411)
        if int(length) > MOST_REQUEST:
            raise Fault("file-too-large" if form in BANK_FORMS else "report-too-large", 413)
        try:
            body = self.rfile.read(int(length))
        except OSError:
            raise Fault("head", 408) from None
        if len(body) != int(length):
            raise Fault("head", 400)
        return body

    def send(self, response: Response, further: dict[str, str] | None = None) -> None:
        self.send_response(response.status)
        length = str(len(response.content))
        fields = {"Content-Type": response.kind, "Content-Length": length, "Connection": "close"}
        for name, value in {**HEADERS, **fields, **response.further, **(further or {})}.items():
            self.send_header(name, value)
        self.end_headers()
        if self.command != "HEAD":
            self.wfile.write(response.content)
        self.wfile.flush()
        if response.status >= 400:
            self.drop_rest()

    def drop_rest(self) -> None:
        """Reads on for a moment: a connection that ends with bytes unread is reset, and its peer may lose
        the answer."""
        until = time.monotonic() + DROP_SECONDS
        left = MOST_DROPPED
        with contextlib.suppress(OSError):
            self.connection.shutdown(socket.SHUT_WR)
            self.connection.settimeout(DROP_SECONDS)
            while left > 0 and time.monotonic() < until and (part := self.connection.recv(65_536)):
                left -= len(part)


class Server(http.server.ThreadingHTTPServer):
    """Bounded: a connection beyond the most waits until another one ends."""

    daemon_threads = True
    request_queue_size = 64

    def __init__(self, port: int, assets: dict[str, Asset]):
        self.assets = assets
        self.routes: Routes
        self.places = threading.BoundedSemaphore(MOST_CONNECTIONS)
        super().__init__((HOST, port), Handler)

    def verify_request(self, request: socket.socket, client_address: Any) -> bool:
        """Whether this user's program has made the connection. It is judged before the connection takes a
        place, so that nobody else fills them."""
        try:
            return is_own(client_address, request.getsockname())
        except OSError:
            return False

    def process_request(self, request: socket.socket, client_address: Any) -> None:
        self.places.acquire()
        try:
            super().process_request(request, client_address)
        except Exception:
            # No thread was begun, which would give the place back.
            self.places.release()
            raise

    def process_request_thread(self, request: socket.socket, client_address: Any) -> None:
        try:
            super().process_request_thread(request, client_address)
        finally:
            self.places.release()

    def handle_error(self, request: Any, client_address: Any) -> None:
        """A peer that parted, or was too slow. What the desk itself fails at is told where it is answered."""
