"""The client of the office: one connection for each request, since the office serves one after another."""

import http.client
import json
import os
from dataclasses import dataclass
from typing import Any

from . import owners

HOST = "127.0.0.1"
CONNECT_SECONDS = 5
# Others may come first, and each of them has 30 seconds.
ANSWER_SECONDS = 60
MOST_ANSWER = 64 * 1_048_576
MOST_BODY = 1_048_576
# The rules by which nothing is decided yet: no memory, and records that couldn't be read or written.
MEMORY, STORE, FAILED = 40, 41, 42
# The rules up to this one are judged before the office looks whether the request was done already
# (docs/http.md, docs/rules.md): its head, its path, its key, its body, and whose the key is.
LAST_BEFORE_REPEATS = 8
# The rule by which a firm is refused what only a clerk may ask for, as for a worker.
NOT_YOURS = 7
CLERKS_QUESTION = "/workers/999999999"

# The reasons for which nothing was sent.
UNSENT = ("absent", "stranger", "unseen", "firm")
ROOT = 0


class NoAnswer(Exception):
    """Nothing came that an office says. The reason is `absent` (nobody takes the connection), `stranger`
    (another user's program takes it), `unseen` (the kernel doesn't say whose takes it), `firm` (the key is a
    firm's), `silent` (no answer in time), `broken` (the connection ended before) or `foreign` (what answers
    is no office)."""

    def __init__(self, reason: str):
        super().__init__(reason)
        self.reason = reason


@dataclass(frozen=True)
class Answer:
    """An answer of the office: the text of a document, the members of a reply, or rule, name and detail
    of a refusal."""

    text: str
    members: dict[str, Any]
    is_refused: bool

    @property
    def rule(self) -> int:
        return self.members["rule"] if self.is_refused else 0

    @property
    def is_failure(self) -> bool:
        return self.rule in (STORE, FAILED)

    @property
    def is_undecided(self) -> bool:
        """Whether the request is to be sent again under its number."""
        return self.rule in (MEMORY, STORE, FAILED)

    @property
    def says_nothing_of_before(self) -> bool:
        """Whether the request may have been done by an earlier attempt all the same."""
        return self.is_undecided or 0 < self.rule <= LAST_BEFORE_REPEATS


class Office:
    """The office on a port of this machine, which this user, root or a further one has started."""

    def __init__(self, port: int, key: str, user: int | None = None, seconds: float = ANSWER_SECONDS):
        self.port = port
        self.seconds = seconds
        self.users = (os.getuid(), ROOT, user)
        self._key = key
        self.is_clerks_key = False

    def document(self, path: str) -> Answer:
        """The document at a path, or a refusal."""
        answer = self.ask("GET", path)
        if not answer.is_refused and answer.members:
            raise NoAnswer("foreign")
        return answer

    def send(self, method: str, path: str, number: int, body: bytes, reply: frozenset[str]) -> Answer:
        """The reply to a command, which has just these members, or a refusal."""
        if unjudged := self.check_key():
            return unjudged
        answer = self.ask(method, path, number, body)
        if not answer.is_refused and set(answer.members) != reply:
            raise NoAnswer("foreign")
        return answer

    def check_key(self) -> Answer | None:
        """Keeps commands from going with a firm's key: its numbers are the firm's own, so what went with a
        clerk's key before would be done once more. Where the office had no memory to judge the key, its answer."""
        if self.is_clerks_key:
            return None
        answer = self.document(CLERKS_QUESTION)
        if answer.rule == NOT_YOURS:
            raise NoAnswer("firm")
        self.is_clerks_key = not answer.is_refused
        return answer if answer.rule == MEMORY else None

    def ask(self, method: str, path: str, number: int | None = None, body: bytes = b"") -> Answer:
        fields = {"Office-Key": self._key, "Connection": "close"}
        if number is not None:
            fields["Request-Number"] = str(number)
        connection = http.client.HTTPConnection(HOST, self.port, timeout=CONNECT_SECONDS)
        try:
            connection.connect()
            self.check_peer(connection.sock.getsockname())
            connection.sock.settimeout(self.seconds)
            connection.request(method, path, body if method != "GET" else None, fields)
            response = connection.getresponse()
            return read_answer(response, read_body(response))
        except ConnectionRefusedError:
            raise NoAnswer("absent") from None
        except TimeoutError:
            raise NoAnswer("silent") from None
        except (http.client.HTTPException, OSError):
            raise NoAnswer("broken") from None
        finally:
            connection.close()

    def check_peer(self, here: owners.Address) -> None:
        """Keeps key and request from whoever else listens on the port, as while the office is stopped, and from
        whoever else holds the other end: two ends that connect to each other need nobody who listens. In this
        order, as the other end has no holder before it is accepted."""
        if not owners.are_told():
            return
        office = (HOST, self.port)
        for owner in (owners.listener(office), owners.holder(office, here)):
            if owner is None:
                raise NoAnswer("unseen")
            if owner not in self.users:
                raise NoAnswer("stranger")


def read_body(response: http.client.HTTPResponse) -> bytes:
    """The whole body, whose length an office tells."""
    length = response.length
    if length is None:
        # A head that was cut off is read as one with the fields that came, and nothing stands behind them.
        raise NoAnswer("foreign" if response.read(1) else "broken")
    if length > MOST_ANSWER:
        raise NoAnswer("foreign")
    content = response.read()
    if len(content) != length:
        raise NoAnswer("broken")
    return content


def read_answer(response: http.client.HTTPResponse, content: bytes) -> Answer:
    """The answer of an office, which is a document, the members of a reply, or those of a refusal."""
    is_document = response.headers.get_content_type() == "text/plain"
    try:
        text = content.decode()
        members = {} if is_document else json.loads(text)
    except (ValueError, RecursionError):
        raise NoAnswer("foreign") from None
    if response.status == 200 and is_document:
        return Answer(text, {}, False)
    if response.status == 200 and is_reply(members):
        return Answer("", members, False)
    if response.status != 200 and is_refusal(members):
        return Answer("", members, True)
    raise NoAnswer("foreign")


def is_reply(members: Any) -> bool:
    if not isinstance(members, dict) or not members:
        return False
    return all(type(it) in (int, bool) for it in members.values())


def is_refusal(members: Any) -> bool:
    if not isinstance(members, dict):
        return False
    return {key: type(value) for key, value in members.items()} == {"rule": int, "name": str, "detail": str}
