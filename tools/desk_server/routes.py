"""What the page may ask of the desk: each path, and the function that answers it."""

import json
import re
import urllib.parse
from dataclasses import dataclass, field
from typing import Any, Callable

from .amounts import CONTROL, MONTHS
from .bank_check import check_bank
from .desk import UNWRITTEN, Desk, Refused
from .documents import NotUnderstood, read_payout, read_reminders, read_statement, read_suspense, read_worker
from .faults import Fault
from .forms import FORMS, Form, bank
from .safety import Tokens

# What isn't a form of a command and has a token too.
FURTHER_FORMS = ("bank", "check-bank", "check-report", "send-again", "give-up")
# Above the largest bank file, for the JSON around a report.
MOST_REQUEST = 1_048_576 + 65_536
HTTP_STATUS = {"done": 200, "repeated": 200, "given-up": 200, "refused": 409, "undecided": 503, "lost": 502}
NUMBER = "([1-9][0-9]{0,8})"
EMPLOYER = "([1-9][0-9]{0,7})"
DOCUMENT = f"statement-{EMPLOYER}|suspense|(?:worker|payout|reminders)-{NUMBER}"
FILE_NAME_LENGTH = 80
# So many of the last lists and runs are offered.
MOST_KNOWN = 10


@dataclass(frozen=True)
class Request:
    """A request that came from the page: what its path holds, its body, and what its header fields say."""

    word: str
    body: bytes
    kind: str
    is_confirmed: bool
    file_name: str

    def members(self) -> Any:
        if self.kind != "application/json":
            raise Fault("form", 415)
        try:
            return json.loads(self.body)
        except (ValueError, RecursionError):
            raise Fault("form") from None


@dataclass(frozen=True)
class Response:
    status: int
    content: bytes
    kind: str = "application/json"
    further: dict[str, str] = field(default_factory=dict)


def json_response(members: Any, status: int = 200) -> Response:
    return Response(status, json.dumps(members, ensure_ascii=False).encode(errors="replace"))


def understood(read: Callable[[str], dict[str, Any]], text: str) -> dict[str, Any] | None:
    """What a document says; None where the desk doesn't understand it, so that the page shows the text
    alone."""
    try:
        return read(text)
    except NotUnderstood:
        return None


class Routes:
    def __init__(self, desk: Desk, tokens: Tokens, settings: dict[str, Any]):
        self.desk = desk
        self.tokens = tokens
        self.settings = settings
        self.gets = [(re.compile(pattern), answer) for pattern, answer in (
            ("/api/session", self.session),
            ("/api/suspense/([0-9]{1,6})", self.suspense),
            (f"/api/firms/{EMPLOYER}", self.firm),
            (f"/api/workers/{NUMBER}", self.worker),
            (f"/api/payouts/{NUMBER}", self.payout),
            (f"/api/reminders/{NUMBER}", self.reminder),
            ("/api/log", self.log),
            (f"/documents/({DOCUMENT})[.]txt", self.document),
        )]
        self.posts = {f"/api/commands/{kind}": (kind, self.command) for kind in FORMS}
        self.posts |= {
            "/api/commands/bank": ("bank", self.import_bank),
            "/api/check/bank": ("check-bank", self.check_bank),
            "/api/check/report": ("check-report", self.check_report),
            "/api/pending/send-again": ("send-again", self.send_again),
            "/api/pending/give-up": ("give-up", self.give_up),
        }

    # ---- questions

    def get(self, path: str) -> Response | None:
        """The answer to a path that is asked for; None where there is no such path."""
        for pattern, answer in self.gets:
            if found := pattern.fullmatch(path):
                return self.answered(lambda: answer(*found.groups()[:1]))
        return None

    def answered(self, answer: Callable[[], Response]) -> Response:
        """The answer, or the office's refusal or the desk's own fault in its place."""
        try:
            return answer()
        except Refused as refused:
            return json_response({"refusal": refused.members, "state": self.desk.state()}, 409)
        except Fault as fault:
            return self.told(fault)

    def told(self, fault: Fault) -> Response:
        told = {"fault": fault.code, "carried": fault.carried, "state": self.desk.state()}
        return json_response(told, fault.http_status)

    def session(self) -> Response:
        """All that the page needs to begin with; the office isn't asked."""
        tokens = {form: self.tokens.token(form) for form in (*FORMS, *FURTHER_FORMS)}
        return json_response({
            **self.settings, "tokens": tokens, "state": self.desk.state(), "recent": self.desk.recent.told(),
            "months": MONTHS,
        })

    def suspense(self, first: str) -> Response:
        text = self.desk.query("/suspense")
        known = self.desk.journal.history.documents
        return json_response({
            "suspense": understood(lambda it: read_suspense(it, int(first)), text), "text": text,
            "lists": list(known["payouts"])[-MOST_KNOWN:], "runs": list(known["reminders"])[-MOST_KNOWN:],
            "state": self.desk.state(),
        })

    def firm(self, employer: str) -> Response:
        text = self.desk.query(f"/employers/{employer}/statement")
        statement = understood(read_statement, text)
        if statement is not None:
            self.desk.recent.add(int(employer), statement["name"])
        return json_response({
            "statement": statement, "text": text, "recent": self.desk.recent.told(),
            "claims": self.desk.journal.history.claims_of(int(employer)), "state": self.desk.state(),
        })

    def text_and(self, name: str, read: Callable[[str], dict[str, Any]], path: str) -> Response:
        text = self.desk.query(path)
        return json_response({name: understood(read, text), "text": text, "state": self.desk.state()})

    def worker(self, worker: str) -> Response:
        return self.text_and("worker", read_worker, f"/workers/{worker}")

    def payout(self, number: str) -> Response:
        return self.text_and("payout", read_payout, f"/payouts/{number}")

    def reminder(self, number: str) -> Response:
        return self.text_and("reminders", read_reminders, f"/reminders/{number}")

    def log(self) -> Response:
        return json_response({"log": list(self.desk.journal.history.entries), "state": self.desk.state()})

    def document(self, name: str) -> Response:
        """The office's text as it is, to keep in a file."""
        word, _, number = name.partition("-")
        paths = {
            "statement": f"/employers/{number}/statement", "worker": f"/workers/{number}",
            "suspense": "/suspense", "payout": f"/payouts/{number}", "reminders": f"/reminders/{number}",
        }
        text = self.desk.query(paths[word])
        further = {"Content-Disposition": f'attachment; filename="{name}.txt"'}
        return Response(200, text.encode(), "text/plain; charset=utf-8", further)

    # ---- forms

    def form_of(self, path: str) -> str | None:
        """The form that is sent to a path, which its token is for."""
        return self.posts[path][0] if path in self.posts else None

    def post(self, path: str, request: Request) -> Response:
        answer = self.posts[path][1]
        return self.answered(lambda: answer(request))

    def outcome(self, told: dict[str, Any]) -> Response:
        return json_response(told, HTTP_STATUS[told["entry"]["outcome"].removesuffix(UNWRITTEN)])

    def command(self, request: Request) -> Response:
        command = FORMS[request.word](Form(request.members()))
        return self.outcome(self.desk.perform(command, request.is_confirmed))

    def import_bank(self, request: Request) -> Response:
        name = urllib.parse.unquote(request.file_name)
        command = bank(request.body, CONTROL.sub(" ", name)[:FILE_NAME_LENGTH])
        return self.outcome(self.desk.perform(command, request.is_confirmed))

    def check_bank(self, request: Request) -> Response:
        bank(request.body, "")
        told = check_bank(self.desk.program, request.body)
        return json_response({"check": told, "state": self.desk.state()})

    def check_report(self, request: Request) -> Response:
        """What a report's lines come to, and what they will be charged. Nothing is sent to the office."""
        form = Form(request.members())
        month, report = form.month("month"), form.report()
        return json_response({
            "faults": report.faults, "lines": len(report.wages), "gross": str(report.gross), "month": month,
            "wages": [{"worker": worker, "cents": str(gross)} for worker, gross in report.wages.items()],
            "expected": None if report.faults else self.desk.expected(month, report.gross),
            "rates_known": self.desk.rates is not None, "state": self.desk.state(),
        })

    def number_of(self, request: Request) -> int:
        members = request.members()
        if not isinstance(members, dict) or type(members.get("number")) is not int:
            raise Fault("form")
        return members["number"]

    def send_again(self, request: Request) -> Response:
        return self.outcome(self.desk.send_again(self.number_of(request)))

    def give_up(self, request: Request) -> Response:
        if not request.is_confirmed:
            raise Fault("unconfirmed", 409)
        return self.outcome(self.desk.give_up(self.number_of(request)))
