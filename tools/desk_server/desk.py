"""The desk between the page and the office: sends each command under its number, and again where its
answer was lost."""

import contextlib
import threading
import time
from pathlib import Path
from typing import Any, Iterator

from .commands import FINAL, REPLIES, Command, Numbered
from .documents import NotUnderstood, read_worker
from .faults import Fault
from .journal import Journal, is_settled
from .numbers import is_meant
from .office import UNSENT, Answer, NoAnswer, Office
from .rates import RateRow, contribution_of, rate_in_force
from .recent import Recent

# In seconds: the pauses in front of each attempt to send a request.
PAUSES = (0, 0.2, 1)
# An attempt that ended so isn't made again by itself: the next one would take as long, or fare no better.
NO_USE = ("silent", "foreign", "stranger", "unseen", "firm")
# How long a command waits for the one before it.
TURN_SECONDS = 90
# What the page is told behind an outcome that isn't in the log.
UNWRITTEN = "-unwritten"


class Refused(Exception):
    """The office has refused a question."""

    def __init__(self, members: dict[str, Any]):
        super().__init__(members["name"])
        self.members = members


class Desk:
    def __init__(self, office: Office, journal: Journal, rates: list[RateRow] | None, program: Path | None):
        self.office = office
        self.journal = journal
        self.rates = rates
        self.program = program
        self.recent = Recent(journal.folder)
        # What the office said when its records failed. It stops the forms until the office answers again.
        self.failure: dict[str, Any] | None = None
        self.turns = threading.Lock()
        # Whether a request is on its way to the office, or waits there.
        self.is_sending = False
        # By which the page knows the later one of two states.
        self.told_at = 0
        self.telling = threading.Lock()

    # ---- questions

    def query(self, path: str) -> str:
        """The document at a path of the office."""
        try:
            answer = self.ask_twice(path)
        except NoAnswer as why:
            raise Fault("no-answer", 502, reason=why.reason, port=self.office.port) from None
        self.notice(answer)
        if answer.is_refused:
            raise Refused(answer.members)
        return answer.text

    def ask_twice(self, path: str) -> Answer:
        try:
            return self.office.document(path)
        except NoAnswer as why:
            if why.reason != "broken":
                raise
        return self.office.document(path)

    def notice(self, answer: Answer) -> None:
        if answer.is_failure:
            self.failure = answer.members
        elif not answer.is_undecided:
            self.failure = None

    # ---- commands

    def perform(self, command: Command, is_confirmed: bool) -> dict[str, Any]:
        """Sends a command under a new number, and tells what became of it."""
        if command.kind in FINAL and not is_confirmed:
            raise Fault("unconfirmed", 409, values=self.facts(command))
        with self.turn():
            if self.failure is not None:
                raise Fault("stopped", 409)
            if self.journal.pending is not None:
                raise Fault("pending", 409)
            with self.sending():
                entry = self.send(self.take(command), is_repeat=False)
            return self.told(entry)

    def take(self, command: Command) -> Numbered:
        """The command under its number. What can't be written down is told and not sent."""
        try:
            return self.journal.take(command)
        except OSError as why:
            raise Fault("journal", 500, why=why.strerror or "") from why

    def facts(self, command: Command) -> dict[str, Any]:
        """What the page tells before the second click: the values as they were read; of a claim that is to be
        released or withdrawn what this desk's log knows, where the office says the same."""
        if command.kind not in ("release", "withdraw"):
            return command.values
        claim = self.journal.history.claims.get(command.values["claim"])
        if claim is None or not claim.items() >= command.values.items() or not self.stands(claim):
            return {**command.values, "unknown": "–"}
        return {**command.values, **{name: claim[name] for name in ("employer", "worker", "cents")}}

    def stands(self, claim: dict[str, Any]) -> bool:
        """Whether the office has a claim as the log has it: under its number it has another one where its
        store went back to a backup of before."""
        try:
            claims = read_worker(self.query(f"/workers/{claim['worker']}"))["claims"]
        except (Fault, Refused, NotUnderstood):
            return False
        known = {"claim": claim["claim"], "employer": claim["employer"], "state": claim["state"],
                 "cents": str(claim["cents"])}
        return known in claims

    def send_again(self, number: int) -> dict[str, Any]:
        """Sends the request that has no answer again, with the same bytes under the same number."""
        with self.turn():
            with self.sending():
                entry = self.send(self.pending(number), is_repeat=True)
            return self.told(entry)

    def give_up(self, number: int) -> dict[str, Any]:
        """Drops the request that has no answer. It may have been done."""
        with self.turn():
            pending = self.pending(number)
            try:
                entry = self.journal.give_up(pending)
            except OSError as why:
                raise Fault("not-dropped", 500, why=why.strerror or "") from why
            return self.told(entry)

    def pending(self, number: int) -> Numbered:
        pending = self.journal.pending
        if pending is None or not is_meant(number, pending.number):
            raise Fault("not-pending", 409)
        return pending

    @contextlib.contextmanager
    def turn(self) -> Iterator[None]:
        """One command after another."""
        if not self.turns.acquire(timeout=TURN_SECONDS):
            raise Fault("busy", 503)
        try:
            yield
        finally:
            self.turns.release()

    @contextlib.contextmanager
    def sending(self) -> Iterator[None]:
        """Has each state say that a request is under way: from before it is pending until it is settled, or stays."""
        with self.telling:
            self.is_sending = True
        try:
            yield
        finally:
            with self.telling:
                self.is_sending = False

    def send(self, numbered: Numbered, is_repeat: bool) -> dict[str, Any]:
        """Sends a request. Its entry in the log."""
        command, reason = numbered.command, ""
        for pause in PAUSES:
            time.sleep(pause)
            try:
                reply = REPLIES[command.kind]
                answer = self.office.send(command.method, command.path, numbered.number, command.body, reply)
                return self.settle(numbered, answer, is_repeat)
            except NoAnswer as why:
                reason = why.reason
            is_repeat = is_repeat or reason not in UNSENT
            if reason in NO_USE:
                break
        return self.noted(numbered, "lost", {"reason": reason, "port": self.office.port})

    def settle(self, numbered: Numbered, answer: Answer, is_repeat: bool) -> dict[str, Any]:
        self.notice(answer)
        if answer.is_undecided or (is_repeat and answer.says_nothing_of_before):
            outcome = "undecided"
        elif answer.is_refused:
            outcome = "refused"
        else:
            outcome = "repeated" if is_repeat else "done"
        return self.noted(numbered, outcome, answer.members)

    def noted(self, numbered: Numbered, outcome: str, reply: dict[str, Any]) -> dict[str, Any]:
        """Logs what became of a request. The entry as the page is told it, also where the disk didn't take it.
        A request that stays is told as such in any case."""
        entry, is_written = self.journal.note(numbered, outcome, reply)
        if is_written or not is_settled(entry):
            return entry
        return {**entry, "outcome": f"{outcome}{UNWRITTEN}"}

    def told(self, entry: dict[str, Any]) -> dict[str, Any]:
        """What the page is told of an entry of the log, with the state in which the desk is then."""
        return {"entry": entry, "state": self.state()}

    def state(self) -> dict[str, Any]:
        """What stops the forms, and the request without an answer, which may still be under way. Its time, in
        microseconds since the machine started, is later than that of each state before, also of a desk before this
        one."""
        with self.telling:
            self.told_at = max(self.told_at + 1, time.monotonic_ns() // 1_000)
            pending = self.journal.pending
            return {"at": self.told_at, "failure": self.failure, "pending": None if pending is None else {
                **pending.entry(), "kind": pending.command.kind, "values": pending.command.values,
                "under_way": self.is_sending}}

    # ---- what a report will be charged

    def expected(self, month: str, gross: int) -> dict[str, Any] | None:
        """The contribution that is to be expected of a month's gross wages, by the rate file and the
        rates that this desk added; None where they don't tell."""
        row = rate_in_force([*(self.rates or []), *self.journal.history.rates.values()], month)
        if self.rates is None or row is None:
            return None
        cents = contribution_of(gross, row.contribution)
        return {"cents": str(cents), "rate": row.contribution, "from": row.first}
