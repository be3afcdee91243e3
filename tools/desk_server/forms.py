"""The forms of the page, each made into the command that it stands for. Every value comes as the text
that was typed."""

import hashlib
from typing import Any, Callable

from . import amounts
from .commands import Command, command
from .faults import Fault, FieldFault
from .office import MOST_BODY
from .reports import Report, read_report


class Form:
    """The fields of a form, and the language in which its amounts are written."""

    def __init__(self, members: Any):
        if not isinstance(members, dict) or not all(isinstance(it, str) for it in members.values()):
            raise Fault("form")
        self.members = members
        self.language = members.get("language", "")
        if self.language not in amounts.SEPARATORS:
            raise Fault("form")

    def text(self, field: str) -> str:
        if field not in self.members:
            raise FieldFault(field, "missing")
        return self.members[field]

    def employer(self) -> int:
        return amounts.number("employer", self.text("employer"), amounts.MOST_EMPLOYER)

    def worker(self) -> int:
        return amounts.number("worker", self.text("worker"), amounts.MOST_WORKER)

    def claim(self) -> int:
        return amounts.number("claim", self.text("claim"), amounts.MOST_CLAIM)

    def month(self, field: str) -> str:
        return amounts.month(field, self.text(field))

    def report(self) -> Report:
        return read_report(self.text("csv"))


def register(form: Form) -> Command:
    employer, name = form.employer(), amounts.name("name", form.text("name"))
    values = {"employer": employer, "name": name, "start": form.month("start")}
    return command("register", "/employers", values, values)


def end(form: Form) -> Command:
    employer, last = form.employer(), form.month("last")
    return command("end", f"/employers/{employer}/end", {"last": last}, {"employer": employer, "last": last})


def rates(form: Form) -> Command:
    values: dict[str, Any] = {"from": form.month("from")}
    for field, most in (("contribution", 10_000), ("entitlement", 10_000), ("interest", 1_000)):
        values[field] = amounts.percentage(field, form.text(field), form.language, most)
    for field in ("report_day", "due_day"):
        values[field] = amounts.number(field, form.text(field), 28)
    return command("rates", "/rates", values, values)


def read_lines(form: Form) -> tuple[str, dict[str, Any], list[dict[str, int]]]:
    """The path of a report, the values that tell of it, and its lines."""
    employer, month, report = form.employer(), form.month("month"), form.report()
    if report.faults:
        raise FieldFault("csv", "csv")
    values = {"employer": employer, "month": month, "lines": len(report.wages), "gross": report.gross}
    return f"/employers/{employer}/reports/{month}", values, report.lines


def report(form: Form) -> Command:
    path, values, lines = read_lines(form)
    return command("report", path, {"lines": lines}, values)


def correct(form: Form) -> Command:
    version = amounts.number("version", form.text("version"), amounts.MOST_VERSION)
    path, values, lines = read_lines(form)
    values = {**values, "version": version}
    return command("correct", path, {"lines": lines, "version": version}, values, "PUT")


def claim(form: Form) -> Command:
    employer, worker = form.employer(), form.worker()
    cents = amounts.amount("amount", form.text("amount"), form.language)
    values = {"employer": employer, "worker": worker, "cents": cents}
    return command("claim", f"/employers/{employer}/claims", {"cents": cents, "worker": worker}, values)


def withdraw(form: Form) -> Command:
    employer, number = form.employer(), form.claim()
    path = f"/employers/{employer}/claims/{number}/withdraw"
    return command("withdraw", path, None, {"employer": employer, "claim": number})


def release(form: Form) -> Command:
    number = form.claim()
    return command("release", f"/claims/{number}/release", None, {"claim": number})


def assign(form: Form) -> Command:
    employer, reference = form.employer(), amounts.reference("reference", form.text("reference"))
    values = {"employer": employer, "reference": reference}
    return command("assign", "/assign", values, values)


def payouts(_form: Form) -> Command:
    return command("payouts", "/payouts", None, {})


def reminders(_form: Form) -> Command:
    return command("reminders", "/reminders", None, {})


FORMS: dict[str, Callable[[Form], Command]] = {
    it.__name__: it
    for it in (register, end, rates, report, correct, claim, withdraw, release, assign, payouts, reminders)
}


def bank(content: bytes, file_name: str) -> Command:
    """A bank file goes to the office byte for byte. The log tells its name, its size, and by what it may
    be known again."""
    if len(content) > MOST_BODY:
        raise Fault("file-too-large", 413)
    digest = hashlib.sha256(content).hexdigest()[:16]
    values = {"file": file_name, "bytes": len(content), "sha256": digest}
    return Command("bank", "POST", "/bank", content, values)
