"""What the scripts share that look into stores of the built program by Python's sqlite3: offices that are told what to
do, and what examples/recompute.sql tells of a store.
"""

import http.client
import json
import sqlite3

from machine import allocate, begun_months
from machine_values import day_in, day_number
from program_under_test import ROOT, ProgramUnderTest

DAY = "2024-04-10"
DAY_SERVED = "2024-04-30"
JANUARY, FEBRUARY = 24 * 12, 24 * 12 + 1
HEADER = "reference,value_date,employer,cents,purpose,note\n"


def recomputed(store):
    """What is told of a store by the statements for a look from outside: nothing, where all that is kept is right."""
    text = (ROOT / "examples/recompute.sql").read_text()
    connection = sqlite3.connect(store)
    rows = [row for statement in text.split(";") for row in connection.execute(statement)]
    connection.close()
    return rows


class Firm:
    """What the office was told of a firm."""

    def __init__(self, number):
        self.number, self.reports, self.versions, self.credits, self.claims = number, {}, {}, [], []

    def charges(self):
        # 20 per cent, rounded to whole cents, halves up; due on the 20th of the next month.
        return [(month, (gross * 2000 + 5000) // 10000) for month, gross in sorted(self.reports.items())]

    def rows(self):
        return [(self.number, *piece) for piece in allocate(self.charges(), sorted(self.credits))]

    def kept_charges(self):
        """Each contribution with its due day, what no piece of it pays, and the cents of its pieces, each once for each
        month begun from the due day until the day of its payment."""
        rows, pieces = [], self.rows()
        for month, cents in self.charges():
            due = day_in(month + 1, 20)
            paid = [(day, share) for _, of, day, _, share, _ in pieces if of == month]
            rows.append((self.number, month, due, cents, cents - sum(share for _, share in paid),
                         sum(share * begun_months(due, day) for day, share in paid)))
        return rows


class Office:
    """A connection to the program, and what it was told."""

    def __init__(self, server, firms):
        self.connection = http.client.HTTPConnection("127.0.0.1", server.port, timeout=60)
        self.firms, self.sent, self.serial, self.lines = {no: Firm(no) for no in firms}, 0, 0, 0

    def ask(self, method, path, body=""):
        self.sent += 1
        self.connection.request(method, path, body, {"Office-Key": "desk", "Request-Number": str(self.sent)})
        answer = self.connection.getresponse()
        return answer.status, json.loads(answer.read())

    def done(self, method, path, body=""):
        status, reply = self.ask(method, path, body)
        assert status == 200, (method, path, body, reply)
        return reply

    def register(self, firm):
        self.done("POST", "/employers", json.dumps({"employer": firm.number, "name": "Bau", "start": "2024-01"}))

    def report(self, firm, month, gross):
        lines = [{"gross": gross, "worker": firm.number}]
        path = f"/employers/{firm.number}/reports/2024-{month:02}"
        key = 24 * 12 + month - 1
        if key in firm.reports:
            body = json.dumps({"lines": lines, "version": firm.versions[key]})
            reply = self.done("PUT", path, body)
        else:
            reply = self.done("POST", path, json.dumps({"lines": lines}))
        firm.reports[key], firm.versions[key] = gross, reply["version"]

    def bank(self, lines):
        """Lines of (firm or None, value, cents, purpose)."""
        text = HEADER
        names = []
        for firm, value, cents, purpose in lines:
            self.lines += 1
            name = f"B{self.lines}"
            names.append(name)
            text += f"{name},{value},{firm.number if firm else ''},{cents},{purpose},\n"
        reply = self.done("POST", "/bank", text)
        assert reply == {"new": len(lines), "repeats": 0}, reply
        suspense = []
        for name, (firm, value, cents, purpose) in zip(names, lines):
            self.serial += 1
            if firm is None:
                suspense.append((name, value, self.serial, cents, purpose))
            elif purpose != "I":
                firm.credits.append((day_number(value), self.serial, cents, name))
        return suspense

    def assign(self, firm, line):
        name, value, serial, cents, purpose = line
        self.done("POST", "/assign", json.dumps({"reference": name, "employer": firm.number}))
        if purpose != "I":
            firm.credits.append((day_number(value), serial, cents, name))

    def claim(self, firm, cents):
        status, reply = self.ask("POST", f"/employers/{firm.number}/claims",
                                 json.dumps({"cents": cents, "worker": firm.number}))
        if status == 200:
            firm.claims.append(reply["claim"])

    def release(self, firm):
        number = firm.claims.pop()
        status, reply = self.ask("POST", f"/claims/{number}/release")
        if status != 200:
            assert reply["rule"] == 28, reply
            return
        self.serial += 1
        if reply["to_contributions"] > 0:
            firm.credits.append((day_number(DAY), self.serial, reply["to_contributions"], f"set-off {number}"))


def register(firm):
    return "POST", "/employers", json.dumps({"employer": firm, "name": "Bau", "start": "2024-01"})


def lines(gross, worker):
    return [{"gross": gross, "worker": worker}] if gross else []


def report(firm, month, gross, worker=7):
    return "POST", f"/employers/{firm}/reports/{month}", json.dumps({"lines": lines(gross, worker)})


def correction(firm, month, gross, worker=7):
    return "PUT", f"/employers/{firm}/reports/{month}", json.dumps({"lines": lines(gross, worker), "version": 1})


def bank(*records):
    return "POST", "/bank", HEADER + "".join(f"{record}\n" for record in records)


class OfficeUnderTest(ProgramUnderTest):
    def rows(self, statement):
        store = sqlite3.connect(self.folder / "fund.db")
        rows = store.execute(statement).fetchall()
        store.close()
        return rows

    def kept(self):
        return self.rows("SELECT employer, month, day, serial, cents, ref FROM pieces "
                         "ORDER BY employer, month, day, serial")

    def charges(self):
        return self.rows("SELECT employer, month, due, cents, open, weight FROM charges ORDER BY employer, month")

    def recomputed(self):
        return recomputed(self.folder / "fund.db")

    def one_firm(self, *steps):
        self.init()
        server = self.serving(1_000, DAY_SERVED)
        self.connect(server).close()
        office = Office(server, [1001])
        firm = office.firms[1001]
        office.register(firm)
        for step in steps:
            step(office, firm)
        office.connection.close()
        server.kill()
        server.communicate()
        self.assertEqual(self.run_program("look", "fund.db")[0], 0)
        return office, firm

    def worked(self, *days):
        """The pieces of a new store to which these requests were sent, each day's by a server of its own."""
        for path in self.folder.glob("fund.db*"):
            path.unlink()
        self.init()
        sent = 0
        for day, requests in days:
            server = self.serving(1_000, day)
            self.connect(server).close()
            office = Office(server, [])
            office.sent = sent
            for request in requests:
                office.done(*request)
            sent = office.sent
            office.connection.close()
            server.kill()
            server.communicate()
        self.assertEqual(self.run_program("look", "fund.db")[0], 0)
        return self.kept()

    def change(self, *statements):
        store = sqlite3.connect(self.folder / "fund.db")
        for statement in statements:
            store.execute(statement)
        store.commit()
        store.close()

    def expect_done(self, method, path, body):
        server = self.serving(1_000, DAY_SERVED)
        self.connect(server).close()
        office = Office(server, [])
        office.sent = 1_000
        office.done(method, path, body)
        office.connection.close()
        server.kill()
        server.communicate()
        self.assertEqual(self.run_program("look", "fund.db")[0], 0)
