"""The kept contributions, what is open of them, their weights and their pieces in stores of the built program, read by
Python's sqlite3: against an allocation of its own, and by the statements of docs/formats.md.

    python3 tests/pieces.py [PROGRAM]

PROGRAM is crates/clear_app/out/clear_app where it isn't given, as `rt ci` leaves it.
"""

import http.client
import json
import random
import re
import sys
from datetime import date, timedelta

# No __pycache__ is left beside the sources.
sys.dont_write_bytecode = True
from machine_values import day_number  # noqa: E402
from office_under_test import (DAY, FEBRUARY, HEADER, JANUARY, Office, OfficeUnderTest, bank,  # noqa: E402
                               correction, register, report)
from program_under_test import ROOT, run_tests  # noqa: E402

FIRMS = range(1001, 1301)
STAGES = 8
REQUESTS = 300


class Scenario:
    """Random requests to an office, drawn so that contributions and payments often end at the same cent."""

    def __init__(self, office, seed):
        self.office, self.draw, self.suspense = office, random.Random(seed), []

    def gross(self):
        return self.draw.choice([0, 100_000, 100_000, 250_003, 500_000, 1_000_000])

    def cents(self, firm):
        charges = [cents for _, cents in firm.charges() if cents] or [20_000]
        open_cents = sum(charges) - sum(credit[2] for credit in firm.credits)
        amounts = [1, 20_000, self.draw.choice(charges), self.draw.randint(1, 60_000)]
        if open_cents > 0:
            amounts += [open_cents, open_cents + 1]
        return self.draw.choice(amounts)

    def value(self):
        """From two days before January is due up to the day before the requests."""
        return str(date(2024, 2, 18) + timedelta(self.draw.randrange(52)))

    def firm(self):
        return self.office.firms[self.draw.choice(list(self.office.firms))]

    def take(self):
        kind, office = self.draw.choice(["report"] * 5 + ["bank"] * 4 + ["assign", "claim", "release"]), self.office
        firm = self.firm()
        if kind == "report":
            office.report(firm, self.draw.randint(1, 4), self.gross())
        elif kind == "bank":
            lines = [(one, self.value(), self.cents(one), self.draw.choice("CCCI"))
                     for one in (self.firm() for _ in range(self.draw.randint(1, 12))) for _ in range(2)]
            lines.append((None, self.value(), self.draw.randint(1, 60_000), self.draw.choice("CCI")))
            self.draw.shuffle(lines)
            self.suspense += office.bank(lines)
        elif kind == "assign" and self.suspense:
            office.assign(firm, self.suspense.pop(self.draw.randrange(len(self.suspense))))
        elif kind == "claim":
            office.claim(firm, self.draw.choice([1, 5_000, 20_000]))
        elif kind == "release" and firm.claims:
            office.release(firm)


class Pieces(OfficeUnderTest):
    def check(self, office):
        self.assertEqual(self.kept(), sorted(row for firm in office.firms.values() for row in firm.rows()))
        self.assertEqual(self.charges(),
                         sorted(row for firm in office.firms.values() for row in firm.kept_charges()))
        self.assertEqual(self.recomputed(), [])

    def test_random_requests(self):
        """The firms are scenarios of their own; bank files bring several of them together."""
        self.init()
        office = None
        for stage in range(STAGES):
            server = self.serving(1_000, DAY)
            self.connect(server).close()
            if office is None:
                office = Office(server, FIRMS)
                scenario = Scenario(office, 20240410)
                for firm in office.firms.values():
                    office.register(firm)
            office.connection.close()
            office.connection = http.client.HTTPConnection("127.0.0.1", server.port, timeout=60)
            for _ in range(REQUESTS):
                scenario.take()
            office.connection.close()
            server.kill()
            server.communicate()
            # Brings in what the log has.
            self.assertEqual(self.run_program("look", "fund.db")[0], 0)
            with self.subTest(stage):
                self.check(office)
        self.assertGreater(len(self.kept()), 200)
        self.assertGreater(sum(row[5] > 0 for row in self.charges()), 50)

    def expect_charges(self, firm, *wanted):
        """Of the firm's months from January on: what it owes, what is open of that, and its weight."""
        self.assertEqual(self.charges(), [
            (firm, JANUARY + place, day_number(due), *row)
            for place, (due, row) in enumerate(zip(("2024-02-20", "2024-03-20"), wanted))])
        self.assertEqual(self.recomputed(), [])

    def test_worked_accounts(self):
        """Accounts whose pieces and weights were reckoned by hand: two months and two payments, then a month corrected,
        a payment dated before the others, the later month corrected; a month without lines that is corrected."""
        january, february = JANUARY, FEBRUARY
        day = "2024-04-30"
        first, second, early = (day_number(it) for it in ("2024-02-25", "2024-04-21", "2024-02-20"))
        account = [
            register(1001), report(1001, "2024-01", 1_000_000), report(1001, "2024-02", 500_050),
            bank("B1,2024-02-25,1001,150000,C,", "B2,2024-04-21,1001,200000,C,")]
        paid = (1001, january, first, 1, 150_000, "B1"), (1001, january, second, 2, 50_000, "B2")
        self.assertEqual(self.worked((day, account)), [*paid, (1001, february, second, 2, 100_010, "B2")])
        # B1 pays January in its first month, B2 in its third one, and February in its second one.
        self.expect_charges(1001, (200_000, 0, 300_000), (100_010, 0, 200_020))
        corrected = [*account, correction(1001, "2024-01", 500_000)]
        self.assertEqual(self.worked((day, corrected)), [
            (1001, january, first, 1, 100_000, "B1"),
            (1001, february, first, 1, 50_000, "B1"), (1001, february, second, 2, 50_010, "B2")])
        self.expect_charges(1001, (100_000, 0, 100_000), (100_010, 0, 100_020))
        late = [*account, bank("B3,2024-02-20,1001,60000,C,")]
        self.assertEqual(self.worked((day, late)), [
            (1001, january, early, 3, 60_000, "B3"), (1001, january, first, 1, 140_000, "B1"),
            (1001, february, first, 1, 10_000, "B1"), (1001, february, second, 2, 90_010, "B2")])
        self.expect_charges(1001, (200_000, 0, 140_000), (100_010, 0, 180_020))
        lower = [*account, correction(1001, "2024-02", 400_000)]
        self.assertEqual(self.worked((day, lower)), [*paid, (1001, february, second, 2, 80_000, "B2")])
        self.expect_charges(1001, (200_000, 0, 300_000), (80_000, 0, 160_000))
        nothing = [
            register(1003), report(1003, "2024-01", 0), report(1003, "2024-02", 500_050),
            bank("C1,2024-03-20,1003,100010,C,")]
        march = day_number("2024-03-20")
        self.assertEqual(self.worked((day, nothing)), [(1003, february, march, 1, 100_010, "C1")])
        self.expect_charges(1003, (0, 0, 0), (100_010, 0, 0))
        self.assertEqual(self.worked((day, [*nothing, correction(1003, "2024-01", 100_000)])), [
            (1003, january, march, 1, 20_000, "C1"), (1003, february, march, 1, 80_010, "C1")])
        self.expect_charges(1003, (20_000, 0, 20_000), (100_010, 20_000, 0))

    def test_a_set_off_that_is_prepaid_later(self):
        """A release sets 300.00 off, the rest of January; January is then corrected to what the bank line has paid."""
        january, line, released = JANUARY, day_number("2024-02-21"), day_number("2024-03-10")
        due = day_number("2024-02-20")
        unpaid = 1002, january, due, 80_000, 80_000, 0
        before = "2024-03-10", [
            register(1002), register(1004), report(1002, "2024-01", 400_000, 9), report(1004, "2024-01", 250_000, 9),
            bank("D1,2024-02-21,1004,20000,C,"),
            ("POST", "/employers/1004/claims", json.dumps({"cents": 80_000, "worker": 9})),
            ("POST", "/claims/1/release", "")]
        self.assertEqual(self.worked(before), [
            (1004, january, line, 1, 20_000, "D1"), (1004, january, released, 2, 30_000, "set-off 1")])
        self.assertEqual(self.charges(), [unpaid, (1004, january, due, 50_000, 0, 50_000)])
        after = "2024-03-12", [correction(1004, "2024-01", 100_000, 9)]
        self.assertEqual(self.worked(before, after), [(1004, january, line, 1, 20_000, "D1")])
        self.assertEqual(self.charges(), [unpaid, (1004, january, due, 20_000, 0, 20_000)])
        self.assertEqual(self.recomputed(), [])

    def test_a_correction_that_leaves_the_contribution(self):
        """Nothing is written: a wrong piece that stands keeps its cents, and what is paid of the contribution stays."""
        self.one_firm(
            lambda office, firm: office.report(firm, 1, 1_000_000),
            lambda office, firm: office.bank([(firm, "2024-02-25", 150_000, "C")]))
        self.change("UPDATE pieces SET cents = 149999")
        self.expect_done("PUT", "/employers/1001/reports/2024-01", '{"lines":[{"gross":1000000,"worker":8}],"version":1}')
        self.assertEqual([row[4] for row in self.kept()], [149_999])
        self.assertEqual([row[3:] for row in self.charges()], [(200_000, 50_000, 150_000)])

    def test_a_wrong_piece_moves_nothing_that_is_open(self):
        """What is open follows from contributions and payments, whatever cents the pieces below a place hold."""
        self.one_firm(
            lambda office, firm: office.report(firm, 1, 1_000_000),
            lambda office, firm: office.bank([(firm, "2024-02-25", 100_000, "C")]))
        self.change("UPDATE pieces SET cents = 99999")
        self.expect_done("POST", "/bank", HEADER + "B2,2024-04-21,1001,50000,C,\n")
        self.assertEqual([row[4:] for row in self.kept()], [(99_999, "B1"), (50_000, "B2")])
        self.assertEqual([row[3:] for row in self.charges()], [(200_000, 50_000, 250_000)])

    def test_a_later_change_leaves_the_contributions_below_it(self):
        """The row of a month that ends at the place of a change isn't written, not even where it is wrong."""
        self.one_firm(
            lambda office, firm: office.report(firm, 1, 1_000_000),
            lambda office, firm: office.report(firm, 2, 500_050),
            lambda office, firm: office.bank([(firm, "2024-02-25", 200_000, "C")]))
        self.change("UPDATE charges SET weight = 200001 WHERE month = 288")
        self.expect_done("POST", "/bank", HEADER + "B2,2024-04-21,1001,50000,C,\n")
        self.assertEqual([row[3:] for row in self.charges()], [(200_000, 0, 200_001), (100_010, 50_010, 100_000)])

    def test_a_piece_below_the_place_is_left(self):
        """A later payment reaches beyond the piece of the first one, which keeps its wrong cents."""
        self.one_firm(
            lambda office, firm: office.report(firm, 1, 1_000_000),
            lambda office, firm: office.bank([(firm, "2024-02-25", 150_000, "C"), (firm, "2024-04-21", 200_000, "C")]))
        self.change("UPDATE pieces SET cents = 149999 WHERE ref = 'B1'")
        self.expect_done("POST", "/bank", HEADER + "B3,2024-04-25,1001,1000,C,\n")
        self.assertEqual([row[4:] for row in self.kept()], [(149_999, "B1"), (50_000, "B2")])

    def test_the_sums_of_the_formats(self):
        """What the three sums of docs/formats.md find: a contribution, a firm, a payment."""
        text = (ROOT / "docs/formats.md").read_text()
        sums = re.findall(r"(?<=\n\n)    SELECT.*\n(?:    .*\n)*", text)
        self.assertEqual(len(sums), 3)
        self.one_firm(
            lambda office, firm: office.report(firm, 1, 1_000_000),
            lambda office, firm: office.report(firm, 2, 500_050),
            lambda office, firm: office.bank(
                [(firm, "2024-02-25", 200_000, "C"), (firm, "2024-04-21", 150_000, "C")]))
        whole = (self.folder / "fund.db").read_bytes()
        firm, first, second = [(1001,)], (1001, "B1"), (1001, "B2")
        # 300,010 are owed, and 350,000 were paid.
        for statement, found in {
            "UPDATE charges SET open = 1 WHERE month = 289": [[(1001, 289)], [], []],
            "UPDATE pieces SET cents = cents - 1 WHERE ref = 'B1'": [[(1001, 288)], firm, []],
            "UPDATE pieces SET cents = cents + 1 WHERE ref = 'B1'": [[(1001, 288)], firm, [first]],
            "DELETE FROM pieces": [[(1001, 288), (1001, 289)], firm, []],
            "DELETE FROM charges WHERE month = 289": [[], firm, []],
            "DELETE FROM charges": [[], firm, []],
            "DELETE FROM credits WHERE ref = 'B2'": [[], firm, [second]],
            "UPDATE credits SET day = day - 1 WHERE ref = 'B2'": [[], [], [second]],
            "UPDATE credits SET cents = 100009 WHERE ref = 'B2'": [[], firm, [second]],
        }.items():
            with self.subTest(statement):
                self.write("fund.db", whole)
                self.assertEqual([self.rows(it) for it in sums], [[], [], []])
                self.change(statement)
                self.assertEqual([self.rows(it) for it in sums], found)


if __name__ == "__main__":
    run_tests()
