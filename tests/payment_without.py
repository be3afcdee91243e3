"""Runs tools/payment-file over lists of which claims are left out.

    python3 tests/payment_without.py

What is expected is worked out by hand.
"""

import sys
import xml.etree.ElementTree as ElementTree

# No __pycache__ is left beside the sources.
sys.dont_write_bytecode = True
from payment_file import HEADER, LIST, MADE, NORD, Tool, summary  # noqa: E402
from payment_rules import leaves  # noqa: E402
from program_under_test import run_tests  # noqa: E402

# Of the list of payment_file.
LEFT_OUT = {
    12: "left out: claim 12, employer 1001, worker 7, 259.90 euros\n",
    15: "left out: claim 15, employer 1004, worker 999999999, 0.05 euros\n",
    17: "left out: claim 17, employer 1001, worker 8, 1234567.00 euros\n",
}


class Without(Tool):
    def test_a_claim_that_is_left_out(self):
        """Of 1,234,826.95 euros without 0.05; all else is as in the whole file."""
        told = LEFT_OUT[15] + summary(2, "1234826.90")
        made = self.make(*self.words, *MADE, "--without", "15", told=told)
        found = leaves(ElementTree.fromstring(made))
        whole = leaves(ElementTree.fromstring(self.make(*self.words, *MADE)))
        at = [text for _, text in whole].index("L7-C15")
        wanted = whole[:at] + whole[at + 5:]
        sums = {"3": "2", "1234826.95": "1234826.90"}
        self.assertEqual(found, [(path, sums.get(text, text)) for path, text in wanted])

    def test_several_claims(self):
        told = LEFT_OUT[12] + LEFT_OUT[17] + summary(1, "0.05")
        made = self.make(*self.words, *MADE, "--without", "17", "12", told=told)
        self.write("fund.words", "--without\n12\n17\n")
        self.assertEqual(self.make("@fund.words", *self.words, *MADE, told=told), made)

    def test_a_firm_without_an_account(self):
        """It holds up no other firm's money."""
        for row, fault in (("", "employer 1004: isn't in the table\n"),
                           ("1004,,Bau Ost\n", "employer 1004 Bau Ost: has no IBAN in the table\n")):
            self.write("accounts.csv", HEADER + NORD + row)
            self.refuse(1, fault, *self.words, "--without", "12")
            self.make(*self.words, "--without", "15", told=LEFT_OUT[15] + summary(2, "1234826.90"))

    def test_an_amount_that_no_payment_has(self):
        self.write_list((1001, 100_000_000_000), (1004, 1))
        told = "left out: claim 1, employer 1001, worker 7, 1000000000.00 euros\n"
        self.make(*self.words, "--without", "1", told=told + summary(1, "0.01"))

    def test_claims_that_are_not_there(self):
        fault = "list.txt: claim {} isn't on the list, and is to be left out\n"
        self.refuse(1, fault.format(1) + fault.format(16), *self.words, "--without", "16", "15", "1")
        for claim in ("0", "015", "-15", "12,15", "100000000"):
            told = f"argument --without: '{claim}' is no claim's number\n"
            self.refuse(2, told, *self.words, f"--without={claim}")

    def test_nothing_is_left(self):
        told = "list.txt: nothing is to be transferred: each claim is left out\n"
        self.refuse(1, told, *self.words, "--without", "12", "15", "17")

    def test_the_list_agrees_with_itself_before(self):
        """A line that was taken out of the list is no claim that is left out."""
        self.write("list.txt", LIST.replace("claim 15 employer 1004 worker 999999999           0.05\n", ""))
        said = "list.txt: the list says "
        self.refuse(1, "list.txt: claim 15 isn't on the list, and is to be left out\n"
                       f"{said}3 items, and has 2 claims\n"
                       f"{said}1234826.95 in total, and its claims come to 1234826.90\n",
                    *self.words, "--without", "15")

    def test_the_word_is_given_once(self):
        self.refuse(2, "argument --without: is given twice\n", *self.words, "--without", "12", "--without", "15")


if __name__ == "__main__":
    run_tests()
