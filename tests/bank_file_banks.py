"""Runs tools/bank-file on statements as single banks write them: payers, accounts and amounts.

    python3 tests/bank_file_banks.py [PROGRAM]

PROGRAM is crates/clear_app/out/clear_app where it isn't given, as `rt ci` leaves it. It needs what tests/bank_file.py
needs.
"""

import sys

# No __pycache__ is left beside the sources.
sys.dont_write_bytecode = True
import bank_file  # noqa: E402
from bank_file import HEADER, RETURNED, BankFiles  # noqa: E402
from bank_statements import (  # noqa: E402
    ACCOUNT, NORD, STRANGE, as_02, document, entry, one, payment, statement, transaction)
from program_under_test import run_tests  # noqa: E402

setUpModule = bank_file.setUpModule


class Payers(BankFiles):
    def pays_for(self, other, line, *payer):
        """A payment of a text, a name and an account, for an ultimate debtor, in both versions."""
        content = one("0", "1.00", payment("1.00", *payer, "R"))
        ultimate = f"</DbtrAcct><UltmtDbtr><Pty><Nm>{other}</Nm></Pty></UltmtDbtr>"
        for text in (content, as_02(content)):
            ultimate = ultimate if text is content else as_02(ultimate)
            self.makes(text.replace("</DbtrAcct>", ultimate), [f"R,2024-04-30,{line}"])

    def test_who_pays_for_another(self):
        """The account is none of whose debt it is; a number in the text may tell it."""
        self.pays_for("Bau West", ",100,C,Bau Nord (Bau West): Mai", "Mai", "Bau Nord", NORD)
        self.pays_for("Bau West", "1002,100,C,Bau Nord (Bau West): Betrieb 1002", "Betrieb 1002", "Bau Nord", NORD)
        self.pays_for("Bau West", ",100,C,(Bau West): Mai", "Mai", "", NORD)
        # Who pays for itself, or for whom the bank tells nobody.
        for other in ("BAU-NORD", "Bau  Nord", "NOTPROVIDED", "NONE", ""):
            self.pays_for(other, "1001,100,C,Bau Nord: Mai", "Mai", "Bau Nord", NORD)
        self.pays_for("MUELLER BAU", "1001,100,C,Müller Bau: Mai", "Mai", "Müller Bau", NORD)

    def test_who_pays_for_another_in_a_batch(self):
        own, other = (transaction("", "Mai", "Bau Nord", NORD, more=more) for more in ("", "OTHER"))
        other = other.replace("</RltdPties>", "<UltmtDbtr><Pty><Nm>Bau West</Nm></Pty></UltmtDbtr></RltdPties>")
        for details, firm, payers in (((own, own), "1001", "Bau Nord"),
                                      ((own, other), "", "Bau Nord, Bau Nord (Bau West)")):
            note = f'"{payers}: Mai Mai"' if "," in payers else f"{payers}: Mai Mai"
            self.makes(one("0", "9.00", entry("9.00", *details, reference="B")), [f"B,2024-04-30,{firm},900,C,{note}"])

    def test_an_iban_among_other_numbers(self):
        for number, firm in ((NORD, "1001"), ("20205100", "1003")):
            content = one("0", "1.00", payment("1.00", "Betrieb 1003", "", STRANGE, "R"))
            other = content.replace(f"<IBAN>{STRANGE}</IBAN>", f"<Othr><Id>{number}</Id></Othr>")
            self.makes(other, [f"R,2024-04-30,{firm},100,C,Betrieb 1003"])

    def test_the_account_itself_however_it_is_written(self):
        for own in ("DE02 1203 0000 0000 2020 51", ACCOUNT.lower()):
            back = one("0", "1.00", payment("1.00", "Betrieb 1001", "", own, "R"))
            self.assertIn("left out in all, returned transfer (a credit): 1, 1.00 EUR\n", self.makes(back, []))
        other = one("0", "1.00", payment("1.00", "Betrieb 1001", "", "123", "R"))
        for old in (f"<IBAN>{ACCOUNT}</IBAN>", "<IBAN>123</IBAN>"):
            other = other.replace(old, "<Othr><Id>123</Id></Othr>")
        self.assertIn("left out in all, returned transfer (a credit): 1, 1.00 EUR\n", self.makes(other, []))


    def test_money_that_the_fund_moves_between_its_accounts(self):
        moved = payment("1.00", "1001", "Ferienkasse", NORD, "R")
        paid = payment("2.00", "1003", "Bau", STRANGE, "Q")
        two = document(statement("5", "5", account=NORD.lower()), statement("0", "3.00", moved, paid))
        told = self.makes(two, ["Q,2024-04-30,1003,200,C,Bau: 1003"])
        self.assertIn("left out in all, from another account of the statements: 1, 1.00 EUR\n", told)
        # The payments behind it have the references that they have without the other account's statement.
        same = statement("0", "3.00", moved, paid.replace(">Q<", ">R<"))
        alone, both = (self.made(document(*more, same))[0] for more in ((), (statement("5", "5", account=NORD),)))
        self.assertEqual(both, alone.partition("\n")[2])
        # Not all of a batch is known, or of that account.
        for more in (transaction("1.00", iban=STRANGE), transaction("1.00", iban=NORD).replace("CRDT", "DBIT")):
            batch = entry("2.00", transaction("", iban=NORD), more, reference="B")
            both = document(statement("5", "5", account=NORD), statement("0", "2.00", batch))
            self.makes(both, ["B,2024-04-30,,200,C,"])


class Texts(BankFiles):
    def test_the_creditors_reference_and_what_is_added_to_it(self):
        content = one("0", "1.00", payment("1.00", "TEXT", "", STRANGE, "R"))
        structured = "<Strd><CdtrRefInf><Ref>RF18</Ref></CdtrRefInf><AddtlRmtInf>Betrieb 1001</AddtlRmtInf></Strd>"
        for text in (content, as_02(content)):
            self.makes(text.replace("<Ustrd>TEXT</Ustrd>", structured), ["R,2024-04-30,1001,100,C,RF18 Betrieb 1001"])

    def test_values_that_stand_on_lines_of_their_own(self):
        for text in ("\n {}\n ", "\t{} "):
            found = payment("1.00", "Mai", "Bau", text.format(NORD), text.format("R"), value=f"<Dt>{text}</Dt>")
            self.makes(one("0", "1.00", found.replace("{}", "2024-04-30")), ["R,2024-04-30,1001,100,C,Bau: Mai"])


class Amounts(BankFiles):
    def test_decimal_numbers_of_xml(self):
        written = {".50": 50, "+1.5": 150, "2.": 200, "000000000000000000003.00": 300, "4.000000": 400,
                   "+.07": 7, "0005": 500}
        entries = [payment(amount, reference=f"R{at}") for at, amount in enumerate(written)]
        lines = [f"R{at},2024-04-30,,{cents},C," for at, cents in enumerate(written.values())]
        self.makes(one("+0", "16.07", *entries), lines)
        for amount in (".", "+", "", "++1", "-1", "1.000001", "1..0", "1,5", f"1{18 * '0'}"):
            self.refuses(one("0", "1", payment(amount)), f"{bank_file.AT_FIRST}: {f'{amount} EUR'.strip()} is no amount "
                         "with a currency", status=2)


class Twice(BankFiles):
    def test_payments_without_a_reference_that_come_in_another_statement(self):
        """As where the bank gives a statement another name each time that it is fetched."""
        def content(identifier, *more):
            found = payment("1.00", "Mai", "Bau", STRANGE), payment("2.00", "Mai", reference="R"), *more
            return one("0", f"{3 + len(more)}.00", *found, identifier=identifier)

        again = "  may count twice: {}: another statement or an earlier file has the day, the amount and the note, " \
                "too; what is the same payment, take out by hand\n"
        first, told = self.made(content("S1"))
        self.assertNotIn("twice", told)
        self.write("made.csv", HEADER + first)
        self.assertNotIn("twice", self.made(content("S1"), "--earlier", "made.csv")[1])
        # The second line has the bank's reference, and the third one another amount or text.
        second, told = self.made(content("S2", payment("1.00", "Juni", "Bau", STRANGE)), "--earlier", "made.csv")
        self.assertIn(again.format(second.partition(",")[0]), told)
        both = document(statement("0", "1.00", payment("1.00", "Mai")), statement("0", "1.00", payment("1.00", "Mai"),
                                                                                  identifier="S2"))
        output, told = self.made(both)
        self.assertIn(again.format(", ".join(line.partition(",")[0] for line in output.splitlines())), told)
        # Of two accounts, and twice in one statement.
        other = both.replace(ACCOUNT, NORD, 1)
        within = one("0", "2.00", payment("1.00", "Mai"), payment("1.00", "Mai"))
        for known in (other, within):
            self.assertNotIn("twice", self.made(known)[1])

    def test_payments_of_which_one_statement_alone_has_the_reference(self):
        without, with_one = payment("1.00", "Mai", "Bau"), payment("1.00", "Mai", "Bau", reference="R")
        more = payment("1.00", "Mai", "Bau", reference="R2")
        made, of_bank = (self.made(one("0", "1.00", it))[0] for it in (without, with_one))
        # With an earlier file, and in one zip, whichever comes first.
        for earlier, now, is_told in ((made, with_one, True), (of_bank, without, True), (of_bank, more, False)):
            self.write("made.csv", HEADER + earlier)
            output, said = self.made(one("0", "1.00", now, identifier="S2"), "--earlier", "made.csv")
            self.assertEqual(f"  may count twice: {output.partition(',')[0]}: " in said, is_told, said)
        both = document(statement("0", "1.00", with_one), statement("1.00", "2.00", without, identifier="S2"))
        output, said = self.made(both)
        twice = ", ".join(line.partition(",")[0] for line in output.splitlines())
        self.assertIn(f"  may count twice: {twice}: ", said)
        within = one("0", "2.00", with_one, without)
        self.assertNotIn("twice", self.made(within)[1])

    def test_statements_that_do_not_follow_each_other(self):
        def told(*ends, **options):
            found = [statement(*pair, payment(f"{float(pair[1]) - float(pair[0]):.2f}", reference=f"R{at}"),
                               identifier=f"S{at}", **options) for at, pair in enumerate(ends)]
            return self.made(document(*found))[1].partition(f"of {ACCOUNT} these ")[2]

        rest = "one between them is missing, or some tell of the same days\n"
        self.assertEqual(told(("2", "3"), ("0", "1.5"), ("1.50", "2")), "")
        self.assertEqual(told(("0", "1"), ("1", "2"), ("3", "4")), f"begin where none ends: S0, S2; {rest}")
        # That of the month besides those of its days.
        self.assertEqual(told(("0", "1"), ("1", "2"), ("0", "2")), f"begin where none ends: S0, S2; {rest}")
        # Of two accounts, or of one in two currencies, none has to follow the other.
        first, second = (statement(*ends, payment("1.00", reference=f"R{at}"), identifier=f"S{at}")
                         for at, ends in enumerate((("0", "1.00"), ("5.00", "6.00"))))
        for other, is_told in ((second, True), (second.replace(ACCOUNT, NORD), False),
                               (second.replace("EUR", "USD"), False)):
            self.assertEqual("none ends" in self.made(document(first, other))[1], is_told)

    def test_a_payment_that_is_taken_back_with_charges(self):
        """They are told beside the amount, by the transaction or by its entry."""
        charges = '<Chrgs><Rcrd><Amt Ccy="EUR">3.00</Amt></Rcrd></Chrgs>'
        own = transaction("13.00", more=f"{charges}{RETURNED}").replace("CRDT", "DBIT")
        of_the_entry = entry("13.00", transaction("", more=RETURNED), direction="DBIT")
        for taken in entry("13.00", own, direction="DBIT"), of_the_entry.replace("<NtryDtls>", f"{charges}<NtryDtls>"):
            content = one("3.00", "0", payment("10.00", reference="A"), taken)
            self.assertIn("  of this amount: A; ", self.makes(content, ["A,2024-04-30,,1000,C,"]))


class References(BankFiles):
    def test_what_banks_write_where_they_have_none(self):
        """One that stands for none in each statement would be of other payments from the second one on."""
        for written in ("NON REF", "NONREFERENCE", "NOTAVAILABLE", "not applicable", "Unknown", "NULL", "N/A", "NA", "-", "..."):
            days = [statement("0", "1.00", payment("1.00", f"Mai {at}", reference=written), identifier=f"S{at}")
                    for at in range(2)]
            output, told = self.made(document(*days))
            self.assertIn("  with a reference made here: 2 lines, 2.00 EUR\n", told)
            self.assertEqual(output.count("place~"), 2, written)
        # The payer's is part of what is made: ["DE02120300000000202051", "S1", "2024-04-30", "1", "1", "UNKNOWN"]
        self.makes(one("0", "1.00", payment("1.00", end_to_end="UNKNOWN")), ["place~xraiwobvbz2qk4sxgvaes4mmie,2024-04-30,,100,C,"])
        # Of the bank all the same.
        self.makes(one("0", "1.00", payment("1.00", reference="NA1")), ["NA1,2024-04-30,,100,C,"])


if __name__ == "__main__":
    run_tests()
