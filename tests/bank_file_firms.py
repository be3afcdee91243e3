"""Runs tools/bank-file on statements written by hand: of which firm a payment is, and whether it is interest.

    python3 tests/bank_file_firms.py [PROGRAM]

PROGRAM is crates/clear_app/out/clear_app where it isn't given, as `rt ci` leaves it. What is expected is what a clerk
reads in the texts. It needs what tests/bank_file.py needs.
"""

import csv
import io
import sys

# No __pycache__ is left beside the sources.
sys.dont_write_bytecode = True
import bank_file  # noqa: E402
from bank_file import HEADER, BankFiles  # noqa: E402
from bank_statements import ACCOUNT, FIRMS, LATIN, NORD, STRANGE, WEST, entry, one, payment, transaction  # noqa: E402
from program_under_test import run_tests  # noqa: E402

setUpModule = bank_file.setUpModule


class Firms(BankFiles):
    def finds(self, firm, text, iban=STRANGE, purpose="C", table=FIRMS):
        self.write("firms.csv", table)
        output, _ = self.made(one("0", "1", payment("1.00", text, "", iban, "F")))
        self.assertEqual(output.split(",")[:5], ["F", "2024-04-30", firm, "100", purpose], text)

    def test_by_the_iban_first(self):
        self.finds("1001", "Betrieb 1002", NORD)
        self.finds("1002", "", f"{WEST[:4].lower()} {WEST[4:]}")
        self.finds("", "", STRANGE)

    def test_by_one_number_of_the_table(self):
        for text in ("1001", "Betrieb 1001", "Nr.1001", "Nr:1001, Mai", "(1001)", "1001.", "1001 Mai, Nr. 1001",
                     ["Betrieb", "1001"], "1001 Februar 03/2024"):
            self.finds("1001", text)

    def test_no_number_or_several(self):
        for text in ("", "10010", "01001", "1001a", "x1001", "1001_", "1001/2024", "03-1001", "1.001", "1001,00",
                     "EUR 1001", "€1001", "1001 EUR", "1001€", "1001 1003", "１００１", ["10", "01"],
                     "10&#x200b;01", ["Betrieb 1001", "4567"], ["4567", "1001"]):
            self.finds("", text)

    def test_numbers_that_are_something_else(self):
        table = "iban,employer\n" + "".join(f",{firm}\n" for firm in (1, 5, 12, 24, 30, 234, 1001, 2024, 3704))
        for text in ("Beitrag März 2024", "Beitrag 2024", "1 001,12", "1'234", "5 %", "5,5%", "30. April", "1 Mai",
                     "Mai 24", "Feb. '24", "Euro 1001", "EUR: 1001", "EUR 1 234", "USD 1001", "1001 Euro", "1001,-",
                     "IBAN DE02 3704 0044 0532 0130 00", "de12 1001 1001 1001 1001 00", "Betrieb 1001 Std.",
                     "Betrieb 1001 Stunden", "Betrieb 1001 %"):
            self.finds("", text, table=table)
        for text in ("1001 März 2024", "Mai 1001", "EUR 5,00 Betrieb 1001", "Betrieb 1001, Mai 24, 12.04.2024",
                     "DE89370400440532013000 1001"):
            self.finds("1001", text, table=table)

    def test_numbers_that_go_with_others(self):
        """Days with months and years, amounts on both sides of a currency, and what the bank cut in two."""
        none = ("30. April 24", "1 Mai 24", "Jan-24", "Mai/24", "24-Apr-2024", "5.Mai.24", "Jaenner 24",
                "May 5, 2024", "12. 05. 2024", "12. 4. 23", "12.4. 24", "03/ 24", "03 /24", "Mai 24/25",
                "1001 EUR 500", "24 EUR 7", "EUR 1001/1002", "EUR = 1001", "1001,– €",
                "IBAN DE 12 5001 0517 0648 4898 90", ["Betrag 1001", ",50"], ["1001,", "50 EUR"], ["12.", "5.2024"],
                ["1001 10", "02"], ["1001", "24.50"], ["IBAN DE89 3704 0044", "0532 0130 00"],
                ["IBAN DE12 50", "01 0517 0648 4898 90"], ["IBAN D", "E12 5001 0517 0648 4898 90"],
                ["bis 24. Apr", "il"], ["Ma", "i 24"], ["Feb", ". 24"], ["1001 Eur", "o"], "7 EUR 12. 5. 2024",
                "Mai/24. 5. 2024", "5/1992 EUR 7", "DE89370400440532013000 24. 5. 2024",
                "DE89370400440532013000 EUR 1001", "EUR-1001", "EUR*1001*", "EUR -1001", "EUR (1001)", "EUR/1001",
                "1001-EUR", "1001/EUR", "1001 *EUR*", "Betrieb 1001\n7", "Betrieb 1001\r\n  7",
                "Betrieb 1001&#x200b;7", "Betrieb 1001&#xad;7", "Ma\ni 24", "Beitrag 1001,24 Mai 2024", "1001,50 Mai",
                "Summe 1001,50 100 Std", "1001,05.12.2024", "Rechnung 1001/05/24", "vom 24/05/24", "Beitrag 1-3/24",
                "Beitrag 12/ 2024", "12 / 2024", "12 /2024", "Beitrag Mar-24", "Febr. 24", "Jän. 24", "Maer. 24",
                "IBANDE89 3704 0044 0532 0130 00", ["1001 Eu", "ro", "Danke"], ["Betrag 1001,", "-"],
                ["Bau", "Ap", "ril 24"], ["IBAN", "D", "E89 3704 0044 0532 0130 00"], "Beitrag 01-03 / 24",
                "Beitrag 1-3/ 24", "11-12 /24", "01/ 24-03/ 24", "vom 1. 5. 24-31. 5. 24", "30.2.23-5.01. 25",
                "Tel. 0421/123 500", "Rechnung 2024-123 500", "Rg. 24/94 500", "24/5 001,50 Mai",
                "Nr. 778/24 / 03/05 / 24", "2024-12-01 / 01.12. 24", "Mai / 24", "Mai - 24", ["Mai '", "24"],
                "Mai ‘24", "Januar / 11/ 24", "24. Mai 5", "24./25. Mai 2024", "24. bis 25. Mai 24",
                "1. bis 15.05.2024", "24. u. 25. 4. 24", "24. - 25.05.2024", "3 - 12/2024", "1 bis 3/24", "3 + 5/24",
                "3 und 5/24", "3 - 12.2024", "BLZ 370 400 24", ["AT", "61 1904 1001 3457 3201"],
                "Tel. 0421/123 456 10 /24")
        known = ("1001 / 03/2024", "1001/Mai 24", "Mai/1001", "Betrieb 1001 - EUR 500", "1001, 12.04.2024",
                 "KW24 Betrieb 1001", ["Beitrag 03/2024,", "Betrieb 1001"], ["Nr.", "1001", "-Mai"],
                 ["EUR 500", "Betrieb 1001", "Mai 24"], "Beitrag\nBetrieb 1001\nMai 24",
                 "Betrieb 1001, 24. Mai 2024", "1001, 24/05/24", "1001 05/24", "1001 12/2024", "1001, Mar-24",
                 "1001 / 24. Mai", ["Betrieb 1001", "Danke", "Nord"],
                 "1001 - 03/2024", "Betrieb 1001, 3 - 5/24", "1001 bis 24. Mai", "1001, 1. und 24. Mai 2024",
                 "Betrieb 1001 IBAN DE89 3704 0044 0532 0130 00")
        self.finds_each((1, 3, 5, 12, 24, 25, 500, 1001, 1002, 3704, 4898), none, known)

    def finds_each(self, firms, none, known, *words):
        """Of these firms none is that of the texts of the one kind, and 1001 that of the other."""
        self.write("firms.csv", "iban,employer\n" + "".join(f",{firm}\n" for firm in firms))
        texts = [*none, *known]
        entries = [payment("1.00", text, "", STRANGE, f"N-{at}") for at, text in enumerate(texts)]
        output, _ = self.made(one("0", str(len(texts)), *entries), *words)
        found = [line[2] for line in csv.reader(io.StringIO(output))]
        wanted = [""] * len(none) + ["1001"] * len(known)
        self.assertEqual([*zip(texts, found)], [*zip(texts, wanted)])

    def test_amounts(self):
        """A number beside a currency, whatever signs stand between, and a second amount."""
        none = ("EUR **1001**", "Betrag (EUR) 1001", "Beitrag (1001) EUR", "EUR: -1001", "Summe 1001: EUR",
                "1001 = EUR", "1001 = €", "1001. EUR", "EUR ... 1001", "EUR–1001", "BetragEUR 1001", "BeitragEUR 1001",
                "1001, 24 EUR", "1001,OO EUR", "1001,OO", "EUR [1001]", 'EUR "1001"', "EUR#1001", "1001* EUR",
                "EUR_1001", "TEUR 1001", "PLN 1001", "RON 1001", "CZK 1001", "HUF 1001", "DM 1001", "SFr. 1001",
                "1001 Cent", "1001 ¤", "¤ 1001 Mai", "EUR 500 / 1001", "EUR 500 + 1001", "1001 + 500 EUR",
                "1001 / 500 EUR", "1001 und 500 EUR", "1001 bis 1500 EUR", "500 EUR + 1001", "1001,-- EUR",
                "5469,- EUR 1 / 24", "Betrieb 1001, 24 EUR", "Betrieb 1001 EUR 500",
                *(f"Betrieb 1001 {currency}" for currency in (
                    "EUR", "USD", "CHF", "GBP", "PLN", "CZK", "HUF", "RON", "DM", "Cent", "€")))
        known = ("Betrieb 1001 / 500 EUR", "Euro-Bau, Betrieb 1001")
        self.finds_each((1, 24, 500, 1001), none, known)

    def test_accounts(self):
        """IBANs in any groups, cut anywhere, glued to a word, without a country; and a number behind one."""
        none = (["Kto. IT62 C", "274 4607 0168 2811 8503 639"],
                ["Bau Nord, Konto IT60 X", "054 2811 1010 0000 0123 456"], "IT 60 X 05428 11101 000000123456",
                "AT61 19043 00234573201", "AT61 19043 00234573202", "FR76 30004 02837 98765432109 43",
                "Bau_DE89 3704 0044 0532 0130 00", "GmbHDE89 3704 0044 0532 0130 00",
                "IBAN 89 3704 0044 0532 0130 00", "DE89–3704–0044–0532–0130–00", ["DE89/3704", "/0044/0532/0130/00"])
        known = ("AT61 1904 3002 3457 3201 1001", "BE68 5390 0754 7034 1001", "ES91 2100 0418 4502 0005 1332 1001",
                 "RO49 AAAA 1B31 0075 9384 0000 1001", "PL61 1090 1014 0000 0712 1981 2874 1001")
        self.finds_each((404, 1001, 2811, 3704, 11101, 19043, 30004), none, known)

    def test_groups_and_telephones(self):
        none = ("St.-Nr. 60 123 4567", "60 123 4567", "+49 421 1001", "+49 (0)421 1001", "0049 421 1001",
                "Tel. 0421 1001", "(0421) 1001", "Tel. (0421) 1001", "0421 / 1001", "Tel. 0421 / 1001", "030 1001",
                "500,00 EUR +49 421 1001", "EUR 500 +49 421 1001", "500 EUR: +49 (421) 1001", "+49 (421) 1001",
                ["500 EUR +", "49 421 1001"], "Tel.: +49 421/77-1001", "Fax 0049 421 75147 23. 2. 2025",
                "Telefon 0421/386392 / 7. 11. 2024")
        known = ("SVWZ+1001 Mai", "+1001", "Beitrag 052024 1001", "Beitrag 0524 1001")
        self.finds_each((2, 11, 421, 1001, 4567), none, known)

    def test_references_of_the_payer(self):
        none = ("EREF+1001 SVWZ+Rechnung 77", "KREF+1001", "MREF+1001 SVWZ+Mai", "EREF+RE 1001 SVWZ+Mai",
                ["EREF+1001 SVWZ", "+Mai"], "SVWZ+Mai EREF+RE 1001", "RREF+1001", "ABWA+1001 SVWZ+Mai",
                *(f"{mark}+Betrieb 1001 SVWZ+Mai" for mark in (
                    "EREF", "KREF", "MREF", "CRED", "DEBT", "COAM", "OAMT", "OCMT", "CHRG", "PURP", "MDAT", "ABWE")))
        known = ("EREF+NOTPROVIDED SVWZ+Beitrag 1001", "EREF+77 KREF+78 SVWZ+1001", "SVWZ+1001 EREF+77",
                 ["EREF+77 SVWZ", "+1001"])
        self.finds_each((7, 77, 1001), none, known)

    def test_dashes_and_parts(self):
        none = ("RE 2024–1001", "Tel. 0421–1001", "1001–24", "1001−24", ["1001", ",", "24 EUR"],
                ["2024", "-", "1001"], "1001\n/\n2024", ["echnung vom 12.05.24 Nummer RE2024A", "1001 Danke"],
                ["Bau Nord Rechnung RE2024A7B", "1001"],
                ["Beitrag R-", "1001 Mai"], ["Beitrag 1001-", "A"], [*["10", "01"] * 150, "Betrieb 1001"],
                "Betrieb 1001" + 5_000 * ".", ["Auftr", "agnr. 1001"], ["Auftr", "ag-Nr. 1001"])
        known = ("1001 – 05/2024", "Mai – 1001", ["Beitrag Mai", "Betrieb 1001"], ["Nord Mitgl", "ieds-Nr. 1001"],
                 ["Beiträge vom Mai in Betrieb", "1001"], ["Beitrag für Mai 2024, unser Betrieb", "1001"],
                 ["Mai", "–", "1001"], ["Betrieb-", "Nr. 1001"])
        self.finds_each((1001,), none, known)

    def test_numbers_behind_words_for_others(self):
        none = ("Rechnung 1001", "Rechnungs-Nr. 1001", "Rg.-Nr.: 1001", "RE-1001", "RE 1001", "Re.1001", "RNr. 1001",
                "R-1001", "Rechnung R-1001 vom 12.5.24", "1001-A", "RE 1001 / 24", "RE 1001 / 2024", "RG 2024 / 1001",
                "1001 / 24", "1001 / 2024", "RE 2024 1001", "Rechnung 77, 1001", "Rechnung 77 und 1001",
                "Rechnung 1003 Betrieb 1001", "HRB 1001", "BLZ 37040044", "D-28195 Bremen", "Konto 1001",
                "Kto.-Nr. 1001", "Kundennummer 1001", "Kd.-Nr. 1001", "Auftrag: 1001", "Bestell-Nr. 1001",
                "Lieferschein #1001", "Steuernr. 1001", "St.-Nr. 1001", "Betrag 1001", "Restbetrag: 1001", "Fax 1001",
                "Postfach 1001", "PLZ 28195", "Rechnung No. 1001", "Rech.-Nr. 1001", "Invoice 1001", "INV-1001",
                "Schlussrechnung 1001", "Order-Nr. 1001", "Bankleitzahl 1001", "Fon: 1001", "Rufnummer 1001",
                "USt-IdNr. 1001", "Lohnsumme 1001", "Überweisungsbetrag 1001", "1.TAN 1001", "Baufirma 1001")
        known = ("Rechnung 77, Betrieb 1001", "Rechnung 1001, Betrieb 1001", "Nr-1001", "Mitgliedsnr. 1001",
                 "Beitragskonto 1001", "Betriebskonto-Nr. 1001", "Betr.-Nr. 1001", "Firma 1001", "Arbeitgebernr. 1001",
                 "Mai 2024 / 1001", "2024 / 1001", "1001 / 24. Mai", "1001 / 24/05/24",
                 "1001 / 2024-05", "Betrieb 1001 / 2024")
        self.finds_each((24, 1001, 1003, 28195, 37040044), none, known)
        self.finds_each((1001,), ["1001 / 24", "Nr. 1001 / 24"], ["Mitgl.-Nr.: 1001 / 24", "Betrieb 1001 / 24"])
        # As the clerk names it.
        self.finds_each((1001, 1003), ["Rechnung 1001, 1003", "Re 1001"], ["Rechnung 1001", "Rechnung-Nr. 1001"],
                        "--number-word", "Rechnung")

    def test_numbers_in_the_books_of_the_payer(self):
        none = ("Ref. 1001", "Kundenref.: 1001", "End-to-End-Ref.: 1001", "Referenz-Nr. 1001", "Mandatsref. 1001",
                "BREF+1001 SVWZ+Mai", "Kreditor 1001", "Kred.-Nr. 1001", "Debitorenkonto 1001", "Lieferantennr. 1001",
                "RNr. 77 / KNr. 1001", "Mandant 1001", "Berater 77, Mandant 1001", "Vertrag 1001", "Az. 1001",
                "Unser Zeichen: 1001", "Kassenzeichen 1001", "Beitragsbescheid 1001", "Abrechnung 1001",
                "Beitragsrechnung Nr. 1001", "Zahlungsavis 1001", "Lfd. Nr. 1001", "Projekt 1001", "Baustelle 1001",
                "BV 1001", "Pers.-Nr. 1001", "Arbeitnehmer 1001", "Bruttolohn 1001", "Löhne brutto 1001", "1001 Std.",
                "1001 Stunden", "1001 ,50 EUR", "Hauptstr. 5, 28195 Bremen", "Hauptstraße 5 28195 Bremen",
                "Hauptstraße 5a, 28195 Bremen", "D 28195 Bremen", "Dauerauftrag 1001", "AN-Nr. 1001", "pushTAN 1001",
                "Rest 1001", "Betrag von 1001", "Zahlung über 1001", "Rechnungsnr.77Kundennr.1001")
        known = ("Betrieb 1001, Hauptstr. 5, 28195 Bremen", "Kreditor 77, Betrieb 1001", "Beitragskonto 1001",
                 "Urlaubskasse 1001")
        self.finds_each((28195, 1001), none, ())
        self.finds_each((1001,), (), known)

    def test_dates_behind_words_for_others(self):
        none = ("Rechnung vom 12.05.24 1001", "Ihre Rg. v. 12.04.24, 1001", "RG V. 12.04. NR. 1001",
                "Rechnung vom 12. April 2024 Nr. 1001", "Rechnung 12.4.24: 1001", "Rechnung 77 v. 12.4., 1001 v. 13.4.",
                "Rechnung Nr. 77 vom 12.04.24 und 1001 vom 13.04.24", "Rechnung 77 (12.04.24) 1001",
                "Re. 77 v. 12.4., 78 v. 13.4., 1001 v. 14.4.", "Kassenzeichen vom 12.4.24, 1001")
        known = ("Beitrag 12.05.24 1001", "12.05.24, 1001", "Rechnung 77 vom 12.5.24, Betrieb 1001", "Mai 24, 1001",
                 "Betrieb 1001, Rechnung vom 12.5.24")
        self.finds_each((1001,), none, known)
        # With the word that the clerk names nothing changes.
        self.finds_each((1001, 1003), ["Rechnung vom 12.5.24 1001", "Betrieb 1001 vom 12.5.24, 1003"],
                        ["Betrieb 1001 vom 12.5.24, Rechnung 1003"], "--number-word", "Betrieb")

    def test_words_for_amounts_and_files(self):
        none = ("Beitrag i.H.v. 1001", "i. H. v. 1001", "i.H.v. EUR 1001", "Rate 1001", "2. Rate: 1001", "Anzahlung 1001",
                "Teilzahlung 1001", "Abschlag 1001", "Skonto 1001", "minus 1001", "Abzug 1001", "Gebühr 1001",
                "Akte 1001", "Dok.-Nr. 1001", "Artikel 1001", "Filiale 1001", "i.H.v.: 1001", "i.H.v 1001",
                "i.H.v. 500 + 1001", "i.H.v. 500 und 1001", "i. H. v. 500 / 1001",
                "Abschlagszahlung 1001", "Überzahlung 1001")
        known = ("Rate 5, Betrieb 1001", "Betrieb 1001 i.H.v. 500")
        # What is paid itself, and no part that goes off it.
        known += tuple(f"{kind}zahlung 1001" for kind in (
            "Beitrags", "Urlaubskassen", "Sammel", "Monats", "Nach", "Zins", "Voraus", "Raten", "Rest"))
        self.finds_each((500, 1001), none, ())
        self.finds_each((1001,), none, known)

    def test_words_for_others_apart_from_their_numbers(self):
        """Whatever signs stand between, and where the number is called one."""
        none = [f"{word}{between}1001" for word in ("Rechnung", "Kunden", "Konto") for between in (
            " Nr. : ", "-Nr. : ", ". : ", " -> ", " ..... ", " (Nr.): #", " No. : ", " N° ", " Nº ", " n. ", " Num. ")]
        none += ["Rechnung Nr. : 77, 1001", "Rechnung vom 12.5.24, 77, 1001", "Rechnung Nr. : 12.5.24, 1001",
                 "Rechnung vom 12.5.24, 77 und 78, 1001"]
        known = ("Betrieb Nr. : 1001", "Betrieb ..... 1001", "Rechnung Nr. : 77, Betrieb 1001",
                 "Rechnung vom 12.5.24, 77, Betrieb 1001", "Beitrag ... 1001", "N° 1001")
        self.finds_each((1001,), none, known)
        # Behind a firm's word they make no number surer.
        self.finds_each((9, 1224), ("Betrieb: --- 9", "Betrieb ..... 1224"), ())

    def test_numbers_of_texts_that_are_not_plain(self):
        """What another word or number makes of a number isn't known, but for one right behind a firm's word."""
        words = ("Bauvorh.", "Vorg.-Nr.", "Bel.-Nr.", "Ku.-Nr.", "Personenkonto", "Gegenkonto", "Abr.-Nr.", "Haus",
                 "Kfz HB-AB", "Kostentr.", "Mitarb.-Nr.", "Kassenz.", "Gesch.-Z.", "Los", "Zahllauf Nr.", "Blatt", "Trx",
                 "TAN1", "T 0421", "AZ 12 O", "Kundennummer lautet", "Kunde Bau Nord", "Rechnung Bau Nord", "Ticket",
                 "Rechnung Mai", "RE Mai 2024 Nr.", "Rechnung für Mai,", "Umlage", "Bruttosumme Mai:", "Urlaub",
                 "Urlaubsgeld", "Bremen", "ca.", "Zahlung", "Zahlung Nr.", "Beitrag f.", "UNr.", "FNr.")
        texts = [f"{word} 1001" for word in words] + [f"1001 {unit}" for unit in ("Tage", "h", "m", "km", "Bremen")]
        texts += ["Mai 1001, Juni 1400", "Beitrag 1001 Zinsen 12", "Beitrag 1001, 03-77", "Beitrag 1001 77/2024",
                  "Nr. 1001 vom 12.5.24", "Beitrag vom 12.05.24 1001", "Arbeitgeber 1001 Arbeitnehmer 900",
                  "Mai 1001 Juni 1997", "Mai 1001, Juni 2405", "#1001/x",
                  ["Nummer RE2024A", "1001 Danke"], ["Nr. 1001-", "Nord"],
                  ["IBAN DE89 3704 0044 0532 0130 00", "1001 Danke"], "Gemeinde 1001 Beitrag Mai", "Ingenieur 1001",
                  "Büro 1001 Beitrag Mai 2024 Nord GmbH Danke", "BG 1001 Beitrag Mai 2024 Nord GmbH", "Baron 1001",
                  "Rechnung 77 vom 12.5.24 (1001)", "1001 vom 12.5.24, 77", "1001 vom 12.5.24, Rg. vom 11.5.24",
                  "Tel. 0421/824025 (1001)", "1001 Tel. 0421 77", "RE 77/24 1001", "1001 Rechnung 77", "1001, Re. 77",
                  "Betrag 500,00 1001", "1001-Nord", "BG-Nr. 1001", "Rechnung 77 #1001", "Rechnung 77 (1001)",
                  "1001, Ref. 77", "Baustelle Nord, 1001", "Lohn Mai 1001", "Müller Bau e.K. 1001", "Bauverein e.V. 1001",
                  "Payout, 1001", "Bau AG 1001", "i.A. 1001", "1001 i.H.v. 500 EUR", "i.H.v. 500 EUR - 1001",
                  "1001, i.H.v.: 500 EUR", "i.H.v. 500, 1001", "i.H.v. 500,00 / 1001", "i.H.v. 500 1001",
                  "1001 500,00 EUR", "1001 / 500,00 EUR", "EUR 500,00 / 1001", "1001 + 500,00 EUR", "1001 und 500,00 EUR",
                  "0524 / 500,00 EUR / 1001", "€ **1001**", "Beitrag 1001 500,00", "1001 + 500",
                  "500 EUR - 1001", "500,- EUR - 1001", "500,-- EUR (1001)", "1001 - EUR 500", "1001 / EUR 500",
                  "1001, 500 EUR", "1001 Rechnung Nr. : 77", "Rechnung Nr. : 77 (1001)"]
        named = [[part.replace("1001", "Betrieb 1001", 1) for part in ([text] if isinstance(text, str) else text)]
                 for text in texts if "BG 1001" not in text]
        self.finds_each((1001,), texts, named)

    def test_plain_texts(self):
        """Those of contributions alone, also where the bank cut a word."""
        self.finds_each((1001,), (), (
            "SOKA-BAU 1001", "Soka Bau Beitrag Mai 2024, 1001", "Urlaubskassenbeitrag 05.2024 1001", "Nr. 1001 Mai 24",
            "Monatsbeitrag für Mai 1001", "1001 Beiträge April und Mai 2024", "january 2024 1001",
            "Beitragszahlung: 1001", "ULAK 1001", ["Beitrag M", "ai 2024 1001"], ["Urlaubskassenbei", "trag 1001"],
            "Urlaubs-Beitrag Mai 1001", "Mitgliedsbeitrag 1001"))

        self.finds_each((1001, 20241), ("Beitrag 20241", "1001 500.-"),
                        ("Beitrag 01.03.-31.03.2024 1001", "Beitrag 1.3.-31.3.24 1001"))
        # Nothing else is in them, as a percentage, hours and a telephone's number.
        self.finds_each((1001, 1500), ("Beitrag 20% 1500", "Beitrag 1500 20%", "160 Stunden 1001", "Beitrag 160 Std 1500",
                                       "Nr. 1001 +49 421 777", "Beitrag 1 200 1001"), ())

    def test_a_long_word(self):
        """It takes no time to find that it is no plain one."""
        self.finds("", "betriebsnrbeitragmai" * 240 + "x 1001")

    def test_the_form_of_a_company(self):
        none = ("Bau AG 1224", "Bau AG 1001 / 24", "Bau AG Nr. 1001", "AG - Nr. 1001", "Bau AG, Nr. 1001",
                "Bau AG; Nummer 1001", "Bau AG/Nr. 1001", "Bau AG: Nr. 1001", "Bau AG.Nr. 1001", ["Bau AG", "Nr. 1001"],
                ["an AG", "Nummer 1001"], "betr. Nr. 1001", "Betr.: Nr. 1001", "betr., Nr. 1001",
                ["Rechnung betr", "Nr. 1001"])
        known = "AG-Nr. 1001", "Betr.-Nr. 1001", "Betr-Nr. 1001", "Betr.Nr. 1001", ["Betr", "ieb 1001"]
        self.finds_each((1224, 1001), none, known)
        self.finds("1224", "AG-Nr. 1224", table="iban,employer\n,1224\n")

    def test_small_numbers(self):
        none = ("9", "Monat 9", "9 Arbeiter", "9. Abschlag", "Anzahl 9", "Beitrag 500", "500", "12 Uhr", "5, 9",
                "Beitrag Monat Nr. 9", "Quartal Nr. 9", "Beitrag Nr. 12")
        for text in ("Nr. 9", "Betrieb 9", "Mitglieds-Nr. 9, Mai", "Firma 9, 12 Arbeiter"):
            self.finds("9", text, table="iban,employer\n,9\n")
        self.finds_each((9, 12, 500), none, ())

    def test_what_is_paid(self):
        """A number that is the sum itself, in whole euros."""
        self.write("firms.csv", "iban,employer\n,1001\n,1500\n")
        for amount, text, firm in (
                ("1500.00", "Beitrag Mai 1500", ""), ("1500", "1500", ""), ("1500.99", "1500", ""), ("1501.00", "1500", "1500"),
                ("1500.00", "Betrieb 1500", "1500"), ("1500.00", "Nr. 1500", "1500"), ("1500.00", "1001", "1001"),
                ("1500.00", "1001, 1500", "")):
            output, _ = self.made(one("0", amount, payment(amount, text, "", STRANGE, "F")))
            self.assertEqual(output.split(",")[2], firm, (amount, text))
        # For several months at once.
        for amount, firm in (("4500.00", ""), ("18000.00", ""), ("4501.00", "1500")):
            output, _ = self.made(one("0", amount, payment(amount, "Beitrag 1500", "", STRANGE, "F")))
            self.assertEqual(output.split(",")[2], firm, amount)
        # Before the bank took its charges off, which it tells; and behind them.
        for charge in ('<Rcrd><Amt Ccy="EUR">5.00</Amt></Rcrd>', '<TtlChrgsAndTaxAmt Ccy="EUR">5.00</TtlChrgsAndTaxAmt>'):
            for amount, firm in (("1495.00", ""), ("1505.00", ""), ("1496.00", "1500")):
                told = transaction(amount, "Beitrag 1500", "", STRANGE, "F", more=f"<Chrgs>{charge}</Chrgs>")
                self.assertEqual(self.made(one("0", amount, entry(amount, told)))[0].split(",")[2], firm, (amount, charge))
        # Before the bank took its charges off; and of a batch in one line, of which no part is told.
        before = '<AmtDtls><InstdAmt><Amt Ccy="EUR">1500.00</Amt></InstdAmt></AmtDtls>'
        for text, firm in (("Beitrag 1500", ""), ("Betrieb 1500", "1500")):
            charged = entry("1495.00", transaction("1495.00", text, "", STRANGE, "F", more=before))
            without = entry("3000.00", *[transaction("", text, "", STRANGE)] * 2, reference="F")
            less = entry("2990.00", *[transaction("1500.00", text, "", STRANGE)] * 2, reference="F")
            for amount, content in (("1495.00", charged), ("3000.00", without), ("2990.00", less)):
                self.assertEqual(self.made(one("0", amount, content))[0].split(",")[2], firm, (amount, text))

    def test_numbers_that_are_named_together(self):
        """The other one may be of a firm that isn't in the table yet."""
        none = ("Betrieb 1001 und 1010", "Betrieb 1001 u. 1010", "Betrieb 1001 + 1010", "Betrieb 1001 bis 1010",
                "Betrieb 1001 oder 1010", "Betrieb 1001 und auch 1010", "Betrieb Nr. 1001 und Nr. 1010",
                "Betrieb 1001 und Betrieb 1010", "Betrieb 1010 / Betrieb 1001", "Betrieb 1001, Betrieb 10",
                "Betrieb 1001 1.000,00 EUR, Betrieb 1010 500,00 EUR", ["Betrieb 1001", "und Betrieb 1010"])
        by_name = ("Firma 1001 / 1010", "Mitglied 1001, 1003 sowie 1010", "Betriebs-Nr. 1001 + Betriebs-Nr. 1010",
                   "Firma 1001, Mitglieds-Nr. 1010")
        known = ("Betrieb 1001, 28195 Bremen", "Betrieb 1001 und 12 Arbeiter", "Betrieb 1001 und 2024",
                 "Betrieb 1001 und Rechnung 1010", "Betrieb 1001 und 122024", "Betrieb 1001 Mai, Betrieb 1001 Juni",
                 "Rechnung Nr. 1010, Betrieb 1001")
        self.finds_each((1001,), none + by_name, (*known, "Betrieb 1001, Betrieb 2024"))
        self.finds_each((1001,), none, (*known[:3], *known[4:], "Betrieb 1001, Mitglieds-Nr. 1010"),
                        "--number-word", "Betrieb")

    def test_a_second_firm_whose_number_looks_like_something_else(self):
        """Beside a currency, a month or other signs it is no firm's for sure, and yet the payment isn't the first one's."""
        none = ["Betrieb 1001 und Betrieb 1002 EUR 2900,00", "Betrieb 1001 und 1002 EUR 2900",
                "Betrieb 1001 + 1002 EUR 2900", "Betrieb 1001, 1002 EUR 2900,00", "Betriebs-Nr. 1001 und 1002: EUR 2900",
                "Betrieb 1001 und Betrieb 1002 € 2900", "EUR 1500 Betrieb 1001 EUR 1400 Betrieb 1002",
                "1500 EUR Betrieb 1001, 1400 EUR 1002",
                "Betrieb 1001 1500 EUR 1002 1400 EUR", "Betrieb 1001 Mai 2024,1002 Mai 2024",
                "Betrieb 1001 05/24/1002 05/24", "05/24 Betrieb 1001,05/24 Betrieb 1002",
                "05-24 Betrieb 1001,05-24 Betrieb 1002",
                "1500,00 Betrieb 1001,1400,00 Betrieb 1002", "Betrieb 1001 0524 / 1002 0524", "1001 0524 / 1002 0524",
                "Betrieb 1001, Betrieb1002", "Betrieb1001 Betrieb 1002", "1.500 Betrieb 1001, 1.500 1002",
                "SVWZ+Betrieb 1001 EREF+Betrieb 1002", "Betrieb 1001 Mai EUR 1500,1002 Mai EUR 1400"]
        none += [f"Betrieb 1001 und Betrieb 1002{end}" for end in (
            "/05.2024", "/24", "/05/2024", "-1", "/1", "-A", "a", "%", " Std", ",00", ",-", " 500 EUR")]
        known = ["Betrieb 1001 EUR 500,00", "Betrieb 1001, EUR 500,00", "Betrieb 1001, 1002,00 EUR",
                 "Betrieb 1001 Tel. 0421/1002", "Betrieb 1001 +49 421 1002", "SVWZ+Betrieb 1001 EREF+1002",
                 "Betrieb 1001 01.2024", ["EREF+NOTPROVIDED", "SVWZ+Betrieb 1001"]]
        self.finds_each((1001, 1002), none, known)
        # It may be one that isn't in the table yet, where it is named with the first one, or called a firm's.
        self.finds_each((1001,), [*none[:4], "Betrieb 1001 1500,00, Betrieb 1002 EUR 1400"], known[:2])
        # A year is meant, unless it is called a firm's, or named with the first one.
        none = ("Betrieb 1001 und Betrieb 2003", "Betrieb 1001 und 2003", "Betrieb 1001, Betrieb 2003")
        self.finds_each((1001, 2003), none, ("Betrieb 1001, 2003", "Betrieb 1001 / 2003", "Betrieb 1001 2020"))

    def test_numbers_in_a_list(self):
        """Of as many digits as the first one, it may be of a firm that isn't in the table yet."""
        none = ("Betrieb 1001, 1010", "Betrieb 1001; 1010", "Betrieb 1001 - 1010", "Betrieb 1001 | 1010",
                "Betrieb 1001, Nr. 1010", "Betrieb 1001 Mai und 1010 Mai", "Betrieb 1001 500,00, 1010 400,00",
                "Betrieb 1001 bzw. 1010",
                "Betrieb 1001 und für 1010", "Betrieb 1001 Mai 2024, 1010 Mai 2024", "Betrieb 1001 und 1030",
                ["Betrieb 1001 und Betrieb 1010", "05/24"], ["Betrieb 1001 und 1010", "05/24"])
        known = ("Betrieb 1001, 28195 Bremen", "Betrieb 1001, 4711 Bremen", "Betrieb 1001, 77", "Betrieb 1001, 0524",
                 "Betrieb 1001, 1001", "Rechnung 4711, Betrieb 1001")
        self.finds_each((1001,), none, known)
        self.finds_each((24,), ("Betrieb 24 bis 30", "Betrieb 24 und 240"), ())
        # Behind an amount without another sign, and where the first digits are the same.
        none = ("Betrieb 1001 EUR 500,00 1010 EUR 400,00", "Betrieb 1001 500,00 1010 400,00", "Betrieb 1001+02",
                "Betrieb 1001 i 1010", "Betrieb 1001 mit 1010", "Betrieb 1001 jetzt 1010")
        self.finds_each((1001,), none, ("Betrieb 1001 / 03.2024", "Betrieb 1001 / 03-2024", "Betrieb 1001 und 02 2024"))

    def test_words_by_which_a_firm_is_not_meant(self):
        """One that it was before, or isn't; and the number that another body has for it."""
        none = ("nicht Betrieb 1001 sondern 1010", "statt Betrieb 1001 bitte 1010", "früher Betrieb 1001, jetzt 1010",
                "vormals Betrieb 1001", "Nachfolger von Betrieb 1001", "ehem. Betrieb 1001", "Alt-Betriebs-Nr. 1001",
                "bisherige Betriebs-Nr. 1001", "IHK-Mitglieds-Nr. 1001 Beitrag 2024", "BG BAU Mitgliedsnummer 1001",
                "BG-Mitgliedsnr. 1001", "AOK-Betriebsnummer 1001", "Nichtmitglied 1001", "Fremdfirma 1001",
                ["statt", "Betrieb 1001"], "Bau West, fr?her Betrieb 1001", "Vorgänger Betrieb 1001", "ohne Betrieb 1001",
                "Umbuchung von Betrieb 1001 auf Bau West", "Betrieb 1001 erloschen", "Bauinnung Bremen Mitglieds-Nr. 1001",
                "TK Betriebsnummer 1001", "BG Betrieb 1001", "BA-Betriebsnummer 1001", "IG BAU Mitgliedsnummer 1001")
        # In another part of the sentence it is said of something else.
        known = ("Neue Betriebs-Nr. 1001", "Altbau Nord, Betrieb 1001", "SOKA-BAU Mitglieds-Nr. 1001",
                 "Handwerkskammer, Betrieb 1001", "Betrieb 1001, BG BAU gesondert", "Skonto nicht abgezogen, Betrieb 1001",
                 "Betrieb 1001 Skonto nicht abgezogen", "Bauunternehmung Alt GmbH Betrieb 1001", "SOKA-Betriebs-Nr. 1001")
        self.finds_each((1001,), none, known)

    def test_words_that_end_like_a_firm_word(self):
        """They are of a trade, and a town's number may stand behind them."""
        none = ("Müller Malerbetrieb 28195 Bremen Beitrag 04/2024", "Otto GmbH, Meisterbetrieb, 28195 Bremen, Beitrag Mai",
                "Müller Maler-Betrieb 28195 Bremen", "Gerüstbaufirma 28195 Bremen", "Vorgängerbetrieb 28195",
                ["Müller Maler- und Bodenbelagsbetrieb", "28195 Bremen"], ["Müller Maler", "betrieb 28195 Bremen"])
        self.finds_each((28195,), none, ())
        self.finds_each((1001,), (), (["Bau Nord", "Betrieb 1001"], ["BAU NORD", "BETRIEB 1001"],
                                      ["Beitrag Mai", "Mitglieds-Nr. 1001"], "BeitragBetrieb 1001"))

    def test_a_text_that_is_cut_off(self):
        """Of as many signs as a text may have."""
        for signs, firm in ((139, "1001"), (140, ""), (141, "1001")):
            text = "Bau Nord ".ljust(signs - 13, "x") + " Betrieb 1001"
            self.finds(firm, text)
            self.finds(firm, f"EREF+NOTPROVIDED SVWZ+{text}")
            if signs <= 140:
                self.finds(firm, [text[at:at + 35] for at in range(0, signs, 35)])

    def test_numbers_in_groups(self):
        """Further digits behind one, but for a year, a date and an amount, may be of the same number."""
        none = ("Betriebs-Nr. 1234 5678", "Betrieb 1234 567", "Betrieb 1234 28195 Bremen", "1234 5678",
                "Betrieb 1234 0815", "Betrieb 1234 4711 1234", "Betriebs-Nr. 1234 56 78", "Betriebs-Nr. 1234 1951",
                "Betriebs-Nr. 1234 3207", "Betriebs-Nr. 1234 0727", "Betriebs-Nr. 1234'5678",
                "Betriebs-Nr. 1234 56 7", "Betriebs-Nr. 1234. 5678")
        known = ("Betrieb 1001 2024", "Betrieb 1001 05 2024", "Betrieb 1001 122024", "Betrieb 1001 0524",
                 "Betrieb 1001 500,00", "Betrieb 1001 1.500,00", "Betrieb 1001 12 Arbeiter", "Betrieb 1001, 12345",
                 "Betrieb 1001 05 24", "Betrieb 1001 2404", "Betrieb 1001 240430")
        self.finds_each((1234, 5678, 12345678, 1001), none, known)
        self.finds_each((1234, 5678, 1001), ("Betrieb 1234 5678",), known, "--number-word", "Betrieb")
        self.finds_each((12,), ("Betriebs-Nr. 12 34 56 78", "Betrieb 12 Monate", "Firma 12 Grad Bau"), ())

    def test_dates_without_points_and_quarters(self):
        dates = (1224, 52024, 122024, 202405, 150524, 15052024, 20240515, 2405, 240515)
        none = (*map(str, dates), "SOKA 1224", "Beitrag 122024", "Q1 24", "Q1/24", "KW 24", "KW 12/24", "1. Quartal 24",
                "IV. Quartal 24", "Quartal 1/24", "Rechnung Nr. 1224")
        known = ("Q1 24 1001", "1001 Q1", "1. Quartal 2024, 1001", "KW 24 1001", "KW 24/25 - 1001", "1001 KW 24",
                 "Quartal 1001")
        self.finds_each((1, 24, 1001, *dates), none, known)
        # One of them may be a firm beside another one.
        texts = "Beitrag 122024 1001", "1001, 150524"
        amounts = "1001 Beitrag 1224", "Betriebe 1001 und 1224", "Nr. 1001 1224"
        self.finds_each((1001, *dates), texts + amounts, ())
        # Or an amount, where it has four digits.
        self.finds_each((1001,), amounts, texts)
        for text in ("Betrieb 1224", "Nr. 1224", "Mitglieds-Nr. 1224 Mai", "Mitgliedsnummer: 1224", "Firma 1224"):
            self.finds("1224", text, table="iban,employer\n,1224\n")

    def test_numbers_behind_a_word(self):
        self.write("firms.csv", "iban,employer\n,1001\n,2024\n")
        for text, firm in (("Betrieb 2024", "2024"), ("BETRIEB: 2024, 7", "2024"), ("Betrieb Nr. 1001", "1001"),
                           ("1001", ""), ("Betriebe 1001", ""), ("Betrieb 7 1001", ""), ("Betrieb Nord 1001", "")):
            self.write("statement", one("0", "1", payment("1.00", text, "", STRANGE, "F")))
            words = "statement --firms firms.csv --number-word Betrieb --number-word nr"
            status, output, told = self.tool(*words.split())
            self.assertEqual((status, output.splitlines()[1].split(",")[2]), (0, firm), (text, told))
        # Several, of which one may be none of the table.
        none = ("BETRIEB: 2024, 1001", "Betrieb 1001 und 2024", "Betrieb 1001, 2024", "Betrieb 1001 / 1003",
                "Betrieb 1001 bis 1003", "Betrieb 1001 1003", "Betrieb 7 und 1001", "Betrieb 1001 u. 1003",
                "Betrieb 1001 sowie 2024", "Betrieb 1001/24", "1003 Betrieb 1001", "Betrieb 1001 und Firma 1003",
                "Betrieb 1001 Mai 2024, 1003 Mai 2024", "Betrieb 1001 bzw. 1003", "Betrieb 1001 500,00, 1003 400,00",
                "Betrieb 1001 (Bau Nord) und 1003 (Bau West)", "Betrieb 1001 Mai, Beitrag 1003")
        known = ("Betrieb Nr. 1001", "Betrieb-Nr.: 1001", "Betrieb Nummer 1001", "Betrieb 1001, Rechnung 1003",
                 "Betrieb 1001 Mai 2024", "Betrieb 1001, 05/2024", "Rechnung Nr. 1003, Betrieb 1001")
        self.finds_each((1001, 1003, 2024), none, known, "--number-word", "Betrieb")
        self.finds_each((1001,), ["Betrieb Nr. 1001"], ["Betriebs-Nr. 1001"], "--number-word", "Betriebsnr")
        # An amount isn't one behind any word.
        none = ("Beitrag 1001 EUR", "Beitrag (1001) EUR", "Beitrag 1001* EUR", "Beitrag **1001** EUR",
                "Beitrag 1001 + 500 EUR", "Beitrag 1001 und 500 EUR", "Beitrag 1001 / 500 EUR", "Beitrag 1001,-", "Beitrag 1 001", "Beitrag 1001 %")
        self.finds_each((1, 1001), none, ["Beitrag 1001", "Beitrag 1001, 500,00 EUR"], "--number-word", "Beitrag")

    def test_interest_by_a_word(self):
        for text in ("Zinsen", "ZINSEN", "für Zinsen, Mai", "Zinsen/Mai", ["Mai und Zin", "sen"], "Zin\nsen",
                     "Zin&#xad;sen", ["Bau West Zin", "sen", "Danke"], "Zin\nsen\nfür Mai"):
            self.finds("", text, purpose="I")
        for text in ("Verzugszinsen", "Zins en", "Zinsen2"):
            self.finds("", text)
        self.write("statement", one("0", "1", payment("1.00", "Rückstand", reference="F")))
        words = "statement --firms firms.csv --interest-word zins --interest-word RU\u0308CKSTAND"
        self.assertIn("F,2024-04-30,,100,I,Rückstand\n", self.tool(*words.split())[1])

    def test_other_tables(self):
        self.finds("99999999", "", NORD, table=f"\ufeffiban,employer\r\n\r\n{NORD}, 99999999 \r\n")
        self.finds("7", "Nr. 7", table=f'"iban","employer"\n{NORD},7\n{WEST},7\n')
        self.finds("", "7", table="iban,employer\n")

    def faulty(self, table, said):
        self.write("firms.csv", table)
        self.refuses(LATIN, said, status=2)

    def test_faulty_tables(self):
        for table in ("", "iban;employer\n", "employer,iban\n"):
            self.faulty(table, "firms.csv: the first line isn't iban,employer")
        self.faulty(f"iban,employer\n{NORD}\n", "firms.csv, line 2: 1 fields in place of 2")
        self.faulty('iban,employer\n"a\n', "firms.csv, line 2: unexpected end of data")
        self.faulty("iban,employer\nM\xe4rz,1\n".encode("latin-1"), "firms.csv: no text in UTF-8")

    def test_each_fault_of_a_table(self):
        lines = [f"{NORD[:-1]}1,1001", "", f"{WEST},0", f"{NORD},01", f"{WEST},1", f"{WEST},1", "DE1,2",
                 f"{NORD},100000000", f"DE99{ACCOUNT[4:]},1"]
        self.faulty("\n".join(["iban,employer", *lines]), "\n".join([
            f"firms.csv, line 2: {NORD[:-1]}1 is no IBAN, or a digit of it is wrong",
            "firms.csv, line 4: 0 is no number of a firm (1 to 99999999)",
            "firms.csv, line 5: 01 is no number of a firm (1 to 99999999)",
            f"firms.csv, line 6: {WEST} stands twice; an account that pays for several firms stands at none",
            f"firms.csv, line 7: {WEST} stands twice; an account that pays for several firms stands at none",
            "firms.csv, line 8: DE1 is no IBAN, or a digit of it is wrong",
            "firms.csv, line 9: 100000000 is no number of a firm (1 to 99999999)",
            # DE02 and DE99 are the same by their rest alone.
            f"firms.csv, line 10: DE99{ACCOUNT[4:]} is no IBAN, or a digit of it is wrong"]))

    def test_a_changed_table_and_an_earlier_file(self):
        entries = payment("2.00", "x", "", STRANGE, "E-1"), payment("3.00", "y", "", STRANGE, "E-2")
        content = one("0", "5.00", *entries)
        self.write("made.csv", HEADER + "E-1,2024-04-30,1001,200,,x\nE-2,2024-04-30,1001,299,C,y\n")
        self.write("more.csv", HEADER + "E-1,2024-04-30,1001,200,C,x\n")
        self.write("firms.csv", f"iban,employer\n{STRANGE},5\n")
        told = self.makes(content, ["E-1,2024-04-30,1001,200,,x", "E-2,2024-04-30,5,300,C,y"],
                          "--earlier", "made.csv", "more.csv")
        self.assertIn("  as in an earlier file: 1 line, 2.00 EUR\n", told)
        # The office has taken one of them alone.
        for line in ("E-1,2024-04-30,1002,200,C,x", "E-1,2024-04-30,1001,200,I,x", "E-1,2024-04-30,1001,201,C,x"):
            self.write("more.csv", f"{HEADER}{line}\n")
            self.refuses(content, "more.csv, line 2: E-1 is another line than in made.csv, line 2, so the office took "
                         "one of the two at most; give the files that were imported", 2,
                         words=("--firms", "firms.csv", "--earlier", "made.csv", "more.csv"))
        # Of another payer or text it is another payment, which the office refuses under that reference.
        self.write("made.csv", HEADER + "E-1,2024-04-30,1001,200,C,z\n")
        self.makes(content, ["E-1,2024-04-30,5,200,C,x", "E-2,2024-04-30,5,300,C,y"], "--earlier", "made.csv")
        words = "--firms", "firms.csv", "--earlier", "made.csv"
        self.write("made.csv", "reference,cents\n")
        self.refuses(content, f"made.csv: the first line isn't {HEADER.strip()}", 2, words=words)
        # As a spreadsheet writes it anew, no payment of it would be known.
        for line, said in (("E-1,30.04.2024,1001,200,C,x", "value_date is 30.04.2024"),
                           ('E-1,2024-04-30,"1.001",200,C,x', "employer is 1.001"),
                           ("E-1,2024-04-30,1001,2E+02,C,x", "cents is 2E+02")):
            self.write("made.csv", f"{HEADER}{line}\n")
            self.refuses(content, f"made.csv, line 2: {said}, which the office doesn't take; "
                         "give the file as it was imported", 2, words=words)
        self.write("made.csv", f"{HEADER}2.02404E+15,2024-04-30,1001,200,C,x\n")
        self.refuses(content, "made.csv, line 2: reference is 2.02404E+15, as a spreadsheet writes a long number; "
                     "give the file as it was imported", 2, words=words)


if __name__ == "__main__":
    run_tests()
