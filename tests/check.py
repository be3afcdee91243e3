"""Checks real files as a clerk does before the office takes them: what `clearing check` says of each, and its status.

    python3 tests/check.py [PROGRAM]

PROGRAM is crates/clear_app/out/clear_app where it isn't given, as `rt ci` leaves it. Each kind of fault is met in a
file of its own, and the files of examples/ are good. What is proved and what is only compared here: docs/promises.md.
"""

import sys

# No __pycache__ is left beside the sources.
sys.dont_write_bytecode = True
from program_under_test import NOBODY, ROOT, ROW_2024, ROW_2025, ProgramUnderTest, run_tests  # noqa: E402

MAX_FILE = 4_194_304

HEADER = "reference,value_date,employer,cents,purpose,note\n"
LINE = "B1,2024-02-25,1001,150000,C,January\n"
WRONG_HEADER = "record 1: the header has to be reference,value_date,employer,cents,purpose,note; "
OWN_EXPORT = "this looks like a bank's own export: its fields are parted by ;\n"
DAYS = "a day is written YYYY-MM-DD: 2024-04-01 for 01.04.2024\n"
CENTS = "cents are whole numbers: 1500 for 15,00 or 15.00\n"
XML = "this is a bank's statement in XML: tools/bank-file makes a bank file of it\n"
LATIN = "this text is Latin-1, UTF-16 or the like; the office reads UTF-8\n"


class Checked(ProgramUnderTest):
    def says(self, kind, content, said, good=False):
        """A file of this kind with this content is checked: these lines, and whether it is good."""
        self.write("file", content)
        self.expect(["check", kind, "file"], 0 if good else 2, said)

    def example(self, name):
        return (ROOT / "examples" / name).read_bytes()


class Rates(Checked):
    def good(self, content, said):
        self.says("rates", content, said, good=True)

    def fault(self, content, said):
        self.says("rates", content, said + "\n")

    def test_good_files(self):
        self.good(self.example("rates.toml"), "2 rows of rates, the first from 2024-01, the last from 2025-01\n")
        self.good(ROW_2024, "1 row of rates, the first from 2024-01, the last from 2024-01\n")
        row = ROW_2024.replace("2024-01", "2199-12")
        self.good(ROW_2024 + ROW_2025 + row, "3 rows of rates, the first from 2024-01, the last from 2199-12\n")

    def test_the_ends_of_the_ranges_are_good(self):
        least = 'from = "2000-01"\ncontribution = 0\nreport_day = 1\ndue_day = 1\ninterest = 0\nentitlement = 0\n'
        most = ('from = "2000-02"\ncontribution = 10000\nreport_day = 28\ndue_day = 28\ninterest = 1000\n'
                'entitlement = 10000\n')
        self.good(f"[[rate]]\n{least}[[rate]]\n{most}",
                  "2 rows of rates, the first from 2000-01, the last from 2000-02\n")

    def test_no_toml(self):
        self.fault("rate =\n", "no TOML text: line 1, column 7: invalid value, expected a string, number, boolean, "
                   "date-time, array or inline table")
        self.fault(ROW_2024 + "intérêt 100\n", "no TOML text: line 8, column 4: key with no value, expected `=`")
        self.fault(ROW_2024.replace("= 100\n", "= 9223372036854775808\n"),
                   "no TOML text: line 6, column 12: number out of range")
        self.fault(ROW_2024.encode() + b"# \xe4\n", "no TOML text: line 8, column 3: invalid UTF-8")

    def test_the_top_level(self):
        self.fault(ROW_2024.replace("[[rate]]", "[[rates]]"), "top level: rates is no member of a rate file")
        self.fault(ROW_2024.replace("[[rate]]", "[rate]"), "top level: rate is no array of tables, [[rate]]")
        self.fault("rate = 1\n", "top level: rate is no array of tables, [[rate]]")

    def test_no_rows(self):
        for content in ("", "# nothing yet\n", "rate = []\n"):
            self.fault(content, "no row of rates")

    def test_members(self):
        for old, new, said in [
            ("due_day = 20\n", "", "due_day is missing"),
            ('from = "2025-01"\n', "", "from is missing"),
            ("due_day", "duedate", "duedate is no member of a row"),
            ("interest = 90", 'interest = 90\n"\\n" = 1', "? is no member of a row"),
            ("interest = 90", "interest = 90\n" + "x" * 50 + " = 1", "x" * 40 + " is no member of a row"),
            ("due_day = 20", "due_day = 20.0", "due_day is no whole number"),
            ("entitlement = 1425", 'entitlement = "1425"', "entitlement is no whole number"),
            ('"2025-01"', "2025", "from is no text"),
        ]:
            self.fault(ROW_2024 + ROW_2025.replace(old, new), f"row 2: {said}")
        self.fault("rate = [1]\n", "row 1: it is no table")

    def test_ranges(self):
        month = "a month, YYYY-MM, 2000-01 to 2199-12"
        for old, new, said in [
            ("2025-01", "2025-13", f"from is 2025-13; it can be {month}"),
            ("2025-01", "2025-1", f"from is 2025-1; it can be {month}"),
            ("2025-01", "", f'from is ""; it can be {month}'),
            ("2025-01", "Jänner\\n2025", f"from is J??nner?2025; it can be {month}"),
            ("1900", "10001", "contribution is 10001; it can be 0 to 10000"),
            ("report_day = 15", "report_day = 0", "report_day is 0; it can be 1 to 28"),
            ("due_day = 20", "due_day = 29", "due_day is 29; it can be 1 to 28"),
            ("= 90", "= -1", "interest is -1; it can be 0 to 1000"),
            ("= 90", "= 1001", "interest is 1001; it can be 0 to 1000"),
            ("1425", "10001", "entitlement is 10001; it can be 0 to 10000"),
        ]:
            self.fault(ROW_2024 + ROW_2025.replace(old, new), f"row 2: {said}")

    def test_order(self):
        self.fault(ROW_2025 + ROW_2024,
                   "row 2: from is 2024-01; it has to be later than that of row 1, 2025-01")
        self.fault(ROW_2024 + ROW_2025 + ROW_2025,
                   "row 3: from is 2025-01; it has to be later than that of row 2, 2025-01")


class Callers(Checked):
    def fault(self, content, said):
        self.says("callers", content, said + "\n")

    def test_good_files(self):
        self.says("callers", self.example("callers.toml"), "3 keys, 1 of clerks, 2 of firms\n", good=True)
        self.says("callers", "", "0 keys, 0 of clerks, 0 of firms\n", good=True)
        self.says("callers", "k1 = 99999999\n", "1 key, 0 of clerks, 1 of firms\n", good=True)
        self.says("callers", f'{"k" * 64} = 0\n"desk!" = 0\n', "2 keys, 2 of clerks, 0 of firms\n", good=True)

    def test_no_toml(self):
        self.fault("desk = 0\ndesk = 0\n", "no TOML text: line 2, column 1: duplicate key")
        self.fault("desk: 0\n", "no TOML text: line 1, column 5: key with no value, expected `=`")

    def test_keys(self):
        self.fault('desk = 0\n"k 1" = 1\n', "key k 1: a key is 1 to 64 visible ASCII characters")
        self.fault('"" = 1\n', 'key "": a key is 1 to 64 visible ASCII characters')
        self.fault(f'{"k" * 65} = 1\n', f'key {"k" * 40}: a key is 1 to 64 visible ASCII characters')
        self.fault('"Büro\\t1" = 1\n', "key B??ro?1: a key is 1 to 64 visible ASCII characters")

    def test_numbers(self):
        self.fault("desk = 0\nk1001 = 100000000\n",
                   "key k1001: its number is 100000000; 0 is a clerk, 1 to 99999999 a firm")
        self.fault("desk = -1\n", "key desk: its number is -1; 0 is a clerk, 1 to 99999999 a firm")
        self.fault('k1001 = "1001"\n', "key k1001: its number is no whole number")
        self.fault("[firms]\nk1001 = 1001\n", "key firms: its number is no whole number")


class Bank(Checked):
    def good(self, content, said):
        self.says("bank", content, said + "\n", good=True)

    def fault(self, content, said, hints=""):
        self.says("bank", content, said + "\n" + hints)

    def test_good_files(self):
        self.good(self.example("first-bank.csv"), "2 lines, 0 repeats within the file, 0 without a firm, 3500.00 in all")
        self.good(HEADER, "0 lines, 0 repeats within the file, 0 without a firm, 0.00 in all")
        self.good("\ufeff" + HEADER + LINE, "1 line, 0 repeats within the file, 0 without a firm, 1500.00 in all")
        self.good(HEADER + "B2,2200-12-31,99999999,100000000000,I,\nB3,2000-01-01,,1,,\n",
                  "2 lines, 0 repeats within the file, 1 without a firm, 1000000000.01 in all")

    def test_repeats_count_once(self):
        lines = LINE + "B2,2024-02-25,,9,C,a; b\n" + LINE + LINE + "B2,2024-02-25,,9,,a; b\n"
        self.good(HEADER + lines, "5 lines, 3 repeats within the file, 1 without a firm, 1500.09 in all")
        self.good(HEADER + LINE + LINE, "2 lines, 1 repeat within the file, 0 without a firm, 1500.00 in all")

    def test_the_limit(self):
        lines = "".join(f"B{n},2024-02-25,1001,100000000000,C,\n" for n in range(10_000))
        self.good(HEADER + lines,
                  "10000 lines, 0 repeats within the file, 0 without a firm, 10000000000000.00 in all")
        self.fault(HEADER + lines + LINE, "more than 10000 lines")
        self.fault(HEADER + "x\n" * 10_001, "more than 10000 lines")

    def test_the_header(self):
        self.fault("", WRONG_HEADER + "the file is empty")
        self.fault("\n\n", WRONG_HEADER + "the file is empty")
        self.fault(LINE, WRONG_HEADER + "its field 1 is B1")
        self.fault(HEADER.replace("value_date", "date") + LINE, WRONG_HEADER + "its field 2 is date")
        self.fault(HEADER.replace("note", "") + LINE, WRONG_HEADER + 'its field 6 is ""')
        self.fault("reference,value_date,employer,cents,note\n" + LINE, WRONG_HEADER + "it has 5 fields")
        self.fault("reference\n" + LINE, WRONG_HEADER + "it has 1 field")
        for content in ("\n" + HEADER, HEADER.replace("reference", '"reference"')):
            self.fault(content + LINE, WRONG_HEADER + "it has to stand first, without a quotation mark")

    def test_another_number_of_fields(self):
        self.fault(HEADER + LINE + LINE + "B4,2024-02-25,1001,150000,C\n", "record 4: it has 5 fields; a line has 6")
        self.fault(HEADER + "B4\n", "record 2: it has 1 field; a line has 6")
        self.fault(HEADER + LINE.replace("January", "January, rest"), "record 2: it has 7 fields; a line has 6")

    def test_fields(self):
        reference = "is no reference (1 to 35 visible ASCII characters)"
        day = "is no day (YYYY-MM-DD, 2000-01-01 to 2200-12-31)"
        firm = "is no number of a firm (1 to 99999999, or nothing)"
        amount = "is no amount in cents (a whole number, 1 to 100000000000)"
        purpose = "is no purpose (C, I, or nothing)"
        note = "is no note (at most 140 bytes of UTF-8 without control characters)"
        for old, new, said in [
            ("B1", "", f'reference: "" {reference}'),
            ("B1", "B 1", f"reference: B 1 {reference}"),
            ("B1", "B" * 36, f"reference: {'B' * 36} {reference}"),
            ("2024-02-25", "2024-02-30", f"value_date: 2024-02-30 {day}"),
            ("2024-02-25", "1999-12-31", f"value_date: 1999-12-31 {day}"),
            ("2024-02-25", "", f'value_date: "" {day}'),
            ("1001", "0", f"employer: 0 {firm}"),
            ("1001", "Bau Nord", f"employer: Bau Nord {firm}"),
            ("150000", "0", f"cents: 0 {amount}"),
            ("150000", "0150", f"cents: 0150 {amount}"),
            ("150000", "100000000001", f"cents: 100000000001 {amount}"),
            ("C", "X", f"purpose: X {purpose}"),
            ("January", "n" * 141, f"note: {'n' * 40} {note}"),
            ("January", "a\tb", f"note: a?b {note}"),
            ("January", '"a\nb"', f"note: a?b {note}"),
        ]:
            self.fault(HEADER + LINE + LINE.replace(old, new), f"record 3, {said}")

    def test_conflicts(self):
        other = LINE.replace("B1", "B2")
        self.fault(HEADER + other + LINE + other + LINE.replace("150000", "150001"),
                   "record 5, reference: B1 stands with another content in record 3")
        name = LINE.replace("B1", "reference")
        self.fault(HEADER + name + name.replace("150000", "150001"),
                   "record 3, reference: reference stands with another content in record 2")

    def test_days_with_points(self):
        said = "record 2, value_date: 01.04.2024 is no day (YYYY-MM-DD, 2000-01-01 to 2200-12-31)"
        self.fault(HEADER + LINE.replace("2024-02-25", "01.04.2024"), said, DAYS)
        # A note may hold such a day.
        self.fault(HEADER + LINE.replace("C,January", "X,01.04.2024"), "record 2, purpose: X is no purpose (C, I, or nothing)")

    def test_amounts_with_a_point_or_a_comma(self):
        amount = "is no amount in cents (a whole number, 1 to 100000000000)"
        self.fault(HEADER + LINE.replace("150000", "15.00"), f"record 2, cents: 15.00 {amount}", CENTS)
        self.fault(HEADER + LINE.replace("150000", '"1.500,00"'), f"record 2, cents: 1.500,00 {amount}", CENTS)
        self.fault(HEADER + LINE.replace("150000", "15,00"), "record 2: it has 7 fields; a line has 6", CENTS)
        self.fault(HEADER + LINE.replace("150000", "15 EUR"), f"record 2, cents: 15 EUR {amount}")

    def test_another_text(self):
        note = "record 2, note: M?rz is no note (at most 140 bytes of UTF-8 without control characters)"
        self.fault((HEADER + LINE.replace("January", "März")).encode("latin-1"), note, LATIN)
        self.good(HEADER + LINE.replace("January", "März"),
                  "1 line, 0 repeats within the file, 0 without a firm, 1500.00 in all")

    def test_a_banks_own_export(self):
        export = ('Buchungstag;Wertstellung;Auftraggeber;Verwendungszweck;Betrag\r\n'
                  '"26.02.2024";"25.02.2024";"Bau Nord";"Beitrag Jänner, 1001";"1.500,00"\r\n')
        said = WRONG_HEADER + "its field 1 is Buchungstag;Wertstellung;Auftraggeber;Ve"
        self.fault(export, said, OWN_EXPORT + DAYS + CENTS)
        self.fault(export.encode("cp1252"), said, OWN_EXPORT + DAYS + CENTS + LATIN)

    def test_a_banks_statement(self):
        statement = self.example("bank-statement.xml")
        said = WRONG_HEADER + 'its field 1 is <?xml version="1.0" encoding="UTF-8"?>'
        self.fault(statement, said, XML)
        self.fault(b"\xef\xbb\xbf" + statement, said, XML)

    def test_semicolons_in_place_of_commas(self):
        lines = (HEADER + LINE).replace(",", ";")
        self.fault(lines, WRONG_HEADER + "it has 1 field", OWN_EXPORT)
        self.fault(HEADER + LINE.replace(",", ";") * 2, "record 2: it has 1 field; a line has 6", OWN_EXPORT)


class Files(Checked):
    def test_files_that_are_not_read(self):
        self.write("large", HEADER.ljust(MAX_FILE + 1, "\n"))
        (self.write("closed", HEADER)).chmod(0)
        for kind in ("rates", "callers", "bank"):
            for name in ("missing", ".", "large", *(["closed"] if NOBODY else [])):
                self.expect(["check", kind, name], 2, "", "fault file\n")

    def test_a_file_may_be_so_large(self):
        self.says("bank", HEADER.ljust(MAX_FILE, "\n"),
                  "0 lines, 0 repeats within the file, 0 without a firm, 0.00 in all\n", good=True)
        self.says("callers", "# ".ljust(MAX_FILE, "."), "0 keys, 0 of clerks, 0 of firms\n", good=True)
        self.says("bank", "\n;" * (MAX_FILE // 2), WRONG_HEADER + "its field 1 is ;\n" + OWN_EXPORT)

    def test_what_the_check_takes_the_program_takes(self):
        self.expect(["check", "rates", "rates.toml"], 0,
                    "2 rows of rates, the first from 2024-01, the last from 2025-01\n")
        self.init()
        self.write("rates.toml", ROW_2025 + ROW_2024)
        self.expect(["check", "rates", "rates.toml"], 2,
                    "row 2: from is 2024-01; it has to be later than that of row 1, 2025-01\n")
        self.expect(["init", "other.db", "rates.toml"], 2, "", "fault file\n")


class Words(Checked):
    def test_words_that_are_not_understood(self):
        for line in ("check", "check rates", "check claims rates.toml", "check rates rates.toml more"):
            self.expect(line.split(), 2, "", "fault command line\n")


if __name__ == "__main__":
    run_tests()
