"""Compares the words of the desk's page with the manual and with the sources that use them, and reads its
readers.

    python3 tests/desk_page.py [PROGRAM]

The program isn't asked here.
"""

import csv
import datetime
import json
import re
import sys
import unittest

# No __pycache__ is left beside the sources.
sys.dont_write_bytecode = True
from program_under_test import ROOT, run_tests  # noqa: E402

sys.path.append(str(ROOT / "tools"))
from desk_server import amounts, assets, documents, joined, numbers, reports  # noqa: E402
from desk_server.desk import UNWRITTEN  # noqa: E402
from desk_server.faults import Fault  # noqa: E402
from desk_server.forms import FORMS  # noqa: E402
from desk_server.journal import SETTLED  # noqa: E402

PAGE = ROOT / "tools/desk_page"
SERVER = ROOT / "tools/desk_server"
LANGUAGES = ("de", "en")
WORDS = {it: json.loads((PAGE / f"words.{it}.json").read_text(encoding="utf-8")) for it in LANGUAGES}
SCRIPTS = {path.name: path.read_text(encoding="utf-8") for path in PAGE.glob("*.js")}
SCRIPT = "".join(SCRIPTS.values())
MARKUP = (PAGE / "index.html").read_text(encoding="utf-8")
CLERK = (ROOT / "docs/clerk.md").read_text(encoding="utf-8")
SVG = "http://www.w3.org/2000/svg"


def cells(row):
    return [cell.strip().replace("`", "") for cell in row.strip().strip("|").split("|")]


def rows_behind(heading):
    """The rows of the manual's first table behind a text, without its head."""
    table = re.search(r"(?:^\|.*\n)+", CLERK.split(heading, 1)[1], re.M)[0]
    return [cells(row) for row in table.splitlines()[2:]]


class Words(unittest.TestCase):
    maxDiff = None

    def test_both_languages_have_the_same_words(self):
        self.assertEqual(list(WORDS["de"]), list(WORDS["en"]))
        for key in WORDS["en"]:
            carried = [sorted(re.findall(r"\{\w+\}", WORDS[it][key])) for it in LANGUAGES]
            self.assertEqual(carried[0], carried[1], key)

    def test_a_number_that_is_anothers(self):
        """A firm has a Betriebsnummer too, of the Federal Employment Agency and of eight digits, which the fund's forms
        would take."""
        self.assertEqual([key for key, text in WORDS["de"].items() if "Betriebsnummer" in text], [])

    def test_refusals_are_those_of_the_manual(self):
        """Number, meaning and what to do: the English words are the manual's, and the German ones stand
        beside them."""
        rows = rows_behind("What is wrong with how a request is written") + rows_behind("What the office says of it")
        self.assertEqual([row[0] for row in rows], [str(it) for it in (*range(1, 34), 40, 41, 42)])
        for number, _name, _detail, means, act in rows:
            self.assertEqual(WORDS["en"][f"refusal.{number}.means"], means)
            self.assertEqual(WORDS["en"][f"refusal.{number}.do"], act)

    def test_what_a_refusal_carries_has_its_words(self):
        rows = rows_behind("What is wrong with how a request is written") + rows_behind("What the office says of it")
        with_detail = {int(row[0]) for row in rows if row[2]}
        # The limits have a table of their own.
        self.assertEqual({it for it in range(1, 43) if f"detail.{it}" in WORDS["en"]}, with_detail - {18})

    def test_limits_are_those_of_the_manual(self):
        told = {}
        for names, most, act in rows_behind("The limits:"):
            for name in names.split(", "):
                told[f"limit.{name}.most"], told[f"limit.{name}.do"] = most, act
        self.assertEqual({key: text for key, text in WORDS["en"].items() if key.startswith("limit.")}, told)

    def test_what_stops_the_forms_is_the_manuals(self):
        paragraph = re.search(r"\*\*After `rule 41 Store`\*\*.*?\n\n", CLERK, re.S)[0]
        self.assertEqual(WORDS["en"]["stopped.text"], " ".join(re.sub(r"[*`]", "", paragraph).split()))

    def named(self):
        """The keys that markup and scripts name as they are."""
        keys = set(re.findall(r'data-word(?:-label)?="([^"]+)"', MARKUP))
        for script in SCRIPTS.values():
            keys |= set(re.findall(r'"((?:[a-z-]+\.)+[a-zA-Z_-]+)"', script))
            keys |= set(re.findall(r'say\("([^"]+)"', script))
        return {key for key in keys if not key.endswith((".js", ".csv", ".txt"))}

    def made(self):
        """The keys that scripts make of a kind, a rule, a reason and so on; those too that need no words."""
        source = "".join(path.read_text(encoding="utf-8") for path in SERVER.glob("*.py"))
        kinds, actions, documents = (*FORMS, "bank"), ("release", "withdraw"), ("payouts", "reminders")
        asked, rules = (*kinds, "give-up", "again"), range(1, 43)
        limits = [name for names, _, _ in rows_behind("The limits:") for name in names.split(", ")]
        csv_reasons = reports.CSV_REASONS.values()
        reasons = re.findall(r'FieldFault\(\w+, "([a-z-]+)"\)', source) + re.findall(r'number\("([a-z]+)"', source)
        places = {
            "{}.button": actions, "{}.claim": actions, "{}.known": documents, "{}.title": documents,
            "bank.{}": ["good", "faulty", *re.findall(r'"state": "([a-z]+)"', source), "failed"],
            "confirm.{}": asked, "confirm.{}.title": asked, "confirm.{}.yes": asked,
            "csv.{}": ["header", "fields", "worker", "gross", "twice", "lines", "unread", *csv_reasons],
            "detail.{}": rules,
            "fault.{}": re.findall(r'[ (]Fault\("([a-z-]+)"', source) + re.findall(r'fault: "([a-z-]+)"', SCRIPT),
            "fault.no-answer.{}": re.findall(r'NoAnswer\("([a-z]+)"', source),
            "field.{}": [*reasons, "report_day", "due_day", "contribution", "entitlement", "interest", "csv", "number"],
            "kind.{}": kinds, "label.{}": ["version", "cents", "unknown"],
            "limit.{}.do": limits, "limit.{}.most": limits, "look.{}": kinds,
            "month.{}": [f"{month:02}" for month in range(1, 13)],
            "outcome.{}": [*SETTLED, *(it + UNWRITTEN for it in SETTLED), "undecided", "lost"],
            "purpose.{}": ["C", "I"],
            "refusal.{}.command": rules, "refusal.{}.question": rules,
            "refusal.{}.do": rules, "refusal.{}.means": rules,
            "reply.{}": kinds, "state.{}": ["open", "released", "withdrawn", "over"], "subject.{}": kinds,
        }
        return {place.format(it) for place, them in places.items() for it in them}

    def test_every_word_that_is_used_is_there_and_every_other_is_used(self):
        named = self.named()
        self.assertEqual(named - set(WORDS["en"]), set())
        self.assertEqual(set(WORDS["en"]) - named - self.made(), set())

    def test_every_fault_and_form_has_its_words(self):
        source = "".join(path.read_text(encoding="utf-8") for path in SERVER.glob("*.py"))
        codes = set(re.findall(r'(?<!Field)Fault\("([a-z-]+)"', source))
        self.assertGreater(len(codes), 15)
        for code in codes - {"no-answer"}:
            self.assertIn(f"fault.{code}", WORDS["en"])
        for reason in ("absent", "silent", "broken", "foreign", "stranger", "unseen", "firm"):
            self.assertIn(f"fault.no-answer.{reason}", WORDS["en"])
        fields = set(re.findall(r'number\("([a-z]+)"', source))
        fields |= set(re.findall(r'FieldFault\([a-z"]+, "([a-z-]+)"\)', source))
        self.assertGreater(len(fields), 8)
        for reason in fields | {"report_day", "due_day"}:
            self.assertIn(f"field.{reason}", WORDS["en"])
        for outcome in SETTLED:
            self.assertIn(f"outcome.{outcome}", WORDS["en"])
            # Nothing is given up before the log has it.
            if outcome != "given-up":
                self.assertIn(f"outcome.{outcome}{UNWRITTEN}", WORDS["en"])
        for kind in (*FORMS, "bank"):
            self.assertIn(f"kind.{kind}", WORDS["en"])
            self.assertIn(f"subject.{kind}", WORDS["en"])
            self.assertIn(f"look.{kind}", WORDS["en"])


class Page(unittest.TestCase):
    def test_nothing_of_a_text_is_taken_as_html(self):
        for name, script in SCRIPTS.items():
            for word in ("innerHTML", "outerHTML", "insertAdjacentHTML", "document.write", "DOMParser", "eval(",
                         "Function(", "createContextualFragment", "srcdoc", "setTimeout(\"", "javascript:"):
                self.assertNotIn(word, script, name)

    def test_no_request_goes_anywhere_else(self):
        styles = {path.name: path.read_text(encoding="utf-8") for path in PAGE.glob("*.css")}
        for name, text in {**SCRIPTS, **styles, "index.html": MARKUP}.items():
            self.assertEqual(re.findall(r"(?:https?:)?//[a-z0-9.-]+\.[a-z]+", text.replace(SVG, "")), [], name)
            self.assertNotIn("url(", text)
            self.assertNotIn("@import", text)

    def test_the_markup_has_nothing_that_the_policy_forbids(self):
        script = '<script type="module" src="/desk.js"></script>'
        self.assertEqual(MARKUP.count(script), 1)
        self.assertEqual(re.findall(r"<style|\sstyle=|\son[a-z]+=|<script", MARKUP.replace(script, "")), [])

    def test_each_field_has_a_label_and_each_id_stands_once(self):
        ids = re.findall(r'\bid="([^"]+)"', MARKUP)
        self.assertEqual(len(ids), len(set(ids)))
        fields = re.findall(r'<(?:input|textarea) id="([^"]+)"(?! type="hidden")', MARKUP)
        self.assertEqual(sorted(fields), sorted(re.findall(r'<label for="([^"]+)"', MARKUP)))
        for words in re.findall(r'aria-(?:labelledby|describedby)="([^"]+)"', MARKUP):
            for word in words.split():
                self.assertIn(word, ids)
        for name in SCRIPTS.values():
            for word in re.findall(r'byId\("([^"]+)"\)', name):
                self.assertIn(word, [*ids, "bank-check-text"])


class Joined(unittest.TestCase):
    """The page's files as they are served: its scripts in one, and its styles in another."""

    def test_all_scripts_are_in_it(self):
        script = assets.read_script()
        self.assertEqual(re.findall(r"^(?:import|export)\b.*", script, re.M), [])
        self.assertEqual(sorted(re.findall(r"^\{ // (.*)$", script, re.M)), sorted(SCRIPTS))
        for name, text in SCRIPTS.items():
            for line in text.splitlines():
                line = re.sub("^export ", "", line)
                if not line.startswith("import "):
                    self.assertIn(line + "\n", script, name)

    def test_each_script_is_behind_those_that_it_imports(self):
        script = assets.read_script()
        for name, text in SCRIPTS.items():
            for imported in re.findall(r'^import .* from "\./(.*)";$', text, re.M):
                self.assertLess(script.index(f"{{ // {imported}\n"), script.index(f"{{ // {name}\n"))

    def test_what_a_script_hands_on(self):
        scripts = {
            "a": 'import { one, two } from "./b.js";\n\none(two);\n',
            "b": 'import { three } from "./c.js";\nexport const one = () => {};\n'
                 "export async function two() {}\n",
            "c": "export function three() {}\n",
        }
        self.assertEqual(joined.join_scripts(scripts, "a"), (
            "const modules = {};\n"
            "{ // c.js\nfunction three() {}\nmodules.c = { three };\n}\n"
            "{ // b.js\nconst { three } = modules.c;\nconst one = () => {};\nasync function two() {}\n"
            "modules.b = { one, two };\n}\n"
            "{ // a.js\nconst { one, two } = modules.b;\n\none(two);\n}\n"))

    def test_what_is_not_joined(self):
        for script, told in (('import { b as c } from "./b.js";\n', "import"), ('import "./b.js";\n', "import"),
                             ('import b from "./b.js";\n', "import"), ("export default 1;\n", "export"),
                             ("export { b };\n", "export"), ("export let b = 1;\n", "export"),
                             ('import { b } from "./c.js";\n', "isn't there"),
                             ('import { b } from "./a.js";\n', "imports itself")):
            with self.assertRaises(joined.NotJoined, msg=script) as caught:
                joined.join_scripts({"a": script, "b": "export const b = 1;\n"}, "a")
            self.assertIn(told, str(caught.exception))

    def test_all_styles_are_in_it(self):
        styles = assets.read_styles()
        for path in PAGE.glob("*.css"):
            self.assertEqual(styles.count(path.read_text(encoding="utf-8")), 1, path.name)


class Readers(unittest.TestCase):
    def test_amounts(self):
        for language, text, cents in (
                ("de", "1.234,56", 123456), ("de", "1234,56", 123456), ("de", "1234", 123400), ("de", "0,01", 1),
                ("de", "1.234", 123400), ("de", "1.000.000.000,00", 100_000_000_000), ("de", " 5,00 € ", 500),
                ("en", "1,234.56", 123456), ("en", "1234.56", 123456), ("en", "€1,234.56", 123456),
                ("en", "7", 700),
                # What no float holds: 0.1 and 0.2 in cents, and 2^53 + 1 cents.
                ("de", "0,29", 29), ("en", "90071992547409.93", None), ("en", "9007199254.93", 900719925493)):
            self.assertEqual(amounts.read_cents(text, language), cents, (language, text))
        for language, texts in (("de", ("1,234.56", "1.23", "1,2", "1,234", "12.34", "1.2345", "01.234,00", "-1",
                                        "1e3", "", ",50", "1 234", "١", "1,00,00")),
                                ("en", ("1.234,56", "1,23", "1.2", "1.234", "12,34", "½"))):
            for text in texts:
                self.assertIsNone(amounts.read_cents(text, language), (language, text))

    def test_a_report_as_a_spreadsheet_writes_it(self):
        for text in ('"worker","gross"\n"7","100"\n', '"worker";"gross"\r\n"7";"100"\r\n',
                     "\ufeffworker,gross\n7,100\n", "worker,gross\n 7 , 100 \n", "worker\tgross\r\n7\t100",
                     '"worker"\t"gross"\n7\t"100"\n'):
            report = reports.read_report(text)
            self.assertEqual((report.wages, report.faults), ({7: 100}, []))

    def test_a_report_with_lines_that_are_parted_in_another_way(self):
        """What stands in the header parts all lines."""
        for header in ",;\t":
            for line in {*",;\t"} - {header}:
                faults = reports.read_report(f"worker{header}gross\n7{line}100\n").faults
                self.assertEqual(faults, [{"line": 2, "reason": "fields", "word": "1"}], (header, line))

    def test_a_report_that_cannot_be_read(self):
        """Each fault has its own words."""
        for lines, line, reason in (('"7,100\n8,200\n', 3, "csv"), ('"7" ,100\n', 2, "quote"),
                                    ("7,100\r8,200\n", 2, "return"), (f"7,{'1' * 140_000}\n", 2, "long")):
            faults = reports.read_report("worker,gross\n" + lines).faults
            self.assertEqual(faults, [{"line": line, "reason": reason, "word": ""}])
        self.assertEqual(reports.csv_reason(csv.Error("something new")), "unread")
        reasons = [f"csv.{it}" for it in ("unread", *reports.CSV_REASONS.values())]
        self.assertEqual(len({WORDS["en"][it] for it in reasons}), 5)

    def test_a_report_with_many_faults(self):
        """The first twenty are told."""
        faults = reports.read_report("worker,gross\n" + "x,1\n" * 21).faults
        self.assertEqual([it["line"] for it in faults], [*range(2, 22)])

    def test_rates_and_months(self):
        for language, text, hundredths in (
                ("de", "14,25", 1425), ("de", "19,5", 1950), ("de", "20", 2000), ("en", "0.9 %", 90),
                ("de", "14.25", None), ("en", "14,25", None), ("de", "1,234", None), ("de", "", None)):
            self.assertEqual(amounts.read_hundredths(text, language), hundredths, text)
        for text, month in (("2024-01", "2024-01"), ("01/2024", "2024-01"), ("1/2024", "2024-01"),
                            ("12.2199", "2199-12"), ("2024-3", "2024-03"), ("mar 2024", "2024-03"),
                            (" Mar\u00a02024 ", "2024-03"), ("März 2024", "2024-03"), ("Jan 2024", "2024-01")):
            self.assertEqual(amounts.month("month", text), month)
        for text in ("2024-13", "2024-001", "13/2024", "1999-12", "2200-01", "2024", "2024-01-01", "00/2024", "2024-0",
                     "Mer 2024", "Mar 1999", "Mar2024", "Mar. . 2024", "Mar 24", "2024 Mar", "Mar-2024", "٣/2024"):
            self.assertRaises(Fault, amounts.month, "month", text)

    def test_months_are_read_as_they_are_shown(self):
        for language in LANGUAGES:
            for number in range(1, 13):
                shown = f"{WORDS[language][f'month.{number:02}']} 2024"
                self.assertEqual(amounts.month("month", shown), f"2024-{number:02}", shown)

    def test_numbers(self):
        day = datetime.date(2024, 4, 30)
        for last, number in ((0, 202404300100001), (202404300100001, 202404300100002),
                             (202404290199999, 202404300100001),
                             # The clock went back.
                             (202405010100009, 202405010100010), (202405010100001 + 41, 202405010100043)):
            self.assertEqual(numbers.next_number(last, day, 1, None), number)
        # The last number of the day, and numbers of another desk or of another kind.
        for last in (202404300199999, 202404300200001, 999_999_999_999_999_999):
            self.assertRaises(Fault, numbers.next_number, last, day, 1, None)
        self.assertEqual(numbers.next_number(7, day, 1, 5), 8)
        self.assertEqual(numbers.next_number(0, day, 1, 5), 5)
        self.assertEqual(numbers.next_number(9_007_199_254_740_989, day, 1, 5), 9_007_199_254_740_990)
        for last in (9_007_199_254_740_990, 9_007_199_254_740_991, 999_999_999_999_999_999):
            for first in (5, None):
                self.assertRaises(Fault, numbers.next_number, last, day, 1, first)
        self.assertLess(numbers.next_number(0, datetime.date(9999, 12, 31), 99, None), 2 ** 53 - 1)

    def test_statements(self):
        """The parts that the manual's story has not: set-offs, payments of interest, an end, amounts
        wider than their places."""
        text = ("statement 1001 2024-05-02\nname A\u2028B  \u00e4\nmember 2024-01 2024-06\n"
                "charge 2024-01 due 2024-02-20 version 12        1000.00 100000000000.00           0.00\n"
                "  paid 2024-05-02         500.10 set-off 1\n"
                "interest-paid 2024-05-02          40.00 set-off 1\ninterest-paid 2024-05-02           1.00 I!~\n"
                "missing 2024-02\nmissing 2024-03\nprepaid           0.00\narrears         499.90\n"
                "interest           0.01\n")
        read = documents.read_statement(text)
        self.assertEqual((read["name"], read["last"]), ("A\u2028B  \u00e4", "2024-06"))
        self.assertEqual(read["missing"], ["2024-02", "2024-03"])
        self.assertEqual(read["charges"][0]["open"], "10000000000000")
        self.assertEqual(read["charges"][0]["payments"],
                         [{"day": "2024-05-02", "cents": "50010", "reference": "set-off 1"}])
        self.assertEqual([it["reference"] for it in read["interest_payments"]], ["set-off 1", "I!~"])
        self.assertEqual((read["arrears"], read["interest"]), ("49990", "1"))
        for wrong in (text[:-1], text + "more\n", text.replace("missing 2024-02\n", "something\n"), "", "\n",
                      text.replace("arrears         499.90\n", "")):
            self.assertRaises(documents.NotUnderstood, documents.read_statement, wrong)

    def test_suspense(self):
        text = ("suspense 2024-04-30\nline B9 2024-03-01 C -          50.00  two  blanks\n"
                "line B10 2024-03-01 I 1099           7.00\nlines 2\ntotal          57.00\n")
        lines = documents.read_suspense(text)["lines"]
        self.assertEqual([(it["reference"], it["employer"], it["cents"], it["note"]) for it in lines],
                         [("B9", None, "5000", " two  blanks"), ("B10", "1099", "700", "")])

    def test_many_lines_in_suspense_come_in_parts(self):
        lines = "".join(f"line B{it} 2024-03-01 C -           0.01\n" for it in range(450))
        text = f"suspense 2024-04-30\n{lines}lines 450\ntotal           4.50\n"
        for first, references in ((0, (0, 199)), (200, (200, 399)), (400, (400, 449))):
            read = documents.read_suspense(text, first)
            found = [it["reference"] for it in read["lines"]]
            self.assertEqual((found[0], found[-1]), tuple(f"B{it}" for it in references))
            self.assertEqual((read["count"], read["total"]), (450, "450"))
            self.assertEqual(len(found), references[1] - references[0] + 1)
        self.assertEqual(documents.read_suspense(text, 450)["lines"], [])

    def test_workers_and_lists(self):
        text = ("worker 7 2024-04-30\nearned 1001 2024-01         142.50\n"
                "claim 1 employer 1001 open          10.00\nbalance         132.50\n")
        self.assertEqual(documents.read_worker(text)["claims"],
                         [{"claim": 1, "employer": 1001, "state": "open", "cents": "1000"}])
        text = ("reminders 2 2024-05-14\nemployer 1001 level 2 missing 1 2024-03           0.00          50.00\n"
                "employer 1004 level 1 missing 0 -         300.00           5.00\n"
                "employer 1005 level 3 missing 0 -           0.01           0.00\nfirms 3\n")
        self.assertEqual([(it["first"], it["level"]) for it in documents.read_reminders(text)["reminded"]],
                         [("2024-03", 2), (None, 1), (None, 3)])


if __name__ == "__main__":
    run_tests()
