"""What is typed on the desk's page: the lines of a report, which stay with their firm until they are sent, the cells of
a spreadsheet, and the months as they are shown.

    python3 tests/desk_typed.py [PROGRAM]

It needs what tests/desk_browser.py needs, and is left out where that is missing. What is expected is worked
out from docs/rules.md by hand.
"""

import sys

# No __pycache__ is left beside the sources.
sys.dont_write_bytecode = True
import desk_hurry  # noqa: E402
from desk_browser import setUpModule  # noqa: E402, F401
from desk_under_test import DONE  # noqa: E402
from program_under_test import run_tests  # noqa: E402

EMPTY = ("", "", "")
LINES = "worker,gross\n7,100000"


class Typed(desk_hurry.Hurry):
    """Two firms, of which the first one is open."""

    def setUp(self):
        super().setUp()
        self.does(DONE, self.register("1002", "Tiefbau Süd"))
        self.open_firm("1001")

    def fields(self):
        return tuple(self.value(f"report-{it}") for it in ("month", "version", "csv"))

    def can_send(self):
        return self.browser.one("#report-send").is_enabled()

    def check(self, *told):
        self.browser.click("#report-check")
        self.browser.wait(self.can_send, "checked lines")
        for text in told:
            self.assertIn(text, self.browser.text("#report-summary"))


class Kept(Typed):
    """Lines that weren't sent stay with their firm."""

    def test_another_firm_is_opened(self):
        """It doesn't get them, and they are looked at anew before they are sent."""
        self.type_in("report", month="2024-02", csv=LINES)
        self.check("Feb 2024. Lines: 1")
        self.open_firm("1002")
        self.assertEqual((self.fields(), self.can_send()), (EMPTY, False))
        self.type_in("report", month="2024-03", csv="worker,gross")
        self.open_firm("1001")
        self.assertEqual((self.fields(), self.can_send()), (("2024-02", "", LINES), False))
        self.assertEqual(self.browser.text("#report-check-result"), "")
        self.check("Feb 2024. Lines: 1")
        self.browser.click("#report-send")
        self.answers("done", "Report: 1001, Feb 2024")
        self.open_firm("1002")
        self.assertEqual(self.fields(), ("2024-03", "", "worker,gross"))
        self.open_firm("1001")
        self.assertEqual(self.fields(), EMPTY)

    def test_a_correction(self):
        """The version is still that of its month."""
        self.browser.click("#statement-months [data-month='2024-01'] .correct")
        self.browser.type("#report-csv", LINES)
        self.open_firm("1002")
        self.assertEqual(self.browser.text("#report-send"), "Send the report")
        self.open_firm("1001")
        self.assertEqual((self.fields(), self.browser.text("#report-send")),
                         (("2024-01", "1", LINES), "Send the correction"))
        self.browser.type("#report-month", "2024-02")
        self.assertEqual(self.value("report-version"), "")

    def test_an_answer_that_comes_behind_another_firm(self):
        """What is done doesn't come back with its firm, and what is refused does, to be mended."""
        for month, outcome, kept in (("2024-02", "done", EMPTY), ("2024-01", "refused", ("2024-01", "", LINES))):
            self.type_in("report", month=month, csv=LINES)
            self.check()
            self.hold("/api/commands/report")
            self.browser.click("#report-send")
            self.open_firm("1002")
            self.type_in("report", month="2024-03", csv="worker,gross")
            self.let_go()
            self.browser.wait_for_text("#answer", outcome)
            self.assertEqual(self.fields(), ("2024-03", "", "worker,gross"))
            self.open_firm("1001")
            self.assertEqual(self.fields(), kept)

    def test_a_request_that_is_settled_behind_another_firm(self):
        self.type_in("report", month="2024-02", csv=LINES)
        self.check()
        self.close_office()
        self.browser.click("#report-send")
        self.answers("no answer")
        self.come_back()
        self.open_firm("1002")
        self.browser.click("#pending-send-again")
        self.browser.wait_for_text("#answer", "sent again, done once")
        self.open_firm("1001")
        self.assertEqual(self.fields(), EMPTY)


class Cells(Typed):
    def test_the_cells_of_a_spreadsheet(self):
        """They are parted by tabs where they are copied."""
        self.browser.run("document.getElementById('report-csv').value = arguments[0]", "worker\tgross\n7\t100000\n")
        self.type_in("report", month="2024-02")
        self.check("Feb 2024. Lines: 1, gross wages €1,000.00")
        self.browser.click("#report-send")
        self.answers("done", "Report: 1001, Feb 2024")


class Months(Typed):
    """Months are typed as they are shown."""

    def test_each_form_takes_them(self):
        for language, month, shown in (("en", "Feb 2024", "Feb 2024"), ("en", "März 2024", "Mar 2024"),
                                       ("de", "Jan. 2024", "Jan. 2024"), ("de", "2024-3", "März 2024")):
            self.browser.click(f"#language-{language}")
            self.type_in("report", month=month, csv=LINES)
            self.browser.click("#report-check")
            self.browser.wait_for_text("#report-check-result", f"{shown}. ")
        self.browser.click("#language-en")
        self.type_in("end", last="Jun 2024")
        self.browser.click("#end-send")
        self.confirm("The end is set once for good", "Jun 2024")
        self.browser.wait_for_text("#answer", "End of membership: 1001, last month Jun 2024")

    def test_the_version_of_a_month(self):
        """It is that of the month, in whatever form that is typed."""
        self.browser.click("#statement-months [data-month='2024-01'] .correct")
        for month, version in (("Jan 2024", "1"), ("Feb 2024", ""), ("jan. 2024", "1"), ("2024-2", ""), ("2024-1", "1"),
                               ("2024-12", ""), ("1/2024", "1"), ("Juni 2024", ""), ("constructor 2024", "")):
            self.browser.type("#report-month", month)
            self.assertEqual(self.value("report-version"), version, month)

    def test_a_version_that_is_typed_before_its_month(self):
        """It stays where the month begins like another one, and isn't another month's once it was looked at."""
        self.type_in("report", version="1", month="2024-12", csv=LINES)
        self.assertEqual(self.value("report-version"), "1")
        self.type_in("report", month="2024-1", version="1")
        self.check("Jan 2024")
        self.assertEqual(self.value("report-version"), "1")
        self.browser.type("#report-month", "2024-3")
        self.assertEqual(self.value("report-version"), "")

    def test_lines_of_the_month_before(self):
        """They don't go along to another month's row, in whatever form their month is typed."""
        for month, kept in (("2024-1", ""), ("März 2024", ""), ("Jan. 2024", ""), ("Feb 2024", LINES)):
            self.type_in("report", month=month, csv=LINES)
            self.browser.click("#statement-months [data-month='2024-02'] .report")
            self.assertEqual(self.fields(), ("2024-02", "", kept), month)


if __name__ == "__main__":
    run_tests()
