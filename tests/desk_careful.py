"""What a careful clerk reads on the desk's page: which day, which sum, which name, and all of it on screen and paper.

    python3 tests/desk_careful.py [PROGRAM]

It needs what tests/desk_browser.py needs, and is left out where that is missing. What is expected is worked
out from docs/rules.md by hand.
"""

import json
import sys

# No __pycache__ is left beside the sources.
sys.dont_write_bytecode = True
from browser import what_is_missing  # noqa: E402
from desk_browser import CLOCK, setUpModule  # noqa: E402, F401
from desk_mishaps import Mishaps  # noqa: E402
from desk_under_test import BANK_HEADER, DONE  # noqa: E402
from program_under_test import run_tests  # noqa: E402

if not what_is_missing():
    from selenium.webdriver.common.keys import Keys

# A zero-width space and a soft hyphen, a filler, an empty sign of braille, a tag.
UNSEEN = ("\u200b\u00ad", "\u3164", "\u2800", "\U000e0041")


class Counts(Mishaps):
    """Counts have groups, in the form of the page's language."""

    def test_a_large_bank_file(self):
        # 49 bytes and 1,000 lines of 28.
        lines = "".join(f"P{it:04},2024-02-10,,1000,C,ab\n" for it in range(1_000))
        self.does({"new": 1000, "repeats": 0}, self.bank(BANK_HEADER + lines))
        for language, told, total in (("en", "Lines 1 to 200 of 1,000", "1,000, together €10,000.00"),
                                      ("de", "Zeilen 1 bis 200 von 1.000", "1.000, zusammen 10.000,00")):
            self.browser.driver.get("about:blank")
            self.browser.open(f"{self.address}?lang={language}")
            self.browser.wait_for_text("#suspense-lines", told)
            self.assertIn(total, self.browser.text("#suspense-summary"))
        self.go("log")
        what, reply = self.browser.table("#log-table")[1][3:]
        self.assertEqual((what, reply), ("Bankdatei: bank.csv, 28.049 Byte", "Neu: 1.000, Wiederholungen: 0."))
        # A number that names something has none.
        self.assertIn("Meldung: 1001, Jan. 2024, Zeilen 1", self.browser.text("#log-table"))


class MadeLater(Mishaps):
    """A payout list or a reminder run that is made by *Send it again* is shown as any other, wherever that was."""

    def loses(self, kind, asked):
        """A request for a list or a run that has no answer; the office is back then."""
        self.go("morning")
        self.close_office()
        self.browser.click(f"#{kind}-make")
        self.confirm(asked)
        self.answers("no answer", "nobody answers on 127.0.0.1")
        self.come_back()

    def shows(self, table, rows, *told):
        self.browser.click("#pending-send-again")
        self.browser.wait(lambda: self.browser.is_shown(table), "what was made")
        self.assertEqual(self.browser.table(table)[1:], rows)
        self.answers("sent again, done once", *told, focus="document")
        self.assertFalse(self.browser.is_shown("#pending"))

    def test_a_payout_list(self):
        """All that the firm owes is paid, so the claim is to be paid out."""
        for month in ("2024-02", "2024-03"):
            self.report(month, "")
        self.bank(BANK_HEADER + "B1,2024-02-20,1001,200000,C,\n")
        self.does({"claim": 1}, self.command("claim", employer="1001", worker="7", amount="10"))
        self.does({"paid": 1000, "to_contributions": 0, "to_interest": 0}, self.command("release", claim="1"))
        self.loses("payouts", "listed for good")
        self.shows("#payout-table", [["1", "1001", "7", "€10.00"]], "List 1. Claims: 1, together €10.00.")

    def test_a_reminder_run_from_another_view(self):
        """February and March are missing, and January's 2000.00 bear 1 % on 2024-02-20, 03-20 and 04-20."""
        self.loses("reminders", "A run can't be taken back")
        self.go("log")
        self.shows("#reminders-table", [["1001", "1", "2", "Feb 2024", "€2,000.00", "€60.00"]],
                   "Run 1. Firms reminded: 1.")
        self.browser.wait_for_view("morning")
        # It isn't shown again with the view.
        self.go("log")
        self.go("morning")
        self.assertFalse(self.browser.is_shown("#document"))


class Names(Mishaps):
    """A name that can't be seen."""

    def register_elsewhere(self, employer, name):
        """Registers a firm without the desk."""
        body = json.dumps({"employer": employer, "name": name, "start": "2024-01"}, ensure_ascii=False).encode()
        head = (f"POST /employers HTTP/1.1\r\nHost: fund\r\nOffice-Key: desk\r\nRequest-Number: {employer}\r\n"
                f"Content-Length: {len(body)}\r\n\r\n")
        self.assertIn(b'{"done":true}', self.send(self.server, head.encode() + body))

    def test_it_is_not_registered(self):
        for name in UNSEEN:
            told = self.register("1003", name)
            self.assertEqual(self.faults(400, "field", told), {"field": "name", "reason": "name-unseen"})
        self.go("new")
        self.type_in("register", employer="1003", name=UNSEEN[0], start="2024-04")
        self.browser.click("#register-send")
        self.browser.wait_for_text("#form-register .field-fault", "A name has at least one sign that can be seen.")

    def test_a_firm_that_has_one(self):
        """The page says so in its place."""
        for employer, name in enumerate((*UNSEEN, " "), 1003):
            self.register_elsewhere(employer, name)
            self.open_firm(str(employer))
            self.assertEqual(self.browser.text("#firm-title"), f"{employer} · (a name of invisible signs)")
        self.type_in("end", last="06/2024")
        self.browser.click("#end-send")
        self.confirm("The end is set once for good", "1007 (a name of invisible signs)")
        self.answers("done", "1007, last month Jun 2024")
        self.go("firm")
        self.assertIn("1003 (a name of invisible signs)\n", self.browser.text("#firm-recent") + "\n")

    def test_a_note_that_cannot_be_seen(self):
        self.bank(BANK_HEADER + "B1,2024-02-20,,100,C,\u200b\n")
        self.go("firm")
        self.go("morning")
        self.assertEqual(self.browser.table("#suspense-table")[1][5], "–")

    def test_a_long_name_in_a_narrow_window(self):
        self.addCleanup(self.browser.resize, 1280, 900)
        self.does(DONE, self.register("1003", "W" * 60))
        self.open_firm("1003")
        self.go("firm")
        self.browser.resize(360, 900)
        self.assertLessEqual(self.browser.run("return document.documentElement.scrollWidth"), 360)


class Numbers(Mishaps):
    """What a number is of, where each row of a table is a block."""

    HEADS = """return [...document.querySelectorAll(arguments[0] + " tbody th")].map((it) =>
        getComputedStyle(it, "::before").content.replaceAll('"', "") + it.innerText)"""

    def test_the_first_number_of_a_row(self):
        self.addCleanup(self.browser.resize, 1280, 900)
        self.does({"claim": 1}, self.command("claim", employer="1001", worker="7", amount="10"))
        self.browser.resize(683, 900)
        self.browser.open(self.address + "?lang=en#/worker/7", "worker/7")
        self.assertEqual(self.browser.run(self.HEADS, "#worker-claims-table"), ["Claim\u00a01"])
        self.assertEqual(self.browser.run(self.HEADS, "#worker-earned-table"), ["Firm\u00a01001"])

    def test_a_long_outcome(self):
        """It goes on in the next line."""
        self.addCleanup(self.browser.resize, 1280, 900)
        self.open_firm("1001")
        self.close_office()
        self.claim("7", "10.00")
        self.answers("no answer")
        self.come_back()
        self.browser.click("#pending-send-again")
        self.browser.wait_for_text("#answer", "sent again, done once")
        self.browser.open(self.address + "?lang=de#/log", "log")
        self.browser.resize(360, 900)
        self.assertIn("wiederholt, einmal ausgeführt", self.browser.text("#log-table"))
        cut = self.browser.run("""const it = document.querySelector("#log-lines .scroll");
            return it.scrollWidth > it.clientWidth""")
        self.assertFalse(cut)


class Days(Mishaps):
    """The office's day, wherever something is done on it."""

    def test_a_view_that_stands_open_over_night(self):
        told = {"source": "globalThis.setInterval = (act) => { globalThis.nextMinute = act; };"}
        driver = self.browser.driver
        for view in ("firm", "worker"):
            script = driver.execute_cdp_cmd("Page.addScriptToEvaluateOnNewDocument", told)
            number = {"firm": "1001", "worker": "7"}[view]
            self.browser.driver.get("about:blank")
            self.browser.open(f"{self.address}?lang=en#/{view}/{number}", f"{view}/{number}")
            driver.execute_cdp_cmd("Page.removeScriptToEvaluateOnNewDocument", script)
            self.assertEqual(self.browser.text(f"#{view}-day"), "As of 30 Apr 2024")
            self.assertFalse(self.browser.is_shown(f"#{view}-other-day"))
            self.browser.run(CLOCK.replace("DAY", "2024-05-01"))
            self.browser.run("nextMinute()")
            self.assertTrue(self.browser.is_shown(f"#{view}-other-day"))
            self.assertIn("that isn't today (01 May 2024)", self.browser.text(f"#{view}-other-day"))

    def test_an_office_that_does_not_say_its_day(self):
        """That of before isn't told for its own."""
        self.go("firm")
        self.go("morning")
        self.assertEqual(self.browser.text("#morning-day"), "The office works on 30 Apr 2024.")
        self.close_office()
        self.go("firm")
        self.go("morning")
        self.assertIn("The office isn't there", self.browser.text("#fault"))
        self.assertEqual(self.browser.text("#morning-day"), "")
        self.come_back()
        self.go("firm")
        self.go("morning")
        self.assertEqual(self.browser.text("#morning-day"), "The office works on 30 Apr 2024.")

    def start_anew(self, day):
        """The office, for another day."""
        self.close_office()
        self.open_office(day, self.server.port)

    def read_it(self):
        """Takes the time to read what was told. A click before that may be the second half of a double click."""
        self.browser.driver.execute_async_script("setTimeout(arguments[0], 700)")

    def test_an_office_that_is_started_anew_for_another_day(self):
        """Nothing is sent on a day that nobody was told of: the first request would make it the ledger day for good."""
        self.open_firm("1001")
        self.start_anew("2025-04-30")
        self.claim("7", "10.00")
        self.answers("The office works on 30 Apr 2025, and that isn't today (30 Apr 2024).", "Nothing was sent.")
        # What is shown is of that day by now: of January 15 months were begun, of which the contribution is open.
        self.browser.wait_for_text("#firm-day", "As of 30 Apr 2025")
        self.browser.wait_for_text("#owed-interest", "€300.00")
        self.assertEqual(self.browser.one("#claim-amount").get_attribute("value"), "10.00")
        self.start_anew("2025-05-30")
        self.browser.click("#claim-send")
        self.browser.wait_for_text("#answer", "The office works on 30 May 2025")
        self.assertNotIn("claim", self.worker("7"))
        # Who was told may go on.
        self.read_it()
        self.browser.click("#claim-send")
        self.browser.wait_for_text("#answer", "The claim has the number 1.")

    def test_a_bank_file_on_another_day(self):
        """The second click comes first, and the page shows the day behind it."""
        path = self.write("late.csv", BANK_HEADER + "B1,2024-04-30,,1000,C,\n")
        self.browser.one("#bank-file").send_keys(str(path))
        self.browser.wait(lambda: self.browser.one("#bank-import").is_enabled(), "a checked file")
        self.start_anew("2025-04-30")
        self.browser.click("#bank-import")
        self.confirm("can't be taken out")
        self.answers("The office works on 30 Apr 2025", "Nothing was sent.")
        self.browser.wait_for_text("#morning-day", "The office works on 30 Apr 2025.")
        self.assertTrue(self.browser.one("#bank-import").is_enabled())
        self.assertEqual([it[2] for it in self.logged() if it[2].startswith("bank")], [])

    def test_a_view_that_tells_no_day(self):
        self.start_anew("2024-05-31")
        self.browser.driver.get("about:blank")
        self.browser.open(self.address + "?lang=en#/new", "new")
        self.type_in("register", employer="1003", name="Bau Ost", start="2024-04")
        self.browser.click("#register-send")
        self.answers("The office works on 31 May 2024", "Nothing was sent.")
        self.read_it()
        self.browser.click("#register-send")
        self.confirm("1003", "Bau Ost")
        self.browser.wait_for_text("#answer", "Registration: 1003 Bau Ost")

    def test_the_next_morning(self):
        """An office that was started for today is what the clerk expects, whatever day the page shows."""
        self.open_firm("1001")
        self.start_anew("2024-05-02")
        self.browser.run(CLOCK.replace("DAY", "2024-05-02"))
        self.claim("7", "10.00")
        self.answers("done", "The claim has the number 1.")
        self.browser.wait_for_text("#firm-day", "As of 02 May 2024")

    def test_a_membership_that_begins_later(self):
        self.does(DONE, self.register("1003", "Bau Ost", "2024-07"))
        self.open_firm("1003")
        self.assertEqual(self.browser.text("#firm-member"), "Member from Jul 2024 on")


class Sums(Mishaps):
    """What a figure is of, and where money is by now."""

    def setUp(self):
        """January's 2000.00 were open on 2024-02-20 and 03-20, 500.00 on 04-20: 45.00 of interest, of which 15.00 are
        paid."""
        super().setUp()
        for month in ("2024-02", "2024-03"):
            self.report(month, "")
        self.bank(BANK_HEADER + "B1,2024-04-01,1001,150000,C,\nB2,2024-04-02,1001,1500,I,\n")

    def figures(self):
        return {it.text.split("\n")[0].removeprefix("! ").strip(): it.text.split("\n")[1]
                for it in self.browser.all("#firm-owed > div")}

    def test_contributions_and_interest(self):
        """The sums are of contributions alone."""
        self.open_firm("1001")
        self.assertEqual(self.figures(), {
            "Contributions in arrears": "€500.00", "Interest in arrears": "€30.00", "Missing reports": "0",
            "Prepaid": "€0.00", "Contributions open in all": "€500.00",
            "Contributions charged in all": "€2,000.00", "Contributions paid in all": "€1,500.00"})

    def test_what_a_release_sets_off(self):
        """Nothing of it is paid out yet."""
        self.does({"claim": 1}, self.command("claim", employer="1001", worker="7", amount="600"))
        self.go("morning")
        self.type_in("release", claim="1")
        self.browser.click("#release-send")
        self.confirm("A release is for good", "€600.00")
        self.answers("done", "To be paid out: €70.00. Set off to contributions: €500.00, to interest: €30.00.")
        self.open_firm("1001")
        for language, text in (("en", "set-off of claim 1"), ("de", "Verrechnung von Antrag 1")):
            self.browser.click(f"#language-{language}")
            for place in ("#statement-table", "#interest-table"):
                self.browser.wait_for_text(place, text)
        self.assertIn(" set-off 1\n", self.browser.run("return document.getElementById('firm-text').textContent"))
        self.browser.click("#language-en")
        self.browser.wait_for_text("#statement-table", "set-off of claim 1")


class Told(Mishaps):
    """What is to be done next."""

    def test_a_request_without_an_answer(self):
        """It is sent again from the top of the page, and nothing says that it is to be done again."""
        self.open_firm("1001")
        self.close_office()
        self.claim("7", "10.00")
        self.answers("no answer", "nobody answers on 127.0.0.1", "nothing is to be typed again")
        self.assertNotIn("do this again", self.browser.text("#answer"))
        self.come_back()
        self.browser.click("#pending-send-again")
        self.browser.wait_for_text("#answer", "sent again, done once")
        self.go("log")
        self.assertNotIn("do this again", self.browser.text("#log-table"))

    def test_a_report_that_is_too_large(self):
        """The office's import takes the bank's files alone."""
        large = "worker,gross\n" + "7,1\n" * 300_000
        self.open_firm("1001")
        self.browser.one("#report-file").send_keys(str(self.write("large.csv", large)))
        self.answers("a report has 500 lines at most")
        self.assertNotIn("import", self.browser.text("#answer"))
        self.faults(413, "report-too-large", self.report("2024-02", large))


class Pages(Mishaps):
    """More payments in suspense than stand on one page."""

    def setUp(self):
        super().setUp()
        lines = "".join(f"P{it},2024-02-10,,1000,C,\n" for it in range(1, 202))
        self.does({"new": 201, "repeats": 0}, self.bank(BANK_HEADER + lines))
        self.browser.open(self.address + "?lang=en")
        self.browser.wait_for_text("#suspense-lines", "Lines 1 to 200 of 201")

    def test_another_page_begins_on_top(self):
        """Its first line is seen, and the keyboard is there."""
        self.browser.click("#suspense-later")
        self.browser.wait_for_text("#suspense-lines", "Lines 201 to 201 of 201")
        self.browser.click("#suspense-earlier")
        self.browser.wait_for_text("#suspense-lines", "Lines 1 to 200 of 201")
        seen = """const it = document.querySelector("#suspense-table tbody tr").getBoundingClientRect();
            return it.top >= 0 && it.bottom <= innerHeight"""
        self.browser.wait(lambda: self.browser.run(seen), "the first line")
        self.assertTrue(self.browser.run("return document.activeElement.contains(document.querySelector('#suspense-table'))"
                                         " && document.activeElement !== document.body"))
        self.browser.press(Keys.TAB)
        self.assertEqual(self.browser.run("return document.activeElement.dataset.reference"), "P1")

    def test_which_lines_are_printed(self):
        self.addCleanup(self.browser.driver.execute_cdp_cmd, "Emulation.setEmulatedMedia", {"media": ""})
        self.browser.driver.execute_cdp_cmd("Emulation.setEmulatedMedia", {"media": "print"})
        self.assertIn("Lines 1 to 200 of 201", self.browser.text("#suspense"))
        self.assertFalse(self.browser.is_shown("#suspense-later"))


class Focus(Mishaps):
    """Where the keyboard is, and how a text is read out."""

    def test_a_list_that_is_closed(self):
        self.does({"firms": 1, "run": 1}, self.command("reminders"))
        self.go("firm")
        self.go("morning")
        self.browser.click("#reminders-known button")
        self.browser.wait(lambda: self.browser.focus() == "document", "the run")
        self.browser.click("#document-close")
        self.assertEqual(self.browser.focus(), "find-reminders-number")

    def test_the_offices_texts_are_english(self):
        """A screen reader takes them for that on the German page too."""
        self.browser.click("#language-de")
        self.browser.wait_for_text("#morning-title", "Tagesarbeit")
        self.addCleanup(self.browser.click, "#language-en")
        self.does({"firms": 1, "run": 1}, self.command("reminders"))
        self.browser.type("#find-reminders-number", "1")
        self.browser.click("#find-reminders-show")
        self.browser.wait(lambda: self.browser.is_shown("#document"), "the run")
        languages = self.browser.run("""return [...document.querySelectorAll("pre")].map((it) => [it.id, it.lang])""")
        texts = ("document-text", "firm-text", "suspense-text", "worker-text")
        self.assertEqual(sorted(languages), [[it, "en"] for it in texts])


if __name__ == "__main__":
    run_tests()
