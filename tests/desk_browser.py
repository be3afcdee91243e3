"""A fund's month through the desk's page, as a clerk goes through it by keyboard and mouse in a browser.

    python3 tests/desk_browser.py [PROGRAM] [--pictures FOLDER]

PROGRAM is crates/clear_app/out/clear_app where it isn't given, as `rt ci` leaves it. It needs chromium, its
driver and selenium (tests/browser.py), and is left out where one of them is missing. With --pictures it makes
those of docs/desk.md, a firm and the morning's work, in this folder. What is expected is worked out from
docs/rules.md by hand.
"""

import re
import sys
import time
import unittest
from pathlib import Path

# No __pycache__ is left beside the sources.
sys.dont_write_bytecode = True
from browser import Browser, what_is_missing  # noqa: E402
from desk_under_test import BANK_HEADER, DONE, DeskUnderTest  # noqa: E402
from program_under_test import DAY, run_tests  # noqa: E402

if not what_is_missing():
    from selenium.webdriver.common.keys import Keys

# The browser's clock stands on the office's day, so that the page looks the same whenever it is tried.
CLOCK = """{ const Real = Date; const now = Real.parse("DAYT07:30:00Z");
  globalThis.Date = class extends Real {
    constructor(...told) { super(...(told.length ? told : [now])); }
  }; }"""
MARKUP = '<img src=x onerror="document.title=1"><b>Bau</b> & Söhne'
# January is paid, February in part. Two further lines name no firm, and two a firm that isn't registered.
BANK = BANK_HEADER + """B1,2024-02-25,1001,150000,C,
B2,2024-04-21,1001,200000,C,January rest and February
B3,2024-04-22,,10000,C,"Nord, <b>February</b>"
B4,2024-04-23,1099,700,I,Bau Süd: Zinsen
B5,2024-04-24,,32000,C,Maurerbetrieb Lang: Beitrag März 2024
B6,2024-04-25,1100,45500,C,Steuerbüro Weiß für Betrieb 1100
"""
NEXT_BANK = BANK_HEADER + """B2,2024-04-21,1001,200000,C,January rest and February
B7,2024-04-29,,4550,C,no number
"""


def setUpModule():
    if missing := what_is_missing():
        raise unittest.SkipTest(missing)


class InBrowser(DeskUnderTest):
    """An office, a desk in front of it, and a browser with its page in English."""

    pictures = None

    @classmethod
    def setUpClass(cls):
        super().setUpClass()
        cls.browser = Browser()
        cls.addClassCleanup(cls.browser.end)
        cls.set_clock()

    @classmethod
    def set_clock(cls):
        """Sets the clock of this window."""
        clock = {"source": CLOCK.replace("DAY", DAY)}
        cls.browser.driver.execute_cdp_cmd("Page.addScriptToEvaluateOnNewDocument", clock)

    def setUp(self):
        super().setUp()
        self.open_desk(None, "--rates", "rates.toml", "--clearing", "clearing", first="202404301001")
        self.address = f"http://127.0.0.1:{self.port}/"
        self.browser.requested()
        self.browser.open(self.address + "?lang=en")

    def tearDown(self):
        # Nothing but the desk was asked for anything, and nothing of the page was stopped by its own policy.
        own = (self.address, "data:", "chrome:")
        self.assertEqual([it for it in self.browser.requested() if not it.startswith(own)], [])
        self.assertEqual(self.browser.complaints(), [])
        super().tearDown()

    # ---- what a clerk does

    def go(self, view):
        """Goes to a view by the bar on top."""
        self.browser.click(f"#nav-{view}")
        self.browser.wait_for_view(view)

    def open_firm(self, number):
        self.browser.type("#find-firm-number", number)
        self.browser.click("#find-firm-open")
        self.browser.wait_for_view(f"firm/{number}")

    def type_in(self, form, **fields):
        for name, text in fields.items():
            self.browser.type(f"#{form}-{name}", text)

    def confirm(self, *told):
        """The second click, where this is told."""
        self.browser.wait(lambda: self.browser.is_shown("#confirm"), "the second click")
        for text in told:
            self.assertIn(text, self.browser.text("#confirm"))
        # The key that is under the finger does nothing.
        self.assertEqual(self.browser.focus(), "confirm-no")
        self.browser.click("#confirm-yes")

    def answers(self, *told, focus="answer"):
        """Waits for the answer of a command, in which all of this stands. Its place, or what was made, has the
        focus then, so that a screen reader reads it, or the field in which the clerk has gone on to type."""
        self.browser.wait(lambda: self.browser.is_shown("#answer"), "an answer")
        for text in told:
            self.assertIn(text, self.browser.text("#answer"))
        self.browser.wait(lambda: self.browser.focus() == focus, "the focus")

    def register_firm(self, employer, name, start):
        self.go("new")
        self.type_in("register", employer=employer, name=name, start=start)
        self.browser.click("#register-send")
        self.confirm("can't be changed later", employer, name)
        self.browser.wait_for_view(f"firm/{employer}")
        self.answers("done", f"Registration: {employer} {name}, from")

    def report_month(self, month, csv, summary, expected, answer):
        """Reports a month from a file; what its lines come to, and what is expected, stands there first."""
        path = self.write(f"report-{month}.csv", "worker,gross\n" + csv)
        row = f"#statement-months [data-month='{month}']"
        self.browser.click(f"{row} .report, {row} .correct")
        self.browser.one("#report-file").send_keys(str(path))
        self.browser.wait(lambda: self.browser.one("#report-send").is_enabled(), "checked lines")
        self.assertIn(summary, self.browser.text("#report-summary"))
        self.assertIn(expected, self.browser.text("#report-expected"))
        self.browser.click("#report-send")
        self.answers(*answer)
        self.browser.wait(lambda: self.browser.one(f"{row} .correct"), "a reported month")

    def choose_bank_file(self, content, check):
        self.browser.one("#bank-file").send_keys(str(self.write("2024-04-30.csv", content)))
        self.browser.wait(lambda: self.browser.one("#bank-import").is_enabled(), "a checked file")
        self.assertIn("Checked", self.browser.text("#bank-check"))
        self.assertEqual(self.browser.text("#bank-check-text"), check)

    def import_bank_file(self, content, check, *answer):
        self.choose_bank_file(content, check)
        self.browser.click("#bank-import")
        self.confirm("can't be taken out", check)
        self.answers(*answer)


class Month(InBrowser):
    """From registering to reminders."""

    def test_a_funds_month(self):
        self.register_firm("1001", "Bau Nord", "2024-01")
        self.register_firm("1002", MARKUP, "2024-03")
        self.the_name_stays_text()
        self.open_firm("1001")
        self.first_reports()
        self.go("morning")
        self.the_banks_file()
        self.the_line_in_suspense()
        self.the_statement()
        self.an_end()
        self.new_rates()
        self.open_firm("1001")
        self.a_claim()
        self.a_release()
        self.a_payout_list()
        self.a_reminder_run()
        self.the_next_file()
        self.the_log()

    def the_name_stays_text(self):
        self.assertEqual(self.browser.text("#firm-title"), f"1002 · {MARKUP}")
        self.assertIn(f"name {MARKUP}\n", self.browser.text("#firm-text"))
        self.assertEqual(self.browser.all("main b, main img"), [])
        self.assertNotEqual(self.browser.driver.title, "1")

    def first_reports(self):
        self.report_month("2024-01", "7,1000000\n", "€10,000.00", "€2,000.00",
                          ["done", "Contribution €2,000.00, version 1"])
        # 20 % of 11000.50.
        self.report_month("2024-02", "7,500050\n8,600000\n", "€11,000.50", "€2,200.10",
                          ["done", "Contribution €2,200.10"])

    def the_banks_file(self):
        check = "6 lines, 0 repeats within the file, 2 without a firm, 4382.00 in all"
        after = "In suspense now: 4, together €882.00."
        self.import_bank_file(BANK, check, "done", "New: 6, repeats: 0.", after)
        self.import_bank_file(BANK, check, "done", "New: 0, repeats: 6.", after)
        self.assertIn("4, together €882.00", self.browser.text("#suspense-summary"))
        self.assertEqual([it[:6] for it in self.browser.table("#suspense-table")[1:]], [
            ["B3", "22 Apr 2024", "contribution", "–", "€100.00", "Nord, <b>February</b>"],
            ["B4", "23 Apr 2024", "interest", "1099", "€7.00", "Bau Süd: Zinsen"],
            ["B5", "24 Apr 2024", "contribution", "–", "€320.00", "Maurerbetrieb Lang: Beitrag März 2024"],
            ["B6", "25 Apr 2024", "contribution", "1100", "€455.00", "Steuerbüro Weiß für Betrieb 1100"]])

    def the_line_in_suspense(self):
        self.browser.click("#suspense-table .assign[data-reference='B3']")
        self.browser.wait(lambda: self.browser.focus() == "assign-employer", "the form to assign")
        self.assertIn("€100.00", self.browser.text("#assign-facts"))
        self.browser.type("#assign-employer", "1003")
        self.browser.click("#assign-send")
        # Nobody has that number: the second click isn't even asked for.
        self.browser.wait_for_text("#assign-dialog", "rule 11, UnknownEmployer")
        self.assertIn("mend the number, or register the firm", self.browser.text("#assign-dialog"))
        self.browser.type("#assign-employer", "1001")
        self.browser.click("#assign-send")
        self.confirm("1001 Bau Nord", "B3", "€100.00", "can't be given to another")
        self.answers("done", "B3 to 1001")
        self.browser.wait_for_text("#suspense-summary", "3, together €782.00")

    def the_statement(self):
        """Of February 100.00 more are paid than by B2. On 2024-03-20 and 2024-04-20 all of it was open: 44.00 of
        interest."""
        self.open_firm("1001")
        self.assertEqual([it[:6] for it in self.browser.table("#statement-table")], [
            ["Month", "Due", "Contribution", "Paid", "Open", "Interest"],
            ["Jan 2024\nversion 1", "20 Feb 2024", "€2,000.00", "€2,000.00", "€0.00", "€30.00"],
            ["Feb 2024\nversion 1", "20 Mar 2024", "€2,200.10", "€1,600.00", "€600.10", "€44.00"],
            ["Mar 2024", "–", "–", "–", "–", "–"]])
        self.assertIn("report missing", self.browser.text("tr.missing[data-month='2024-03']"))
        # A bar is as long as its month's contribution, and says in words what it shows.
        self.assertEqual([it.get_attribute("aria-label") for it in self.browser.all("#statement-table svg")],
                         ["Jan 2024: €2,000.00 paid, €0.00 open", "Feb 2024: €1,600.00 paid, €600.10 open"])
        self.assertEqual(self.bars(), [[2000, 0], [1600, 600]])
        self.assertIn("€600.10", self.browser.text("#owed-arrears"))
        self.assertIn("€74.00", self.browser.text("#owed-interest"))
        text = self.browser.run("return document.getElementById('firm-text').textContent")
        self.assertIn("charge 2024-02 due 2024-03-20 version 1        2200.10         600.10          44.00\n", text)
        saved = self.browser.driver.execute_async_script(
            "fetch(document.getElementById('firm-download').href).then(it => it.text()).then(arguments[0])")
        self.assertEqual(saved, text)
        if self.pictures:
            self.browser.picture(self.pictures / "desk-firm.png", 900)

    def bars(self):
        """The widths of what is paid and open in each bar, by the longest bar's 2200.10, in whole euros."""
        widths = self.browser.run("""return [...document.querySelectorAll("#statement-table svg")].map(svg =>
            [...svg.querySelectorAll("rect")].map(it => it.getBoundingClientRect().width))""")
        euro = sum(widths[-1]) / 2200.10
        return [[round(it / euro) for it in bar] for bar in widths]

    def an_end(self):
        self.open_firm("1002")
        self.type_in("end", last="06/2024")
        self.browser.click("#end-send")
        self.confirm("The end is set once for good", f"1002 {MARKUP}", "Jun 2024")
        self.answers("done", "1002, last month Jun 2024")
        self.browser.wait(lambda: "Jun 2024" in self.browser.text("#firm-member"), "the end")

    def new_rates(self):
        self.go("new")
        self.type_in("rates", contribution="19.5", entitlement="14.20", interest="0.9", report_day="15",
                     due_day="20", **{"from": "2026-01"})
        self.browser.click("#rates-send")
        self.confirm("can't be changed or taken back", "Jan 2026", "19.50 %", "14.20 %", "0.90 %")
        self.answers("done", "from Jan 2026")

    def a_claim(self):
        # The worker has earned 1425.00 and 712.57.
        self.claim("2.200,00")
        self.browser.wait_for_text("#claim-amount-fault", "1,234.56")
        self.assertEqual(self.browser.focus(), "claim-amount")
        self.claim("2200")
        self.answers("refused", "rule 25, OverBalance", "more is claimed than the worker's balance",
                     "The balance is €2,137.57.", "What to do:")
        self.claim("1,500.00")
        self.answers("done", "worker 7: €1,500.00", "The claim has the number 1.")

    def claim(self, amount):
        self.type_in("claim", worker="7", amount=amount)
        self.browser.click("#claim-send")

    def a_release(self):
        """March's 400.00 make it 1000.10 in arrears, and 4.00 more of interest make 78.00."""
        self.go("morning")
        self.type_in("release", claim="1")
        self.browser.click("#release-send")
        self.confirm("A release is for good", "€1,500.00")
        self.answers("refused", "rule 28, MissingReport", "The first month without a report is Mar 2024.",
                     "have it reported, release the claim then")
        self.open_firm("1001")
        self.report_month("2024-03", "7,100000\n", "€1,000.00", "€200.00",
                          ["done", "Contribution €200.00, version 1"])
        self.report_month("2024-03", "7,200000\n", "€2,000.00", "€400.00",
                          ["done", "Contribution €400.00, version 2"])
        self.browser.click("#firm-claims-table .release[data-claim='1']")
        self.confirm("A release is for good", "€1,500.00")
        self.answers("done", "To be paid out: €421.90.", "Set off to contributions: €1,000.10, to interest: €78.00.")
        self.browser.wait_for_text("#firm-claims-table", "released")
        self.go("morning")

    def a_payout_list(self):
        self.browser.click("#payouts-make")
        self.confirm("What was listed is listed for good")
        self.answers("done", "List 1. Claims: 1, together €421.90.", focus="document")
        self.browser.wait(lambda: self.browser.is_shown("#payout-table"), "the list")
        self.assertEqual(self.browser.table("#payout-table")[1:], [["1", "1001", "7", "€421.90"]])

    def a_reminder_run(self):
        self.browser.click("#reminders-make")
        self.confirm("A run can't be taken back")
        self.answers("done", "Run 1. Firms reminded: 1.", focus="document")
        self.browser.wait(lambda: self.browser.is_shown("#reminders-table"), "the run")
        # The release has paid all that the first firm owed.
        self.assertEqual(self.browser.table("#reminders-table")[1:],
                         [["1002", "1", "1", "Mar 2024", "€0.00", "€0.00"]])
        self.browser.click("#reminders-make")
        self.confirm()
        self.answers("refused", "rule 30, NothingToRemind", "reminded fewer than 14 days ago")

    def the_next_file(self):
        """A bank file that is only looked at, as the morning's work begins."""
        self.go("firm")
        self.go("morning")
        check = "2 lines, 0 repeats within the file, 1 without a firm, 2045.50 in all"
        self.choose_bank_file(NEXT_BANK, check)
        if self.pictures:
            self.browser.picture(self.pictures / "desk-morning.png", 1000)

    def the_log(self):
        self.go("log")
        told = self.browser.table("#log-table")[1:]
        self.assertEqual(len(told), len(self.lines("log.jsonl")))
        self.assertEqual([it[2] for it in told[:3]], ["✕ refused", "✓ done", "✓ done"])
        self.assertIn("30 NothingToRemind", told[0][4])


class Page(InBrowser):
    """What holds of the page whatever is done there."""

    VIEWS = ("morning", "firm", "worker", "new", "log")
    # What a screen reader would have no name for, and what stands twice under one id.
    NAMELESS = """
        const shown = (it) => it.checkVisibility();
        const named = (it) => (it.labels?.length && [...it.labels].every((label) => label.textContent.trim()))
          || it.getAttribute("aria-label") || it.textContent.trim();
        const nameless = [...document.querySelectorAll("input, textarea, select, button, a, summary")]
          .filter((it) => it.type !== "hidden" && shown(it) && !named(it)).map((it) => it.outerHTML);
        const tables = [...document.querySelectorAll("table")].filter((it) => !it.caption?.textContent
          || it.querySelector("thead th:not([scope=col]), tbody tr > :first-child:not(th[scope=row])"));
        const pointers = ["aria-labelledby", "aria-describedby"];
        const pointed = [...document.querySelectorAll("[aria-labelledby], [aria-describedby]")]
          .flatMap((it) => pointers.flatMap((name) => (it.getAttribute(name) ?? "").split(" ")))
          .filter((id) => id && !document.getElementById(id));
        const ids = [...document.querySelectorAll("[id]")].map((it) => it.id);
        const twice = ids.filter((id, place) => ids.indexOf(id) !== place);
        return [...nameless, ...tables.map((it) => it.outerHTML), ...pointed, ...twice];"""
    # Each text that is shown, with how much darker or lighter it is than its ground, by WCAG 2.
    CONTRAST = """
        const part = (it) => (it /= 255) <= 0.04045 ? it / 12.92 : ((it + 0.055) / 1.055) ** 2.4;
        const numbers = (color) => color.match(/[0-9.]+/g).map(Number);
        const light = ([red, green, blue]) => 0.2126 * part(red) + 0.7152 * part(green) + 0.0722 * part(blue);
        const ground = (it) => {
          for (; it; it = it.parentElement) {
            const color = numbers(getComputedStyle(it).backgroundColor);
            if (color.length === 3 || color[3] === 1) return color;
          }
          return [255, 255, 255];
        };
        const walker = document.createTreeWalker(document.body, NodeFilter.SHOW_TEXT);
        const found = [];
        while (walker.nextNode()) {
          const it = walker.currentNode.parentElement;
          const text = walker.currentNode.data.trim();
          if (!text || !it.checkVisibility() || it.closest(":disabled, script, noscript")) continue;
          const both = [light(numbers(getComputedStyle(it).color)), light(ground(it))];
          const ratio = (Math.max(...both) + 0.05) / (Math.min(...both) + 0.05);
          if (ratio < 4.5) found.push([text, ratio]);
        }
        return found;"""

    def setUp(self):
        super().setUp()
        self.does(DONE, self.register(name=MARKUP))
        self.does({"charge": 200000, "version": 1}, self.report("2024-01", "7,1000000\n"))
        self.does({"claim": 1}, self.command("claim", employer="1001", worker="7", amount="10"))
        self.does({"new": 6, "repeats": 0}, self.bank(BANK, "BANK.CSV"))

    def each_view(self):
        """Goes through all views, those of a firm and of a worker among them."""
        for view in (*self.VIEWS, "firm/1001", "worker/7"):
            self.browser.run("location.hash = arguments[0]", f"#/{view}")
            self.browser.wait_for_view(view)
            yield view

    def test_a_load(self):
        """The page is a few files. What its view needs is asked for beside them, and all of it once."""
        self.browser.driver.get("about:blank")
        self.browser.requested()
        self.browser.open(self.address + "?lang=en#/firm/1001", "firm/1001")
        asked = [it.partition("#")[0] for it in self.browser.requested() if not it.startswith("chrome:")]
        paths = ["?lang=en", "api/firms/1001", "api/session", "desk.css", "desk.js", "words.en.json"]
        # Whether the browser wants the page's sign is its own matter.
        self.assertEqual(sorted(set(asked) | {self.address + "desk.svg"}),
                         sorted(self.address + path for path in [*paths, "desk.svg"]))
        self.assertEqual(len(asked), len(set(asked)))
        offered = self.browser.run("return [...document.getElementById('recent-firms').options].map((it) => it.value)")
        self.assertEqual(offered[0], "1001")

    def test_all_has_a_name(self):
        for view in self.each_view():
            self.assertEqual(self.browser.run(self.NAMELESS), [], view)
            self.assertEqual(len([it for it in self.browser.all("h1") if it.is_displayed()]), 1, view)

    def test_contrast(self):
        for scheme in ("light", "dark"):
            feature = {"features": [{"name": "prefers-color-scheme", "value": scheme}]}
            self.browser.driver.execute_cdp_cmd("Emulation.setEmulatedMedia", feature)
            for view in self.each_view():
                self.assertEqual(self.poor_contrast(), [], (scheme, view))
        self.browser.driver.execute_cdp_cmd("Emulation.setEmulatedMedia", {"features": []})

    def poor_contrast(self):
        """What is hard to read, once the colours of the last click have changed."""
        found = []
        for _ in range(20):
            found = self.browser.run(self.CONTRAST)
            if not found:
                break
            time.sleep(0.1)
        return found

    def test_narrow_and_wide(self):
        """Nothing lies beside the window or a table's place, where a clerk would have to move it to see it."""
        for width in (360, 683, 800, 944, 960, 1280, 1920):
            self.browser.resize(width, 900)
            for view in self.each_view():
                whole = self.browser.run("return document.documentElement.scrollWidth")
                self.assertLessEqual(whole, width, view)
                cut = self.browser.run("""return [...document.querySelectorAll(".scroll")]
                    .filter((it) => it.scrollWidth > it.clientWidth).map((it) => it.ariaLabel)""")
                self.assertEqual(cut, [], (width, view))
        self.browser.resize(1280, 900)

    def test_the_languages(self):
        for language, title, button, amount, day in (
                ("de", "Tagesarbeit", "Zuordnen …", "100,00 €", "22.04.2024"),
                ("en", "The morning's work", "Assign …", "€100.00", "22 Apr 2024")):
            self.browser.click(f"#language-{language}")
            self.browser.wait(lambda: self.browser.text("#morning-title") == title, title)
            self.browser.wait(lambda: self.browser.text("#suspense-table .assign") == button, button)
            self.assertEqual(self.browser.run("return document.documentElement.lang"), language)
            self.assertEqual(self.browser.one(f"#language-{language}").get_attribute("aria-pressed"), "true")
            cells = self.browser.table("#suspense-table")[1]
            self.assertEqual((cells[1], cells[4]), (day, amount))
            self.no_word_is_missing()
        # It is kept for the next visit.
        self.browser.click("#language-de")
        self.browser.wait(lambda: self.browser.text("#morning-title") == "Tagesarbeit", "German")
        self.browser.open(self.address)
        self.assertEqual(self.browser.text("#morning-title"), "Tagesarbeit")
        self.browser.click("#language-en")
        self.browser.wait(lambda: self.browser.text("#morning-title") == "The morning's work", "English")

    def no_word_is_missing(self):
        """A key without words would stand there as it is, as `nav.firm`."""
        for view in self.each_view():
            text = self.browser.run("return document.body.innerText")
            self.assertEqual(re.findall(r"\b[a-z]+\.[a-z][a-z-]+\b", text.replace(MARKUP, "")), [], view)
        self.browser.run("location.hash = '#/morning'")
        self.browser.wait_for_view("morning")

    def test_a_refusal(self):
        self.open_firm("1002")
        self.browser.wait(lambda: self.browser.is_shown("#fault"), "a refusal")
        for text in ("rule 11, UnknownEmployer", "no firm of this number is registered",
                     "mend the number, or register the firm"):
            self.assertIn(text.lower(), self.browser.text("#fault").lower())

    def test_a_file_with_a_fault(self):
        path = self.write("wrong.csv", BANK_HEADER + "B7,01.04.2024,1001,100,C,\n")
        self.browser.one("#bank-file").send_keys(str(path))
        self.browser.wait_for_text("#bank-check", "has a fault")
        self.assertIn("record 2, value_date: 01.04.2024 is no day", self.browser.text("#bank-check-text"))
        self.assertFalse(self.browser.one("#bank-import").is_enabled())

    def test_a_file_that_is_dropped(self):
        self.browser.run("""
            const dataTransfer = new DataTransfer();
            dataTransfer.items.add(new File([arguments[0]], "dropped.csv"));
            const drop = new DragEvent("drop", { dataTransfer, bubbles: true, cancelable: true });
            document.getElementById("bank-drop").dispatchEvent(drop);""", NEXT_BANK)
        self.browser.wait_for_text("#bank-check", "2 lines, 0 repeats within the file, 1 without a firm")
        self.assertIn("dropped.csv", self.browser.text("#bank-name"))
        self.assertTrue(self.browser.one("#bank-import").is_enabled())

    def test_a_second_click_that_is_not_given(self):
        self.browser.click("#reminders-make")
        self.browser.wait(lambda: self.browser.is_shown("#confirm"), "the second click")
        self.browser.press(Keys.ESCAPE)
        self.browser.wait(lambda: not self.browser.is_shown("#confirm"), "nothing")
        self.assertEqual(self.browser.focus(), "reminders-make")
        self.assertNotIn("reminders", [words for _, _, words in self.logged()])

    def test_a_lost_connection(self):
        """The office parts. The page keeps the request, stops its forms, and sends it again when it is back."""
        self.close_office()
        self.go("new")
        self.type_in("register", employer="1003", name="Bau Ost", start="2024-04")
        self.browser.click("#register-send")
        self.confirm("1003", "Bau Ost")
        self.answers("no answer", "nobody answers on 127.0.0.1")
        self.assertIn("Registration: 1003 Bau Ost", self.browser.text("#pending-what"))
        self.assertTrue(self.browser.run("return document.getElementById('form-register').inert"))
        self.open_office(port=self.server.port)
        self.browser.click("#pending-send-again")
        self.browser.wait(lambda: not self.browser.is_shown("#pending"), "an answer")
        self.answers("done", "1003 Bau Ost")
        self.assertFalse(self.browser.run("return document.getElementById('form-register').inert"))
        self.open_firm("1003")
        self.assertEqual(self.browser.text("#firm-title"), "1003 · Bau Ost")


class Keyboard(InBrowser):
    """Without a mouse."""

    def tab_to(self, wanted):
        """Presses the tabulator until the focus is where it is wanted; it is seen at each place."""
        for _ in range(40):
            self.browser.press(Keys.TAB)
            outline = self.browser.run("return getComputedStyle(document.activeElement).outlineStyle")
            self.assertNotEqual((outline, self.browser.focus()), ("none", self.browser.focus()))
            if self.browser.focus() == wanted:
                return
        raise AssertionError(f"{wanted} isn't reached")

    def test_a_firm_is_registered(self):
        self.tab_to("nav-new")
        self.browser.press(Keys.ENTER)
        self.browser.wait_for_view("new")
        for field, text in (("employer", "1001"), ("name", "Bau Nord"), ("start", "01/2024")):
            self.tab_to(f"register-{field}")
            self.browser.press(text)
        self.browser.press(Keys.ENTER)
        self.browser.wait(lambda: self.browser.focus() == "confirm-no", "the second click")
        self.browser.driver.switch_to.active_element.send_keys(Keys.SHIFT, Keys.TAB)
        self.browser.wait(lambda: self.browser.focus() == "confirm-yes", "the button before")
        self.browser.press(Keys.ENTER)
        self.browser.wait_for_view("firm/1001")
        self.answers("done", "1001 Bau Nord, from Jan 2024")
        # The first place behind the answer, and on to the report that is missing.
        self.tab_to("firm-text")

    def test_the_content_is_skipped_to(self):
        self.browser.run("document.activeElement.blur()")
        self.tab_to("skip")
        self.browser.press(Keys.ENTER)
        self.assertEqual(self.browser.focus(), "main")


def take_pictures_word():
    """Takes --pictures and its folder out of the command line."""
    if "--pictures" in sys.argv:
        place = sys.argv.index("--pictures")
        InBrowser.pictures = Path(sys.argv.pop(place + 1))
        sys.argv.pop(place)


if __name__ == "__main__":
    take_pictures_word()
    run_tests()
