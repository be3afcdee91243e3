"""What a clerk does on the desk's page when something goes wrong midway: a firm that isn't there yet, an office
that parts, a file that is mended, an answer that comes late.

    python3 tests/desk_mishaps.py [PROGRAM]

It needs what tests/desk_browser.py needs, and is left out where that is missing. What is expected is worked
out from docs/rules.md by hand.
"""

import os
import sys
import time

# No __pycache__ is left beside the sources.
sys.dont_write_bytecode = True
from browser import what_is_missing  # noqa: E402
from desk_browser import CLOCK, InBrowser, setUpModule  # noqa: E402, F401
from desk_under_test import BANK_HEADER, DONE, FakeOffice, answer_bytes  # noqa: E402
from program_under_test import run_tests  # noqa: E402

if not what_is_missing():
    from selenium.webdriver.common.keys import Keys


class Mishaps(InBrowser):
    """An office with a firm, one of its months reported, which the desk's page is in front of."""

    def setUp(self):
        super().setUp()
        self.does(DONE, self.register())
        self.does({"charge": 200000, "version": 1}, self.report("2024-01", "7,1000000\n"))

    def statement(self, employer):
        """The office's text of a firm."""
        return self.get(f"/api/firms/{employer}")[1]["text"]

    def worker(self, worker):
        """The office's text of a worker."""
        return self.get(f"/api/workers/{worker}")[1]["text"]

    def opens_no_firm(self, number, *told):
        """Opens a firm that can't be shown: this is told of it."""
        self.open_firm(number)
        self.browser.wait(lambda: self.browser.is_shown("#fault"), "a fault")
        for text in told:
            self.assertIn(text, self.browser.text("#fault"))
        self.assertFalse(self.browser.is_shown("#firm-shown"))

    def opens_it_now(self):
        """Opens the firm whose number still stands above."""
        self.browser.click("#find-firm-open")
        self.browser.wait(lambda: self.browser.is_shown("#firm-shown"), "the firm")

    def come_back(self):
        """The office, as it was, on its port."""
        self.open_office(port=self.server.port)

    def claim(self, worker, amount):
        self.type_in("claim", worker=worker, amount=amount)
        self.browser.click("#claim-send")


class MadeAnswers(InBrowser):
    """A desk with its page in front of an office whose answers are made here."""

    def open_page(self, answer):
        """Another desk, in front of what answers so."""
        self.kill_desk()
        self.office = FakeOffice(self, answer)
        self.open_desk(self.office.port, "--log", "made-log")
        self.address = f"http://127.0.0.1:{self.port}/"
        self.browser.requested()
        self.browser.open(self.address + "?lang=en")


class FirmsOfTheForms(Mishaps):
    """The forms on the page of a firm are for this firm, however it came there."""

    def test_a_firm_that_is_registered_meanwhile(self):
        self.open_firm("1001")
        self.opens_no_firm("1002", "rule 11, UnknownEmployer")
        self.register_firm("1002", "Tiefbau Süd", "2024-01")
        self.report_month("2024-01", "9,500000\n", "€5,000.00", "€1,000.00",
                          ["done", "Report: 1002, Jan 2024", "Contribution €1,000.00, version 1"])
        self.claim("9", "100.00")
        self.answers("done", "Claim: 1002, worker 9: €100.00", "The claim has the number 1.")
        self.type_in("withdraw", claim="1")
        self.browser.click("#withdraw-send")
        self.confirm("A withdrawn claim stays withdrawn", "1002", "€100.00")
        self.browser.wait_for_text("#answer", "Withdrawal")
        self.answers("done", "Withdrawal: 1002, claim 1")
        self.assertIn("charge 2024-01 due 2024-02-20 version 1        1000.00", self.statement("1002"))
        self.assertIn("charge 2024-01 due 2024-02-20 version 1        2000.00", self.statement("1001"))

    def test_a_firm_that_opens_at_the_second_try(self):
        """The office parts as the second firm is opened."""
        self.does(DONE, self.register("1002", "Tiefbau Süd"))
        report = {"employer": "1002", "month": "2024-01", "csv": "worker,gross\n9,300000\n"}
        self.does({"charge": 60000, "version": 1}, self.command("report", **report))
        self.open_firm("1001")
        self.close_office()
        self.opens_no_firm("1002", "The office isn't there")
        self.come_back()
        self.opens_it_now()
        self.report_month("2024-01", "9,350000\n", "€3,500.00", "€700.00",
                          ["done", "Correction: 1002, Jan 2024", "Contribution €700.00, version 2"])
        self.type_in("end", last="06/2024")
        self.browser.click("#end-send")
        self.confirm("The end is set once for good", "1002 Tiefbau Süd")
        self.browser.wait_for_text("#answer", "End of membership")
        self.answers("done", "1002, last month Jun 2024")
        self.assertIn("charge 2024-01 due 2024-02-20 version 1        2000.00", self.statement("1001"))
        self.assertIn("member 2024-01 -\n", self.statement("1001"))

    def test_the_first_firm_that_is_opened_at_all(self):
        self.close_office()
        self.opens_no_firm("1001", "The office isn't there")
        self.come_back()
        self.opens_it_now()
        self.claim("7", "10.00")
        self.answers("done", "Claim: 1001, worker 7: €10.00")

    def test_what_is_typed_stays_where_another_firm_is_not_there(self):
        self.open_firm("1001")
        self.type_in("claim", worker="7", amount="10.00")
        self.opens_no_firm("1002", "rule 11, UnknownEmployer")
        self.open_firm("1001")
        self.browser.click("#claim-send")
        self.answers("done", "Claim: 1001, worker 7: €10.00")


class SentAgain(Mishaps):
    """A form whose command is done by *Send it again* is empty then: one more click doesn't do it twice."""

    def sends_again(self, *told):
        """The request, which had no answer, is sent again when the office is back, and is done."""
        self.answers("no answer", "nobody answers on 127.0.0.1")
        self.come_back()
        self.browser.click("#pending-send-again")
        self.browser.wait(lambda: not self.browser.is_shown("#pending"), "an answer")
        self.answers("done", *told)

    def value(self, field):
        return self.browser.one(f"#{field}").get_attribute("value")

    def test_a_claim(self):
        self.open_firm("1001")
        self.close_office()
        self.claim("7", "10.00")
        self.sends_again("The claim has the number 1.")
        self.assertEqual((self.value("claim-worker"), self.value("claim-amount")), ("", ""))
        self.browser.click("#claim-send")
        self.browser.wait_for_text("#claim-worker-fault", "A worker's number")
        self.assertEqual(self.worker("7").count("claim"), 1)

    def test_a_report(self):
        self.open_firm("1001")
        self.browser.type("#report-month", "2024-02")
        self.browser.type("#report-csv", "worker,gross\n7,500000")
        self.browser.click("#report-check")
        self.browser.wait(lambda: self.browser.one("#report-send").is_enabled(), "checked lines")
        self.close_office()
        self.browser.click("#report-send")
        self.sends_again("Report: 1001, Feb 2024", "Contribution €1,000.00, version 1")
        self.assertEqual((self.value("report-month"), self.value("report-csv")), ("", ""))
        self.assertFalse(self.browser.one("#report-send").is_enabled())

    def test_a_bank_file(self):
        content = BANK_HEADER + "B1,2024-02-25,1001,150000,C,\n"
        self.choose_bank_file(content, "1 line, 0 repeats within the file, 0 without a firm, 1500.00 in all")
        self.close_office()
        self.browser.click("#bank-import")
        self.confirm("can't be taken out")
        self.sends_again("New: 1, repeats: 0.")
        self.assertFalse(self.browser.is_shown("#bank-name"))
        self.assertFalse(self.browser.one("#bank-import").is_enabled())

    def test_what_is_refused_stays_to_be_mended(self):
        self.open_firm("1001")
        self.close_office()
        self.claim("7", "9,999.00")
        self.answers("no answer")
        self.come_back()
        self.browser.click("#pending-send-again")
        self.browser.wait_for_text("#answer", "OverBalance")
        self.assertEqual((self.value("claim-worker"), self.value("claim-amount")), ("7", "9,999.00"))


class Dropped(Mishaps):
    """A request without an answer that is dropped: the page says where it is seen whether it was done."""

    def asks_before_it_drops(self, *told):
        self.answers("no answer")
        self.browser.click("#pending-give-up")
        self.browser.wait(lambda: self.browser.is_shown("#confirm"), "the second click")
        for text in told:
            self.assertIn(text, self.browser.text("#confirm"))
        self.browser.click("#confirm-yes")
        self.browser.wait_for_text("#answer", "dropped")

    def test_each_kind_has_its_place(self):
        self.open_firm("1001")
        self.close_office()
        self.claim("7", "10.00")
        self.asks_before_it_drops("may have been done already", "In the worker's view")
        self.go("morning")
        self.type_in("release", claim="1")
        self.browser.click("#release-send")
        self.confirm("A release is for good")
        self.browser.wait(lambda: self.browser.is_shown("#pending"), "the release")
        self.asks_before_it_drops("the claim is released")

    def test_a_withdrawal(self):
        """The office doesn't list the claim any more where it was done."""
        self.open_firm("1001")
        self.close_office()
        self.type_in("withdraw", claim="1")
        self.browser.click("#withdraw-send")
        self.confirm("A withdrawn claim stays withdrawn")
        self.browser.wait(lambda: self.browser.is_shown("#pending"), "the withdrawal")
        self.asks_before_it_drops("the claim isn't there any more if the request was done")

    def test_a_list_and_a_run_may_be_those_of_another_desk(self):
        self.close_office()
        for kind, asked, found, told in (
                ("payouts", "listed for good", "Show an earlier list", "before anything is transferred"),
                ("reminders", "A run can't be taken back", "Show an earlier run", "before anything is sent out")):
            self.browser.click(f"#{kind}-make")
            self.confirm(asked)
            self.browser.wait(lambda: self.browser.is_shown("#pending"), kind)
            self.asks_before_it_drops(found, "made by this desk or by another one: ask the others", told,
                                      "Send it again, in the place of this, is always safe")


class Files(Mishaps):
    """Files that are mended or changed while the page has them."""

    def choose(self, field, name, content):
        """Writes a file and chooses it. It is a minute old, so that a later change of it is seen."""
        path = self.write(name, content)
        a_minute_ago = time.time() - 60
        os.utime(path, (a_minute_ago, a_minute_ago))
        self.browser.one(f"#{field}").send_keys(str(path))
        return path

    def test_a_bank_file_that_is_mended_and_chosen_again(self):
        self.choose("bank-file", "bank.csv", BANK_HEADER + "B1,25.02.2024,1001,150000,C,\n")
        self.browser.wait_for_text("#bank-check", "has a fault")
        self.choose("bank-file", "bank.csv", BANK_HEADER + "B1,2024-02-25,1001,150000,C,\n")
        self.browser.wait_for_text("#bank-check", "the file can be read")
        self.browser.click("#bank-import")
        self.confirm("can't be taken out")
        self.answers("done", "New: 1, repeats: 0.")

    def test_a_report_that_is_mended_and_chosen_again(self):
        self.open_firm("1001")
        self.browser.type("#report-month", "2024-02")
        self.choose("report-file", "report.csv", "worker,gross\n7,100000\n")
        self.browser.wait_for_text("#report-check-result", "€1,000.00")
        self.choose("report-file", "report.csv", "worker,gross\n7,250000\n")
        self.browser.wait_for_text("#report-check-result", "€2,500.00")
        self.browser.click("#report-send")
        self.answers("done", "gross wages €2,500.00", "Contribution €500.00")

    def test_a_file_that_is_dropped_beside_its_place(self):
        """The browser doesn't open it."""
        drop = "const drop = new Event('drop', { bubbles: true, cancelable: true });"
        self.assertTrue(self.browser.run(f"{drop} document.body.dispatchEvent(drop); return drop.defaultPrevented"))

    def test_a_bank_file_in_whose_place_another_one_is_put(self):
        """It has the time of the one that was checked, as `cp -p` leaves it, so that the browser takes it for that."""
        path = self.choose("bank-file", "bank.csv", BANK_HEADER + "B1,2024-02-25,1001,150000,C,\n")
        self.browser.wait_for_text("#bank-check", "the file can be read")
        before = path.stat()
        path.write_text(BANK_HEADER + "B1,2024-02-25,1001,990000,C,\n")
        os.utime(path, ns=(before.st_atime_ns, before.st_mtime_ns))
        self.browser.click("#bank-import")
        self.confirm("can't be taken out", "1500.00 in all")
        self.answers("The file has changed since it was chosen", "Nothing was sent", "choose it again")
        self.assertFalse(self.browser.is_shown("#bank-name"))
        self.assertNotIn("bank", [it["kind"] for it in self.lines("log.jsonl")])
        self.browser.one("#bank-file").send_keys(str(path))
        self.browser.wait_for_text("#bank-check", "9900.00 in all")
        self.browser.click("#bank-import")
        self.confirm("can't be taken out", "9900.00 in all")
        self.browser.wait_for_text("#answer", "New: 1, repeats: 0.")

    def test_a_bank_file_that_changes_after_its_check(self):
        path = self.choose("bank-file", "bank.csv", BANK_HEADER + "B1,2024-02-25,1001,150000,C,\n")
        self.browser.wait_for_text("#bank-check", "the file can be read")
        path.write_text(BANK_HEADER + "B1,2024-02-25,1001,150000,C,\nB2,2024-02-25,1001,777,C,\n")
        self.browser.click("#bank-import")
        self.confirm("can't be taken out")
        self.answers("The file has changed since it was chosen", "choose it again")
        self.assertFalse(self.browser.is_shown("#bank-name"))
        self.assertNotIn("bank", [it["kind"] for it in self.lines("log.jsonl")])


class Paper(Mishaps):
    """A firm's statement as it is printed."""

    def setUp(self):
        super().setUp()
        lines = "".join(f"P{it},2024-02-10,1001,100,C,\n" for it in range(1, 31))
        self.does({"new": 30, "repeats": 0}, self.bank(BANK_HEADER + lines))
        self.open_firm("1001")
        self.on("print", 700)

    def tearDown(self):
        self.on("", 1280)
        super().tearDown()

    def on(self, medium, width):
        """Shows the page as it is on a medium, so wide; a sheet of A4 has 700 between its margins."""
        self.browser.driver.execute_cdp_cmd("Emulation.setEmulatedMedia", {"media": medium})
        self.browser.resize(width, 900)

    def test_all_payments_of_a_month(self):
        text = self.browser.text("body")
        self.assertIn("and 26 more, see the text", text)
        for number in range(1, 31):
            self.assertRegex(text, rf"(?m)^ *paid 2024-02-10 +1\.00 P{number}$")
        # Nothing of it is cut off, or goes on beside the sheet.
        cut = self.browser.run("""const it = document.getElementById("firm-text");
            return [it.scrollHeight > it.clientHeight, it.scrollWidth > it.clientWidth]""")
        self.assertEqual(cut, [False, False])
        self.assertLessEqual(self.browser.run("return document.documentElement.scrollWidth"), 700)
        self.assertFalse(self.browser.is_shown("#firm-download"))


class Suspense(Mishaps):
    """More payments in suspense than a page has."""

    def test_the_only_line_of_the_last_page_is_assigned(self):
        lines = "".join(f"P{it},2024-02-10,,1000,C,\n" for it in range(1, 202))
        self.does({"new": 201, "repeats": 0}, self.bank(BANK_HEADER + lines))
        self.browser.open(self.address + "?lang=en")
        self.browser.wait_for_text("#suspense-lines", "Lines 1 to 200 of 201")
        self.browser.click("#suspense-later")
        self.browser.wait_for_text("#suspense-lines", "Lines 201 to 201 of 201")
        self.browser.click("#suspense-table .assign")
        self.browser.type("#assign-employer", "1001")
        self.browser.click("#assign-send")
        self.confirm("1001 Bau Nord", "P201")
        self.answers("done", "P201 to 1001")
        self.browser.wait_for_text("#suspense-summary", "200, together €2,000.00")
        self.browser.wait(lambda: len(self.browser.table("#suspense-table")) == 201, "the lines before")


class Late(Mishaps):
    """Answers that come when the page shows other lines, or another firm, than those they are about."""

    HOLD = """const [path] = arguments;
        const real = globalThis.fetch;
        const held = new Promise((resolve) => { globalThis.letGo = resolve; });
        globalThis.fetch = async (...told) => {
          const answer = await real(...told);
          if (told[0] === path) {
            globalThis.isHeld = true;
            await held;
            setTimeout(() => { globalThis.isRead = true; }, 200);
          }
          return answer;
        };"""

    def setUp(self):
        super().setUp()
        self.does(DONE, self.register("1002", "Tiefbau Süd"))
        self.open_firm("1001")

    def hold(self, path):
        """Holds the answers of this path back."""
        self.browser.run(self.HOLD, f"/api/{path}")

    def let_go(self):
        """Hands on the answers, and gives the page the time to take them."""
        self.browser.driver.execute_async_script("letGo(); setTimeout(arguments[0], 500)")

    def type_report(self, month, csv):
        self.browser.type("#report-month", month)
        self.browser.type("#report-csv", "worker,gross\n" + csv)

    def check(self, month, csv):
        self.type_report(month, csv)
        self.browser.click("#report-check")
        self.browser.wait(lambda: self.can_send(), "checked lines")

    def can_send(self):
        return self.browser.one("#report-send").is_enabled()

    def test_lines_that_are_edited_while_they_are_checked(self):
        self.type_report("2024-02", "7,100000")
        self.hold("check/report")
        self.browser.click("#report-check")
        self.browser.type("#report-csv", "worker,gross\n7,900000")
        self.let_go()
        self.assertEqual((self.browser.text("#report-check-result"), self.can_send()), ("", False))
        self.browser.click("#report-check")
        self.browser.wait_for_text("#report-check-result", "€9,000.00")

    def test_another_firm_is_opened_during_the_check(self):
        self.type_report("2024-02", "7,100000")
        self.hold("check/report")
        self.browser.click("#report-check")
        self.open_firm("1002")
        self.let_go()
        self.assertEqual((self.browser.text("#report-check-result"), self.can_send()), ("", False))

    def test_lines_that_are_edited_while_others_are_refused(self):
        self.check("2024-01", "7,100000")
        self.hold("commands/report")
        self.browser.click("#report-send")
        self.browser.type("#report-csv", "worker,gross\n7,900000")
        self.let_go()
        self.answers("refused", "rule 15, ReportExists", focus="report-csv")
        self.assertFalse(self.can_send())

    def test_lines_that_are_typed_while_others_are_sent(self):
        self.check("2024-02", "7,100000")
        self.hold("commands/report")
        self.browser.click("#report-send")
        self.type_report("2024-03", "7,900000")
        self.let_go()
        self.answers("done", "Report: 1001, Feb 2024", "Contribution €200.00", focus="report-csv")
        lines = self.browser.one("#report-csv").get_attribute("value")
        self.assertEqual((lines, self.can_send()), ("worker,gross\n7,900000", False))


class Worker(MadeAnswers):
    """A worker's document that the desk doesn't understand."""

    DOCUMENTS = {
        b"GET /workers/7 ": b"worker 7 2024-04-30\nearned 1001 2024-01        1425.00\n"
                            b"claim 1 employer 1001 open          10.00\nbalance        1415.00\n",
        b"GET /workers/8 ": b"worker 8 2024-04-30\nsomething new\nbalance           0.00\n",
        b"GET /suspense ": b"suspense 2024-04-30\nlines 0\ntotal           0.00\n",
    }

    def answer(self, request):
        found = next(text for start, text in self.DOCUMENTS.items() if request.startswith(start))
        return answer_bytes(200, found, "text/plain; charset=utf-8")

    def test_nothing_of_another_worker_stays(self):
        self.open_page(self.answer)
        self.go("worker")
        self.browser.type("#find-worker-number", "7")
        self.browser.click("#find-worker-show")
        self.browser.wait_for_view("worker/7")
        self.assertIn("€1,415.00", self.browser.text("#worker-figures"))
        self.browser.type("#find-worker-number", "8")
        self.browser.click("#find-worker-show")
        self.browser.wait_for_view("worker/8")
        self.assertIn("something new", self.browser.text("#worker-text"))
        shown = self.browser.text("#view-worker")
        for text in ("€1,415.00", "€1,425.00", "Release", "Jan 2024"):
            self.assertNotIn(text, shown)


class Small(Mishaps):
    """What was asked for and can't be, or not yet, is told."""

    def test_a_number_that_no_firm_has(self):
        self.browser.type("#find-firm-number", "123456789")
        self.browser.click("#find-firm-open")
        self.browser.wait_for_text("#find-firm", "A firm's number is 1 to 99999999.")
        self.assertEqual(self.browser.focus(), "find-firm-number")
        self.open_firm("99999999")
        # A worker's number has a digit more.
        self.go("worker")
        self.browser.type("#find-worker-number", "123456789")
        self.browser.click("#find-worker-show")
        self.browser.wait_for_view("worker/123456789")

    def test_enter_checks_a_report_and_never_sends_it(self):
        self.open_firm("1001")
        self.browser.type("#report-csv", "worker,gross\n7,100000")
        self.browser.type("#report-month", "2024-02")
        self.browser.press(Keys.ENTER)
        self.browser.wait_for_text("#report-check-result", "€1,000.00")
        self.browser.press(Keys.ENTER)
        self.browser.driver.execute_async_script("setTimeout(arguments[0], 500)")
        self.assertFalse(self.browser.is_shown("#answer"))
        self.browser.click("#report-send")
        self.answers("done", "Report: 1001, Feb 2024")

    def test_a_second_click_in_a_low_window(self):
        """What is to be read stands there, and not only the buttons below it."""
        self.addCleanup(self.browser.resize, 1280, 900)
        self.go("new")
        self.type_in("rates", contribution="19.5", entitlement="14.20", interest="0.9", report_day="15",
                     due_day="20", **{"from": "2026-01"})
        for width, height in ((640, 360), (360, 600)):
            self.browser.resize(width, height)
            self.browser.click("#rates-send")
            self.browser.wait(lambda: self.browser.focus() == "confirm-no", "the second click")
            top = self.browser.run("""const it = document.getElementById("confirm");
                return [it.scrollHeight > it.clientHeight, it.scrollTop]""")
            self.assertEqual(top, [True, 0], (width, height))
            self.browser.press(Keys.ESCAPE)
            self.browser.wait(lambda: not self.browser.is_shown("#confirm"), "the page")

    def test_a_name_that_is_too_long(self):
        """It isn't cut off in silence."""
        self.go("new")
        self.type_in("register", employer="1003", name="B" * 61, start="2024-04")
        self.browser.click("#register-send")
        self.browser.wait_for_text("#form-register .field-fault", "A name has 1 to 60 bytes")

    def test_a_page_that_stands_open_over_night(self):
        """It warns of the office's day, which is that of yesterday then."""
        told = {"source": "globalThis.setInterval = (act) => { globalThis.nextMinute = act; };"}
        driver = self.browser.driver
        script = driver.execute_cdp_cmd("Page.addScriptToEvaluateOnNewDocument", told)
        self.browser.open(self.address + "?lang=en")
        driver.execute_cdp_cmd("Page.removeScriptToEvaluateOnNewDocument", script)
        self.assertFalse(self.browser.is_shown("#morning-other-day"))
        self.browser.run(CLOCK.replace("DAY", "2024-05-01"))
        self.browser.run("nextMinute()")
        self.assertTrue(self.browser.is_shown("#morning-other-day"))
        self.assertIn("that isn't today (01 May 2024)", self.browser.text("#morning-other-day"))

    def test_the_text_is_saved(self):
        """The one that is shown, whatever the office says by then, or if it says nothing."""
        saved = self.folder / "saved"
        saved.mkdir()
        told = {"behavior": "allow", "downloadPath": str(saved)}
        self.browser.driver.execute_cdp_cmd("Browser.setDownloadBehavior", told)
        self.does(DONE, self.register("1002", "Bräu & Söhne"))
        shown = {number: self.statement(number) for number in ("1001", "1002")}
        self.open_firm("1001")
        self.does({"charge": 20000, "version": 1}, self.report("2024-02", "7,100000\n"))
        self.saves(saved / "statement-1001.txt", shown["1001"])
        self.open_firm("1002")
        self.close_office()
        self.saves(saved / "statement-1002.txt", shown["1002"])

    def saves(self, path, text):
        self.browser.click("#firm-download")
        self.browser.wait(path.exists, "the text")
        self.assertEqual(path.read_bytes(), text.encode())
        self.assertFalse(self.browser.is_shown("#answer"))

    def test_two_files_that_are_dropped_at_once(self):
        self.browser.run("""
            const dataTransfer = new DataTransfer();
            for (const name of ["one.csv", "two.csv"]) {
              dataTransfer.items.add(new File([arguments[0]], name));
            }
            const drop = new DragEvent("drop", { dataTransfer, bubbles: true, cancelable: true });
            document.getElementById("bank-drop").dispatchEvent(drop);""", BANK_HEADER)
        self.answers("one file at a time")
        self.assertFalse(self.browser.is_shown("#bank-name"))


if __name__ == "__main__":
    run_tests()
