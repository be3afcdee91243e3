"""What a clerk in a hurry does on the desk's page: double clicks, keys that are held, the next form before the
answer, two windows, a try again where the answer was lost.

    python3 tests/desk_hurry.py [PROGRAM]

It needs what tests/desk_browser.py needs, and is left out where that is missing. What is expected is worked
out from docs/rules.md by hand.
"""

import contextlib
import sys
import threading

# No __pycache__ is left beside the sources.
sys.dont_write_bytecode = True
import desk_mishaps  # noqa: E402
from desk_browser import setUpModule  # noqa: E402, F401
from desk_under_test import BANK_HEADER, DONE, answer_bytes  # noqa: E402
from program_under_test import run_tests  # noqa: E402

PAYMENT = BANK_HEADER + "B1,2024-02-25,,150000,C,\n"


class Hurry(desk_mishaps.Mishaps):
    """An office with a firm, one of its months reported, which the desk's page is in front of."""

    def value(self, field):
        return self.browser.one(f"#{field}").get_attribute("value")

    def hold(self, path):
        """Holds the answers of this path back."""
        self.browser.run(desk_mishaps.Late.HOLD, path)

    def let_go(self):
        """Hands on the answers that were held back, and waits until the page has taken them."""
        self.browser.run("letGo()")
        self.browser.wait(lambda: self.browser.run("return globalThis.isRead ?? false"), "the answer that is late")

    def lose_the_answer(self, path):
        """The first answer of this path is lost between desk and page."""
        self.browser.run("""const [path] = arguments;
            const real = globalThis.fetch;
            globalThis.fetch = async (...told) => {
              const answer = await real(...told);
              if (told[0] === path) {
                globalThis.fetch = real;
                throw new TypeError("Failed to fetch");
              }
              return answer;
            };""", path)

    @contextlib.contextmanager
    def another_window(self):
        """Another window with the page; the first one again behind the block."""
        driver = self.browser.driver
        first = driver.current_window_handle
        driver.switch_to.new_window("tab")
        self.set_clock()
        try:
            self.browser.open(self.address + "?lang=en")
            yield
        finally:
            driver.close()
            driver.switch_to.window(first)

    def open_the_payment(self, content=PAYMENT):
        """Opens the dialog in which the first payment in suspense is assigned, to a firm that is there."""
        self.does({"new": content.count("\n") - 1, "repeats": 0}, self.bank(content))
        self.go("firm")
        self.go("morning")
        self.browser.click("#suspense-table .assign")
        self.browser.type("#assign-employer", "1001")


class Hands(Hurry):
    """Mouse and keys."""

    def mouse(self, selector):
        """Where a mouse stands on an element."""
        return self.browser.run("""const it = document.querySelector(arguments[0]).getBoundingClientRect();
            return { x: it.x + it.width / 2, y: it.y + it.height / 2 }""", selector)

    def press_and_release(self, place, count):
        """The click of this count in one place, as a system tells a browser of it."""
        for kind in ("mousePressed", "mouseReleased"):
            told = {"type": kind, "button": "left", "buttons": 1, "clickCount": count, **place}
            self.browser.driver.execute_cdp_cmd("Input.dispatchMouseEvent", told)

    def press_enter(self, **further):
        told = {"type": "keyDown", "key": "Enter", "code": "Enter", "windowsVirtualKeyCode": 13, "text": "\r"}
        self.browser.driver.execute_cdp_cmd("Input.dispatchKeyEvent", {**told, **further})

    def test_a_double_click_is_no_second_click(self):
        """The button for good stands where the other one stood: a double click falls on both."""
        self.open_the_payment()
        place = self.mouse("#assign-send")
        self.press_and_release(place, 1)
        self.browser.wait(lambda: self.browser.is_shown("#confirm"), "the second click")
        found = self.browser.run("return document.elementFromPoint(arguments[0].x, arguments[0].y).id", place)
        self.assertEqual(found, "confirm-yes")
        self.press_and_release(place, 2)
        self.assertTrue(self.browser.is_shown("#confirm"))
        self.assertEqual([it for it in self.logged() if "assign" in it[2]], [])
        # A click that is meant.
        self.press_and_release(place, 1)
        self.answers("done", "B1 to 1001")

    def test_a_double_click_withdraws_nothing(self):
        """Not this claim, and not that of the row which the first half's answer may have moved there."""
        for claim in range(1, 9):
            self.does({"claim": claim}, self.command("claim", employer="1001", worker="7", amount=f"{claim},00"))
        self.browser.open(self.address + "?lang=en#/worker/7", "worker/7")
        place = self.mouse("#worker-claims-table .withdraw[data-claim='6']")
        self.press_and_release(place, 1)
        self.press_and_release(place, 2)
        self.browser.wait(lambda: self.browser.is_shown("#confirm"), "the second click")
        self.browser.click("#confirm-no")
        # The second half alone does nothing, wherever it falls.
        self.press_and_release(place, 2)
        self.browser.driver.execute_async_script("setTimeout(arguments[0], 500)")
        self.assertFalse(self.browser.is_shown("#confirm"))
        self.assertEqual([it for it in self.logged() if "withdraw" in it[2]], [])
        self.press_and_release(place, 1)
        self.confirm("A withdrawn claim stays withdrawn", "€6.00")
        self.answers("done", "Withdrawal: 1001, claim 6")
        self.browser.wait(lambda: len(self.browser.table("#worker-claims-table")) == 8, "the other claims")

    def test_a_key_that_is_held(self):
        """It checks a report and doesn't send it."""
        self.open_firm("1001")
        self.browser.type("#report-csv", "worker,gross\n7,100000")
        self.browser.type("#report-month", "2024-02")
        self.press_enter()
        self.browser.wait_for_text("#report-check-result", "€1,000.00")
        self.browser.wait(lambda: self.browser.one("#report-send").is_enabled(), "checked lines")
        self.press_enter(autoRepeat=True)
        self.press_enter(type="keyUp")
        self.assertTrue(self.browser.one("#report-send").is_enabled())
        self.assertFalse(self.browser.is_shown("#answer"))
        self.browser.click("#report-send")
        self.answers("done", "Report: 1001, Feb 2024")

    def test_the_button_of_a_correction_in_another_language(self):
        self.open_firm("1001")
        self.browser.click("#statement-table .correct")
        for language, text in (("de", "Korrektur senden"), ("en", "Send the correction")):
            self.browser.click(f"#language-{language}")
            self.browser.wait(lambda: self.browser.text("#report-send") == text, text)


    def test_what_was_told_is_told_in_the_other_language(self):
        self.browser.one("#bank-file").send_keys(str(self.write("bank.csv", PAYMENT)))
        self.browser.wait_for_text("#bank-check", "Checked: the file can be read.")
        self.go("firm")
        self.open_firm("1001")
        self.browser.click("#claim-send")
        self.browser.wait_for_text("#form-claim .field-fault", "A worker's number")
        self.browser.type("#report-csv", "worker,gross\n7,100000")
        self.browser.type("#report-month", "2024-02")
        self.browser.click("#report-check")
        self.browser.wait_for_text("#report-summary", "Feb 2024. Lines: 1, gross wages €1,000.00")
        self.browser.click("#language-de")
        self.browser.wait_for_text("#report-summary", "Feb. 2024. Zeilen: 1, Bruttolohnsumme 1.000,00")
        self.assertEqual(self.browser.all("#form-claim .field-fault"), [])
        self.assertTrue(self.browser.one("#report-send").is_enabled())
        self.go("morning")
        self.browser.wait_for_text("#bank-check", "Geprüft")
        self.assertIn("Datei: bank.csv", self.browser.text("#bank-name"))
        self.assertTrue(self.browser.one("#bank-import").is_enabled())
        self.kill_desk()
        self.browser.click("#language-en")
        self.answers("Der Arbeitsplatz antwortet nicht")


class Corrections(Hurry):
    """The version that is corrected, and the lines, are those of the month that stands beside them."""

    def setUp(self):
        super().setUp()
        self.does({"charge": 40000, "version": 1}, self.report("2024-02", "7,100000\n8,100000\n"))
        self.open_firm("1001")
        self.browser.click("#statement-months [data-month='2024-01'] .correct")
        self.assertEqual((self.value("report-month"), self.value("report-version")), ("2024-01", "1"))

    def test_the_month_is_typed_over(self):
        """February has two lines, of which one alone would have been left."""
        self.browser.type("#report-month", "2024-02")
        self.assertEqual((self.value("report-version"), self.browser.text("#report-send")), ("", "Send the report"))
        self.browser.type("#report-csv", "worker,gross\n7,1")
        self.browser.click("#report-check")
        self.browser.wait(lambda: self.browser.one("#report-send").is_enabled(), "checked lines")
        self.browser.click("#report-send")
        self.answers("refused", "rule 15, ReportExists")
        self.assertIn("charge 2024-02 due 2024-03-20 version 1         400.00", self.statement("1001"))

    def test_lines_of_the_month_before(self):
        self.browser.type("#report-csv", "worker,gross\n7,1")
        self.browser.click("#statement-months [data-month='2024-01'] .correct")
        self.assertEqual(self.value("report-csv"), "worker,gross\n7,1")
        self.browser.click("#statement-months [data-month='2024-03'] .report")
        self.assertEqual((self.value("report-month"), self.value("report-csv")), ("2024-03", ""))

    def test_the_same_month_in_another_form(self):
        """Its version and its lines stay, and the version is there again after a slip."""
        self.browser.type("#report-csv", "worker,gross\n7,1")
        for month, version in (("01/2024", "1"), ("2024-013", ""), ("1.2024", "1"), ("2024-02", ""), ("2024-01", "1")):
            self.browser.type("#report-month", month)
            self.assertEqual(self.value("report-version"), version, month)
        self.browser.type("#report-month", "01/2024")
        self.browser.click("#statement-months [data-month='2024-01'] .correct")
        self.assertEqual((self.value("report-csv"), self.value("report-version")), ("worker,gross\n7,1", "1"))


class Slow(desk_mishaps.MadeAnswers):
    """An office that takes its time."""

    def answer(self, request):
        if request.startswith(b"POST /rates "):
            return answer_bytes(200, DONE) if self.goes_on.wait(30) and self.is_there else None
        suspense = b"suspense 2024-04-30\nlines 0\ntotal           0.00\n"
        return answer_bytes(200, suspense, "text/plain; charset=utf-8")

    def test_sent_again_while_another_window_sends_it_again(self):
        """What is told in the end is what became of it."""
        self.goes_on, self.is_there = threading.Event(), False
        self.goes_on.set()
        self.open_page(self.answer)
        self.go("new")
        self.type_in("rates", contribution="19.5", entitlement="14.20", interest="0.9", report_day="15",
                     due_day="20", **{"from": "2026-01"})
        self.browser.click("#rates-send")
        self.confirm("can't be changed or taken back")
        self.answers("no answer")
        self.goes_on.clear()
        self.is_there = True
        sent = len(self.office.requests)
        again = ["/api/pending/send-again", "send-again", {"number": 1}]
        other = threading.Thread(target=self.post, args=again, daemon=True)
        other.start()
        self.wait_for(lambda: len(self.office.requests) > sent)
        self.browser.run(desk_mishaps.Late.HOLD, "/api/pending/send-again")
        self.browser.click("#pending-send-again")
        self.browser.wait(lambda: self.browser.is_shown("#sending"), "the sign that it is sent")
        self.goes_on.set()
        self.browser.wait(lambda: self.browser.run("return globalThis.isHeld ?? false"), "the second answer")
        self.browser.run("letGo()")
        self.browser.wait(lambda: self.browser.run("return globalThis.isRead ?? false"), "the second answer")
        self.answers("sent again, done once · New rates: from Jan 2026")
        other.join()
        self.assertFalse(self.browser.is_shown("#pending"))
        self.assertFalse(self.browser.is_shown("#sending"))


class Late(Hurry):
    """An answer that isn't there yet."""

    def test_a_payment_that_is_being_assigned(self):
        """It can't be cancelled any more, and its answer leaves the next one alone."""
        self.open_the_payment(PAYMENT + "B2,2024-02-26,,99,C,\n")
        self.browser.click("#assign-send")
        self.browser.wait(lambda: self.browser.is_shown("#confirm"), "the second click")
        self.hold("/api/commands/assign")
        self.browser.click("#confirm-yes")
        self.browser.wait(lambda: not self.browser.is_shown("#assign-dialog"), "the page")
        self.browser.wait_for_text("#sending", "Being sent")
        self.browser.click("#suspense-table .assign[data-reference='B2']")
        self.browser.type("#assign-employer", "1001")
        self.let_go()
        self.browser.wait_for_text("#suspense-summary", "1, together €0.99")
        self.assertEqual((self.value("assign-reference"), self.value("assign-employer")), ("B2", "1001"))
        self.assertTrue(self.browser.is_shown("#assign-dialog"))
        self.assertIn("B1 to 1001", self.browser.text("#answer"))
        self.assertFalse(self.browser.is_shown("#sending"))
        self.browser.click("#assign-send")
        self.confirm("B2", "€0.99")
        self.browser.wait_for_text("#answer", "B2 to 1001")

    def test_the_next_claim_while_one_is_sent(self):
        """It isn't sent, which is told, and stays in the form."""
        self.open_firm("1001")
        self.hold("/api/commands/claim")
        self.claim("7", "10.00")
        self.claim("7", "25.00")
        self.answers("Another request takes long.")
        self.let_go()
        self.answers("done", "worker 7: €10.00", "The claim has the number 1.")
        self.assertEqual((self.value("claim-worker"), self.value("claim-amount")), ("7", "25.00"))
        self.browser.click("#claim-send")
        self.browser.wait_for_text("#answer", "The claim has the number 2.")
        self.answers("done", "worker 7: €25.00")

    def test_a_statement_from_before(self):
        """It isn't shown in the place of a later one."""
        self.open_firm("1001")
        self.browser.run("""const real = globalThis.fetch;
            const held = new Promise((resolve) => { globalThis.letGo = resolve; });
            globalThis.fetch = async (...told) => {
              globalThis.fetch = real;
              const answer = await real(...told);
              await held;
              setTimeout(() => { globalThis.isRead = true; }, 200);
              return answer;
            };
            document.getElementById("find-firm-open").click();""")
        self.does({"charge": 20000, "version": 1}, self.report("2024-02", "7,100000\n"))
        row = "#statement-months [data-month='2024-02']"
        self.browser.click("#find-firm-open")
        self.browser.wait_for_text(row, "€200.00")
        self.let_go()
        self.assertIn("€200.00", self.browser.text(row))

    def test_a_second_click_that_is_asked_for_late(self):
        """It doesn't take the place of one that is asked for meanwhile, and the form of this one goes on."""
        self.open_firm("1001")
        self.hold("/api/firms/1001")
        self.type_in("end", last="06/2024")
        self.browser.click("#end-send")
        self.browser.wait(lambda: self.browser.run("return globalThis.isHeld ?? false"), "the name of the firm")
        self.go("morning")
        self.browser.click("#reminders-make")
        self.browser.wait(lambda: self.browser.is_shown("#confirm"), "the second click")
        self.let_go()
        self.assertIn("A run can't be taken back", self.browser.text("#confirm"))
        self.browser.click("#confirm-no")
        self.browser.wait_for_text("#confirm", "The end is set once for good")
        self.assertIn("1001 Bau Nord", self.browser.text("#confirm"))
        self.browser.click("#confirm-no")
        self.browser.wait(lambda: not self.browser.is_shown("#confirm"), "nothing")
        self.assertEqual([it[2] for it in self.logged() if it[2].startswith(("end", "reminders"))], [])
        self.browser.click("#reminders-make")
        self.confirm("A run can't be taken back")
        self.browser.wait_for_text("#answer", "Run 1. Firms reminded: 1.")

    def test_a_payment_whose_dialog_was_cancelled(self):
        """It isn't asked for in the place of the next one."""
        self.open_the_payment(PAYMENT + "B2,2024-02-26,,99,C,\n")
        self.hold("/api/firms/1001")
        self.browser.click("#assign-send")
        self.browser.wait(lambda: self.browser.run("return globalThis.isHeld ?? false"), "the name of the firm")
        self.browser.click("#assign-cancel")
        self.browser.click("#suspense-table .assign[data-reference='B2']")
        self.browser.type("#assign-employer", "1001")
        self.let_go()
        self.assertFalse(self.browser.is_shown("#confirm"))
        self.browser.click("#assign-send")
        self.confirm("B2", "€0.99")
        self.answers("done", "B2 to 1001")
        self.browser.wait_for_text("#suspense-summary", "1, together €1,500.00")

    def register_late(self):
        """A registration whose answer is held back."""
        self.go("new")
        self.type_in("register", employer="1003", name="Bau Ost", start="2024-04")
        self.browser.click("#register-send")
        self.browser.wait(lambda: self.browser.is_shown("#confirm"), "the second click")
        self.hold("/api/commands/register")
        self.browser.click("#confirm-yes")

    def test_a_firm_that_is_registered_behind_another_view(self):
        """It doesn't take the clerk away from there, with what is typed."""
        self.register_late()
        self.open_firm("1001")
        self.type_in("claim", worker="7", amount="12.50")
        self.let_go()
        self.answers("done", "Registration: 1003 Bau Ost", focus="claim-amount")
        self.assertEqual(self.browser.text("#firm-title"), "1001 · Bau Nord")
        self.assertEqual((self.value("claim-worker"), self.value("claim-amount")), ("7", "12.50"))

    def test_a_firm_that_is_registered_while_the_next_one_is_typed(self):
        self.register_late()
        self.type_in("register", employer="1004", name="Bau West", start="2024-04")
        self.let_go()
        self.answers("done", "Registration: 1003 Bau Ost", focus="register-start")
        self.assertTrue(self.browser.is_shown("#form-register"))
        self.assertEqual(self.value("register-name"), "Bau West")

    def test_a_view_that_cannot_be_shown(self):
        """It is told there, and not above another view that is shown by now."""
        for path, late, other in (("firms/1099", "firm/1099", "worker/7"), ("firms/1098", "firm/1098", "log"),
                                  ("payouts/9", "morning", "firm/1001"), ("suspense/0", "morning", "new")):
            self.browser.run("location.hash = '#/firm'")
            self.browser.wait_for_view("firm")
            self.browser.run("globalThis.isHeld = globalThis.isRead = false")
            self.hold(f"/api/{path}")
            if path == "suspense/0":
                self.close_office()
            self.browser.run("location.hash = arguments[0]", f"#/{late}")
            if path == "payouts/9":
                self.browser.wait_for_view("morning")
                self.browser.type("#find-payouts-number", "9")
                self.browser.click("#find-payouts-show")
            self.browser.wait(lambda: self.browser.run("return globalThis.isHeld"), path)
            self.browser.run("location.hash = arguments[0]", f"#/{other}")
            self.browser.wait_for_view(other)
            self.let_go()
            self.assertFalse(self.browser.is_shown("#fault"), (path, self.browser.text("#fault")))
        self.go("morning")
        self.browser.wait_for_text("#fault", "The office isn't there")

    def test_another_request_by_the_second_click(self):
        """The request that the clerk has looked for is dropped, and no other one."""
        self.open_firm("1001")
        self.close_office()
        self.claim("7", "10.00")
        self.answers("no answer")
        number = int(self.browser.one("#pending").get_attribute("data-number"))
        # The log is asked for, which comes when the second click is asked for.
        self.browser.run("""const real = globalThis.fetch;
            const held = new Promise((resolve) => { globalThis.letGo = resolve; });
            globalThis.fetch = async (...told) => {
              await (told[0] === "/api/log" ? held : null);
              return real(...told);
            };
            location.hash = "#/log";""")
        self.browser.wait(lambda: self.browser.is_shown("#loading"), "the log is asked for")
        self.browser.click("#pending-give-up")
        self.browser.wait(lambda: self.browser.is_shown("#confirm"), "the second click")
        # In another window the request is settled, and the next one has no answer.
        self.come_back()
        self.does({"claim": 1}, self.post("/api/pending/send-again", "send-again", {"number": number}), "repeated")
        self.close_office()
        self.assertEqual(self.report("2024-02", "7,100000\n")[1]["entry"]["outcome"], "lost")
        self.browser.run("letGo()")
        self.browser.wait(lambda: self.value_of_pending() == str(number + 1), "the next request")
        self.browser.click("#confirm-yes")
        self.browser.wait_for_text("#answer", "This request has its answer by now.")
        self.assertNotIn("given-up", [it[1] for it in self.logged()])

    def value_of_pending(self):
        return self.browser.one("#pending").get_attribute("data-number")


class Unanswered(Hurry):
    """The desk's answer is lost on its way to the page, as where the machine slept."""

    def test_a_claim_that_was_done(self):
        self.open_firm("1001")
        self.lose_the_answer("/api/commands/claim")
        self.claim("7", "10.00")
        self.answers("it isn't known whether this was done", "into the log, and only then do it again")
        # Another window makes another one.
        self.does({"claim": 2}, self.command("claim", employer="1001", worker="7", amount="33"))
        self.browser.click("#claim-send")
        self.browser.wait(lambda: self.browser.is_shown("#confirm"), "the second click")
        for text in ("The last try has no answer", "done · Claim: 1001, worker 7: €10.00"):
            self.assertIn(text, self.browser.text("#confirm"))
        self.browser.click("#confirm-no")
        self.assertEqual(self.worker("7").count("claim"), 2)
        # Where it is meant, it is sent, and the form is as any other then.
        self.browser.click("#claim-send")
        self.confirm("It may have been done")
        self.browser.wait_for_text("#answer", "The claim has the number 3.")
        self.browser.wait(lambda: self.browser.is_shown("#firm-shown"), "the firm, which is shown anew")
        self.claim("7", "5.00")
        self.browser.wait_for_text("#answer", "The claim has the number 4.")

    def test_a_claim_that_the_next_desk_still_has(self):
        """Its form is empty once it is settled, though the page never knew its number."""
        self.open_firm("1001")
        self.close_office()
        self.lose_the_answer("/api/commands/claim")
        self.claim("7", "10.00")
        self.answers("it isn't known whether this was done")
        self.come_back()
        self.go("log")
        self.browser.wait(lambda: self.browser.is_shown("#pending"), "the request without an answer")
        self.browser.click("#pending-send-again")
        self.browser.wait_for_text("#answer", "The claim has the number 1.")
        self.assertEqual((self.value("claim-worker"), self.value("claim-amount")), ("", ""))
        # It is known what became of it, so the next one is sent as any other.
        self.open_firm("1001")
        self.claim("7", "5.00")
        self.browser.wait_for_text("#answer", "The claim has the number 2.")

    def test_what_wants_a_second_click(self):
        """Before it nothing is sent, so a desk that isn't there has done nothing. Behind it that isn't known."""
        self.kill_desk()
        self.browser.click("#reminders-make")
        self.answers("The desk isn't there. Look at the window in which it was started.")
        self.assertNotIn("known", self.browser.text("#answer"))
        self.desk = self.start_desk(self.server.port, "--port", str(self.port), first="202404301101")
        self.browser.click("#reminders-make")
        self.browser.wait_for_text("#answer", "The desk was started anew, and nothing was sent.")
        self.browser.click("#reminders-make")
        self.browser.wait_for_text("#confirm", "A run can't be taken back")
        self.lose_the_answer("/api/commands/reminders")
        self.browser.click("#confirm-yes")
        self.answers("it isn't known whether this was done")

    def test_a_desk_that_is_not_there(self):
        """It is asked for the office's day first, so what it never got wasn't done."""
        self.open_firm("1001")
        self.kill_desk()
        self.claim("7", "10.00")
        self.answers("The desk isn't there. Look at the window in which it was started.")
        self.assertNotIn("known", self.browser.text("#answer"))
        self.desk = self.start_desk(self.server.port, "--port", str(self.port), first="202404301101")
        self.browser.click("#claim-send")
        self.browser.wait_for_text("#answer", "The desk was started anew, and nothing was sent.")
        self.browser.click("#claim-send")
        self.browser.wait_for_text("#answer", "The claim has the number 1.")


class TwoWindows(Hurry):
    """Two windows with one desk."""

    def lose_a_claim(self):
        """A claim that has no answer, in this window."""
        self.open_firm("1001")
        self.close_office()
        self.claim("7", "10.00")
        self.answers("no answer")

    def settle(self):
        """Sends the request again, in another window."""
        self.come_back()
        self.browser.click("#pending-send-again")
        self.browser.wait(lambda: not self.browser.is_shown("#pending"), "an answer")

    def test_a_claim_that_another_window_settles(self):
        """This window says what became of it, and its form is empty before it can be used."""
        self.lose_a_claim()
        with self.another_window():
            self.settle()
            self.answers("sent again, done once", "The claim has the number 1.")
        self.browser.click("#pending-send-again")
        self.browser.wait_for_text("#answer", "sent again, done once · Claim: 1001, worker 7: €10.00")
        self.browser.wait(lambda: not self.browser.is_shown("#pending"), "the forms")
        self.assertEqual((self.value("claim-worker"), self.value("claim-amount")), ("", ""))
        self.assertEqual(self.worker("7").count("claim"), 1)

    def test_the_log_is_asked_before_the_forms_go_on(self):
        self.lose_a_claim()
        with self.another_window():
            self.settle()
        self.hold("/api/log")
        self.go("firm")
        self.open_firm("1001")
        self.assertTrue(self.browser.run("return document.getElementById('form-claim').inert"))
        self.let_go()
        self.answers("sent again, done once")
        self.assertEqual(self.value("claim-worker"), "")
        self.assertFalse(self.browser.run("return document.getElementById('form-claim').inert"))

    def test_what_is_typed_in_the_other_window_stays(self):
        """It is another claim than the one that is settled there."""
        self.open_firm("1001")
        with self.another_window():
            self.open_firm("1001")
            self.type_in("claim", worker="7", amount="33.00")
            self.close_office()
            self.assertEqual(self.command("claim", employer="1001", worker="7", amount="10")[1]["entry"]["outcome"],
                             "lost")
            self.go("log")
            self.settle()
            self.answers("The claim has the number 1.")
            self.assertEqual((self.value("claim-worker"), self.value("claim-amount")), ("7", "33.00"))

    def test_a_claim_that_is_refused_in_another_window(self):
        """It stays in its form, to be mended."""
        self.open_firm("1001")
        self.close_office()
        self.claim("7", "9,999.00")
        self.answers("no answer")
        with self.another_window():
            self.settle()
        self.go("log")
        self.answers("refused", "OverBalance")
        self.assertEqual(self.value("claim-amount"), "9,999.00")

    def test_a_desk_with_a_new_folder(self):
        """It doesn't know the request. The page says so, and doesn't say that it has its answer."""
        self.lose_a_claim()
        self.kill_desk()
        self.desk = self.start_desk(self.server.port, "--port", str(self.port), "--log", "new-log", first="9")
        self.go("log")
        self.answers("the log doesn't have it. Look whether it was done")
        self.assertFalse(self.browser.is_shown("#pending"))
        self.assertEqual(self.value("claim-worker"), "")

    def test_a_dialog_where_the_forms_stop(self):
        """It can be left by its button."""
        self.open_the_payment()
        self.close_office()
        self.assertEqual(self.report("2024-02", "7,100000\n")[1]["entry"]["outcome"], "lost")
        self.browser.click("#assign-send")
        self.browser.wait_for_text("#assign-dialog", "nobody answers on 127.0.0.1")
        self.browser.click("#assign-cancel")
        self.browser.wait(lambda: not self.browser.is_shown("#assign-dialog"), "the page")
        self.assertTrue(self.browser.is_shown("#pending"))


if __name__ == "__main__":
    run_tests()
