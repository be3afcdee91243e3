"""The office's day on the desk's page: what is told of it before something is sent, and an office that is slow to say
it. And where an answer comes late: what is said of the request, and who has the keyboard.

    python3 tests/desk_days.py [PROGRAM]

It needs what tests/desk_browser.py needs, and is left out where that is missing. What is expected is worked
out from docs/rules.md by hand.
"""

import sys
import threading
import time

# No __pycache__ is left beside the sources.
sys.dont_write_bytecode = True
import desk_hurry  # noqa: E402
from browser import what_is_missing  # noqa: E402
from desk_browser import CLOCK, setUpModule  # noqa: E402, F401
from desk_mishaps import MadeAnswers  # noqa: E402
from desk_under_test import BANK_HEADER, FakeOffice, answer_bytes  # noqa: E402
from program_under_test import run_tests  # noqa: E402

if not what_is_missing():
    from selenium.webdriver.common.keys import Keys

SUSPENSE = b"suspense 2024-04-30\nlines 0 total 0.00\n"
STATEMENT = (b"statement 1001 2024-04-30\nname Bau Nord\nmember 2024-01 -\nprepaid           0.00\narrears           0.00\n"
             b"interest          0.00\n")


class OtherDays(desk_hurry.Hurry):
    """An office that is started anew for a day that nobody was told of."""

    def start_anew(self, day):
        self.close_office()
        self.open_office(day, self.server.port)

    def double_click(self, selector):
        """Its second half comes as soon as the first one was answered, by the page itself: a driver may take too long."""
        self.browser.driver.execute_async_script("""
            const [selector, done] = arguments;
            const button = document.querySelector(selector);
            button.scrollIntoView();
            const { left, top, width, height } = button.getBoundingClientRect();
            const click = () => document.elementFromPoint(left + width / 2, top + height / 2).click();
            click();
            const watch = setInterval(() => {
                if (document.querySelector("main").innerText.includes("Nothing was sent.")) {
                    clearInterval(watch);
                    click();
                    done();
                }
            }, 10);""", selector)

    def test_a_double_click_sends_nothing_on_such_a_day(self):
        """The button to send a request again stays under the mouse as the day is told."""
        self.open_firm("1001")
        self.close_office()
        self.claim("7", "10.00")
        self.answers("no answer")
        self.open_office("2025-04-30", self.server.port)
        self.double_click("#pending-send-again")
        self.browser.driver.execute_async_script("setTimeout(arguments[0], 1000)")
        self.answers("The office works on 30 Apr 2025", "Nothing was sent.")
        self.assertTrue(self.browser.is_shown("#pending"))
        self.assertNotIn("claim", self.worker("7"))
        # Whoever has read it may go on.
        self.browser.click("#pending-send-again")
        self.browser.wait_for_text("#answer", "The claim has the number 1.")

    def test_such_a_day_once_more(self):
        """In between the office was started for today, so whoever was told once takes it for mended."""
        self.start_anew("2025-04-30")
        self.browser.driver.get("about:blank")
        self.browser.open(self.address + "?lang=en#/new", "new")
        self.type_in("register", employer="1003", name="Bau Ost", start="2024-04")
        self.browser.click("#register-send")
        self.answers("The office works on 30 Apr 2025", "Nothing was sent.")
        self.start_anew("2024-04-30")
        self.browser.click("#register-send")
        self.browser.wait(lambda: self.browser.is_shown("#confirm"), "the second click")
        self.browser.click("#confirm-no")
        self.start_anew("2025-04-30")
        self.browser.click("#register-send")
        self.answers("The office works on 30 Apr 2025", "Nothing was sent.")

    def test_a_view_that_was_left_before_it_told_the_day(self):
        self.start_anew("2025-04-30")
        self.go("log")
        self.hold("/api/suspense/0")
        self.browser.click("#nav-morning")
        self.browser.wait(lambda: self.browser.run("return globalThis.isHeld ?? false"), "the answer that is held")
        self.go("new")
        self.let_go()
        self.type_in("register", employer="1003", name="Bau Ost", start="2024-04")
        self.browser.click("#register-send")
        self.answers("The office works on 30 Apr 2025", "Nothing was sent.")

    def test_between_the_two_clicks(self):
        """Each click asks. What was typed stays, and in German it is told in German."""
        self.browser.open(self.address + "?lang=de#/new", "new")
        self.type_in("register", employer="1003", name="Bau Ost", start="2024-04")
        self.browser.click("#register-send")
        self.browser.wait(lambda: self.browser.is_shown("#confirm"), "the second click")
        self.start_anew("2025-04-30")
        self.browser.click("#confirm-yes")
        self.answers("arbeitet mit dem Tag 30.04.2025, und das ist nicht der heutige (30.04.2024)",
                     "Es wurde nichts gesendet.")
        self.assertEqual((self.value("register-employer"), self.value("register-name")), ("1003", "Bau Ost"))
        self.assertEqual([it for it in self.logged() if "1003" in it[2]], [])


class Midnight(desk_hurry.Hurry):
    """A page that told the office's day as today's, and stands open when it isn't any more: the first click says so."""

    def pass_midnight(self):
        self.browser.run(CLOCK.replace("DAY", "2024-05-01"))

    def is_told_first(self, button):
        """Nothing is sent by a click, which tells the day. Whoever has read that may go on by another one."""
        self.browser.click(button)
        self.answers("The office works on 30 Apr 2024, and that isn't today (01 May 2024).", "Nothing was sent.")
        self.browser.driver.execute_async_script("setTimeout(arguments[0], 700)")
        self.browser.click(button)

    def test_the_registration(self):
        """Its view tells no day, and that of the morning was told as today's."""
        self.go("new")
        self.pass_midnight()
        self.type_in("register", employer="1003", name="Bau Ost", start="2024-04")
        self.is_told_first("#register-send")
        self.confirm("1003", "Bau Ost")
        self.browser.wait_for_text("#answer", "done · Registration: 1003 Bau Ost")

    def test_the_log(self):
        self.open_firm("1001")
        self.close_office()
        self.claim("7", "10.00")
        self.answers("no answer")
        self.come_back()
        self.go("log")
        self.pass_midnight()
        self.is_told_first("#pending-send-again")
        self.browser.wait_for_text("#answer", "The claim has the number 1.")

    def test_a_firm(self):
        """Its view warns from the first click on, also where the minute hasn't come yet."""
        self.open_firm("1001")
        self.pass_midnight()
        self.assertFalse(self.browser.is_shown("#firm-other-day"))
        self.type_in("claim", worker="7", amount="10.00")
        self.is_told_first("#claim-send")
        self.browser.wait_for_text("#answer", "The claim has the number 1.")
        self.assertIn("that isn't today (01 May 2024)", self.browser.text("#firm-other-day"))

    def test_a_warning_that_nobody_asked_for(self):
        """It may have come over night, with nobody there, or just as the machine has woken up."""
        told = {"source": "globalThis.setInterval = (act) => { globalThis.nextMinute = act; };"}
        script = self.browser.driver.execute_cdp_cmd("Page.addScriptToEvaluateOnNewDocument", told)
        self.browser.driver.get("about:blank")
        self.browser.open(self.address + "?lang=en")
        self.browser.driver.execute_cdp_cmd("Page.removeScriptToEvaluateOnNewDocument", script)
        self.pass_midnight()
        self.browser.run("nextMinute()")
        self.assertTrue(self.browser.is_shown("#morning-other-day"))
        self.is_told_first("#reminders-make")
        self.confirm("A run can't be taken back")
        self.browser.wait_for_text("#answer", "Run 1. Firms reminded: 1.")


class SlowToSay(FakeOffice):
    """An office that takes so many seconds for its day and for a command, each beside the others."""

    seconds = (0, 0)

    def take(self, peer):
        threading.Thread(target=super().take, args=[peer], daemon=True).start()

    @property
    def key_answer(self):
        time.sleep(self.seconds[0])
        return self.its_answer

    @key_answer.setter
    def key_answer(self, answer):
        self.its_answer = answer


class SlowDays(MadeAnswers):
    """A busy office."""

    def answer(self, request):
        if request.startswith(b"POST"):
            time.sleep(self.office.seconds[1])
            if not self.may_answer.wait(60) or self.is_lost:
                return None
            return answer_bytes(200, {"claim": len(self.claims())})
        return answer_bytes(200, STATEMENT if b"/employers" in request[:20] else SUSPENSE, "text/plain")

    def claims(self):
        return [it for it in self.office.requests if it.startswith(b"POST /employers/1001/claims ")]

    def open_page(self):
        self.kill_desk()
        self.may_answer = threading.Event()
        self.may_answer.set()
        self.is_lost = False
        self.office = SlowToSay(self, self.answer)
        self.open_desk(self.office.port, "--log", "made-log")
        self.does({"claim": 1}, self.command("claim", employer="1001", worker="7", amount="1"))
        self.address = f"http://127.0.0.1:{self.port}/"
        self.browser.open(self.address + "?lang=en#/firm/1001", "firm/1001")
        self.browser.requested()
        self.addCleanup(setattr, self.office, "seconds", (0, 0))

    def claim_slowly(self, seconds):
        """Sends a claim, of which it is watched whether a request without an answer is told meanwhile."""
        self.browser.run("""globalThis.isTold = false;
            new MutationObserver(() => { isTold ||= !document.getElementById("pending").hidden; })
              .observe(document.getElementById("pending"), { attributes: true });""")
        self.office.seconds = seconds
        self.type_in("claim", worker="7", amount="10.00")
        self.browser.click("#claim-send")

    def is_done(self, number):
        self.answers("done", "€10.00", f"The claim has the number {number}.")
        self.assertEqual(len(self.claims()), number)
        self.assertFalse(self.browser.run("return isTold"))

    def test_longer_than_it_is_waited_for(self):
        """The claim isn't told as one without an answer while it is being sent, and the forms don't stop."""
        self.open_page()
        self.claim_slowly((4, 1))
        self.is_done(2)

    def test_not_so_long(self):
        self.open_page()
        self.claim_slowly((2, 0))
        self.is_done(2)

    def test_while_another_window_sends_something(self):
        """That isn't told as without an answer either, nor does its answer stand in the place of this one's."""
        self.open_page()
        self.office.seconds = (0, 2)
        other = threading.Thread(target=self.command, args=["claim"],
                                 kwargs={"employer": "1001", "worker": "8", "amount": "33"})
        other.start()
        self.wait_for(lambda: len(self.claims()) == 2)
        self.claim_slowly((0, 1))
        self.browser.wait(lambda: self.browser.is_shown("#answer"), "an answer")
        other.join()
        self.browser.driver.execute_async_script("setTimeout(arguments[0], 1000)")
        self.is_done(3)

    def claim_and_wait(self):
        """A claim that the office has, and doesn't answer yet."""
        self.open_page()
        self.may_answer.clear()
        self.addCleanup(self.may_answer.set)
        self.claim_slowly((0, 0))
        self.wait_for(lambda: len(self.claims()) == 2)

    def is_under_way(self):
        self.browser.wait_for_text("#pending", "A request is being sent")
        self.assertIn("Claim: 1001, worker 7: €10.00", self.browser.text("#pending"))
        self.assertFalse(self.browser.is_shown("#pending-send-again"))
        self.assertFalse(self.browser.is_shown("#pending-give-up"))

    def is_over(self):
        """It is told what became of the claim, without a click, and the forms go on."""
        self.browser.wait_for_text("#answer", "done · Claim: 1001, worker 7: €10.00")
        self.browser.wait_for_text("#answer", "The claim has the number 2.")
        self.browser.wait(lambda: not self.browser.is_shown("#pending"), "the forms")
        self.assertFalse(self.browser.run("return document.getElementById('form-claim').inert"))
        self.assertEqual(len(self.claims()), 2)

    def test_another_view_meanwhile(self):
        """The claim is told as one that is being sent."""
        for view in ("morning", "log"):
            self.claim_and_wait()
            self.go(view)
            self.is_under_way()
            self.browser.click("#language-de")
            self.browser.wait_for_text("#pending", "Ein Vorgang wird gesendet")
            self.browser.click("#language-en")
            self.may_answer.set()
            self.is_over()

    def test_a_page_that_is_loaded_anew_meanwhile(self):
        self.claim_and_wait()
        self.browser.driver.refresh()
        self.is_under_way()
        self.may_answer.set()
        self.is_over()
        self.go("log")
        self.assertEqual(self.browser.one("#log-table tbody tr").get_attribute("data-outcome"), "done")

    def test_a_page_that_is_loaded_anew_and_no_answer(self):
        """Now it stands there as a request without an answer."""
        self.claim_and_wait()
        self.is_lost = True
        self.browser.driver.refresh()
        self.is_under_way()
        self.may_answer.set()
        self.browser.wait_for_text("#pending", "A request without an answer")
        self.is_lost = False
        self.browser.click("#pending-send-again")
        self.browser.wait_for_text("#answer", "sent again, done once")
        self.browser.wait(lambda: not self.browser.is_shown("#pending"), "the forms")

    def test_a_desk_that_is_stopped_meanwhile(self):
        self.claim_and_wait()
        self.browser.driver.refresh()
        self.is_under_way()
        self.kill_desk()
        self.browser.wait_for_text("#fault", "The desk isn't there.")
        self.desk = self.start_desk(self.office.port, "--port", str(self.port), "--log", "made-log")
        self.browser.wait_for_text("#pending", "A request without an answer")
        self.assertTrue(self.browser.is_shown("#pending-send-again"))
        self.browser.wait(lambda: not self.browser.is_shown("#fault"), "no fault")


class Keyboard(desk_hurry.Hurry):
    """Who has gone on to type elsewhere keeps the keyboard."""

    def claim_late(self, amount):
        """A claim whose answer is held back, while the next one is begun: 12 of 1250 is typed."""
        self.open_firm("1001")
        self.hold("/api/commands/claim")
        self.claim("7", amount)
        self.browser.wait(lambda: self.browser.run("return globalThis.isHeld ?? false"), "the answer that is held")
        self.type_in("claim", worker="8", amount="12")

    def is_whole(self):
        self.browser.press("50")
        self.assertEqual((self.value("claim-worker"), self.value("claim-amount")), ("8", "1250"))

    def test_the_next_claim(self):
        """Its amount isn't cut off by the answer of the one before, nor by the firm that is shown anew."""
        self.claim_late("10.00")
        self.browser.run("""globalThis.wasHidden = false;
            new MutationObserver(() => { wasHidden ||= document.getElementById("firm-shown").hidden; })
              .observe(document.getElementById("firm-shown"), { attributes: true });""")
        self.let_go()
        self.browser.wait_for_text("#firm-claims-table", "€10.00")
        self.is_whole()
        self.assertFalse(self.browser.run("return wasHidden"))
        self.answers("done", "worker 7: €10.00", "The claim has the number 1.", focus="claim-amount")

    def test_a_refusal_is_seen(self):
        """The forms stand at the end of a long page."""
        self.claim_late("9,999.00")
        self.let_go()
        self.answers("refused", "rule 25, OverBalance", "The balance is €1,425.00.", focus="claim-amount")
        self.is_whole()
        seen = self.browser.run("""const it = document.getElementById("answer").getBoundingClientRect();
            return [scrollY > 0, it.top >= 0, it.bottom <= innerHeight]""")
        self.assertEqual(seen, [True, True, True])

    def test_the_field_is_seen_too(self):
        """It stands where the answer comes."""
        self.claim_late("9,999.00")
        self.browser.type("#report-month", "2024-0")
        self.browser.run("scrollBy(0, document.getElementById('report-month').getBoundingClientRect().top - 60)")
        self.let_go()
        self.answers("refused", "rule 25, OverBalance", focus="report-month")
        found = self.browser.run("""const it = document.getElementById("report-month").getBoundingClientRect();
            return document.elementFromPoint(it.x + 5, it.y + 5)?.id""")
        self.assertEqual(found, "report-month")

    def test_who_has_not_gone_on(self):
        """The answer has the focus, also where Enter has sent the form, and a second click was given."""
        self.open_firm("1001")
        self.type_in("claim", worker="7", amount="10.00")
        self.browser.press(Keys.ENTER)
        self.answers("done", "The claim has the number 1.")
        self.type_in("withdraw", claim="1")
        self.browser.press(Keys.ENTER)
        self.confirm("A withdrawn claim stays withdrawn")
        self.browser.wait_for_text("#answer", "Withdrawal")
        self.answers("done", "Withdrawal: 1001, claim 1")

    def test_a_firm_that_cannot_be_shown_anew(self):
        """What stands there isn't how it is, so it goes."""
        self.claim_late("10.00")
        self.close_office()
        self.let_go()
        self.browser.wait_for_text("#fault", "The office isn't there")
        self.assertFalse(self.browser.is_shown("#firm-shown"))
        self.assertIn("The claim has the number 1.", self.browser.text("#answer"))
        # What was typed is there again with the firm.
        self.come_back()
        self.opens_it_now()
        self.assertEqual((self.value("claim-worker"), self.value("claim-amount")), ("8", "12"))

    def test_a_firm_that_is_opened_again(self):
        """What was shown before isn't shown for what it is now."""
        self.open_firm("1001")
        self.go("morning")
        self.hold("/api/firms/1001")
        self.browser.click("#find-firm-open")
        self.browser.wait(lambda: self.browser.run("return globalThis.isHeld ?? false"), "the answer that is held")
        self.assertFalse(self.browser.is_shown("#firm-shown"))
        self.let_go()
        self.browser.wait(lambda: self.browser.is_shown("#firm-shown"), "the firm")

    def test_a_run_that_is_made_meanwhile(self):
        self.browser.click("#reminders-make")
        self.browser.wait(lambda: self.browser.is_shown("#confirm"), "the second click")
        self.hold("/api/commands/reminders")
        self.browser.click("#confirm-yes")
        self.browser.type("#release-claim", "1")
        self.let_go()
        self.browser.wait(lambda: self.browser.is_shown("#reminders-table"), "the run")
        self.browser.press("2")
        self.assertEqual(self.value("release-claim"), "12")

    def test_the_next_worker(self):
        """The number isn't typed over by that of the worker who is shown anew."""
        self.does({"claim": 1}, self.command("claim", employer="1001", worker="7", amount="10"))
        self.browser.open(self.address + "?lang=en#/worker/7", "worker/7")
        self.browser.click("#worker-claims-table .withdraw[data-claim='1']")
        self.browser.wait(lambda: self.browser.is_shown("#confirm"), "the second click")
        self.hold("/api/commands/withdraw")
        self.browser.click("#confirm-yes")
        self.browser.type("#find-worker-number", "12")
        self.let_go()
        self.browser.wait_for_text("#worker-claims", "There is no claim for the worker.")
        self.browser.press("3")
        self.assertEqual(self.value("find-worker-number"), "123")

    def test_a_field_that_is_found_wrong_late(self):
        """A busy office is waited for first."""
        self.open_firm("1001")
        self.hold("/api/workers/999999999")
        self.claim("7", "1,0")
        self.browser.wait(lambda: self.browser.run("return globalThis.isHeld ?? false"), "the office's day")
        self.type_in("withdraw", claim="1")
        self.let_go()
        self.browser.wait_for_text("#form-claim .field-fault", "An amount is written")
        self.browser.press("2")
        self.assertEqual((self.value("withdraw-claim"), self.value("claim-amount")), ("12", "1,0"))

    def test_a_page_that_comes_late(self):
        lines = "".join(f"P{it},2024-02-10,,1000,C,\n" for it in range(1, 202))
        self.does({"new": 201, "repeats": 0}, self.bank(BANK_HEADER + lines))
        self.browser.open(self.address + "?lang=en")
        self.browser.wait_for_text("#suspense-lines", "Lines 1 to 200 of 201")
        self.hold("/api/suspense/200")
        self.browser.click("#suspense-later")
        self.browser.type("#release-claim", "1")
        self.let_go()
        self.browser.wait_for_text("#suspense-lines", "Lines 201 to 201 of 201")
        self.browser.press("2")
        self.assertEqual(self.value("release-claim"), "12")


class Claims(desk_hurry.Hurry):
    """What is said of a claim beside the second click."""

    def test_an_office_that_does_not_say(self):
        """The claim is known here, and nobody has said that it isn't open any more."""
        self.does({"claim": 1}, self.command("claim", employer="1001", worker="7", amount="10"))
        self.open_firm("1001")
        self.close_office()
        self.browser.click("#firm-claims-table .release[data-claim='1']")
        self.browser.wait(lambda: self.browser.is_shown("#confirm"), "the second click")
        self.assertIn("not to be learnt now: firm, worker and amount", self.browser.text("#confirm"))
        self.browser.click("#confirm-no")

    def test_a_last_try_that_was_refused(self):
        """Once that is known, the claim is mended and sent as any other."""
        self.open_firm("1001")
        self.close_office()
        self.lose_the_answer("/api/commands/claim")
        self.claim("7", "9,999.00")
        self.answers("it isn't known whether this was done")
        self.come_back()
        self.open_firm("1001")
        self.browser.click("#pending-send-again")
        self.browser.wait_for_text("#answer", "rule 25, OverBalance")
        self.browser.wait(lambda: self.value("claim-amount") == "9,999.00", "the claim")
        self.browser.type("#claim-amount", "9.00")
        self.browser.click("#claim-send")
        self.browser.wait_for_text("#answer", "The claim has the number 1.")


if __name__ == "__main__":
    run_tests()
