"""What the desk's page tells of an office that has failed, has no memory or isn't there, and that this ends with what it
was told of.

    python3 tests/desk_faults.py [PROGRAM]

It needs what tests/desk_browser.py needs, and is left out where that is missing. What is expected is worked
out from docs/rules.md by hand.
"""

import sys

# No __pycache__ is left beside the sources.
sys.dont_write_bytecode = True
import desk_mishaps  # noqa: E402
from desk_browser import setUpModule  # noqa: E402, F401
from desk_under_test import BANK_HEADER, FakeOffice, answer_bytes  # noqa: E402
from program_under_test import run_tests  # noqa: E402


class Stopped(desk_mishaps.MadeAnswers):
    """Records that failed, and are there again."""

    def answer(self, request):
        if not self.heals:
            return answer_bytes(500, {"rule": 41, "name": "Store", "detail": "Other"})
        suspense = b"suspense 2024-04-30\nlines 0\ntotal           0.00\n"
        return answer_bytes(200, suspense, "text/plain; charset=utf-8")

    def test_the_office_is_asked_again_from_views_that_do_not_ask_it(self):
        for view in ("new", "log", "firm", "worker"):
            self.heals = False
            self.open_page(self.answer)
            self.browser.wait(lambda: self.browser.is_shown("#stopped"), "what stops the forms")
            self.go(view)
            self.assertTrue(self.browser.is_shown("#stopped"), view)
            self.heals = True
            self.browser.click("#stopped-again")
            self.browser.wait(lambda: not self.browser.is_shown("#stopped"), view)

    def test_a_command_that_is_not_decided(self):
        """It may stand in the records all the same, so nothing says that it was refused."""
        self.heals = True
        self.open_page(self.answer)
        self.go("new")
        self.heals = False
        self.type_in("register", employer="1003", name="Bau Ost", start="2024-04")
        self.browser.click("#register-send")
        self.confirm("Bau Ost")
        self.answers("not decided", "The office has failed: rule 41, Store")
        self.assertEqual(self.browser.text("#stopped-rule"), "The office has failed: rule 41, Store")
        self.assertNotIn("efused", self.browser.text("main"))
        # Where the office answers again, the keyboard goes on below what is gone.
        self.heals = True
        self.browser.click("#stopped-again")
        self.browser.wait(lambda: self.browser.focus() == "main", "the focus")
        self.assertTrue(self.browser.is_shown("#pending"))

    def test_an_answer_from_before_that_comes_late(self):
        """It doesn't take away what a later one has said."""
        self.heals = True
        self.open_page(self.answer)
        self.browser.run(desk_mishaps.Late.HOLD, "/api/log")
        self.browser.run("location.hash = '#/log'")
        self.browser.wait(lambda: self.browser.run("return globalThis.isHeld ?? false"), "the answer that is held")
        self.heals = False
        self.browser.run("location.hash = '#/morning'")
        self.browser.wait(lambda: self.browser.is_shown("#stopped"), "what stops the forms")
        self.browser.run("letGo()")
        self.browser.wait(lambda: self.browser.run("return globalThis.isRead ?? false"), "the answer that comes late")
        self.assertTrue(self.browser.is_shown("#stopped"))

    def test_an_office_that_is_off_by_then(self):
        """That is told beside what stops the forms: *Ask the office again* alone doesn't help."""
        self.heals = False
        self.open_page(self.answer)
        self.browser.wait(lambda: self.browser.is_shown("#stopped"), "what stops the forms")
        self.assertFalse(self.browser.is_shown("#fault"))
        self.office.end()
        self.browser.click("#stopped-again")
        self.browser.wait_for_text("#fault", "The office isn't there: nobody answers on 127.0.0.1")
        self.assertTrue(self.browser.is_shown("#stopped"))
        self.heals = True
        FakeOffice(self, self.answer, self.office.port)
        self.browser.click("#stopped-again")
        self.browser.wait(lambda: not self.browser.is_shown("#stopped"), "the office")
        self.browser.wait(lambda: not self.browser.is_shown("#fault"), "the office")


class OwnWords(desk_mishaps.MadeAnswers):
    """Refusals by which a clerk goes on in another way at the page than by commands."""

    def refuses_all(self, status, rule, name):
        self.open_page(lambda request: answer_bytes(status, {"rule": rule, "name": name, "detail": ""}))

    def register_firm_for_an_answer(self):
        self.go("new")
        self.type_in("register", employer="1003", name="Bau Ost", start="2024-04")
        self.browser.click("#register-send")
        self.confirm("Bau Ost")

    def test_want_of_memory(self):
        """A question has no number to be sent again under, and of a command nothing is decided yet."""
        self.refuses_all(503, 40, "Memory")
        self.browser.wait(lambda: self.browser.is_shown("#fault"), "a fault")
        self.assertIn("Not answered by the office: rule 40, Memory", self.browser.text("#fault"))
        self.assertIn("close other programs, then ask again", self.browser.text("#fault"))
        self.assertNotIn("number", self.browser.text("#fault"))
        self.register_firm_for_an_answer()
        self.answers("not decided", "Not decided by the office: rule 40, Memory", "send it again from above")
        self.assertNotIn("efused", self.browser.text("main"))
        self.assertTrue(self.browser.is_shown("#pending"))

    def test_a_number_that_was_taken(self):
        """The desk chooses it, and not the clerk."""
        self.refuses_all(409, 9, "NumberReused")
        self.register_firm_for_an_answer()
        self.answers("refused", "rule 9, NumberReused", "Then do this again: the desk takes the next number by itself")
        self.assertNotIn("take the next number", self.browser.text("#answer"))
        first = self.lines("../made-log/numbers.jsonl")[-1]["number"]
        self.browser.click("#register-send")
        self.confirm("Bau Ost")
        self.browser.wait_for_text("#answer", f"Request number {first + 1}")


class Over(desk_mishaps.Mishaps):
    """A fault that is over isn't told any more."""

    def is_over(self, shown):
        self.browser.wait(lambda: self.browser.is_shown(shown), shown)
        self.browser.wait(lambda: not self.browser.is_shown("#fault"), "no fault")

    def test_a_worker_who_is_asked_for_again(self):
        self.browser.open(self.address + "?lang=en#/worker/7", "worker/7")
        self.close_office()
        self.browser.click("#find-worker-show")
        self.browser.wait_for_text("#fault", "The office isn't there")
        self.come_back()
        self.browser.click("#find-worker-show")
        self.is_over("#worker-balance")

    def test_a_view_is_asked_again_by_its_link(self):
        """The browser goes nowhere by it."""
        self.go("log")
        self.close_office()
        self.go("morning")
        self.browser.wait_for_text("#fault", "The office isn't there")
        self.come_back()
        self.browser.click("#nav-morning")
        self.is_over("#suspense")
        self.assertEqual(self.browser.text("#morning-day"), "The office works on 30 Apr 2024.")

    def test_what_is_done_in_the_view(self):
        """The view is shown behind it."""
        self.go("log")
        self.close_office()
        self.go("morning")
        self.browser.wait_for_text("#fault", "The office isn't there")
        self.come_back()
        self.import_bank_file(BANK_HEADER + "B1,2024-02-25,1001,150000,C,\n",
                              "1 line, 0 repeats within the file, 0 without a firm, 1500.00 in all", "New: 1")
        self.is_over("#suspense")

    def test_one_refusal_at_a_time(self):
        """That of a list from before isn't taken for one of the claim."""
        self.browser.type("#find-payouts-number", "99")
        self.browser.click("#find-payouts-show")
        self.browser.wait_for_text("#fault", "rule 33, UnknownDocument")
        self.type_in("release", claim="1")
        self.browser.click("#release-send")
        self.confirm("A release is for good")
        self.answers("refused", "rule 26, UnknownClaim")
        self.is_over("#suspense")

    def test_a_firm_that_is_shown_anew(self):
        self.open_firm("1001")
        self.close_office()
        self.browser.click("#find-firm-open")
        self.browser.wait_for_text("#fault", "The office isn't there")
        self.come_back()
        self.opens_it_now()
        self.is_over("#firm-shown")


if __name__ == "__main__":
    run_tests()
