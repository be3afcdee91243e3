"""What the desk's page tells in a browser where the desk's folder, the office's port or its key isn't as it
should be.

    python3 tests/desk_told.py [PROGRAM]

PROGRAM is crates/clear_app/out/clear_app where it isn't given, as `rt ci` leaves it. It needs what
tests/desk_browser.py needs, and is left out where that is.
"""

import resource
import sys
import unittest

# No __pycache__ is left beside the sources.
sys.dont_write_bytecode = True
from browser import what_is_missing  # noqa: E402
from desk_browser import InBrowser  # noqa: E402
from desk_safety import as_another  # noqa: E402
from desk_under_test import DONE, FakeOffice, answer_bytes  # noqa: E402
from program_under_test import NOBODY, run_tests  # noqa: E402

# Of a claim, where the desk can't say more.
UNKNOWN = "Not known at this desk, not open any more, or not to be learnt now: firm, worker and amount"


def setUpModule():
    if missing := what_is_missing():
        raise unittest.SkipTest(missing)


class Told(InBrowser):
    def register_by_the_page(self):
        self.go("new")
        self.type_in("register", employer="1003", name="Bau Ost", start="2024-04")
        self.browser.click("#register-send")
        self.confirm("1003", "Bau Ost")

    def test_a_log_that_takes_no_more(self):
        """The registration is done, and the page says so."""
        for _ in range(5):
            # These entries make the log the longest of the desk's files, and none gets longer from now on.
            self.refuses(11, "UnknownEmployer", "", self.command("withdraw", employer="1001", claim="1"))
        size = (self.log_folder / "log.jsonl").stat().st_size
        resource.prlimit(self.desk.pid, resource.RLIMIT_FSIZE, (size, resource.RLIM_INFINITY))
        self.register_by_the_page()
        self.answers("! done, but the desk can't write it into its log", "Registration: 1003 Bau Ost")
        self.assertFalse(self.browser.is_shown("#pending"))
        # What was done opens the firm's page, written down or not.
        self.browser.wait_for_text("#firm-title", "1003 · Bau Ost")

    def test_a_key_that_is_not_taken_any_more(self):
        """The page says so, and keeps the request on top."""
        self.close_office()
        self.register_by_the_page()
        self.answers("no answer", "nobody answers on 127.0.0.1")
        self.write("callers.toml", "new = 0\n")
        self.open_office(port=self.server.port)
        self.browser.click("#pending-send-again")
        self.browser.wait_for_text("#answer", "not decided")
        self.answers("Refused by rule 6, UnknownKey", "the key is missing, given twice or nobody's",
                     "the request stands above with its number")
        self.assertIn("Registration: 1003 Bau Ost", self.browser.text("#pending-what"))

    @unittest.skipUnless(NOBODY, "only root can be another user")
    def test_another_user_on_the_offices_port(self):
        self.close_office()
        with as_another(NOBODY - 1):
            stranger = FakeOffice(self, lambda request: answer_bytes(200, DONE), self.server.port)
        self.register_by_the_page()
        self.answers("no answer", "Another user of this machine listens on the office's port, "
                                  f"127.0.0.1:{stranger.port}, and nothing was sent there.")
        self.assertEqual(set(stranger.requests), {b""})

    def test_a_claim_that_the_desk_does_not_know(self):
        self.go("morning")
        self.type_in("release", claim="9")
        self.browser.click("#release-send")
        self.confirm("A release is for good", UNKNOWN)
        self.answers("refused", "rule 26, UnknownClaim")

    def send_as_the_firm(self, path, body=b""):
        """What the office answers to the firm's own command."""
        head = (f"POST /employers/1001/claims{path} HTTP/1.1\r\nHost: fund\r\nOffice-Key: k1001\r\n"
                f"Request-Number: 1\r\nContent-Length: {len(body)}\r\n\r\n")
        return self.send(self.server, head.encode() + body)

    def facts_to_withdraw(self, *told):
        """What stands beside the second click that withdraws a claim, which isn't given; this is told above."""
        self.browser.wait(lambda: self.browser.is_shown("#confirm"), "the second click")
        for text in told:
            self.assertIn(text, self.browser.text("#confirm"))
        facts = self.browser.run("""return [...document.querySelectorAll("#confirm-facts div")]
            .map((it) => [...it.children].map((part) => part.textContent))""")
        self.browser.click("#confirm-no")
        return facts

    def test_a_claim_that_is_to_be_withdrawn(self):
        self.does(DONE, self.register())
        self.report("2024-01", "7,1000000\n")
        self.does({"claim": 1}, self.command("claim", employer="1001", worker="7", amount="10,00"))
        self.assertIn(b'{"claim":2}', self.send_as_the_firm("", b'{"cents":2500,"worker":7}'))
        one = [["Number of the firm", "1001"], ["Number of the claim", "1"], ["Number of the worker", "7"],
               ["Amount", "€10.00"]]
        warned = ("This can't be taken back", "A withdrawn claim stays withdrawn", "Withdraw for good")
        self.open_firm("1001")
        self.browser.click("#firm-claims-table .withdraw[data-claim='1']")
        self.assertEqual(self.facts_to_withdraw(*warned), one)
        self.type_in("withdraw", claim="2")
        self.browser.click("#withdraw-send")
        facts = self.facts_to_withdraw(UNKNOWN)
        self.assertEqual(facts[:2], [one[0], ["Number of the claim", "2"]])
        # The office's own rows tell what this desk doesn't know.
        self.browser.open(self.address + "?lang=en#/worker/7", "worker/7")
        for claim, amount in (("1", "€10.00"), ("2", "€25.00")):
            self.browser.click(f"#worker-claims-table .withdraw[data-claim='{claim}']")
            self.assertEqual(self.facts_to_withdraw(*warned),
                             [one[0], ["Number of the claim", claim], one[2], ["Amount", amount]])
        self.assertEqual([it for it in self.logged() if it[2].startswith("withdraw")], [])

    def test_a_claim_that_the_firm_has_withdrawn_itself(self):
        """The desk doesn't know of it, and the page doesn't say that the claim stands as it was left here."""
        self.does(DONE, self.register())
        self.report("2024-01", "7,1000000\n")
        self.does({"claim": 1}, self.command("claim", employer="1001", worker="7", amount="10,00"))
        self.assertIn(b'{"done":true}', self.send_as_the_firm("/1/withdraw"))
        self.open_firm("1001")
        self.browser.wait_for_text("#firm-claims-table tbody", "open")
        self.browser.wait_for_text("#firm-claims-table caption", "and what was done with them here")
        # Once the office has said so, the desk knows it too, and a desk that is started anew.
        self.browser.click("#firm-claims-table .release[data-claim='1']")
        self.confirm("A release is for good", UNKNOWN)
        self.answers("refused", "rule 27, ClaimNotOpen")
        self.browser.wait_for_text("#firm-claims-table tbody", "not open any more")
        self.assertEqual(self.browser.all("#firm-claims-table button"), [])
        self.kill_desk()
        self.start_desk(self.server.port, "--port", str(self.port), first="202404301101")
        self.assertEqual(self.get("/api/firms/1001")[1]["claims"][0]["state"], "over")
        self.browser.open(self.address + "#/worker/7", "worker/7")
        self.browser.wait_for_text("#worker-claims", "There is no claim for the worker.")

    def test_a_name_that_turns_the_direction_of_writing(self):
        self.go("new")
        self.type_in("register", employer="1003", name="Bau \u202eOst", start="2024-04")
        self.browser.click("#register-send")
        self.browser.wait_for_text("#form-register .field-fault", "no control signs, as those that turn the direction")
        self.assertEqual(self.browser.focus(), "register-name")


if __name__ == "__main__":
    run_tests()
