"""What the desk (tools/desk) does where an answer of the office is lost, and where what answers has failed or is none.

    python3 tests/desk_answers.py [PROGRAM]

PROGRAM is crates/clear_app/out/clear_app where it isn't given, as `rt ci` leaves it.
"""

import json
import socket
import sys
import threading

# No __pycache__ is left beside the sources.
sys.dont_write_bytecode = True
from desk_under_test import DONE, DeskUnderTest, FakeOffice, answer_bytes, free_port, read_message  # noqa: E402
from program_under_test import ROOT, run_tests  # noqa: E402

sys.path.append(str(ROOT / "tools"))
from desk_server.commands import command  # noqa: E402
from desk_server.desk import Desk  # noqa: E402
from desk_server.journal import Journal  # noqa: E402
from desk_server.office import Office  # noqa: E402

EMPTY_SUSPENSE = b"suspense 2024-04-30\nlines 0\ntotal           0.00\n"
STORE_FAILED = {"rule": 41, "name": "Store", "detail": "Other"}
FAILED = {"rule": 42, "name": "Failed", "detail": ""}
NO_MEMORY = {"rule": 40, "name": "Memory", "detail": ""}


class Lost(DeskUnderTest):
    """An answer that doesn't come: the command acts once."""

    def between(self, lost):
        """A proxy in front of the office, which passes requests on and ends so many connections before
        the answer."""
        office = self.open_office()

        def pass_on(request):
            with socket.create_connection(("127.0.0.1", office)) as served:
                served.sendall(request)
                answer = read_message(served)
            return None if len(self.proxy.requests) in lost else answer

        self.proxy = FakeOffice(self, pass_on)
        return self.proxy.port

    def claims(self):
        return [it["claim"] for it in self.get("/api/workers/7")[1]["worker"]["claims"]]

    def test_a_lost_answer(self):
        self.open_desk(self.between((3,)))
        self.does(DONE, self.register())
        self.does({"charge": 200000, "version": 1}, self.report("2024-01", "7,1000000\n"))
        # The office makes the claim, the connection ends, and the desk sends it again: it is the same claim.
        self.does({"claim": 1}, self.command("claim", employer="1001", worker="7", amount="10,00"), "repeated")
        self.assertEqual(self.proxy.requests[2], self.proxy.requests[3])
        self.assertIn(b"\r\nRequest-Number: 3\r\n", self.proxy.requests[2])
        self.assertEqual(self.claims(), [1])
        self.assertEqual(self.logged()[2], (3, "repeated", "claim 1001 7 1000"))
        self.does({"claim": 2}, self.command("claim", employer="1001", worker="7", amount="10,00"))

    def test_an_answer_that_is_cut_off_inside_its_head(self):
        """It is an office's as far as anybody knows, so the same bytes are sent again, and a question asked again."""
        whole = {b"POST": answer_bytes(200, DONE), b"GET ": answer_bytes(200, EMPTY_SUSPENSE, "text/plain")}
        cut = 0
        office = FakeOffice(self, lambda request: whole[request[:4]][:cut if len(office.requests) == 1 else None])
        self.open_desk(office.port)
        # Behind the status, within the fields and their numbers, and before the end of the head.
        for cut in (5, 12, 15, 17, 30, 50, 66, 67, 69, 70):
            office.requests.clear()
            self.does(DONE, self.register(), "repeated")
            self.assertEqual(office.requests, 2 * office.requests[:1], cut)
            office.requests.clear()
            self.assertEqual(self.get("/api/suspense/0")[0], 200, cut)

    def test_answers_that_are_lost_again_and_again(self):
        self.open_desk(self.between((2, 3, 4)))
        self.does(DONE, self.register())
        status, told = self.report("2024-01", "7,1000000\n")
        entry = told["entry"]
        self.assertEqual((status, entry["outcome"], entry["reply"]["reason"]), (502, "lost", "broken"))
        pending = told["state"]["pending"]
        self.assertEqual((pending["number"], pending["kind"]), (2, "report"))
        # Nothing else is sent before.
        self.faults(409, "pending", self.command("claim", employer="1001", worker="7", amount="10,00"))
        self.faults(409, "not-pending", self.post("/api/pending/send-again", "send-again", {"number": 1}))
        told = self.does({"charge": 200000, "version": 1},
                         self.post("/api/pending/send-again", "send-again", {"number": 2}), "repeated")
        self.assertIsNone(told["state"]["pending"])
        self.assertEqual(self.logged()[1:], [(2, "lost", "report 1001 2024-01 1 1000000"),
                                             (2, "repeated", "report 1001 2024-01 1 1000000")])
        self.does({"claim": 1}, self.command("claim", employer="1001", worker="7", amount="10,00"))

    def test_a_request_that_is_under_way(self):
        """The state says so until its answer has come, or until it stays without one."""
        for answer, outcome, pending in ((answer_bytes(200, DONE), "done", None), (None, "lost", False)):
            may_answer, told = threading.Event(), []
            self.addCleanup(may_answer.set)
            office = FakeOffice(self, lambda request: answer if may_answer.wait(60) else None)
            self.open_desk(office.port)
            self.assertIsNone(self.session["state"]["pending"])
            asked = threading.Thread(target=lambda: told.append(self.register()), daemon=True)
            asked.start()
            self.wait_for(lambda: office.requests)
            self.assertIs(self.get("/api/session")[1]["state"]["pending"]["under_way"], True)
            may_answer.set()
            asked.join(60)
            self.assertEqual(told[0][1]["entry"]["outcome"], outcome)
            for state in (told[0][1]["state"], self.get("/api/session")[1]["state"]):
                self.assertIs(state["pending"] and state["pending"]["under_way"], pending)
            self.kill_desk()

    def test_a_crash_between_the_number_and_the_office(self):
        office = free_port()
        self.open_desk(office)
        asked = threading.Thread(target=self.try_to_register, daemon=True)
        asked.start()
        self.wait_for((self.log_folder / "pending.json").exists)
        self.kill_desk()
        asked.join(30)
        self.assertEqual([it["number"] for it in self.lines("numbers.jsonl")], [1])
        self.open_office(port=office)
        self.open_desk(office)
        self.assertEqual(self.session["state"]["pending"]["values"],
                         {"employer": 1001, "name": "Bau Nord", "start": "2024-01"})
        self.assertIn("request 1 (register 1001 Bau Nord 2024-01) has no answer yet", self.desk.stderr.readline())
        self.faults(409, "pending", self.register("1002"))
        self.does(DONE, self.post("/api/pending/send-again", "send-again", {"number": 1}), "repeated")
        self.assertFalse((self.log_folder / "pending.json").exists())
        self.assertEqual(self.get("/api/firms/1001")[1]["statement"]["name"], "Bau Nord")
        # The next one has the next number.
        self.assertEqual(self.register("1002")[1]["entry"]["number"], 2)

    def try_to_register(self):
        try:
            self.register()
        except (OSError, ValueError):
            pass

    def test_a_crash_between_the_office_and_the_log(self):
        office = self.open_office()
        self.open_desk(office)
        self.does(DONE, self.register())
        self.does({"charge": 200000, "version": 1}, self.report("2024-01", "7,1000000\n"))
        self.does({"claim": 1}, self.command("claim", employer="1001", worker="7", amount="10,00"))
        self.kill_desk()
        # The request is written down anew, as if its answer hadn't come, and the log ends before it.
        pending = {"number": 3, "time": "2024-04-30T08:00:00+02:00", "kind": "claim", "method": "POST",
                   "path": "/employers/1001/claims", "values": {"employer": 1001, "worker": 7, "cents": 1000},
                   "body": "eyJjZW50cyI6MTAwMCwid29ya2VyIjo3fQ=="}
        (self.log_folder / "pending.json").write_text(json.dumps(pending))
        lines = (self.log_folder / "log.jsonl").read_text().splitlines(keepends=True)
        (self.log_folder / "log.jsonl").write_text("".join(lines[:2]) + lines[2][:30])
        self.open_desk(office)
        self.does({"claim": 1}, self.post("/api/pending/send-again", "send-again", {"number": 3}), "repeated")
        self.assertEqual(self.claims(), [1])
        self.assertEqual([it[0] for it in self.logged()], [1, 2, 3])

    def test_a_request_that_has_its_entry_is_not_offered(self):
        self.open_desk()
        self.does(DONE, self.register())
        self.kill_desk()
        pending = {"number": 1, "time": "", "kind": "register", "method": "POST", "path": "/employers",
                   "values": {}, "body": ""}
        (self.log_folder / "pending.json").write_text(json.dumps(pending))
        self.open_desk(self.server.port)
        self.assertIsNone(self.session["state"]["pending"])
        self.assertFalse((self.log_folder / "pending.json").exists())

    def test_a_number_that_the_page_has_rounded(self):
        """An earlier desk took greater numbers, and its request is settled all the same."""
        self.log_folder.mkdir(0o700)
        pending = {"number": 123456789012345678, "time": "", "kind": "payouts", "method": "POST",
                   "path": "/payouts", "values": {}, "body": ""}
        (self.log_folder / "pending.json").write_text(json.dumps(pending))
        office = FakeOffice(self, lambda request: answer_bytes(200, {"items": 1, "list": 1, "total": 5}))
        self.open_desk(office.port)
        for other in (123456789012345662, 123456789012345695, 0, 10 ** 4_000):
            self.faults(409, "not-pending", self.send_again(other))
        # What JavaScript makes of 123456789012345678, as it writes it.
        self.assertEqual(self.send_again(123456789012345680)[1]["entry"]["number"], 123456789012345678)
        self.assertIn(b"\r\nRequest-Number: 123456789012345678\r\n", office.requests[0])
        self.faults(409, "numbers-full", self.command("payouts"))

    def test_giving_up(self):
        self.open_desk(free_port())
        self.register()
        self.faults(409, "unconfirmed", self.post("/api/pending/give-up", "give-up", {"number": 1}, confirmed=False))
        status, told = self.post("/api/pending/give-up", "give-up", {"number": 1})
        self.assertEqual((status, told["entry"]["outcome"], told["state"]["pending"]), (200, "given-up", None))
        self.assertEqual([it[:2] for it in self.logged()], [(1, "lost"), (1, "given-up")])

    def send_again(self, number):
        return self.post("/api/pending/send-again", "send-again", {"number": number})

    def test_a_key_that_was_changed_after_a_lost_answer(self):
        """The claim is done and its three answers are lost. Then the office knows a new key alone."""
        self.open_desk(self.between((3, 4, 5)))
        self.does(DONE, self.register())
        self.does({"charge": 200000, "version": 1}, self.report("2024-01", "7,1000000\n"))
        claim = {"employer": "1001", "worker": "7", "amount": "10,00"}
        self.assertEqual(self.command("claim", **claim)[1]["entry"]["outcome"], "lost")
        self.close_office()
        self.write("callers.toml", "new = 0\nk1001 = 1001\n")
        self.open_office(port=self.server.port)
        # That the key isn't taken says nothing of the claim: it stays in front of all others.
        status, told = self.send_again(3)
        self.assertEqual((status, told["entry"]["outcome"], told["entry"]["reply"]),
                         (503, "undecided", {"rule": 6, "name": "UnknownKey", "detail": ""}))
        self.assertEqual(told["state"]["pending"]["number"], 3)
        self.faults(409, "pending", self.command("claim", **claim))
        # Nor does it go with a firm's key: under the firm's number 3 it would be done once more.
        for key in ("k1001", "new"):
            self.kill_desk()
            self.write("desk.key", key)
            self.open_desk(self.server.port)
            if key == "k1001":
                self.assertEqual(self.send_again(3)[1]["entry"]["reply"], {"reason": "firm", "port": self.server.port})
        self.does({"claim": 1}, self.send_again(3), "repeated")
        self.assertEqual(self.claims(), [1])

    def test_a_refusal_of_what_was_sent_before(self):
        """Rules 1 to 8 are judged before the office looks whether it was done, and all further ones behind."""
        answers = []
        office = FakeOffice(self, lambda request: answers.pop(0))
        self.open_desk(office.port)
        for number, rule in enumerate((1, 2, 6, 7, 8, 9, 10, 33), 1):
            refusal = {"rule": rule, "name": "Named", "detail": ""}
            answers[:] = [None, answer_bytes(400, refusal)]
            told = self.command("payouts")[1]
            if rule > 8:
                self.assertEqual((told["entry"]["outcome"], told["state"]["pending"]), ("refused", None), rule)
                continue
            self.assertEqual((told["entry"]["outcome"], told["entry"]["reply"]), ("undecided", refusal), rule)
            self.assertEqual(told["state"]["pending"]["number"], number)
            answers[:] = [answer_bytes(200, {"items": 1, "list": number, "total": 5})]
            self.assertEqual(self.send_again(number)[1]["entry"]["outcome"], "repeated")
        # What was never sent before is refused for good by any of them.
        answers[:] = [answer_bytes(401, {"rule": 6, "name": "UnknownKey", "detail": ""})]
        self.refuses(6, "UnknownKey", "", self.command("payouts"))


class Offices(DeskUnderTest):
    """An office that isn't there, isn't one, doesn't know the key, or has failed."""

    def test_an_office_that_is_not_there(self):
        port = free_port()
        self.open_desk(port)
        for path in ("/api/suspense/0", "/api/firms/1001", "/documents/statement-1001.txt"):
            self.assertEqual(self.faults(502, "no-answer", self.get(path)), {"reason": "absent", "port": port})
        status, told = self.register()
        self.assertEqual((status, told["entry"]["outcome"], told["entry"]["reply"]),
                         (502, "lost", {"reason": "absent", "port": port}))

    def test_an_office_that_says_nothing(self):
        """It is asked once: the next attempt would take as long."""
        with socket.create_server(("127.0.0.1", 0)) as silent:
            port = silent.getsockname()[1]
            desk = Desk(Office(port, "desk", seconds=0.2), Journal(self.log_folder, 1, 1), None, None)
            told = desk.perform(command("payouts", "/payouts", None, {}), True)
            silent.settimeout(0)
            silent.accept()[0].close()
            self.assertRaises(BlockingIOError, silent.accept)
        entry = told["entry"]
        self.assertEqual((entry["outcome"], entry["reply"]), ("lost", {"reason": "silent", "port": port}))
        self.assertEqual(told["state"]["pending"]["number"], 1)

    def test_a_key_that_is_wrong(self):
        self.write("wrong.key", "nobody\n")
        self.open_desk(None, key="wrong.key")
        refusal = {"rule": 6, "name": "UnknownKey", "detail": ""}
        self.assertEqual(self.get("/api/suspense/0")[1]["refusal"], refusal)
        self.refuses(6, "UnknownKey", "", self.register())
        self.assertIsNone(self.get("/api/session")[1]["state"]["pending"])

    def test_the_key_of_a_firm(self):
        self.write("firm.key", "k1001\n")
        self.open_desk(None, key="firm.key")
        self.assertEqual(self.get("/api/suspense/0")[1]["refusal"]["name"], "NotYours")
        # Nor is anything done that the firm itself may do.
        told = self.command("claim", employer="1001", worker="7", amount="10,00")[1]
        self.assertEqual((told["entry"]["outcome"], told["entry"]["reply"]["reason"]), ("lost", "firm"))

    def test_a_key_that_the_office_has_no_memory_to_judge(self):
        """It may be a firm's, so no command goes with it before it is judged."""
        office = FakeOffice(self, lambda request: answer_bytes(200, DONE))
        is_judged, office.key_answer = office.key_answer, answer_bytes(503, NO_MEMORY)
        self.open_desk(office.port)
        told = self.register()[1]
        self.assertEqual((told["entry"]["outcome"], told["entry"]["reply"]), ("undecided", NO_MEMORY))
        self.assertEqual(office.requests, [])
        office.key_answer = is_judged
        self.does(DONE, self.post("/api/pending/send-again", "send-again", {"number": 1}), "repeated")
        self.assertEqual(len(office.requests), 1)

    def test_what_is_no_office(self):
        for answer in (answer_bytes(404, b"<h1>none</h1>", "text/html"), answer_bytes(200, {"hello": "you"}),
                       answer_bytes(409, {"rule": "9"}), answer_bytes(200, {"claim": 1}),
                       answer_bytes(200, b"\xff", "text/plain"), b"HTTP/1.0 200 OK\r\n\r\n<h1>hello</h1>"):
            office = FakeOffice(self, lambda request, answer=answer: answer)
            self.open_desk(office.port)
            self.assertEqual(self.faults(502, "no-answer", self.get("/api/suspense/0"))["reason"], "foreign")
            self.assertEqual(self.register()[1]["entry"]["reply"]["reason"], "foreign")
            self.post("/api/pending/give-up", "give-up", {"number": self.lines("numbers.jsonl")[-1]["number"]})
            self.kill_desk()

    def test_a_text_that_ends_early(self):
        whole = answer_bytes(200, EMPTY_SUSPENSE, "text/plain; charset=utf-8")
        office = FakeOffice(self, lambda request: whole[:-5])
        self.open_desk(office.port)
        for path in ("/api/suspense/0", "/documents/suspense.txt"):
            self.assertEqual(self.faults(502, "no-answer", self.get(path))["reason"], "broken")

    def test_a_text_that_the_desk_does_not_understand(self):
        office = FakeOffice(self, lambda request: answer_bytes(200, b"something new\n", "text/plain; charset=utf-8"))
        self.open_desk(office.port)
        told = self.get("/api/firms/1001")[1]
        self.assertEqual((told["statement"], told["text"]), (None, "something new\n"))

    def failing(self, refusal):
        """A desk in front of an office whose records have failed, until `heals` is set."""
        self.heals = False

        def answer(request):
            if not self.heals:
                return answer_bytes(500, refusal)
            if request.startswith(b"POST"):
                return answer_bytes(200, DONE)
            return answer_bytes(200, EMPTY_SUSPENSE, "text/plain; charset=utf-8")

        self.office = FakeOffice(self, answer)
        self.open_desk(self.office.port)

    def test_failed_records_stop_the_forms(self):
        for refusal in (STORE_FAILED, FAILED):
            self.failing(refusal)
            told = self.get("/api/suspense/0")[1]
            self.assertEqual((told["refusal"], told["state"]["failure"]), (refusal, refusal))
            # Nothing is sent, and no number is taken.
            self.faults(409, "stopped", self.register())
            self.assertEqual(len(self.office.requests), 1)
            self.assertEqual(self.lines("numbers.jsonl"), [])
            self.heals = True
            self.assertIsNone(self.get("/api/suspense/0")[1]["state"]["failure"])
            self.does(DONE, self.register())
            self.kill_desk()
            (self.log_folder / "numbers.jsonl").unlink()

    def test_a_command_that_failed_is_sent_again_under_its_number(self):
        self.failing(STORE_FAILED)
        status, told = self.register()
        self.assertEqual((status, told["entry"]["outcome"], told["entry"]["reply"]), (503, "undecided", STORE_FAILED))
        self.assertEqual((told["state"]["failure"], told["state"]["pending"]["number"]), (STORE_FAILED, 1))
        self.heals = True
        told = self.does(DONE, self.post("/api/pending/send-again", "send-again", {"number": 1}), "repeated")
        self.assertEqual((told["state"]["failure"], told["state"]["pending"]), (None, None))
        posts = [it for it in self.office.requests if it.startswith(b"POST")]
        self.assertEqual(posts[0], posts[1])

    def test_want_of_memory_in_an_office_that_has_failed(self):
        """It doesn't say that the records are there again."""
        answers = [answer_bytes(500, FAILED), answer_bytes(503, NO_MEMORY)]
        self.open_desk(FakeOffice(self, lambda request: answers.pop(0)).port)
        for refusal in (FAILED, NO_MEMORY):
            told = self.get("/api/suspense/0")[1]
            self.assertEqual((told["refusal"], told["state"]["failure"]), (refusal, FAILED))

    def test_want_of_memory(self):
        self.failing(NO_MEMORY)
        status, told = self.register()
        self.assertEqual((status, told["entry"]["outcome"], told["state"]["failure"]), (503, "undecided", None))
        self.assertEqual(told["state"]["pending"]["number"], 1)


if __name__ == "__main__":
    run_tests()
