"""Input that ends at each of its bytes: requests over connections, caller files, and a bank file.

    python3 tests/ends.py [PROGRAM]

PROGRAM is crates/clear_app/out/clear_app where it isn't given, as `rt ci` leaves it. What is expected goes by
docs/http.md and docs/formats.md: the requests in front of the end have their answers, and behind these rule 1 is told
where the input ends within a head, and rule 3 within a body. The ends of rate files and of other bank files are tried
in crates/clear_cases.
"""

import socket
import sys
import time

# No __pycache__ is left beside the sources.
sys.dont_write_bytecode = True
from program import FIRST_ANSWERS, FIRST_REQUESTS, HEADER, JANUARY, REGISTRATION, post  # noqa: E402
from program_under_test import DAY, ProgramUnderTest, run_tests  # noqa: E402
from stores import NEW  # noqa: E402

CLOSE = "Connection: close"
ASKED = b"GET /employers/1001/owed HTTP/1.1\r\nHost: office\r\nOffice-Key: k1001\r\n\r\n"


def answer(body, status="200 OK", *fields):
    """The bytes of an answer, with further fields behind its length."""
    lines = [f"HTTP/1.1 {status}", "Content-Type: application/json", f"Content-Length: {len(body)}", *fields, "", body]
    return "\r\n".join(lines).encode()


def refusal(rule, name, detail=""):
    return f'{{"detail":"{detail}","name":"{name}","rule":{rule}}}'


def conflict(*of):
    return answer(refusal(*of), "409 Conflict")


DONE = answer('{"done":true}')
REPORTED = answer('{"charge":200000,"version":1}')
OWED = answer('{"arrears":200000,"charged":200000,"credited":0,"prepaid":0}')
FIRST_RUN = [(REGISTRATION, DONE), (JANUARY, REPORTED), (ASKED, OWED)]
CUT_HEAD = answer(refusal(1, "BadHead"), "400 Bad Request", CLOSE)
CUT_BODY = answer(refusal(3, "BadFraming"), "400 Bad Request", CLOSE)
TOO_LARGE = answer(refusal(2, "TooLarge"), "413 Content Too Large", CLOSE)
BAD_METHOD = refusal(5, "BadMethod"), "405 Method Not Allowed"


def with_fields(request, *fields):
    """A request with these field lines before all others."""
    return request.replace(b"\r\n", b"\r\n" + "".join(f"{field}\r\n" for field in fields).encode(), 1)


def report(month, number, *gross):
    lines = ",".join(f'{{"gross":{cents},"worker":{worker}}}' for worker, cents in enumerate(gross, 1))
    return post(f"/employers/1001/reports/{month}", number, f'{{"lines":[{lines}]}}', "k1001")


# The most lines, one more, and more gross than a line may have; 500 cents at 20 percent are 100.
REPORTS = [
    (report("2024-02", 2, *[1] * 500), answer('{"charge":100,"version":1}')),
    (report("2024-03", 3, *[1] * 501), conflict(18, "OverLimit", "lines")),
    (report("2024-03", 3, 10_000_001), conflict(18, "OverLimit", "gross"))]
# The answers go on behind each of these.
REFUSED = [
    (ASKED.replace(b"1001/owed", b"01/owed"), answer(refusal(4, "NoRoute"), "404 Not Found")),
    (post("/payouts", 2, "").replace(b"POST", b"PUT"), answer(*BAD_METHOD, "Allow: POST")),
    (ASKED.replace(b"GET", b"HEAD"), answer(*BAD_METHOD, "Allow: GET").removesuffix(BAD_METHOD[0].encode())),
    (post("/employers", 2, "[]"), answer(refusal(8, "BadBody", "body"), "400 Bad Request")),
    (post("/employers", 2, '{"employer":1002,"name":"Bau Ost"}'),
     answer(refusal(8, "BadBody", "start"), "400 Bad Request"))]
# Each of these ends its stream, whatever comes behind its head.
ENDING = [
    (with_fields(ASKED, *["Accept: */*"] * 63), TOO_LARGE),
    (REGISTRATION.replace(b"Length: 53", b"Length: 1048577"), TOO_LARGE),
    (REGISTRATION.replace(b"Content-Length: 53\r\n", b""),
     answer(refusal(3, "BadFraming"), "411 Length Required", CLOSE)),
    (with_fields(REGISTRATION, "Transfer-Encoding: chunked"),
     answer(refusal(3, "BadFraming"), "501 Not Implemented", CLOSE))]


def answers_to(exchanges, end):
    """What is answered to so many of the first bytes of these requests."""
    said = b""
    for request, answered in exchanges:
        if end == 0:
            break
        if end < request.index(b"\r\n\r\n") + 4:
            return said + CUT_HEAD
        if CLOSE.encode() in answered:
            return said + answered
        if end < len(request):
            return said + CUT_BODY
        said += answered
        end -= len(request)
    return said


class Requests(ProgramUnderTest):
    """Under their own numbers, the requests have the same answers on each connection."""

    def setUp(self):
        super().setUp()
        self.init()

    def expect_each_end(self, exchanges):
        sent = b"".join(request for request, _ in exchanges)
        server = self.serving(len(sent) + 1)
        for end in range(len(sent) + 1):
            self.assertEqual(self.send(server, sent[:end]), answers_to(exchanges, end), sent[:end])
        self.assertEqual(self.ended(server), (0, f"served {len(sent) + 1}\n", ""))

    def expect_each_cut(self, exchanges):
        """The bytes come in two pieces, whichever these are."""
        sent = b"".join(request for request, _ in exchanges)
        server = self.serving(len(sent))
        for cut in range(len(sent)):
            with self.connect(server) as peer:
                peer.setsockopt(socket.IPPROTO_TCP, socket.TCP_NODELAY, 1)
                peer.sendall(sent[:cut])
                time.sleep(0.0005)
                peer.sendall(sent[cut:])
                peer.shutdown(socket.SHUT_WR)
                self.assertEqual(self.read_all(peer), answers_to(exchanges, len(sent)), cut)
        self.assertEqual(self.ended(server), (0, f"served {len(sent)}\n", ""))

    def test_no_bytes(self):
        """Nothing is written, and no request is counted."""
        server = self.serving(1)
        self.assertEqual(self.send(server, b""), b"")
        self.assertEqual(self.ended(server), (0, "served 1\n", ""))
        self.expect(["look", "fund.db"], 0, NEW)

    def test_the_first_run(self):
        self.assertEqual(b"".join(request for request, _ in FIRST_RUN), FIRST_REQUESTS)
        self.assertEqual(answers_to(FIRST_RUN, len(FIRST_REQUESTS)), FIRST_ANSWERS)
        self.expect_each_end(FIRST_RUN)

    def test_reports(self):
        for exchange in REPORTS:
            self.expect_each_end([FIRST_RUN[0], exchange])

    def test_further_fields_and_refusals(self):
        asked = with_fields(ASKED, "User-Agent: curl/8.5.0", "Accept: */*")
        for expect in (self.expect_each_end, self.expect_each_cut):
            expect([*FIRST_RUN[:2], (asked, OWED), *REFUSED])

    def test_requests_that_end_their_stream(self):
        unknown = conflict(11, "UnknownEmployer")
        for exchange in ENDING:
            for expect in (self.expect_each_end, self.expect_each_cut):
                expect([(ASKED, unknown), exchange])


def ends_of(parts):
    """Each end of a text in parts, with what becomes of the text up to it: the same within a part and at its end."""
    front = ""
    for part, *becomes in parts:
        for sign in part:
            front += sign
            yield front, *becomes


def bodies_of(output):
    return [answered.partition("\r\n\r\n")[2] for answered in output.split("HTTP/1.1 ")[1:]]


NO_TOML = "no TOML text: "
ONE_KEY = "1 key, 1 of clerks, 0 of firms\n"
TWO_KEYS = "2 keys, 1 of clerks, 1 of firms\n"
DESK = [("desk = ", NO_TOML, None), ("0\n", ONE_KEY, [11, 6])]
# What a check says first of each end, and by which rules the keys desk and k1 are refused that ask what the firm 1001 owes,
# which isn't registered: the key is nobody's (6), another firm's (7), or good (11). A faulty file serves nobody.
CALLER_FILES = [
    [*DESK, ("k1 = ", NO_TOML, None), ("100", TWO_KEYS, [11, 7]), ("1\n", TWO_KEYS, [11, 11])],
    [*DESK, ('k1 = "x', NO_TOML, None), ('"\n', "key k1: its number is no whole number\n", None)],
    [*DESK, ("k1 = -", NO_TOML, None), ("1\n", "key k1: its number is -1; ", None)]]
# A payment of the day after the one on which it comes in.
AHEAD = [
    (HEADER.removesuffix(",note\n"), refusal(20, "BadCsv", "1:0")), (",not", refusal(20, "BadCsv", "1:6")),
    ("e\n", '{"new":0,"repeats":0}'), ("B1,2024-05-01,1001,150000,C", refusal(20, "BadCsv", "2:0")),
    (",\n", refusal(22, "ValueAhead", "2"))]


class Files(ProgramUnderTest):
    def expect_rules(self, rules):
        """What both keys are answered that ask, over a stream with this file."""
        names = {6: "UnknownKey", 7: "NotYours", 11: "UnknownEmployer"}
        asked = b"".join(ASKED.replace(b"k1001", key) for key in (b"desk", b"k1"))
        status, output, errors = self.run_program("stream", "sample", "callers.toml", DAY, stdin=asked)
        if rules is None:
            self.assertEqual((status, output, errors), (2, "", "fault file\n"))
        else:
            self.assertEqual((status, errors), (0, ""))
            self.assertEqual(bodies_of(output), [refusal(rule, names[rule]) for rule in rules])

    def test_caller_files(self):
        for parts in CALLER_FILES:
            for front, said, rules in [("", "0 keys, 0 of clerks, 0 of firms\n", [6, 6]), *ends_of(parts)]:
                self.write("callers.toml", front)
                with self.subTest(front):
                    status, told, _ = self.run_program("check", "callers", "callers.toml")
                    self.assertEqual((status, told[:len(said)]), (0 if rules else 2, said))
                    self.expect_rules(rules)

    def test_a_bank_file_that_is_ahead(self):
        ends = [("", refusal(20, "BadCsv", "1:1")), *ends_of(AHEAD)]
        sent = b"".join(post("/bank", number, front) for number, (front, _) in enumerate(ends, 1))
        status, output, errors = self.run_program("stream", "sample", "sample", DAY, stdin=sent)
        self.assertEqual((status, errors), (0, ""))
        self.assertEqual(bodies_of(output), [said for _, said in ends])


if __name__ == "__main__":
    run_tests()
