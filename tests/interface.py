"""Tries what docs/http.md and docs/formats.md tell one who writes a client: the commands and the transcript as they stand
there, and sentences that no other script tries.

    python3 tests/interface.py [PROGRAM]

PROGRAM is crates/clear_app/out/clear_app where it isn't given, as `rt ci` leaves it. The commands need bash and curl.
"""

import contextlib
import json
import re
import sqlite3
import subprocess
import sys

# No __pycache__ is left beside the sources.
sys.dont_write_bytecode = True
from documents import Documents, is_whole  # noqa: E402
from program import BANK, FEBRUARY, HEADER, JANUARY, REGISTRATION, Program, post  # noqa: E402
from program_under_test import DAY, ROOT, ProgramUnderTest, run_tests  # noqa: E402

PAGE = (ROOT / "docs/http.md").read_text()
FORMATS = (ROOT / "docs/formats.md").read_text()
REFUSED = {
    1: b"no request\r\n\r\n",
    2: REGISTRATION.replace(b"Length: 53", b"Length: 1048577"),
    3: REGISTRATION.replace(b"Length: 53", b"Length: +53"),
    4: REGISTRATION.replace(b"/employers", b"/employer"),
    5: REGISTRATION.replace(b"POST", b"PUT"),
    6: REGISTRATION.replace(b"desk", b"Desk"),
    8: REGISTRATION.replace(b"Number: 1", b"Number: 01"),
}


def blocks_of_commands(text):
    """Each block of indented lines as its commands, with where it begins and ends."""
    for block in re.finditer(r"(?:^    .*\n)+", text, re.M):
        commands = [""]
        for line in block[0].splitlines():
            commands[-1] += line[4:]
            if is_whole(commands[-1]) and not line.endswith("|"):
                commands.append("")
            else:
                commands[-1] += "\n"
        yield block.start(), block.end(), commands[:-1]


class Commands(Documents):
    def setUp(self):
        super().setUp()
        (_, _, [init, serve]), = [it for it in blocks_of_commands(PAGE) if "./clearing serve" in it[2][-1]]
        self.assertEqual(self.said(init), "schema 1\n")
        server = self.bash("-c", f"exec {self.with_port(serve)}", stderr=subprocess.PIPE)
        self.addCleanup(server.communicate)
        self.addCleanup(server.kill)
        self.assertIn(b"ready on", server.stderr.readline())

    def said(self, command):
        with self.bash("-c", self.with_port(command)) as running:
            return running.communicate(timeout=60)[0].decode()

    def test_each_answer_is_told(self):
        """In their order, beside the block of their commands."""
        text = PAGE[PAGE.index("## Each request, by `curl`"):PAGE.index("## A transcript")]
        blocks = list(blocks_of_commands(text))
        ends = [0, *(end for _, end, _ in blocks)]
        starts = [*(start for start, _, _ in blocks), len(text)]
        self.assertEqual(len(blocks), 6)
        for place, (_, _, commands) in enumerate(blocks):
            told = text[ends[place]:starts[place + 1]]
            at = 0
            for command in commands:
                said = self.said(command)
                if command.endswith("/employers/1001/statement -H 'Office-Key: desk'"):
                    self.assertRegex(said, r"\Astatement 1001 2024-04-30\n(.*\n)+interest          10\.00\n\Z")
                    continue
                at = told.find(said, at)
                self.assertGreaterEqual(at, 0, f"{command}: {said}")
        again = command.replace("/reminders/1", "/reminders").replace("'Office-Key: desk'", "'Office-Key: desk' -d ''")
        for number, answer in ((10, '{"firms":1,"run":1}'), (11, '{"detail":"","name":"NothingToRemind","rule":30}')):
            self.assertEqual(self.said(f"{again} -H 'Request-Number: {number}'"), answer)
            self.assertIn(answer, text[ends[-1]:])


class Transcript(ProgramUnderTest):
    maxDiff = None

    def test_its_answers(self):
        """Lines of a head end in CR LF. A body has a line end behind its last line where its length says so."""
        shown = "".join(re.findall(r"```\n(.*?)```", PAGE[PAGE.index("## A transcript"):], re.S))
        requests, answers = ([self.message(lines) for lines in re.findall(rf"(?:^{side}.*\n)+", shown, re.M)] for side in "><")
        self.assertEqual(len(requests), 5)
        said = self.run_program("stream", "rates.toml", "callers.toml", DAY, stdin="".join(requests).encode())
        self.assertEqual(said, (0, "".join(answers), ""))

    def message(self, lines):
        head, _, body = re.sub("^[<>] ?", "", lines, flags=re.M).partition("\n\n")
        length = re.search("Content-Length: ([0-9]+)", head)
        if length and len(body.encode()) == int(length[1]) + 1:
            body = body.removesuffix("\n")
        self.assertEqual(len(body.encode()), int(length[1]) if length else 0, lines)
        return head.replace("\n", "\r\n") + "\r\n\r\n" + body


def document(path):
    return f"GET {path} HTTP/1.1\r\nHost: office\r\nOffice-Key: desk\r\n\r\n".encode()


def bodies_of(answers):
    bodies = []
    while answers:
        head, _, answers = answers.partition(b"\r\n\r\n")
        length = int(re.search(b"Content-Length: ([0-9]+)", head)[1])
        bodies.append(answers[:length].decode())
        answers = answers[length:]
    return bodies


class Streams(Program):
    maxDiff = None

    def stream(self, *requests, day=DAY):
        """The bodies of the answers."""
        status, output, errors = self.run_program("stream", "rates.toml", "callers.toml", day, stdin=b"".join(requests))
        self.assertEqual((status, errors), (0, ""))
        return bodies_of(output.encode())


class Client(Streams):
    def test_the_rules_of_a_request_have_their_names(self):
        for rule, request in REFUSED.items():
            refusal = json.loads(self.stream(request)[0])
            self.assertEqual(refusal["rule"], rule)
            self.assertIn(f"{rule}, {refusal['name']}", PAGE)

    def test_a_detail_is_a_text(self):
        _, _, again, _ = self.stream(REGISTRATION, JANUARY, JANUARY.replace(b"Number: 1", b"Number: 2"), REGISTRATION)
        self.assertEqual(again, '{"detail":"1","name":"ReportExists","rule":15}')

    def test_whose_a_number_is(self):
        self.write("callers.toml", "desk = 0\nother = 0\nk1001 = 1001\nspare = 1001\n")
        other = REGISTRATION.replace(b"desk", b"other")
        done, same, reused, free, kept = self.stream(
            REGISTRATION, other, other.replace(b"Nord", b"West"), JANUARY, JANUARY.replace(b"k1001", b"spare"))
        self.assertEqual([done, same], ['{"done":true}'] * 2)
        self.assertEqual(reused, '{"detail":"","name":"NumberReused","rule":9}')
        self.assertEqual([free, kept], ['{"charge":200000,"version":1}'] * 2)

    def test_the_same_values_and_the_same_bytes(self):
        spelled = post("/employers", 1, ' {"start" : "2024-01", "name" : "\\u0042au Nord",\n"employer":1001}')
        file = HEADER + "B1,2024-02-25,1001,150000,C,\n"
        *done, reused = self.stream(
            REGISTRATION, spelled, post("/bank", 2, file), post("/bank", 2, file), post("/bank", 2, file.replace("\n", "\r\n")))
        self.assertEqual(done, ['{"done":true}'] * 2 + ['{"new":1,"repeats":0}'] * 2)
        self.assertEqual(reused, '{"detail":"","name":"NumberReused","rule":9}')

    def test_the_order_of_the_framing(self):
        """A length that is too large is judged last of what a head says of its body."""
        large = "Content-Length: 1048577\r\n"
        for fields, answer in {
            large: "413", large * 2: "400", large + "Expect: 100-continue\r\n": "417",
            large + "Transfer-Encoding: chunked\r\n": "501", "Transfer-Encoding: chunked\r\n" + "A: b\r\n" * 64: "413",
            "Expect: x\r\nTransfer-Encoding: chunked\r\n": "501", "Expect: x\r\n": "417", "": "411",
        }.items():
            request = f"POST /bank HTTP/1.1\r\nHost: office\r\n{fields}\r\n".encode()
            status, output, errors = self.run_program("stream", "rates.toml", "callers.toml", DAY, stdin=request)
            self.assertEqual((status, errors, output[:13]), (0, "", f"HTTP/1.1 {answer} "), fields)

    def test_fields_of_a_query(self):
        """A request number that comes with one isn't looked at; `close` may be in capitals."""
        query = "\r\n\nGET /suspense HTTP/1.1\nHost: office\r\nOffice-Key: desk\r\n{}\r\n\r\n"
        for field, closes in {
            "Request-Number: 0x": False, "Request-Number: 7\r\nRequest-Number: 7": False, "Connection: CLOSE": True,
            "Connection: close": True, "Connection: keep-alive, close": False,
        }.items():
            requests = query.format(field).encode() * 2
            status, output, errors = self.run_program("stream", "rates.toml", "callers.toml", DAY, stdin=requests)
            self.assertEqual((status, errors, output.count("HTTP/1.1 200 OK")), (0, "", 1 if closes else 2), field)
            self.assertEqual("Connection: close" in output, closes, field)

    def test_which_refusals_of_head_have_a_body(self):
        head, cut = b"HEAD /suspense HTTP/1.1\r\n", b"HEAD /suspense HTTP/1.1\r\nHost: office\r\n"
        for request, rule, has_body in (
                (head + b"Host : office\r\n\r\n", 1, True), (cut, 1, True), (head + b"\r\n", 1, False),
                (cut + b"Host: office\r\n\r\n", 1, False),
                (cut + b"A: b\r\n" * 64 + b"\r\n", 2, True), (cut + b"A: " + b"b" * 16384, 2, True),
                (cut + b"Content-Length: 1048577\r\n\r\n", 2, False), (cut + b"Expect: x\r\n\r\n", 3, False),
                (cut + b"\r\n", 5, False)):
            status, output, errors = self.run_program("stream", "rates.toml", "callers.toml", DAY, stdin=request)
            self.assertEqual((status, errors), (0, ""))
            answer, _, body = output.partition("\r\n\r\n")
            self.assertEqual(bool(body), has_body, request)
            self.assertIn({1: "400 Bad", 2: "413 Content", 3: "417 Expect", 5: "405 Method"}[rule], answer)

    def test_what_is_no_json_object(self):
        def fault(employer):
            return json.loads(self.stream(post("/employers", 1, f'{{"employer":{employer}}}'))[0])["detail"]

        for employer, named in {
            "1e3": "employer", "1.0": "employer", "-0": "employer", "1e308": "employer", "-1.8e308": "body",
            "1.7976931348623158e308": "employer", "1.7976931348623159e308": "body", "1" + "0" * 308: "employer", "1" + "0" * 309: "body",
            "[" * 126 + "]" * 126: "employer", "[" * 127 + "]" * 127: "body",
            r'"\ud83d\ude00"': "employer", r'"\ud83d"': "body", r'"\ude00"': "body",
        }.items():
            self.assertEqual(fault(employer), named, employer)
        for nested in ("[" * 200, "[" * 200 + "]" * 200):
            refused, = self.stream(post("/employers", 1, nested))
            self.assertEqual(refused, '{"detail":"body","name":"BadBody","rule":8}')
        marked = self.stream(post("/employers", 1, '\ufeff{"employer":1001}'))[0]
        self.assertEqual(json.loads(marked)["detail"], "body")
        other = REGISTRATION.replace(b"Bau Nord", b"Bau Nor\xff")
        status, output, errors = self.run_program("stream", "rates.toml", "callers.toml", DAY, stdin=other)
        self.assertIn('{"detail":"body","name":"BadBody","rule":8}', output)
        for part in ("isn't UTF-8", "byte order mark", "half of a surrogate pair", "1.7977e308", "127 deep"):
            self.assertIn(part, PAGE[PAGE.index("Numbers are written as whole numbers"):PAGE.index("is no JSON object.")])

    def test_a_bank_file_of_another_program(self):
        """Line ends of each kind, and a double quote within a field."""
        lines = [HEADER[:-1], 'B1,2024-02-25,,5,,"say ""no"", thanks"', "B2,2024-02-25,,7,I,", ""]
        for end in ("\n", "\r\n", "\r"):
            new, told = self.stream(post("/bank", 1, end.join(lines)), document("/suspense"))
            self.assertEqual(new, '{"new":2,"repeats":0}')
            self.assertIn(' C -           0.05 say "no", thanks\nline B2 ', told)

    def test_quotes_and_spaces_of_a_bank_file(self):
        lines = [HEADER[:-1], 'a"b,2024-02-25,,5,, "abc"', 'B2,2024-02-25,,7,,"a"b', 'B3,2024-02-25,,9,I,"abc']
        new, told = self.stream(post("/bank", 1, "\n".join(lines)), document("/suspense"))
        self.assertEqual(new, '{"new":3,"repeats":0}')
        for part in ('line a"b ', ' 0.05  "abc"\n', " 0.07 ab\n", " 0.09 abc\n"):
            self.assertIn(part, told)
        spaced = self.stream(post("/bank", 1, "\n".join([*lines[:2], "B4, 2024-02-25,,7,,"])))[0]
        self.assertEqual(spaced, '{"detail":"3:2","name":"BadCsv","rule":20}')

    def test_how_many_records_a_bank_file_has(self):
        """Too many are told before what is wrong with any, but behind a first byte that is wrong."""
        def refusal(file):
            return json.loads(self.stream(post("/bank", 1, file))[0])

        for file, name, detail in (
                (HEADER + "x\n" * 10_000, "BadCsv", "2:0"), (HEADER + "x\n" * 10_001, "OverLimit", "file"),
                (HEADER.replace("note", "text") + "x\n" * 10_001, "OverLimit", "file"),
                ("r\n" + ",\n\n" * 10_001, "OverLimit", "file"), ("r\n" + ",\n\n" * 10_000, "BadCsv", "1:0"),
                ("x\n" * 10_002, "BadCsv", "1:1"), ("\n" + HEADER + "x\n" * 10_001, "BadCsv", "1:1")):
            told = refusal(file)
            self.assertEqual((told["name"], told["detail"]), (name, detail))

    def test_what_ends_no_line(self):
        name, note = "Bau\u2028Nord", "a\u0085b\u2029c"
        body = json.dumps({"employer": 1001, "name": name, "start": "2024-01"})
        _, _, statement, suspense = self.stream(
            post("/employers", 1, body), post("/bank", 2, f"{HEADER}B1,2024-02-25,,5,,{note}\n"),
            document("/employers/1001/statement"), document("/suspense"))
        self.assertEqual(statement.split("\n")[1], f"name {name}")
        self.assertEqual(suspense.split("\n")[1], f"line B1 2024-02-25 C -           0.05 {note}")

    def test_a_wide_amount(self):
        lines = "".join(f"B{at},2024-02-25,,100000000000,,\n" for at in range(100))
        first, all_ = (self.stream(post("/bank", 1, HEADER + it), document("/suspense"))[1].split("\n")
                       for it in (lines[:lines.index("\n") + 1], lines))
        self.assertEqual(first[-2], "total  1000000000.00")
        self.assertEqual(all_[-2], "total 100000000000.00")


class Examples(Streams):
    """Each document that docs/formats.md shows comes so, byte for byte, and each command is kept so."""

    def numbered(self, *commands, first=1):
        """The clerk's requests of these paths and bodies, with numbers from the first one on."""
        return [post(path, number, body if isinstance(body, str) else json.dumps(body))
                for number, (path, body) in enumerate(commands, first)]

    def kept(self, store, *requests):
        """The bytes of the commands that a new store keeps of these requests, all of which are done."""
        self.init(store)
        server = self.serving(1, store=store)
        said = bodies_of(self.send(server, b"".join(requests)))
        self.assertEqual([body for body in said if "rule" in body], [])
        self.assertEqual(self.ended(server), (0, "served 1\n", ""))
        with contextlib.closing(sqlite3.connect(self.folder / store)) as opened:
            return {command.decode() for command, in opened.execute("SELECT command FROM requests")}

    def test_the_bytes_of_each_command(self):
        rates = {"contribution": 1900, "due_day": 20, "entitlement": 1425, "from": "2025-03", "interest": 90, "report_day": 15}
        firm = ("/employers", {"employer": 1001, "name": "Bau Nord", "start": "2024-01"})
        lines = [{"worker": 7, "gross": 1_000_000}, {"worker": 8, "gross": 50_000}]
        report, claim = "/employers/1001/reports/2024-01", ("/employers/1001/claims", {"worker": 7, "cents": 10_000})
        file = HEADER + "B9,2024-03-01,,5000,,no number\n"
        *_, correction = self.numbered((report, {"version": 1, "lines": [{"worker": 7, "gross": 500_000}]}), first=99)
        kept = self.kept(
            "fund.db", *self.numbered(
                firm, (report, {"lines": lines}), ("/rates", rates), ("/bank", file), ("/reminders", ""), claim,
                ("/assign", {"employer": 1001, "reference": "B9"}), ("/employers/1001/claims/1/withdraw", ""),
                ("/employers/1001/end", {"last": "2024-02"})), correction.replace(b"POST", b"PUT"))
        kept |= self.kept("other.db", *self.numbered(
            firm, (report, {"lines": lines}), ("/bank", HEADER + "B1,2024-02-20,1001,210000,C,\n"),
            ("/employers/1001/end", {"last": "2024-01"}), claim, ("/claims/1/release", ""), ("/payouts", "")))
        told = re.findall(r"^\| [A-Z]\w+ \| `([^`]+)`", FORMATS[FORMATS.index("| Command | Bytes |"):], re.M)
        self.assertEqual(len(told), 12)
        for command in told:
            self.assertIn(command + file if command == "bank " else command, kept)

    def firm(self, number, *months):
        """Its registration, and a report for each month from January on: a worker's wage, or nobody's."""
        yield "/employers", {"employer": number, "name": "Bau Nord", "start": "2024-01"}
        for at, wages in enumerate(months, 1):
            lines = [{"worker": wages[0], "gross": wages[1]}] if wages else []
            yield f"/employers/{number}/reports/2024-{at:02}", {"lines": lines}

    def expect_example(self, heading, document):
        section = FORMATS[FORMATS.index(f"\n## {heading}\n"):]
        self.assertEqual(document, re.search(r"```\n(.*?)```", section, re.S)[1])

    def test_a_statement(self):
        *_, said = self.stream(REGISTRATION, JANUARY, FEBRUARY, post("/bank", 2, BANK), document("/employers/1001/statement"))
        self.expect_example("A firm's statement", said)

    def test_a_payout_list(self):
        requests = self.numbered(
            *self.firm(1002, (9, 400_000)), *self.firm(1004, (9, 250_000)),
            ("/bank", HEADER + "B1,2024-02-21,1004,20000,C,\n"), ("/employers/1004/claims", {"cents": 80_000, "worker": 9}),
            ("/claims/1/release", ""), ("/payouts", ""))
        *_, said = self.stream(*requests, document("/payouts/1"), day="2024-03-10")
        self.expect_example("A payout list", said)

    def test_a_worker(self):
        requests = self.numbered(*self.firm(1001, (7, 100_000)), *self.firm(1002, (7, 50_000)))
        self.expect_example("A worker", self.stream(*requests, document("/workers/7"))[-1])

    def test_lines_in_suspense(self):
        file = HEADER + "B9,2024-03-01,,5000,,no number\nB10,2024-03-01,1099,700,I,\n"
        self.expect_example("Lines in suspense", self.stream(post("/bank", 1, file), document("/suspense"))[-1])

    def test_a_reminder_run(self):
        """Of 1004, 11.00 of interest came up by then, and 6.00 were paid."""
        self.init()
        paid = HEADER + "B3,2024-02-21,1004,20000,C,\nB4,2024-05-02,1004,600,I,\n"
        first = self.numbered(*self.firm(1001, (7, 1_000_000), (7, 500_050)), ("/bank", BANK), ("/reminders", ""))
        second = self.numbered(*self.firm(1004, (9, 250_000), None, None), ("/bank", paid), ("/reminders", ""), first=11)
        for day, requests in ((DAY, first), ("2024-05-14", [*second, document("/reminders/2")])):
            server = self.serving(1, day)
            said = bodies_of(self.send(server, b"".join(requests)))
            self.assertEqual(self.ended(server), (0, "served 1\n", ""))
        self.expect_example("A reminder run", said[-1])


class Tables(Streams):
    """A new store has the tables and indexes that docs/formats.md names, and no other ones."""

    def setUp(self):
        super().setUp()
        self.init()
        self.store = sqlite3.connect(self.folder / "fund.db")
        self.addCleanup(self.store.close)
        self.section = FORMATS[FORMATS.index("## The tables of a store"):FORMATS.index("### Looking into a store")]

    def names(self, kind):
        made = "SELECT name FROM sqlite_schema WHERE type = ? AND sql IS NOT NULL"
        return {name for name, in self.store.execute(made, (kind,))}

    def test_each_table(self):
        told = dict(re.findall(r"^\| `(\w+)` \| ([^|]*;[^|]*) \|$", self.section, re.M))
        self.assertEqual(told.keys(), self.names("table"))
        for table, text in told.items():
            key, rest = (re.findall(r"`(\w+)`", it) for it in re.sub(r"\([^)]*\)", "", text).split(";", 1))
            empty = set(re.findall(r"`(\w+)` \([^)]*NULL", text))
            columns = self.store.execute(f"PRAGMA table_info({table})").fetchall()
            self.assertEqual([name for _, name, *_ in columns], key + rest, table)
            self.assertEqual([name for _, name, *_, place in columns if place], key, table)
            self.assertEqual({name for _, name, _, full, _, place in columns if not full and not place}, empty, table)

    def test_each_index(self):
        told = re.findall(r"^\| `(\w+)` \| `(\w+)` \((.*?)\) \|", self.section, re.M)
        self.assertEqual({name for name, *_ in told}, self.names("index"))
        for name, table, columns in told:
            self.assertIn((table,), self.store.execute("SELECT tbl_name FROM sqlite_schema WHERE name = ?", (name,)))
            found = [column for _, _, column in self.store.execute(f"PRAGMA index_info({name})")]
            self.assertEqual(found, re.findall(r"\w+", columns))


if __name__ == "__main__":
    run_tests()
