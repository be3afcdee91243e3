"""What the tests of the desk share: an office that is served, a desk in front of it, and how they are
talked to."""

import contextlib
import http.client
import json
import pwd
import re
import socket
import subprocess
import sys
import threading
import time

from program_under_test import DAY, NOBODY, ROOT, ProgramUnderTest

# Root's tests start the office as another user.
OFFICE_USER = ["--office-user", pwd.getpwuid(NOBODY).pw_name] if NOBODY else []
DESK = ROOT / "tools/desk"
READY = re.compile(r"desk on http://127\.0\.0\.1:([0-9]+)/, office on 127\.0\.0\.1:[0-9]+\n")
LENGTH = re.compile(rb"\r\nContent-Length: ([0-9]+)")
DONE = {"done": True}
BANK_HEADER = "reference,value_date,employer,cents,purpose,note\n"
FIRST_BANK = BANK_HEADER + "B1,2024-02-25,1001,150000,C,\nB2,2024-04-21,1001,200000,,January rest\n"


def free_port():
    with socket.create_server(("127.0.0.1", 0)) as probe:
        return probe.getsockname()[1]


def read_message(peer):
    """The bytes of one request or answer."""
    got = b""
    while (end := got.find(b"\r\n\r\n")) < 0 or len(got) < end + 4 + length_of(got[:end + 2]):
        part = peer.recv(65536)
        if not part:
            return got
        got += part
    return got


def length_of(head):
    found = LENGTH.search(head)
    return int(found[1]) if found else 0


# By which a desk sees that its key is a clerk's, before the first command.
KEY_QUESTION = b"GET /workers/999999999 HTTP/1.1\r\n"


class FakeOffice:
    """Takes requests on a port, and answers each as `answer` says: bytes, or None to end the connection. Each
    key is a clerk's, where `key_answer` says nothing else."""

    def __init__(self, test, answer, port=0):
        self.listener = socket.create_server(("127.0.0.1", port))
        self.port = self.listener.getsockname()[1]
        self.requests = []
        self.answer = answer
        self.key_answer = answer_bytes(200, b"worker 999999999 2024-04-30\nbalance 0.00\n", "text/plain")
        self.thread = threading.Thread(target=self.serve, daemon=True)
        self.thread.start()
        test.addCleanup(self.end)

    def end(self):
        """Ends the thread first, so that it never waits at a socket that gets the number of this one."""
        with contextlib.suppress(OSError):
            self.listener.shutdown(socket.SHUT_RDWR)
        self.thread.join(1)
        self.listener.close()

    def serve(self):
        while True:
            try:
                peer, _ = self.listener.accept()
            except OSError:
                return
            self.take(peer)

    def take(self, peer):
        with peer:
            request = read_message(peer)
            if request.startswith(KEY_QUESTION):
                peer.sendall(self.key_answer)
                return
            self.requests.append(request)
            answer = self.answer(request)
            if answer is not None:
                peer.sendall(answer)


def answer_bytes(status, body, kind="application/json"):
    body = body if isinstance(body, bytes) else json.dumps(body).encode()
    head = f"HTTP/1.1 {status} Said\r\nContent-Type: {kind}\r\nContent-Length: {len(body)}\r\n\r\n"
    return head.encode() + body


class DeskUnderTest(ProgramUnderTest):
    """A folder with a store, the key of a clerk, and the office and the desk when they are opened."""

    maxDiff = None
    # The files of a new store, which is made once.
    new_store = {}

    def setUp(self):
        super().setUp()
        self.write("desk.key", "desk\n")
        self.log_folder = self.folder / "desk-log"
        self.desk = None

    def open_office(self, day=DAY, port=None):
        """The office, which takes connections by now. Its port."""
        if not (self.folder / "fund.db").exists():
            self.make_store()
        self.server = self.serving(100_000, day, port=port)
        self.connect(self.server).close()
        return self.server.port

    def make_store(self):
        if not self.new_store:
            self.init()
            self.new_store.update((path.name, path.read_bytes()) for path in self.folder.glob("fund.db*"))
        for name, content in self.new_store.items():
            self.write(name, content)

    def close_office(self):
        self.server.kill()
        self.server.communicate()

    def open_desk(self, office=None, *further, key="desk.key", first="1", **options):
        """Starts the desk in front of this office (else a new one), and begins a session."""
        office = self.open_office() if office is None else office
        self.desk = self.start_desk(office, *further, key=key, first=first, **options)
        self.session = self.get("/api/session")[1]

    def start_desk(self, office, *further, key="desk.key", first="1", **options):
        words = ["--office", str(office), "--key-file", key, "--port", "0", *OFFICE_USER, *further]
        words += ["--first-number", first] if first else []
        desk = subprocess.Popen([sys.executable, "-B", str(DESK), *words], cwd=self.folder, stdin=subprocess.DEVNULL,
                                stdout=subprocess.PIPE, stderr=subprocess.PIPE, text=True, **options)
        self.addCleanup(desk.communicate)
        self.addCleanup(desk.kill)
        ready = READY.fullmatch(desk.stdout.readline())
        self.assertTrue(ready, desk.poll() is not None and desk.stderr.read())
        self.port = int(ready[1])
        return desk

    def run_desk(self, *words):
        """Status, standard output and standard error of a desk that doesn't start."""
        command = [sys.executable, "-B", str(DESK), *words]
        ran = subprocess.run(command, cwd=self.folder, capture_output=True, timeout=30)
        return ran.returncode, ran.stdout.decode(), ran.stderr.decode()

    def kill_desk(self):
        self.desk.kill()
        self.desk.wait()

    # ---- requests

    def ask(self, method, path, body=None, headers=None):
        """Status, header fields and body of the desk's answer."""
        connection = http.client.HTTPConnection("127.0.0.1", self.port, timeout=60)
        try:
            connection.request(method, path, body, headers or {})
            answer = connection.getresponse()
            return answer.status, answer.headers, answer.read()
        finally:
            connection.close()

    def get(self, path, **headers):
        status, _, body = self.ask("GET", path, headers=headers)
        return status, json.loads(body)

    def headers(self, form, confirmed=True, **further):
        return {"Origin": f"http://127.0.0.1:{self.port}", "Desk-Token": self.session["tokens"][form],
                "Content-Type": "application/json", "Desk-Confirmed": "yes" if confirmed else "no", **further}

    def post(self, path, form, body, confirmed=True, **further):
        body = body if isinstance(body, bytes) else json.dumps(body).encode()
        status, _, told = self.ask("POST", path, body, self.headers(form, confirmed, **further))
        return status, json.loads(told)

    def command(self, kind, confirmed=True, **fields):
        return self.post(f"/api/commands/{kind}", kind, {"language": "de", **fields}, confirmed)

    def bank(self, content, name="bank.csv"):
        kind = {"Content-Type": "application/octet-stream", "Desk-File": name}
        return self.post("/api/commands/bank", "bank", content.encode(), **kind)

    def does(self, reply, told, outcome="done"):
        """The desk told that a command was done, with this reply of the office."""
        status, members = told
        self.assertEqual(status, 200, members)
        self.assertEqual((members["entry"]["outcome"], members["entry"]["reply"]), (outcome, reply))
        return members

    def refuses(self, rule, name, detail, told):
        status, members = told
        self.assertEqual(status, 409, members)
        self.assertEqual(members["entry"]["outcome"], "refused")
        self.assertEqual(members["entry"]["reply"], {"rule": rule, "name": name, "detail": detail})

    def faults(self, status, code, told):
        """The desk itself tells this fault. What it carries."""
        self.assertEqual((told[0], told[1].get("fault")), (status, code), told[1])
        return told[1]["carried"]

    # ---- the folder

    def lines(self, name):
        return [json.loads(line) for line in (self.log_folder / name).read_text().splitlines()]

    def logged(self):
        return [(it["number"], it["outcome"], it["words"]) for it in self.lines("log.jsonl")]

    def wait_for(self, is_so):
        for _ in range(1_500):
            if is_so():
                return
            time.sleep(0.02)
        raise AssertionError("not within 30 seconds")

    # ---- the story of the clerk's manual

    def register(self, employer="1001", name="Bau Nord", start="2024-01"):
        return self.command("register", employer=employer, name=name, start=start)

    def report(self, month, csv, kind="report", **further):
        return self.command(kind, employer="1001", month=month, csv="worker,gross\n" + csv, **further)

    def check_report(self, month, csv):
        form = {"language": "de", "month": month, "csv": csv}
        return self.post("/api/check/report", "check-report", form)[1]

    def expected(self, month, lines):
        return self.check_report(month, "worker,gross\n" + lines)["expected"]
