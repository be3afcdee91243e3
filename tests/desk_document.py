"""Runs the commands of docs/desk.md as they stand there, and compares what they print; and looks at what it says
of the page's words, and at its pictures.

    python3 tests/desk_document.py [PROGRAM]

PROGRAM is crates/clear_app/out/clear_app where it isn't given, as `rt ci` leaves it. It needs what
tests/documents.py needs, and Debian's Python with python3-defusedxml. Only the two ports are others, which are
free.
"""

import http.client
import json
import re
import shutil
import signal
import subprocess
import sys
import time
import unittest

# No __pycache__ is left beside the sources.
sys.dont_write_bytecode = True
import documents  # noqa: E402
from desk_under_test import free_port  # noqa: E402
from program_under_test import ROOT, run_tests  # noqa: E402

PAGE_PORT = "8090"
PYTHON = "/usr/bin/python3"


def has_defusedxml():
    return bool(shutil.which(PYTHON)) and subprocess.run(
        [PYTHON, "-c", "import defusedxml"], stderr=subprocess.DEVNULL).returncode == 0


@unittest.skipUnless(has_defusedxml(), "Debian's python3 with python3-defusedxml isn't here")
class FirstDay(documents.Manual):
    """The fund's first day. Office and desk run beside the shell, as each in its window."""

    def setUp(self):
        super().setUp()
        shutil.copytree(ROOT / "tools", self.folder / "tools", ignore=shutil.ignore_patterns("__pycache__"))
        # The day begins from nothing.
        for name in ("rates.toml", "callers.toml"):
            (self.folder / name).unlink()
        self.page_port = free_port()
        self.desk = None

    def with_port(self, text):
        # (The office's may be 48090.)
        return re.sub(rf"\b{PAGE_PORT}\b", str(self.page_port), super().with_port(text))

    def test_the_story(self):
        text = (ROOT / "docs/desk.md").read_text()
        self.server = None
        with self.bash(stderr=subprocess.STDOUT) as self.shell:
            try:
                for command, printed in documents.commands(text):
                    self.follow(self.with_port(command), self.with_port(printed))
                self.the_page_is_served()
                self.end_desk()
                self.end_server()
            finally:
                documents.end_all(self.shell)

    def follow(self, command, printed):
        if command.startswith("tools/desk"):
            self.start_desk(command, printed)
        else:
            super().follow(command, printed)

    def start_desk(self, command, printed):
        with open(self.folder / "desk.log", "wb") as log:
            self.desk = subprocess.Popen(["bash", "-c", f"exec {command}"], cwd=self.folder, env=self.environment,
                                         stdout=log, stderr=log)
        self.addCleanup(self.desk.kill)
        until = time.monotonic() + 30
        while "desk on" not in self.told_by_desk():
            self.assertTrue(self.desk.poll() is None and time.monotonic() < until, self.told_by_desk())
            time.sleep(0.02)
        self.assertEqual(self.told_by_desk(), printed)

    def told_by_desk(self):
        return (self.folder / "desk.log").read_text()

    def ask(self, path):
        connection = http.client.HTTPConnection("127.0.0.1", self.page_port, timeout=30)
        connection.request("GET", path)
        answer = connection.getresponse()
        said = answer.read().decode()
        connection.close()
        self.assertEqual(answer.status, 200, said)
        return said

    def the_page_is_served(self):
        """The office takes the key, the page is there, and nobody else reads what was made."""
        self.assertIn('"count": 0', self.ask("/api/suspense/0"))
        self.assertIn("<title>", self.ask("/"))
        key = (self.folder / "desk.key").read_text().strip()
        self.assertEqual(len(key), 32)
        self.assertNotIn(key, self.ask("/api/session"))
        for name in ("desk.key", "callers.toml", "april.csv", "fund.db", "desk-log"):
            self.assertEqual((self.folder / name).stat().st_mode & 0o077, 0, name)

    def end_desk(self):
        """Ends the desk as by Ctrl-C."""
        self.assertIsNotNone(self.desk, "docs/desk.md starts no desk")
        self.desk.send_signal(signal.SIGINT)
        self.assertEqual(self.desk.wait(timeout=30), 0)


class Words(unittest.TestCase):
    """What stands in docs/desk.md of the page."""

    def setUp(self):
        self.text = (ROOT / "docs/desk.md").read_text()

    def test_words_of_the_page(self):
        words = set(json.loads((ROOT / "tools/desk_page/words.en.json").read_text()).values())
        said = re.findall(r"(?<!\*)\*([^*\n]+)\*(?!\*)", self.text)
        self.assertGreater(len(said), 7)
        self.assertEqual([it for it in said if it not in words], [])

    def test_pictures(self):
        for name in re.findall(r"!\[[^]]+\]\(([^)]+)\)", self.text):
            content = (ROOT / "docs" / name).read_bytes()
            self.assertEqual(content[:8], b"\x89PNG\r\n\x1a\n", name)
            self.assertLess(len(content), 150_000, name)


if __name__ == "__main__":
    run_tests()
