"""Runs the commands of README and of the clerk's manual as they stand there, and compares what they print.

    python3 tests/documents.py [PROGRAM]

PROGRAM is crates/clear_app/out/clear_app where it isn't given, as `rt ci` leaves it; in the folder of a test it is
`./clearing`, beside `examples`. Only the port is another one, which is free. It needs bash, curl and sqlite3.
"""

import contextlib
import os
import re
import select
import shlex
import shutil
import signal
import socket
import subprocess
import sys
import time
import unittest

# No __pycache__ is left beside the sources.
sys.dont_write_bytecode = True
from program_under_test import ROOT, ProgramUnderTest, run_tests  # noqa: E402

PORT = "8080"
MARK = "---- the command has ended ----"


def indented_blocks(text):
    """The blocks of lines that are indented by four spaces, without these."""
    blocks, block = [], []
    for line in [*text.splitlines(), "end"]:
        if line.startswith("    "):
            block.append(line[4:])
        elif block and line:
            blocks.append(block)
            block = []
    return blocks


def end_all(shell):
    """Ends what a shell has left running, if anything."""
    with contextlib.suppress(ProcessLookupError):
        os.killpg(shell.pid, signal.SIGKILL)


def is_whole(command):
    """Whether a shell has read a command to its end: no line goes on, and no quotation is open."""
    open_quotes = re.sub(r"'[^']*'|\"[^\"]*\"|\\.", "", command)
    return not command.endswith("\\") and not re.search(r"['\"]", open_quotes)


def commands(text):
    """Each command behind `$`, with what is printed below it."""
    found = []
    for block in indented_blocks(text):
        if not block[0].startswith("$ "):
            continue
        for line in block:
            if line.startswith("$ "):
                found.append((line[2:], ""))
            elif not is_whole(found[-1][0]):
                found[-1] = (f"{found[-1][0]}\n{line}", "")
            else:
                found[-1] = (found[-1][0], f"{found[-1][1]}{line}\n")
    return found


@unittest.skipUnless(all(map(shutil.which, ("bash", "curl", "sqlite3"))), "bash, curl or sqlite3 isn't here")
class Documents(ProgramUnderTest):
    maxDiff = None

    def setUp(self):
        super().setUp()
        shutil.copytree(ROOT / "examples", self.folder / "examples")
        # No meter where curl doesn't write to a terminal, and no proxy of the machine.
        self.write(".curlrc", 'silent\nshow-error\nnoproxy = "*"\n')
        self.environment = {**os.environ, "CURL_HOME": str(self.folder), "LC_ALL": "C.UTF-8"}
        with socket.create_server(("127.0.0.1", 0)) as probe:
            self.port = str(probe.getsockname()[1])

    def with_port(self, text):
        return text.replace(PORT, self.port)

    def bash(self, *words, **options):
        return subprocess.Popen(["bash", *words], cwd=self.folder, env=self.environment, stdin=subprocess.PIPE,
                                stdout=subprocess.PIPE, start_new_session=True, **options)


class Readme(Documents):
    def test_the_six_commands(self):
        text = (ROOT / "README.md").read_text()
        text = text[text.index("## A clerk's day, in six commands"):]
        block, statement = indented_blocks(text)[:2]
        printed = re.findall(r"`([^`]+)`", text[text.index("They print"):text.index("\n    statement")])
        # An answer of the office has no line end.
        wanted = [it if it.startswith("{") else f"{it}\n" for it in printed] + [f"{line}\n" for line in statement]
        with self.bash("-c", self.with_port("\n".join(block)), stderr=subprocess.PIPE) as running:
            try:
                output, errors = running.communicate(timeout=60)
            finally:
                end_all(running)
        self.assertEqual(output.decode(), "".join(wanted), errors.decode())


class Manual(Documents):
    """The commands run in one shell, as in a clerk's window; `serve` runs beside it, as in the other one."""

    # For each command.
    SECONDS = 60

    def test_the_story(self):
        text = (ROOT / "docs/clerk.md").read_text()
        self.server = None
        with self.bash(stderr=subprocess.STDOUT) as self.shell:
            try:
                for command, printed in commands(text):
                    self.follow(self.with_port(command), self.with_port(printed))
                self.end_server()
            finally:
                end_all(self.shell)

    def follow(self, command, printed):
        if command.startswith("./clearing serve"):
            self.end_server()
            self.start_server(command, printed)
            return
        # A check touches no store, so the office may run meanwhile.
        if command.startswith("./clearing") and not command.startswith("./clearing check"):
            self.end_server()
        said = self.run_command(command)
        if "stream" in command:
            # What it prints stands in another document.
            self.assertEqual(said.count("HTTP/1.1 200 OK"), 3, said)
            return
        self.assertEqual(said.rstrip("\n"), printed.rstrip("\n"), command)

    def run_command(self, command):
        """What a command prints in the shell, within its time."""
        self.shell.stdin.write(f"{command}\necho; echo '{MARK}'\n".encode())
        self.shell.stdin.flush()
        said, until = b"", time.monotonic() + self.SECONDS
        while not said.endswith(f"\n{MARK}\n".encode()):
            is_there = select.select([self.shell.stdout], [], [], max(0, until - time.monotonic()))[0]
            part = os.read(self.shell.stdout.fileno(), 65536) if is_there else b""
            self.assertTrue(part, (command, said))
            said += part
        return said.decode()[:-len(MARK) - 2]

    def start_server(self, command, printed):
        """Starts the server as in the other window, and waits until it says that it is ready."""
        self.printed = printed
        self.log = self.write("server.log", "")
        with open(self.log, "wb") as log:
            self.server = subprocess.Popen(["bash", "-c", f"exec {command}"], cwd=self.folder, stdout=log, stderr=log,
                                           env=self.environment)
        self.addCleanup(self.server.kill)
        until = time.monotonic() + 30
        while "ready on" not in self.log.read_text():
            self.assertTrue(self.server.poll() is None and time.monotonic() < until, self.log.read_text())
            time.sleep(0.02)

    def end_server(self):
        """Ends the server as by Ctrl-C, where it doesn't end by itself, and compares what it printed."""
        if self.server is None:
            return
        if "served" not in self.printed:
            self.server.send_signal(signal.SIGINT)
        self.server.wait(timeout=30)
        self.assertEqual(self.log.read_text(), self.printed)
        self.server = None


class Starters(unittest.TestCase):
    """Today's date in the lines of programs that start the office, by what their own manuals say of `%` and `$`."""

    def setUp(self):
        self.text = (ROOT / "docs/clerk.md").read_text()

    def tells(self, command, said):
        """A shell tells this, with today's date, of whatever day it is: another one may begin meanwhile."""
        days = [time.strftime("%F")]
        told = subprocess.run(["sh", "-c", command], capture_output=True, text=True, timeout=60)
        days.append(time.strftime("%F"))
        self.assertIn(told.stdout, [f"{said.format(day)}\n" for day in days], told)

    def test_a_crontab(self):
        """crontab(5): the command ends at a `%`, but for one behind a backslash, which stands for itself."""
        word = re.search(r"in a crontab `([^`]+)`", self.text, re.IGNORECASE)[1]
        self.tells(re.split(r"(?<!\\)%", f"echo {word}")[0].replace(r"\%", "%"), "{}")

    def test_a_unit(self):
        """systemd.unit(5) and systemd.service(5): `%%` and `$$` stand for `%` and `$`, each alone for something else."""
        unit = next(block for block in indented_blocks(self.text) if block[0] == "[Service]")
        line = next(it for it in unit if it.startswith("ExecStart="))
        self.assertFalse(set("%$") & set(re.sub(r"%%|\$\$", "", line)), line)
        shell, flag, command = shlex.split(line.removeprefix("ExecStart=").replace("%%", "%").replace("$$", "$"))
        self.assertEqual((shell, flag, command.split()[0]), ("/bin/sh", "-c", "exec"))
        self.tells(command.replace("exec ", "echo ", 1),
                   "/srv/vonyakes/clearing serve fund.db callers.toml {} 808 1000000")


class Plans(unittest.TestCase):
    """The kit keeps the plans of so many texts a connection, and then makes a plan in the place of the oldest."""

    MOST = 64
    VERBS = "SELECT|INSERT|UPDATE|DELETE|CREATE|DROP|ALTER|REPLACE|WITH|PRAGMA|BEGIN|COMMIT|ROLLBACK|SAVEPOINT|RELEASE"
    TEXT = re.compile(rf'"((?:{VERBS})\b(?:[^"\\]|\\.)*)"', re.S)

    def texts(self, crates):
        """The different statements in the sources of these crates."""
        sources = (path.read_text() for crate in crates for path in (ROOT / "crates" / crate / "src").rglob("*.rt"))
        return {re.sub(r"\\\n\s*", "", text) for source in sources for text in self.TEXT.findall(source)}

    def test_each_statement_keeps_its_plan(self):
        uses = dict(re.findall(r"^(\w+):(.*)$", (ROOT / "crates.txt").read_text(), re.M))
        seen, crates = set(), ["clear_app"]
        while crates:
            crate = crates.pop()
            if crate in uses and crate not in seen:
                seen.add(crate)
                crates += uses[crate].split()
        # A text that makes a table or an index drops all plans, its own too.
        texts = [text for text in self.texts(seen) if not text.startswith("CREATE")]
        self.assertGreater(len(texts), 30)
        # With the empty text by which an office asks whether its store still stands.
        plans = len(texts) + 1
        self.assertLess(plans, self.MOST)
        self.assertIn(f"{plans} plans that stay", (ROOT / "docs/performance.md").read_text())


class Promises(unittest.TestCase):
    """Each clause and each test that docs/promises.md names is there."""

    NAMES = r"`[\w:]+`(?: \([^)]*\))?"
    CLAUSES = re.compile(rf"((?:{NAMES}, )*{NAMES}) of ((?:{NAMES}, )*{NAMES})")

    def test_what_is_proved_names_its_clauses(self):
        text = (ROOT / "docs/promises.md").read_text()
        rows = text[text.index("| Crate | Promise |"):text.index("## What is only tested")].splitlines()[2:]
        functions = {path.name: self.clauses(path) for path in (ROOT / "crates").iterdir()}
        crate, count = None, 0
        for row in filter(lambda it: it.startswith("|"), rows):
            _, of, _, by, _ = row.split("|")
            crate = next(iter(re.findall(r"`(\w+)`", of)), crate)
            for clauses, names in self.CLAUSES.findall(by):
                for name in self.outside(names):
                    # A few are of another crate than that of the row.
                    there = functions[crate].get(name) or {it for at in functions.values() for it in at.get(name, ())}
                    self.assertLessEqual(set(self.outside(clauses)), there, f"{crate}: {name}")
                    count += 1
        self.assertGreater(count, 200)

    def clauses(self, crate):
        """The clauses of each function of a crate, and of each of its modules; and of each type those of its crate's
        functions, with their names."""
        found, names = {}, set()
        for path in (crate / "src").rglob("*.rt"):
            for function in re.split(r"\bfn (?=\w)", path.read_text())[1:]:
                name = re.match(r"\w+", function)[0]
                clauses = re.findall(r"ensures\*? (\w+) \{", function)
                found.setdefault(name, {name}).update(clauses)
                found.setdefault(path.stem, set()).update(clauses)
                names |= {name, *clauses}
            for type_name in re.findall(r"\b(?:struct|enum|trait) (\w+)", path.read_text()):
                found[type_name] = names
        return found

    def outside(self, names):
        """The last parts of these names, but for those in brackets."""
        return [it.split(":")[-1] for it in re.findall(r"`([\w:]+)`", re.sub(r"\([^)]*\)", "", names))]

    def test_what_is_only_tested_names_its_tests(self):
        text = (ROOT / "docs/promises.md").read_text()
        text = text[text.index("| Only tested | By |"):text.index("## What is trusted")]
        rows = re.findall(r"^\| (.*) \| (.*) \|$", text, re.M)[1:]
        self.assertGreater(len(rows), 20)
        for what, by in rows:
            names = re.findall(r"`([\w/]+\.\w+)(?:: ([\w.]+))?`", by)
            self.assertTrue(names, what)
            for path, test in names:
                content = (ROOT / path).read_text()
                for name in filter(None, test.split(".")):
                    self.assertRegex(content, rf"(?:class|def|fn) {name}\b", what)


class House(unittest.TestCase):
    """What the tables of docs/architecture.md say of crates and of wrong programs."""

    def names(self, head, *columns):
        """The names in some columns of each row of the table with this head."""
        text = (ROOT / "docs/architecture.md").read_text()
        rows = text[text.index(head):].partition("\n\n")[0].splitlines()[2:]
        return [[re.findall(r"`(\w+)`", row.split("|")[it]) for it in columns] for row in rows]

    def test_each_crate_stands_below_those_that_it_uses(self):
        rows = self.names("| Crate | What it is |", 1)
        places = {name: place for place, (names,) in enumerate(rows) for name in names}
        uses = dict(re.findall(r"^(\w+):(.*)$", (ROOT / "crates.txt").read_text(), re.M))
        self.assertEqual(places.keys(), uses.keys())
        for crate, used in uses.items():
            for other in used.split():
                self.assertLess(places.get(other, -1), places[crate], f"{crate} uses {other}")

    def test_each_wrong_program_is_there(self):
        rows = self.names("| Wrong program | Crate |", 1, 2)
        told = {(crate, name) for names, crates in rows for name in names for crate in crates}
        there = {(path.parts[-3], path.stem) for path in ROOT.glob("crates/*/must-fail/*.edit")}
        self.assertEqual(told, there)


class ReadingList(unittest.TestCase):
    """What docs/architecture.md says has to be believed, and in which order."""

    USE = re.compile(r"use Rattle\.(\w+)\.specs\.([\w.]+)")

    def setUp(self):
        text = (ROOT / "docs/architecture.md").read_text()
        self.text = text[text.index("## What a reader must believe"):text.index("The `Laws` modules")]
        self.crates = {path.name for path in (ROOT / "crates").iterdir()}
        # Each module with its place; those of a folder share one.
        self.places = {}
        crate = None
        for place, word in enumerate(re.findall(r"`([^`]+)`", self.text[:self.text.index("Each uses only")])):
            if word in self.crates:
                crate = word
            elif crate:
                found = [*(ROOT / f"crates/{crate}/specs").glob(f"{word}.antt")]
                self.assertTrue(found or word in ("PATHS", "src/table.rt"), f"{crate} has no {word}")
                for path in found:
                    self.places[path] = place

    def test_each_module_uses_only_earlier_ones(self):
        self.assertGreater(len(self.places), 80)
        for path, place in self.places.items():
            for crate, module in self.USE.findall(path.read_text()):
                if crate in self.crates and not module.startswith("declared"):
                    used = self.path_of(crate, module)
                    self.assertLessEqual(self.places.get(used, 1_000_000), place, f"{path} uses {used}")

    def path_of(self, crate, module):
        """The file of a module. The last words of a path may be a name in it."""
        names = module.rstrip(".").split(".")
        while names:
            path = ROOT / f"crates/{crate}/specs" / ("/".join(names) + ".antt")
            if path.is_file():
                return path
            names.pop()
        # A module of a crate below that this one passes on.
        passed_on = (ROOT / f"crates/{crate}/specs/Lib.antt").read_text()
        found = re.search(rf"^pub use Rattle\.(\w+)\.specs\.({module.split('.')[0]})$", passed_on, re.M)
        if found:
            return self.path_of(*found.groups())
        raise ValueError(f"{crate} has no module {module}")

    def test_the_kits_modules_are_named(self):
        used = {}
        for path in self.places:
            for crate, module in self.USE.findall(path.read_text()):
                if crate not in self.crates and not module.startswith("declared"):
                    used.setdefault(crate, set()).add(module.rstrip(".").removesuffix(".TheVariants"))
        said = self.text[self.text.index("Each uses only"):]
        for crate, modules in used.items():
            named = re.search(rf"`{crate}`:\s([^;]+)", said)
            self.assertTrue(named, f"{crate}: {sorted(modules)}")
            self.assertEqual(set(re.findall(r"`([^`]+)`", named[1])), modules, crate)


if __name__ == "__main__":
    run_tests()
