"""Runs ./clearing and ./try over a stub of the kit's command rt: no crate is proved, and nothing need be built.

    python3 tests/launcher.py

Each test has a copy of both scripts in a folder of its own, with four small crates. The stub writes a program, and keeps
a list of its calls.
"""

import os
import re
import shutil
import signal
import subprocess
import sys
import tempfile
import time
import unittest
from pathlib import Path

# No __pycache__ is left beside the sources.
sys.dont_write_bytecode = True
from program_under_test import NOBODY, ROOT  # noqa: E402

# All that the scripts call. The PATH of a test has these, and rt.
TOOLS = "awk bash cat dirname env find flock mkdir nproc readlink sed sh sha256sum sleep sort stat wc".split()
CRATES = """# as in the repository
clear_money: std_of_the_kit
clear_views: clear_money
clear_office: clear_views
clear_program: clear_office clear_money
clear_app: clear_program
other: clear_money
"""
PROVED = ("clear_money", "clear_views", "clear_office", "clear_program", "clear_app")
BUILD = ["clear_money: lib --jobs N", "clear_program: all test --jobs N", "clear_program: lib --jobs N", "clear_app: run"]
KIT = "kit of the tests"

# In the folder `state` beside the kit, a file of the name of a step has the stub wait in that step, `refused` names a step
# that fails, and `busy` has it say that it waits. `all test` would go on for ever with the crate above those that it proves.
STUB = r"""#!/bin/sh
PATH=/usr/bin:/bin
state=$(dirname "$(readlink -f "$0")")/../../state
[ "$*" = version ] || echo "${PWD##*/}: $*" >>"$state/calls"
step() {
    echo $$ >"$state/process"
    while [ -e "$state/$1" ]; do sleep 0.02; done
    [ "$(cat "$state/refused" 2>/dev/null)" != "$1" ]
}
case $* in
    version) cat "$state/version" ;;
    "lib --jobs "* | "all test --jobs "*)
        [ ! -e "$state/busy" ] || echo "rt: waiting for another rt to finish in clear_money" >&2
        crates=${PWD##*/}
        [ "$crates" != clear_program ] || crates="clear_office clear_program"
        [ "$1" = lib ] || { crates=clear_views && echo $$ >"$state/all" && echo "== clear_money"; }
        for crate in $crates; do
            step "$crate" && line="logic=proved functions=1" || line="fn $crate::f: not proved"
            [ "$1" = lib ] || echo "== $crate"
            printf '%s\n' "statements std: modules loaded=0 checked=0" "crate $crate: modules loaded=1 checked=1" "$line"
            [ "$line" = "logic=proved functions=1" ] || exit 1
        done
        while [ "$1" = all ]; do sleep 0.02; done
        ;;
    run)
        printf '#!/bin/sh\necho "half a program"\n' >out/clear_app
        chmod +x out/clear_app
        step run || { echo "no linker" >&2; exit 1; }
        cp "$state/program" out/clear_app
        printf '%s\n' "crate clear_app: modules loaded=1 checked=1" "logic=proved functions=1"
        ;;
    try*) printf '%s\n' "$@"; cat ;;
esac
"""
# It tells its folder, its words and its standard input.
PROGRAM = """#!/bin/sh
echo "${PWD##*/}"
printf '%s\\n' "$@"
cat
echo "told by the program" >&2
exit 3
"""


class Launcher(unittest.TestCase):
    def setUp(self):
        self.addCleanup(os.umask, os.umask(0o022))
        self.folder = Path(tempfile.mkdtemp(prefix="launcher-"))
        self.addCleanup(self.remove)
        self.folder.chmod(0o755)
        self.state, self.root, self.bin = (self.folder / it for it in ("state", "checkout", "bin"))
        self.program = self.root / "crates/clear_app/out/clear_app"
        self.kit = self.root / "crates/clear_app/out/clear_app.kit"
        self.write("state/version", KIT + "\n")
        self.write("state/program", PROGRAM).chmod(0o755)
        self.write("kit/bin/rt", STUB).chmod(0o755)
        self.bin.mkdir()
        (self.bin / "rt").symlink_to("../kit/bin/rt")
        for it in TOOLS:
            (self.bin / it).symlink_to(shutil.which(it))
        self.write("checkout/crates.txt", CRATES)
        for it in (*PROVED[:-1], "other"):
            self.write(f"checkout/crates/{it}/src/lib.rt", "")
        self.write("checkout/crates/clear_money/specs/low.antt", "")
        self.write("checkout/crates/clear_views/proofs/deep/high.antt", "")
        self.write("checkout/crates/clear_app/src/main.rt", "")
        for it in ("clearing", "try"):
            shutil.copy(ROOT / it, self.root)
            (self.root / it).chmod(0o755)
        long_ago = time.time() - 3_600
        for it in self.root.rglob("*"):
            os.utime(it, (long_ago, long_ago))

    def remove(self):
        self.make_writable(True)
        shutil.rmtree(self.folder)

    def make_writable(self, is_writable):
        for it in [self.root, *self.root.rglob("*")]:
            mode = it.stat().st_mode
            it.chmod(mode | 0o200 if is_writable else mode & ~0o222)

    def write(self, name, text):
        path = self.folder / name
        path.parent.mkdir(parents=True, exist_ok=True)
        path.write_text(text)
        return path

    def change(self, name, when=None):
        """Changes a source, which then has this time of change, be it an earlier one, as an unpacked file may have."""
        path = self.root / name
        with path.open("a") as source:
            source.write("# changed\n")
        if when is not None:
            os.utime(path, (when, when))

    def start(self, *words, script="checkout/clearing", folder=None, **options):
        """Starts a script. Where this is run in the background, SIGINT is ignored, which the script would inherit."""
        how = {it: subprocess.PIPE for it in ("stdin", "stdout", "stderr")}
        how.update(text=True, cwd=folder or self.folder, env={"PATH": str(self.bin)})
        how["preexec_fn"] = lambda: signal.signal(signal.SIGINT, signal.SIG_DFL)
        running = subprocess.Popen([str(self.folder / script), *words], **{**how, **options})
        self.addCleanup(running.wait)
        self.addCleanup(running.kill)
        return running

    def ended(self, running, stdin=""):
        """Status, standard output and standard error."""
        output, errors = running.communicate(stdin, timeout=30)
        return running.returncode, output, errors

    def run_script(self, *words, stdin="", **options):
        return self.ended(self.start(*words, **options), stdin)

    def runs(self, **options):
        """The program is run. Returns the lines of the launcher."""
        status, output, errors = self.run_script("a word", stdin="input\n", folder=self.state, **options)
        self.assertEqual((status, output), (3, "state\na word\ninput\n"), errors)
        self.assertTrue(errors.endswith("told by the program\n"), errors)
        return errors.splitlines()[:-1]

    def fails(self, *parts, **options):
        """The launcher fails, and standard error has these parts. Returns its lines."""
        status, output, errors = self.run_script("a word", **options)
        self.assertEqual((status, output), (70, ""), errors)
        for it in parts:
            self.assertIn(it, errors)
        return errors.splitlines()

    def calls(self):
        """The calls of rt since the last look. How many crates are proved at a time is left out."""
        path = self.state / "calls"
        text = path.read_text() if path.exists() else ""
        path.unlink(missing_ok=True)
        return [re.sub(r"--jobs [1-9]\d*$", "--jobs N", it) for it in text.splitlines()]

    def builds(self, **options):
        """Three calls of rt prove all, and a fourth one builds. The one that would go on is ended."""
        lines = self.runs(**options)
        self.assertEqual(self.calls(), BUILD)
        self.assertFalse(Path(f"/proc/{(self.state / 'all').read_text().strip()}").exists())
        return lines

    def runs_at_once(self, **options):
        self.assertEqual(self.runs(**options), [])
        self.assertEqual(self.calls(), [])

    def holds(self, step):
        """Has the stub wait in a step."""
        return self.write(f"state/{step}", "")

    def wait_for(self, what):
        for _ in range(3_000):
            if what():
                return
            time.sleep(0.01)
        raise AssertionError("not in 30 seconds")


class Builds(Launcher):
    def test_the_first_start_builds_and_the_second_does_not(self):
        lines = self.builds()
        self.assertIn("5 crates", lines[0])
        proved = [f"clearing: proved {it}, {at} of 5" for at, it in enumerate(PROVED, 1)]
        self.assertEqual(lines[1:], [*proved[:4], "clearing: building the program", proved[4]])
        self.runs_at_once()

    def test_another_rt_that_works_there_is_told(self):
        self.write("state/busy", "")
        self.assertIn("clearing: waiting for another rt to finish in clear_money", self.builds())

    def test_words_and_streams(self):
        self.runs()
        words = ["", "two words", "*", "-x", "--", "$HOME"]
        output = "launcher-\n" + "".join(f"{it}\n" for it in words)
        status, found, errors = self.run_script(*words)
        self.assertEqual((status, found.replace(self.folder.name, "launcher-"), errors), (3, output, "told by the program\n"))
        self.assertEqual(self.run_script(stdin="input")[1], f"{self.folder.name}\n\ninput")

    def test_no_standard_input(self):
        closed = {"preexec_fn": lambda: os.close(0)}
        for _ in range(2):
            self.assertEqual(self.run_script("a word", **closed)[0], 3)
        self.assertEqual(self.calls(), BUILD)

    def test_no_standard_error(self):
        with open("/dev/full", "w") as full:
            for how in ({"preexec_fn": lambda: os.close(2)}, {"stderr": full}):
                with self.subTest(str(how)):
                    status, output, _ = self.run_script("a word", stdin="input", folder=self.state, **how)
                    self.assertEqual(output, "state\na word\ninput")
                    self.assertEqual(self.calls(), BUILD)
                    self.kit.unlink()
                    self.program.unlink()

    def test_through_links(self):
        links = self.folder / "elsewhere"
        links.mkdir()
        (links / "first").symlink_to("../checkout/clearing")
        (self.folder / "second").symlink_to(links / "first")
        self.builds(script="second")
        self.runs_at_once(script="elsewhere/first")
        self.runs_at_once()

    def test_a_folder_with_a_space(self):
        self.root.rename(self.folder / "check out")
        self.root = self.folder / "check out"
        self.builds(script="check out/clearing")
        self.runs_at_once(script="check out/clearing")

    def test_sources(self):
        self.runs()
        self.calls()
        for it in ("crates.txt", "crates/clear_money/specs/low.antt", "crates/clear_views/proofs/deep/high.antt", "crates/clear_views/src/lib.rt",
                   "crates/clear_app/src/main.rt"):
            with self.subTest(it):
                self.change(it)
                self.builds()
                self.runs_at_once()
        # The program doesn't stand on this one, and a time alone changes nothing.
        self.change("crates/other/src/lib.rt")
        os.utime(self.root / "crates.txt")
        self.runs_at_once()
        (self.root / "crates/clear_money/specs/low.antt").rename(self.root / "crates/clear_money/specs/lower.antt")
        self.builds()
        (self.root / "crates/clear_money/specs/lower.antt").unlink()
        self.builds()

    def test_sources_of_any_time(self):
        """A release that is unpacked over another one may be older than the program, or come from a clock that is ahead."""
        self.runs()
        self.calls()
        for hours in (-2, 2):
            with self.subTest(hours=hours):
                self.change("crates/clear_views/src/lib.rt", time.time() + hours * 3_600)
                self.builds()
                self.runs_at_once()

    def test_a_source_that_is_saved_during_the_build(self):
        held = self.holds("run")
        first = self.start()
        self.wait_for(lambda: self.program.exists())
        self.change("crates/clear_money/src/lib.rt")
        held.unlink()
        self.assertEqual(self.ended(first)[0], 3)
        self.calls()
        self.builds()
        self.runs_at_once()

    def test_another_kit(self):
        for it in ("state/version", "kit/KIT-ID"):
            with self.subTest(it):
                self.write(it, "one kit\n")
                self.builds()
                self.runs_at_once()
                self.write(it, "another kit\n")
                self.builds()
                self.assertEqual(self.kit.read_text().splitlines()[0], "another kit")
                self.runs_at_once()

    def test_what_rt_ci_leaves_is_run(self):
        self.runs()
        self.calls()
        self.kit.unlink()
        self.runs_at_once()
        self.change("crates/clear_money/src/lib.rt", time.time() - 7_200)
        self.builds()

    def test_what_rt_ci_leaves_behind_a_build_of_other_sources(self):
        self.runs()
        self.calls()
        source = self.root / "crates/clear_money/src/lib.rt"
        built = source.read_text()
        self.change("crates/clear_money/src/lib.rt")
        self.write("checkout/crates/clear_app/out/clear_app", PROGRAM + "# changed\n")
        self.runs_at_once()
        # The sources of that build stand there again.
        source.write_text(built)
        self.builds()
        self.runs_at_once()

    def test_without_rt_the_program_runs_where_it_is_built(self):
        self.runs()
        self.calls()
        (self.bin / "rt").unlink()
        self.runs_at_once()

    def test_two_starts_at_once_build_once(self):
        held = self.holds("clear_views")
        first = self.start("first")
        self.wait_for(lambda: (self.state / "process").exists())
        second = self.start("second")
        waits = "clearing: another start builds the program; this one waits for it\n"
        self.assertEqual(second.stderr.readline(), waits)
        held.unlink()
        for running, word in ((first, "first"), (second, "second")):
            status, output, errors = self.ended(running)
            self.assertEqual((status, output), (3, f"{self.folder.name}\n{word}\n"), errors)
        self.assertEqual(self.calls(), BUILD)
        self.runs_at_once()

    def test_a_program_that_runs_holds_no_lock(self):
        self.runs()
        self.kit.write_text("")
        first = self.start()
        self.wait_for(lambda: (self.state / "calls").read_text().count("run") == 2 and self.kit.read_text())
        # It still reads its standard input.
        self.change("crates.txt")
        self.runs()
        self.assertIsNone(first.poll())
        self.assertEqual(self.ended(first)[0], 3)


class Faults(Launcher):
    def test_a_build_that_is_broken_off(self):
        for number, status in ((signal.SIGHUP, 129), (signal.SIGINT, 130), (signal.SIGTERM, 143), (signal.SIGKILL, -9)):
            for step in ("clear_views", "run"):
                with self.subTest(f"{number.name} in {step}"):
                    self.break_off(number, status, step)
                    self.calls()
                    # Half a program is never run.
                    (self.bin / "rt").rename(self.folder / "rt")
                    self.fails("rt")
                    (self.folder / "rt").rename(self.bin / "rt")
                    self.builds()
                    self.runs_at_once()
                    self.kit.unlink()
                    self.program.unlink()

    def break_off(self, number, status, step):
        """Starts the launcher, which gets this signal at this step of the build, and ends with the status."""
        held = self.holds(step)
        first = self.start()
        waits_in = "run" if step == "run" else "all test"
        calls = self.state / "calls"
        self.wait_for(lambda: calls.exists() and waits_in in "".join(calls.read_text().splitlines()[-1:]))
        if step == "run":
            self.wait_for(lambda: os.access(self.program, os.X_OK))
        stub = int((self.state / "process").read_text() or 0)
        first.send_signal(number)
        self.assertEqual(self.ended(first)[0], status)
        # rt has ended with it; where it was killed, rt ends as soon as it writes.
        if number != signal.SIGKILL and stub:
            self.assertFalse(Path(f"/proc/{stub}").exists())
        held.unlink()

    def test_a_start_that_waits_and_is_broken_off(self):
        """Nothing of it stays, which would hold its standard error open."""
        held = self.holds("clear_views")
        first = self.start()
        self.wait_for(lambda: (self.state / "process").exists())
        for number, status in ((signal.SIGHUP, 129), (signal.SIGINT, 130), (signal.SIGTERM, 143)):
            second = self.start()
            self.assertIn("waits for it", second.stderr.readline())
            second.send_signal(number)
            self.assertEqual(self.ended(second), (status, "", ""))
        held.unlink()
        self.assertEqual(self.ended(first)[0], 3)

    def test_a_proof_that_fails(self):
        self.write("state/refused", "clear_views")
        lines = self.fails("clearing: proved clear_money, 1 of 5\n", "fn clear_views::f: not proved\nclearing: ")
        self.assertFalse([it for it in lines if "proved clear_views" in it or "building" in it or it.startswith("statements")])
        self.fails("fn clear_views::f: not proved\n")
        (self.state / "refused").unlink()
        self.calls()
        self.builds()

    def test_a_program_that_cannot_be_built(self):
        self.write("state/refused", "run")
        self.fails("clearing: building the program\n", "\nno linker\n")
        (self.state / "refused").unlink()
        self.calls()
        self.builds()

    def test_what_is_missing(self):
        for it in ("rt", "flock"):
            (self.bin / it).rename(self.folder / it)
            self.assertEqual(len(self.fails(f"command {it}")), 1)
            (self.folder / it).rename(self.bin / it)
        self.builds()

    def test_a_kit_that_is_broken(self):
        """It can't build; what it built before runs all the same."""
        version = self.state / "version"
        version.rename(self.state / "away")
        self.fails("rt doesn't say its version")
        self.assertFalse(self.kit.exists())
        (self.state / "away").rename(version)
        self.builds()
        version.rename(self.state / "away")
        self.runs()
        self.assertEqual(self.calls(), [])
        self.change("crates.txt")
        self.fails("rt doesn't say its version")
        (self.state / "away").rename(version)
        self.builds()

    def test_a_program_that_cannot_be_run(self):
        self.runs()
        self.program.write_text("#!/no/such/shell\n")
        self.fails("clear_app: ")

    def test_a_limit_on_the_size_of_files(self):
        """It is a fault of the store, and not a signal."""
        self.runs()
        self.program.write_text("#!/bin/sh\nkill -XFSZ $$\necho goes on\n")
        self.assertEqual(self.run_script(), (0, "goes on\n", ""))

    def test_another_user(self):
        """What is built is for each user of the machine, whatever umask it was built under; the program has its caller's."""
        os.umask(0o077)
        self.write("state/program", PROGRAM.replace("cat\n", "cat\numask >&2\n"))
        self.assertEqual(self.builds()[-1], "0077")
        self.assertEqual(self.runs(user=NOBODY), ["0077"])
        self.assertEqual(self.calls(), [])
        # What keeps that user from it is told: the program need not be built again.
        for it in (self.program.parent, self.kit, self.root / "crates/clear_views/src"):
            mode = it.stat().st_mode
            it.chmod(0)
            self.assertEqual(len(self.fails("as far as this user may read", user=NOBODY)), 1)
            it.chmod(mode)
        self.assertEqual(self.runs(user=NOBODY), ["0077"])

    def test_a_group_that_builds(self):
        """What a group may write it may write afterwards, too."""
        os.umask(0o002)
        self.builds()
        self.assertEqual(self.kit.stat().st_mode & 0o777, 0o664)

    def test_a_checkout_that_is_read_only(self):
        self.make_writable(False)
        self.assertEqual(len(self.fails("no file can be written", user=NOBODY)), 1)
        self.make_writable(True)
        self.builds()
        self.make_writable(False)
        self.runs_at_once(user=NOBODY)
        self.make_writable(True)
        self.change("crates.txt")
        self.make_writable(False)
        self.assertEqual(len(self.fails("no file can be written", user=NOBODY)), 1)


class Try(Launcher):
    def test_words_that_work_on_a_store(self):
        for it in ("init", "serve", "import", "statement", "migrate", "look", "backup"):
            lines = self.fails_to_try(it, "fund.db", "rates.toml")
            self.assertEqual(len(lines), 1)
            self.assertIn(f"use ./clearing {it}", lines[0])
        self.assertEqual(self.calls(), [])

    def fails_to_try(self, *words):
        status, output, errors = self.run_script(*words, script="checkout/try")
        self.assertEqual((status, output), (70, ""))
        return errors.splitlines()

    def tried(self, *words, **options):
        """What the stub is called with."""
        status, output, errors = self.run_script(*words, stdin="input\n", folder=self.state, **options)
        self.assertEqual(status, 0)
        self.assertIn("try: nothing of this run is proved", errors)
        self.assertEqual(self.calls()[0][:11], "clear_app: ")
        self.assertTrue(output.endswith("\ninput\n"), output)
        return output.splitlines()[:-1]

    def test_other_words_are_passed_on(self):
        for words in ([], ["help"], ["--help"], ["stream", "sample", "sample", "2024-04-30"], ["two words"]):
            self.assertEqual(self.tried(*words, script="checkout/try"), ["try", "--", *words])

    def test_files_that_words_name(self):
        """By their whole paths, since rt runs the program in a folder of its own."""
        names = ("rates.toml", "below/of callers.toml", "../other.csv", "./stdin.csv", "a=b.csv")
        for it in names:
            self.write(f"state/{it}", "")
        paths = [f"{self.state}/{it}" for it in names]
        (self.folder / "link").symlink_to("checkout/try")
        for script in ("checkout/try", "link"):
            self.assertEqual(self.tried("check", "bank", *names, "none.csv", script=script),
                             ["try", "--", "check", "bank", *paths, "none.csv"])
            self.assertEqual(self.tried("check", "bank", *paths, script=script), ["try", "--", "check", "bank", *paths])

    def test_words_that_are_no_files(self):
        """Also where a file has their name."""
        for it in ("check", "stream", "bank", "sample", "2024-04-30", "april.csv"):
            self.write(f"state/{it}", "")
        bank, sample = f"{self.state}/bank", f"{self.state}/sample"
        for words, passed_on in (
                (["check", "bank", "april.csv"], ["check", "bank", f"{self.state}/april.csv"]),
                (["check", "bank", "bank"], ["check", "bank", bank]),
                (["check", "rates", "sample"], ["check", "rates", sample]),
                (["stream", "sample", "sample", "2024-04-30"], ["stream", "sample", "sample", "2024-04-30"]),
                (["stream", "bank", "sample", "2024-04-30"], ["stream", bank, "sample", "2024-04-30"])):
            self.assertEqual(self.tried(*words, script="checkout/try"), ["try", "--", *passed_on])


if __name__ == "__main__":
    unittest.main()
