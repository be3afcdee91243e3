"""Programs of the Rattle sources in bench/: proved and built in a copy of the repository, and run."""
import glob
import os
import shutil
import subprocess
import sys
import tempfile

ROOT = os.path.dirname(os.path.dirname(os.path.abspath(__file__)))
COPY = os.path.join(tempfile.gettempdir(), "clearing-bench")


class Program:
    """The program of the sources in bench/NAME, which stands on these crates."""

    def __init__(self, name, crates):
        self.sources = os.path.join(ROOT, "bench", name)
        self.crate = os.path.join(COPY, "crates", f"bench_{name}")
        self.path = os.path.join(self.crate, "out", f"bench_{name}")
        # Its line in crates.txt.
        self.line = f"bench_{name}: {crates}\n"

    def build(self):
        """Proves and builds the program where a source is newer; without words it does nothing."""
        print(f"building in {COPY}", file=sys.stderr)
        copy_crates()
        os.makedirs(os.path.join(self.crate, "src"), exist_ok=True)
        for name in os.listdir(self.sources):
            source = os.path.join(self.crate, "src", name.removesuffix(".in"))
            shutil.copy2(os.path.join(self.sources, name), source)
        with open(os.path.join(ROOT, "crates.txt")) as crates:
            lines = crates.read() + self.line
        with open(os.path.join(COPY, "crates.txt"), "w") as copy:
            copy.write(lines)
        made = subprocess.run(
            ["rt", "run"], cwd=self.crate, stdin=subprocess.DEVNULL, capture_output=True, text=True)
        if made.returncode != 0:
            sys.exit(made.stdout + made.stderr)

    def run(self, *words):
        """What the program prints."""
        return subprocess.run(
            [self.path, *map(str, words)], check=True, stdout=subprocess.PIPE, text=True).stdout

    def run_on_copy(self, store, *words):
        """What it prints over a copy of a store, which is removed then."""
        copy = store + ".copy"
        shutil.copyfile(store, copy)
        printed = self.run(copy, *words)
        for name in (copy, copy + "-wal"):
            if os.path.exists(name):
                os.remove(name)
        return printed


def copy_crates():
    """The crates as they stand. What was proved of them is copied once, and then kept."""
    for name in os.listdir(os.path.join(ROOT, "crates")):
        crate = os.path.join(COPY, "crates", name)
        was_built = os.path.isdir(os.path.join(crate, "out"))
        for part in glob.glob(os.path.join(crate, "*")):
            if os.path.basename(part) != "out":
                shutil.rmtree(part) if os.path.isdir(part) else os.remove(part)
        left_out = shutil.ignore_patterns("out") if was_built else None
        shutil.copytree(os.path.join(ROOT, "crates", name), crate, dirs_exist_ok=True, ignore=left_out)


def least(old, new):
    """The least of each of the figures, of which none may be known yet."""
    return tuple(map(min, old, new)) if old else new
