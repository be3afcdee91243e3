"""Has the office's own program read a bank file before it is sent: `clearing check bank FILE`."""

import contextlib
import os
import shutil
import signal
import subprocess
import tempfile
from pathlib import Path

SECONDS = 20
MOST_TOLD = 2_000

# The checks that run. A stop of the desk doesn't reach them by itself.
RUNNING: set[subprocess.Popen] = set()


def check_bank(program: Path | None, content: bytes) -> dict[str, str]:
    """How the program judges the file: `good` or `faulty` with its words, or why it wasn't checked:
    `none` (no program was given), `missing`, `slow` or `failed`."""
    if program is None:
        return {"state": "none", "text": ""}
    if shutil.which(program) is None:
        return {"state": "missing", "text": str(program)}
    try:
        with tempfile.TemporaryDirectory(prefix="desk-") as folder:
            file = Path(folder, "bank.csv")
            file.write_bytes(content)
            return run(program, file)
    except OSError as why:
        return {"state": "failed", "text": why.strerror or ""}


def run(program: Path, file: Path) -> dict[str, str]:
    # A process group of its own, so that what a launcher starts ends with it.
    running = subprocess.Popen(
        [program, "check", "bank", file], cwd=file.parent, start_new_session=True,
        stdin=subprocess.DEVNULL, stdout=subprocess.PIPE, stderr=subprocess.PIPE)
    RUNNING.add(running)
    try:
        output, errors = running.communicate(timeout=SECONDS)
    except subprocess.TimeoutExpired:
        end(running)
        running.communicate()
        return {"state": "slow", "text": ""}
    finally:
        RUNNING.discard(running)
    # What is wrong with a file is told on standard output, and what is wrong with the command line isn't.
    judged = {0: "good", 2: "faulty"}.get(running.returncode) if output else None
    told = (output or errors).decode(errors="replace").replace(str(file), file.name)
    return {"state": judged or "failed", "text": told[:MOST_TOLD]}


def end(running: subprocess.Popen) -> None:
    with contextlib.suppress(ProcessLookupError):
        os.killpg(running.pid, signal.SIGKILL)


def end_checks() -> None:
    """Ends what runs, since the desk ends."""
    for running in tuple(RUNNING):
        end(running)
