"""What a tool makes, on standard output, and what it tells the clerk."""

import contextlib
import sys

STANDARD_OUTPUT, STANDARD_ERROR = 1, 2


def put_out(content: bytes) -> None:
    with open(STANDARD_OUTPUT, "wb", closefd=False) as output:
        output.write(content)


def tell(what: object) -> None:
    """Tells something on standard error. Where it can't be told, the work is done all the same."""
    if sys.stderr is None:
        return
    with contextlib.suppress(OSError), open(STANDARD_ERROR, "w", errors="backslashreplace", closefd=False) as told:
        told.write(f"{what}\n")
