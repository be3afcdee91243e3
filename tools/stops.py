"""What breaks a tool off besides Ctrl-C."""

import contextlib
import signal
from collections.abc import Iterator

STOPS = signal.SIGINT, signal.SIGTERM, signal.SIGHUP


def take_stops() -> None:
    """Has SIGTERM and SIGHUP break the program off as Ctrl-C does; one that is ignored, as by `nohup`, stays so."""
    for number in (signal.SIGTERM, signal.SIGHUP):
        if signal.getsignal(number) is signal.SIG_DFL:
            signal.signal(number, signal.default_int_handler)


@contextlib.contextmanager
def stops_held() -> Iterator[None]:
    """A stop that comes meanwhile breaks the program off behind it."""
    before = signal.pthread_sigmask(signal.SIG_BLOCK, STOPS)
    try:
        yield
    finally:
        signal.pthread_sigmask(signal.SIG_SETMASK, before)
