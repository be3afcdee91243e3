"""What the desk itself has to say where the office says nothing, or isn't asked."""

import enum
from typing import Any


class Status(enum.IntEnum):
    """How the desk's program ends."""

    DONE = 0
    COMMAND_LINE = 2
    NO_PORT = 3


class StartFault(Exception):
    """Why the desk doesn't start: a line for the window in which it was started."""

    def __init__(self, text: str, status: Status = Status.COMMAND_LINE):
        super().__init__(text)
        self.status = status


class Fault(Exception):
    """A fault that the page tells: its code, for which the words files have `fault.CODE`, and what it
    carries."""

    def __init__(self, code: str, http_status: int = 400, **carried: Any):
        super().__init__(code)
        self.code = code
        self.http_status = http_status
        self.carried = carried


class FieldFault(Fault):
    """A field of a form that isn't as it should be: the words files have `field.REASON`."""

    def __init__(self, field: str, reason: str):
        super().__init__("field", field=field, reason=reason)
