"""Who may speak to the desk: the page that it served itself, in a browser of its own user, and nobody
else.

- `Host` and `Origin`: another page in the clerk's browser can't reach the desk, whatever name it gave
  this machine. `localhost` is such a name: a browser tries ::1 too, where any user may listen.
- Tokens: each form has one, made of a secret of this process, which only the page could read.
- The user: the desk has the clerk's key, so the server takes no connection of another user of this machine
  (`owners`).
"""

import hashlib
import hmac
import http.client
import secrets
from email.message import Message

from .faults import Fault

HEADERS = {
    "Content-Security-Policy": (
        "default-src 'self'; base-uri 'none'; form-action 'self'; frame-ancestors 'none'"),
    "X-Content-Type-Options": "nosniff",
    "X-Frame-Options": "DENY",
    "Referrer-Policy": "no-referrer",
    "Cross-Origin-Opener-Policy": "same-origin",
    "Cross-Origin-Resource-Policy": "same-origin",
    "Cache-Control": "no-store",
}


class Tokens:
    def __init__(self) -> None:
        self._secret = secrets.token_bytes(32)

    def token(self, form: str) -> str:
        return hmac.new(self._secret, form.encode(), hashlib.sha256).hexdigest()

    def check(self, form: str, given: str | None) -> None:
        if not hmac.compare_digest(self.token(form).encode(), (given or "").encode(errors="replace")):
            raise Fault("token", 403)


def one(headers: Message, name: str) -> str | None:
    """The value of a header that may stand once."""
    values = headers.get_all(name, [])
    if len(values) > 1:
        raise Fault("headers", 400)
    return values[0] if values else None


def check_source(headers: Message, port: int, is_post: bool) -> None:
    """Refuses what another page, or a name that leads to this machine, has sent."""
    host = one(headers, "Host")
    # A browser leaves out the port that HTTP has by itself.
    if host != ("127.0.0.1" if port == http.client.HTTP_PORT else f"127.0.0.1:{port}"):
        raise Fault("host", 403)
    origin = one(headers, "Origin")
    if origin != f"http://{host}" and (is_post or origin is not None):
        raise Fault("origin", 403)


def check_site(headers: Message) -> None:
    """Refuses what a browser says that another page has asked for. A link to the page itself may stand
    anywhere."""
    if one(headers, "Sec-Fetch-Site") not in (None, "none", "same-origin"):
        raise Fault("origin", 403)
