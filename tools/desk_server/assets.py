"""The files of the page, read once at the start: no path of a request ever reaches the file system."""

from dataclasses import dataclass
from pathlib import Path

from .faults import StartFault
from .joined import NotJoined, join_scripts

FOLDER = Path(__file__).resolve().parent.parent / "desk_page"
# Those that are served as they stand.
FILES = {
    "/": ("index.html", "text/html; charset=utf-8"),
    "/desk.svg": ("desk.svg", "image/svg+xml"),
    "/words.de.json": ("words.de.json", "application/json"),
    "/words.en.json": ("words.en.json", "application/json"),
}
FIRST_SCRIPT = "desk"
# In the order in which they hold.
STYLES = ("desk.css", "parts.css", "print.css")


@dataclass(frozen=True)
class Asset:
    content: bytes
    kind: str


def read_script() -> str:
    """All scripts in one."""
    scripts = {path.stem: path.read_text(encoding="utf-8") for path in FOLDER.glob("*.js")}
    return join_scripts(scripts, FIRST_SCRIPT)


def read_styles() -> str:
    return "".join((FOLDER / name).read_text(encoding="utf-8") for name in STYLES)


def read_assets() -> dict[str, Asset]:
    """What is served by the paths under which it is asked for; the page itself is `/`."""
    try:
        assets = {path: Asset((FOLDER / name).read_bytes(), kind) for path, (name, kind) in FILES.items()}
        assets["/desk.js"] = Asset(read_script().encode(), "text/javascript; charset=utf-8")
        assets["/desk.css"] = Asset(read_styles().encode(), "text/css; charset=utf-8")
    except OSError:
        raise StartFault(f"{FOLDER}: the page isn't there") from None
    except NotJoined as why:
        raise StartFault(f"{FOLDER}: {why}") from None
    return assets
