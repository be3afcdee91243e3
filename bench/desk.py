#!/usr/bin/env python3
"""How long the desk's page takes from a click to what it shows, in a browser, by the browser's own clock.

    python3 bench/desk.py [PROGRAM] [--firms 1000] [--months 24] [--suspense 100] [--times 20] [--folder FOLDER]
                          [--office PORT]

PROGRAM is the built program where none is named. A new store gets so many firms, and so many months of each:
every month each firm reports ten workers and pays in full by the bank's file, but for the last month, of which it
pays a half. So many lines of the bank are in suspense. Then a desk (tools/desk) is started in front of the office,
and its page opened in a browser (tests/browser.py), which goes so many times to the page of a firm, to the
morning's work, and to either by loading the page anew. The table has the median and the longest of each, from the
click, or the beginning of the load, to the end of the second frame behind the moment at which the page says that
it shows the view; and what the office alone took of it. Below it stands what a page that is loaded asks for.

With --office, an office that is served on this port is asked in the place of a new one: it takes the key `desk` as a
clerk's, and has so many firms from 1001 on.

The files lie below FOLDER, /dev/shm where there is one, so that the figures are the programs' and not the disk's.
"""
import http.client
import os
import subprocess
import sys
import tempfile
import time
from pathlib import Path
from statistics import median
from types import SimpleNamespace

sys.dont_write_bytecode = True
HERE = Path(__file__).resolve().parent
sys.path.append(str(HERE.parent / "tests"))
from browser import Browser, what_is_missing  # noqa: E402
from limits import BODY, PAID, month_name  # noqa: E402
from serve import row  # noqa: E402
from server import HEADER, Server, option_parser  # noqa: E402
from suspense import Desk, FILE, FIRST  # noqa: E402

DESK = HERE.parent / "tools/desk"
# What takes too long, in seconds.
MOST_FIRM, MOST_MORNING = 0.3, 1.0

# Calls back with the milliseconds from the click until the view was drawn.
GO = """
    const [view, done] = arguments;
    document.body.dataset.shown = "";
    const begun = performance.now();
    location.hash = `#/${view}`;
    const told = () => done(performance.now() - begun);
    const drawn = () => requestAnimationFrame(() => requestAnimationFrame(told));
    const look = () => document.body.dataset.shown === view ? drawn() : setTimeout(look, 1);
    look();"""
# In each page from its beginning, so that what the driver takes isn't counted: notes when a view was drawn.
# `performance.now()` counts from the beginning of the load.
WATCH = """{
    const note = () => { globalThis.drawnAt = performance.now(); };
    const watch = new MutationObserver(() => {
      watch.disconnect();
      requestAnimationFrame(() => requestAnimationFrame(note));
    });
    watch.observe(document, { subtree: true, attributeFilter: ["data-shown"] });
  }"""
LOADED = """
    const [done] = arguments;
    const look = () => globalThis.drawnAt === undefined ? setTimeout(look, 1) : done(drawnAt);
    look();"""
# The names and bytes of what a page was made of.
ASKED = """
    const asked = [...performance.getEntriesByType("navigation"), ...performance.getEntriesByType("resource")];
    return asked.map((it) => [new URL(it.name).pathname, it.transferSize]);"""


def fill(desk, options):
    """The firms, their reports, and the bank's files, all through the office."""
    numbers = range(FIRST, FIRST + options.firms)
    for no in numbers:
        desk.register(no)
    for place in range(options.months):
        month = month_name(place)
        cents = PAID if place + 1 < options.months else PAID // 2
        for no in numbers:
            desk.post(f"/employers/{no}/reports/{month}", BODY)
        send_bank(desk, [f"P{no}-{month},{month}-28,{no},{cents},C,{month}\n" for no in numbers])
    lines = range(options.suspense)
    send_bank(desk, [f"S{place},2024-01-28,,{100 + place},C,no number\n" for place in lines])


def send_bank(desk, lines):
    for first in range(0, len(lines), FILE):
        desk.post("/bank", HEADER + "".join(lines[first:first + FILE]))


def make_office(options, folder):
    """An office on a day behind all months, which holds what was asked for."""
    day = month_name(options.months) + "-28"
    server = Server("program", str(options.program), os.path.join(folder, "office"), day, "desk = 0\n")
    server.init()
    server.start()
    begun = time.perf_counter()
    fill(Desk(server), options)
    # One connection is served after another: the desk's are the next ones.
    server.part()
    print(f"filled in {time.perf_counter() - begun:.0f} s", file=sys.stderr)
    return server


def office_on(port):
    """An office that somebody else serves."""
    return SimpleNamespace(address=("127.0.0.1", port), stop=lambda: None)


def start_desk(office, folder):
    """A desk in front of an office. Its process and its address."""
    key = Path(folder, "desk.key")
    key.write_text("desk\n")
    words = ["--office", str(office.address[1]), "--key-file", str(key), "--port", "0"]
    desk = subprocess.Popen([sys.executable, "-B", str(DESK), *words], stdout=subprocess.PIPE, text=True)
    return desk, desk.stdout.readline().split()[2].rstrip(",")


def ask_office(office, path):
    """The milliseconds that the office takes for a document, over a connection of its own, as for the desk."""
    begun = time.perf_counter()
    connection = http.client.HTTPConnection(*office.address, timeout=60)
    connection.request("GET", path, headers={"Office-Key": "desk", "Connection": "close"})
    connection.getresponse().read()
    connection.close()
    return (time.perf_counter() - begun) * 1000


def go(browser, view, other):
    """From the click to the view, coming from another one."""
    browser.run("location.hash = arguments[0]", f"#/{other}")
    browser.wait_for_view(other)
    return browser.driver.execute_async_script(GO, view)


def load(browser, address, view):
    """From the beginning of the load to the view, in a page of its own."""
    browser.driver.get("about:blank")
    browser.driver.get(f"{address}?lang=en#/{view}")
    took = browser.driver.execute_async_script(LOADED)
    browser.wait_for_view(view)
    return took


def measure(browser, office, address, options):
    """Each way with the milliseconds that it took, and what may be taken."""
    firms = [FIRST + place * options.firms // options.times for place in range(options.times)]
    browser.driver.execute_cdp_cmd("Page.addScriptToEvaluateOnNewDocument", {"source": WATCH})
    browser.open(f"{address}?lang=en")
    yield "a firm, by a click", MOST_FIRM, [go(browser, f"firm/{no}", "new") for no in firms]
    yield "a firm, loaded", MOST_FIRM, [load(browser, address, f"firm/{no}") for no in firms]
    yield "the morning, by a click", MOST_MORNING, [go(browser, "morning", "new") for _ in firms]
    yield "the morning, loaded", MOST_MORNING, [load(browser, address, "morning") for _ in firms]
    statements = [f"/employers/{no}/statement" for no in firms]
    yield "the office alone: a statement", None, [ask_office(office, path) for path in statements]
    yield "the office alone: suspense", None, [ask_office(office, "/suspense") for _ in firms]


def tell(found):
    """The table. Whether each took less than it may."""
    row("What is shown", "Median", "Longest", "At most")
    row(*["---"] * 4)
    is_quick = True
    for name, most, took in found:
        limit = "-" if most is None else f"{most:.1f} s"
        row(name, f"{median(took) / 1000:.3f} s", f"{max(took) / 1000:.3f} s", limit)
        is_quick = is_quick and (most is None or max(took) < most * 1000)
    return is_quick


def tell_asked(browser, address):
    """What the page of a firm asks for as it is loaded."""
    load(browser, address, f"firm/{FIRST}")
    asked = browser.run(ASKED)
    names = ", ".join(name for name, _ in asked)
    print(f"\nA firm's page: {len(asked)} requests, {sum(size for _, size in asked):,} bytes ({names}).")


def read_options():
    parser = option_parser(__doc__)
    parser.add_argument("--firms", type=int, default=1_000)
    parser.add_argument("--months", type=int, default=24)
    parser.add_argument("--suspense", type=int, default=100)
    parser.add_argument("--times", type=int, default=20)
    parser.add_argument("--office", type=int, metavar="PORT", help="an office that is served already")
    return parser.parse_args()


def main():
    options = read_options()
    if missing := what_is_missing():
        sys.exit(missing)
    with tempfile.TemporaryDirectory(dir=options.folder) as folder:
        office = office_on(options.office) if options.office else make_office(options, folder)
        desk, address = start_desk(office, folder)
        browser = Browser()
        try:
            is_quick = tell(measure(browser, office, address, options))
            tell_asked(browser, address)
        finally:
            browser.end()
            desk.kill()
            desk.wait()
            office.stop()
    sys.exit(not is_quick)


if __name__ == "__main__":
    main()
