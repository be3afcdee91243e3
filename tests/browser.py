"""Debian's chromium without a window, driven by Debian's selenium, for what looks at the desk's page as a clerk
does.

    apt-get install -y chromium chromium-driver python3-selenium

Selenium stands where Debian's own Python looks for it. Another Python finds it there too: it is Python alone.
"""

import contextlib
import json
import os
import shutil
import sys
import tempfile
import time
from pathlib import Path

DEBIAN_PACKAGES = "/usr/lib/python3/dist-packages"
INSTALL = "apt-get install -y chromium chromium-driver python3-selenium"
SECONDS = 60

# Last of all: no package of this Python gives way to one of Debian's.
if DEBIAN_PACKAGES not in sys.path:
    sys.path.append(DEBIAN_PACKAGES)
with contextlib.suppress(ImportError):
    from selenium import webdriver
    from selenium.common.exceptions import WebDriverException
    from selenium.webdriver.chrome.service import Service


def what_is_missing():
    """What the browser needs and isn't here, in a line; an empty text where all is here."""
    found = {"chromium": shutil.which("chromium"), "chromium-driver": shutil.which("chromedriver"),
             "python3-selenium": "Service" in globals()}
    missing = [name for name, is_here in found.items() if not is_here]
    return f"{', '.join(missing)} isn't here: {INSTALL}" if missing else ""


def flags(profile):
    """No profile is kept, and no name but that of this machine is found: nothing of a test goes elsewhere."""
    told = ["--headless=new", f"--user-data-dir={profile}", "--window-size=1280,900", "--lang=en",
            "--no-first-run", "--disable-background-networking", "--disable-component-update", "--disable-sync",
            "--disable-extensions", "--disable-dev-shm-usage", "--disable-gpu", "--force-color-profile=srgb",
            "--hide-scrollbars",
            "--host-resolver-rules=MAP * ~NOTFOUND, EXCLUDE 127.0.0.1"]
    # Chromium doesn't start in its sandbox as root.
    return told + (["--no-sandbox"] if os.geteuid() == 0 else [])


def start(profile):
    options = webdriver.ChromeOptions()
    options.binary_location = shutil.which("chromium")
    for flag in flags(profile):
        options.add_argument(flag)
    options.set_capability("goog:loggingPrefs", {"performance": "ALL", "browser": "ALL"})
    # A page whose clock a test sets has the same day wherever it runs.
    environment = {**os.environ, "HOME": str(profile), "LC_ALL": "C.UTF-8", "TZ": "UTC"}
    service = Service(shutil.which("chromedriver"), env=environment)
    driver = webdriver.Chrome(service=service, options=options)
    driver.set_script_timeout(SECONDS)
    driver.set_page_load_timeout(SECONDS)
    return driver


class Browser:
    """A browser with one page, whose elements are named by CSS selectors."""

    def __init__(self):
        self.profile = Path(tempfile.mkdtemp(prefix="browser-"))
        try:
            self.driver = start(self.profile)
        except BaseException:
            shutil.rmtree(self.profile, ignore_errors=True)
            raise

    def end(self):
        self.driver.quit()
        shutil.rmtree(self.profile, ignore_errors=True)

    # ---- what stands there

    def run(self, script, *words):
        """What a function body in the page returns."""
        return self.driver.execute_script(script, *words)

    def all(self, selector):
        return self.driver.find_elements("css selector", selector)

    def one(self, selector):
        return self.driver.find_element("css selector", selector)

    def text(self, selector):
        return self.one(selector).text

    def is_shown(self, selector):
        return self.one(selector).is_displayed()

    def table(self, selector):
        """The texts of a table's cells, row by row, its header first."""
        script = "return [...arguments[0].rows].map(row => [...row.cells].map(it => it.innerText.trim()))"
        rows = self.run(script, self.one(selector))
        # An amount and its sign are held together by a blank of their own.
        return [[cell.replace("\u00a0", " ") for cell in row] for row in rows]

    def focus(self):
        return self.run("return document.activeElement.id")

    def wait(self, is_so, what=""):
        """Waits until this holds. It doesn't hold yet where an element is missing or was just replaced."""
        until = time.monotonic() + SECONDS
        while time.monotonic() < until:
            with contextlib.suppress(WebDriverException):
                if found := is_so():
                    return found
            time.sleep(0.02)
        raise AssertionError(f"not within {SECONDS} seconds: {what}\n{self.text('body')}")

    def wait_for_text(self, selector, text):
        self.wait(lambda: text in self.text(selector), text)

    def wait_for_view(self, view):
        """Waits until the page says that it shows a view, `firm/1001` for a firm's."""
        self.wait(lambda: self.run("return document.body.dataset.shown") == view, view)

    # ---- what a clerk does

    def open(self, address, view="morning"):
        self.driver.get(address)
        self.wait_for_view(view)

    def click(self, selector):
        """Clicks on an element as soon as it is there. One that was just replaced is looked for again."""
        self.wait(lambda: [self.one(selector).click()], f"a click on {selector}")

    def type(self, selector, text):
        """Types a text in the place of what stands in a field, as soon as it can be typed there: a view that is asked
        for anew is hidden meanwhile."""
        def fill():
            field = self.one(selector)
            field.clear()
            field.send_keys(text)
        self.wait(lambda: [fill()], f"a text in {selector}")

    def press(self, *keys):
        """Presses keys wherever the focus is."""
        self.driver.switch_to.active_element.send_keys(*keys)

    def resize(self, width, height):
        """The size of what a page has, whatever the window takes."""
        size = {"width": width, "height": height, "deviceScaleFactor": 1, "mobile": False}
        self.driver.execute_cdp_cmd("Emulation.setDeviceMetricsOverride", size)

    def picture(self, path, height):
        """The page's upper part as PNG, as far as this height."""
        self.resize(1280, height)
        self.run("scrollTo(0, 0); document.activeElement.blur()")
        # A frame is drawn with the new size.
        self.driver.execute_async_script("requestAnimationFrame(() => requestAnimationFrame(arguments[0]))")
        path.write_bytes(self.driver.get_screenshot_as_png())
        self.resize(1280, 900)

    # ---- what the browser noticed

    def requested(self):
        """The addresses that were asked for since the last call."""
        told = (json.loads(entry["message"])["message"] for entry in self.driver.get_log("performance"))
        return [it["params"]["request"]["url"] for it in told if it["method"] == "Network.requestWillBeSent"]

    def complaints(self):
        """What the browser's console told since the last call, but for answers that aren't 200."""
        return [it["message"] for it in self.driver.get_log("browser") if it["source"] != "network"]

