"""Pages in Chromium, as a reader has them."""

from __future__ import annotations

import os
import tempfile
from pathlib import Path

from selenium import webdriver
from selenium.webdriver.chrome.service import Service
from selenium.webdriver.support.ui import WebDriverWait

# The programs by their paths, so that nothing looks for another browser or driver.
CHROMIUM, DRIVER = "/usr/bin/chromium", "/usr/bin/chromedriver"
OPTIONS = ["--headless=new", "--no-sandbox", "--disable-dev-shm-usage", "--disable-gpu", "--hide-scrollbars"]
WIDE, NARROW = (1280, 860), (390, 844)
LOOKS = (Path(__file__).parent / "looks.js").read_text("utf-8")
# What the tests leave: the pictures of pages.
PICTURES = Path(os.environ.get("GATE_ARTEFACTS") or Path(__file__).parents[3] / "out")


class Browser:
    """A browser that shows one page at a time."""

    def __init__(self) -> None:
        options = webdriver.ChromeOptions()
        options.binary_location = CHROMIUM
        self.profile = tempfile.TemporaryDirectory(prefix="chromium-")
        for it in (*OPTIONS, f"--user-data-dir={self.profile.name}"):
            options.add_argument(it)
        options.set_capability("goog:loggingPrefs", {"browser": "ALL"})
        self.driver = webdriver.Chrome(service=Service(DRIVER), options=options)
        self.driver.set_script_timeout(120)

    def close(self) -> None:
        """Ends the browser."""
        self.driver.quit()
        self.profile.cleanup()

    def look(self, size=WIDE, is_dark=False):
        """Sets the size of the window, and whether the reader wants dark colours."""
        self.driver.execute_cdp_cmd("Emulation.setDeviceMetricsOverride", {
            "width": size[0], "height": size[1], "deviceScaleFactor": 1, "mobile": False,
        })
        scheme = {"name": "prefers-color-scheme", "value": "dark" if is_dark else "light"}
        self.driver.execute_cdp_cmd("Emulation.setEmulatedMedia", {"features": [scheme]})

    def open(self, path, tick=None, size=WIDE, is_dark=False):
        """Opens a page, perhaps at a tick, and waits until its data are there."""
        self.look(size, is_dark)
        self.driver.get("about:blank")
        self.driver.get(Path(path).resolve().as_uri() + ("" if tick is None else f"#{tick}"))
        is_ready = "return document.body.classList.contains('ready')"
        WebDriverWait(self.driver, 30).until(lambda it: it.execute_script(is_ready))

    def run(self, script, *given):
        """Runs a script in the page, and returns what it returns."""
        return self.driver.execute_script(script, *given)

    def call(self, name, *given):
        """Calls a function of looks.js in the page, and returns what it returns."""
        return self.run(f"{LOOKS}\nreturn {name}(...arguments);", *given)

    def text(self, place):
        """Returns the text of an element."""
        return self.run("return document.querySelector(arguments[0]).innerText", place)

    def texts(self, place):
        """Returns the texts of all elements that a selector names."""
        return self.run("return [...document.querySelectorAll(arguments[0])].map((it) => it.textContent)", place)

    def click(self, place, number=0):
        """Clicks on an element."""
        self.run("""
            const it = document.querySelectorAll(arguments[0])[arguments[1]];
            it.dispatchEvent(new MouseEvent("click", { bubbles: true }));
        """, place, number)

    def faults(self):
        """Returns what the console has of errors and warnings since the last call."""
        return [it["message"] for it in self.driver.get_log("browser") if it["level"] in ("SEVERE", "WARNING")]

    def keep(self, name):
        """Writes a picture of the page into the folder of pictures."""
        PICTURES.mkdir(exist_ok=True)
        (PICTURES / name).write_bytes(self.driver.get_screenshot_as_png())
