#!/usr/bin/python3
"""Debian's Chromium, driven by Selenium, which opens pages from files and says what is in them. As a script it takes a picture
of a page, as those of docs/pictures.
"""
import argparse
import base64
import contextlib
import pathlib
import shutil
import sys
import tempfile
from collections.abc import Iterator

import debian

BROWSER, DRIVER = "/usr/bin/chromium", "/usr/bin/chromedriver"
PACKAGES = ("chromium", "chromium-driver", "python3-selenium")
# no sandbox, since the tests may be run by root; and nothing that a browser does by itself
OPTIONS = (
    *("--headless=new", "--no-sandbox", "--disable-gpu", "--disable-dev-shm-usage", "--hide-scrollbars"),
    *("--renderer-process-limit=1", "--disable-background-networking", "--no-first-run", "--disable-extensions"),
)
WIDE = (1440, 900)
# how long a page may take to open and a script to answer, in seconds
LIMIT = 120


def is_there() -> bool:
    """Whether the browser, its driver and Selenium are there for this Python."""
    has_programs = all(shutil.which(path) for path in (BROWSER, DRIVER))
    return has_programs and debian.has_modules(sys.executable, "selenium")


def why_not_there() -> str:
    """Why there is no browser, once it was installed where that can be done; no text where there is one."""
    if not is_there():
        debian.install(*PACKAGES)
    return "" if is_there() else f"there is no {DRIVER}: Debian has what is needed as {', '.join(PACKAGES)}"


class Browser:
    """A browser with one page."""

    def __init__(self, driver):
        self.driver = driver
        self.resize(*WIDE)

    def resize(self, width: int, height: int) -> None:
        size = {"width": width, "height": height, "deviceScaleFactor": 1, "mobile": False}
        self.driver.execute_cdp_cmd("Emulation.setDeviceMetricsOverride", size)

    def emulate(self, **features: str) -> None:
        """Answers the page's questions of media by these, as `prefers_color_scheme="dark"`."""
        media = [{"name": name.replace("_", "-"), "value": value} for name, value in features.items()]
        self.driver.execute_cdp_cmd("Emulation.setEmulatedMedia", {"features": media})

    def allow_scripts(self, is_allowed: bool) -> None:
        self.driver.execute_cdp_cmd("Emulation.setScriptExecutionDisabled", {"value": not is_allowed})

    def open(self, path: pathlib.Path, address: str = "") -> list[str]:
        """Opens a page, and gives what the browser complains of."""
        self.driver.get("about:blank")
        self.complaints()
        self.driver.get(f"{path.as_uri()}{address}")
        return self.complaints()

    def complaints(self) -> list[str]:
        return [entry["message"] for entry in self.driver.get_log("browser") if entry["level"] in ("SEVERE", "WARNING")]

    def ask(self, script: str, *given):
        """What a script gives."""
        return self.driver.execute_script(script, *given)

    def press(self, *keys: str, holding: str = "") -> None:
        from selenium.webdriver import ActionChains

        chain = ActionChains(self.driver)
        if holding:
            chain.key_down(holding)
        chain.send_keys(*keys)
        if holding:
            chain.key_up(holding)
        chain.perform()

    def accessible(self) -> list[tuple[str, str]]:
        """The role and the name of each element that a screen reader meets."""
        nodes = self.driver.execute_cdp_cmd("Accessibility.getFullAXTree", {})["nodes"]
        said = [node for node in nodes if not node.get("ignored")]
        return [(node.get("role", {}).get("value", ""), node.get("name", {}).get("value", "")) for node in said]

    def printed(self) -> bytes:
        """The page as a PDF, on sheets of A4."""
        how = {"printBackground": True, "paperWidth": 8.27, "paperHeight": 11.69}
        return base64.b64decode(self.driver.execute_cdp_cmd("Page.printToPDF", how)["data"])

    def picture(self, path: pathlib.Path) -> None:
        self.driver.save_screenshot(str(path))


@contextlib.contextmanager
def browser() -> Iterator[Browser]:
    """A browser, with a folder of its own."""
    from selenium.webdriver import Chrome, ChromeOptions
    from selenium.webdriver.chrome.service import Service

    with tempfile.TemporaryDirectory(prefix="browser-", ignore_cleanup_errors=True) as folder:
        options = ChromeOptions()
        options.binary_location = BROWSER
        for option in (*OPTIONS, f"--user-data-dir={folder}", f"--window-size={WIDE[0]},{WIDE[1]}"):
            options.add_argument(option)
        options.set_capability("goog:loggingPrefs", {"browser": "ALL"})
        driver = Chrome(service=Service(DRIVER), options=options)
        try:
            driver.set_page_load_timeout(LIMIT)
            driver.set_script_timeout(LIMIT)
            yield Browser(driver)
        finally:
            driver.quit()


def main() -> None:
    parser = argparse.ArgumentParser(description="Takes a picture of a page.")
    parser.add_argument("page", type=pathlib.Path)
    parser.add_argument("picture", type=pathlib.Path)
    parser.add_argument("--address", default="", metavar="WORDS", help="what stands behind the page's name, as #claim=1&step=2")
    parser.add_argument("--theme", choices=("light", "dark"), default="light")
    given = parser.parse_args()
    with browser() as opened:
        opened.emulate(prefers_color_scheme=given.theme)
        opened.open(given.page.resolve(), given.address)
        opened.picture(given.picture)


if __name__ == "__main__":
    main()
