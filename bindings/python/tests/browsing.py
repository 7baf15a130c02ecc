"""A page in a real browser: Chromium without a window, by Selenium.

With SCREENSHOTS=FOLDER in the environment, pictures of the page are put there."""

import os
import pathlib
import shutil
import unittest

try:
    from selenium import webdriver
    from selenium.common.exceptions import TimeoutException
    from selenium.webdriver.chrome.service import Service
    from selenium.webdriver.common.by import By
    from selenium.webdriver.common.keys import Keys
    from selenium.webdriver.support.ui import WebDriverWait
except ImportError:
    webdriver = By = Keys = None

PATIENCE = 60
HAS_BROWSER = bool(webdriver and shutil.which("chromedriver"))
WORDS = ("--headless=new", "--no-sandbox", "--disable-dev-shm-usage", "--disable-gpu", "--window-size=1400,800")


def browser(scheme):
    """Chromium without a window, in this colour scheme."""
    options = webdriver.ChromeOptions()
    for word in WORDS:
        options.add_argument(word)
    if scheme == "dark":
        options.add_argument("--force-dark-mode")
    options.set_capability("goog:loggingPrefs", {"browser": "ALL"})
    made = webdriver.Chrome(options=options, service=Service(shutil.which("chromedriver")))
    made.execute_cdp_cmd("Emulation.setEmulatedMedia", {"features": [{"name": "prefers-color-scheme", "value": scheme}]})
    return made


class InBrowser(unittest.TestCase):
    """A test of one page."""

    def open_page(self, address, scheme="light"):
        """The page in a browser that ends with the test, once it is ready."""
        self.page = browser(scheme)
        self.addCleanup(self.page.quit)
        self.go(address)

    def go(self, address):
        """Another address, once its page is ready."""
        self.page.get(address)
        self.wait(lambda: self.script("return 'ready' in document.documentElement.dataset"))

    def script(self, text, *given):
        """What a script in the page gives."""
        return self.page.execute_script(text, *given)

    def at(self, name):
        """The element of this id."""
        return self.page.find_element(By.ID, name)

    def marks(self):
        """The texts in which something is wrong."""
        return self.script("return [...document.querySelectorAll('mark')].map((it) => it.textContent)")

    def wait(self, holds):
        """Waits until something holds, and gives it; else tells what the page has."""
        try:
            return WebDriverWait(self.page, PATIENCE).until(lambda _: holds())
        except TimeoutException:
            texts = self.script("return [...document.querySelectorAll('textarea')].map((it) => [it.id, it.value])")
            shown = self.script("return ['status', 'errors', 'suggestions', 'response'].map((it) => [it, document.getElementById(it).textContent])")
            self.fail(f"this did not come about: {texts} {shown} {self.marks()}")

    def replace(self, name, text):
        """Types a text in the place of another."""
        self.at(name).send_keys(Keys.CONTROL, "a")
        self.at(name).send_keys(Keys.DELETE, text)

    def width(self, pixels, height=800):
        """The page as wide as a phone or a screen."""
        told = {"width": pixels, "height": height, "deviceScaleFactor": 1, "mobile": pixels < 600}
        self.page.execute_cdp_cmd("Emulation.setDeviceMetricsOverride", told)

    def picture(self, name):
        """Keeps a picture of the page, where pictures are wanted."""
        folder = os.environ.get("SCREENSHOTS")
        if folder:
            self.page.save_screenshot(str(pathlib.Path(folder, name)))

    def console(self):
        """What the browser's console was told, but for refusals that a test asked for."""
        return [entry["message"] for entry in self.page.get_log("browser") if "400 (Bad Request)" not in entry["message"]]

    def unnamed(self):
        """The controls that screen readers have no name for."""
        found = self.page.find_elements(By.CSS_SELECTOR, "button, select, input, textarea, [role=tab], [role=listbox], [role=region], section")
        shown = [it for it in found if self.script("return arguments[0].checkVisibility({ contentVisibilityAuto: true })", it)]
        return [it.get_attribute("outerHTML")[:80] for it in shown if not it.accessible_name]
