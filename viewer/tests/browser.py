"""A browser without a window, and what the tests do with it."""
import time

from selenium import webdriver
from selenium.common.exceptions import WebDriverException
from selenium.webdriver.chrome.options import Options
from selenium.webdriver.chrome.service import Service
from selenium.webdriver.common.by import By
from selenium.webdriver.common.keys import Keys
from selenium.webdriver.remote.remote_connection import RemoteConnection
from urllib3.exceptions import HTTPError

WIDTH, HEIGHT = 1280, 720
# seconds for a page to show something, and for an answer of the driver
PATIENCE = 120
LONGEST = 300


# what the driver or a page that does not answer ends with
SILENCE = (WebDriverException, HTTPError, AssertionError)


def start(chromium, chromedriver):
    """A browser with a window of 1280 x 720."""
    options = Options()
    options.binary_location = chromium
    for word in ("--headless=new", "--no-sandbox", "--disable-gpu", f"--window-size={WIDTH},{HEIGHT}"):
        options.add_argument(word)
    options.set_capability("goog:loggingPrefs", {"browser": "ALL"})
    RemoteConnection.set_timeout(LONGEST)
    driver = webdriver.Chrome(options=options, service=Service(chromedriver))
    driver.set_page_load_timeout(PATIENCE)
    driver.set_script_timeout(PATIENCE)
    size = {"width": WIDTH, "height": HEIGHT, "deviceScaleFactor": 1, "mobile": False}
    driver.execute_cdp_cmd("Emulation.setDeviceMetricsOverride", size)
    return driver


# Answers once two frames were drawn.
TWO_FRAMES = "const done = arguments[0]; setTimeout(() => requestAnimationFrame(() => requestAnimationFrame(done)));"


class Shown:
    """A page that is open."""

    def __init__(self, driver, page, shots=None):
        self.driver, self.shots, self.name = driver, shots, page.stem
        driver.get_log("browser")
        driver.get("about:blank")
        driver.get(page.as_uri())
        self.wait("return document.documentElement.dataset.ready")

    def wait(self, script):
        """Waits until a script answers something."""
        until = time.monotonic() + PATIENCE
        while time.monotonic() < until:
            found = self.driver.execute_script(script)
            if found:
                return found
            time.sleep(0.05)
        raise AssertionError(f"{self.name}: after {PATIENCE} seconds still nothing by {script}")

    def run(self, script, *arguments):
        """What a script answers."""
        return self.driver.execute_script(f"return {script}", *arguments)

    def go(self, place):
        """Follows a link of the page, and waits until it is drawn."""
        self.driver.execute_script("location.hash = arguments[0];", place)
        self.driver.execute_async_script(TWO_FRAMES)

    def all(self, selector):
        """The elements that a selector finds."""
        return self.driver.find_elements(By.CSS_SELECTOR, selector)

    def texts(self, selector):
        """The texts of these elements, at once."""
        return self.run("[...document.querySelectorAll(arguments[0])].map((one) => one.textContent)", selector)

    def press(self, *keys):
        """Presses keys where the focus is."""
        for key in keys:
            self.driver.switch_to.active_element.send_keys(getattr(Keys, key, key))

    def shoot(self, view):
        """Keeps a picture of the window."""
        if self.shots:
            self.driver.save_screenshot(str(self.shots / f"{self.name}_{view}.png"))

    def errors(self):
        """What the console tells as an error."""
        return [entry["message"] for entry in self.driver.get_log("browser") if entry["level"] == "SEVERE"]
