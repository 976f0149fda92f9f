"""A browser without a window for the checks of pages: Chromium, led by Selenium."""
import shutil
import sys
from pathlib import Path

# Where Debian's packages are, if another Python runs.
sys.path.append("/usr/lib/python3/dist-packages")
try:
    from selenium import webdriver
    from selenium.common.exceptions import WebDriverException as Failed
    from selenium.webdriver.chrome.service import Service
    from selenium.webdriver.common.keys import Keys
except ImportError:
    webdriver = None

    class Failed(Exception):
        """What the browser refused, if there were one."""

NAMES = ("chromium", "chromium-browser", "google-chrome", "google-chrome-stable")
MISSING = "there is no browser of %s, or no chromedriver or Selenium beside it" % ", ".join(NAMES)
KEYS = {"ArrowLeft": "ARROW_LEFT", "ArrowRight": "ARROW_RIGHT", "PageUp": "PAGE_UP", "PageDown": "PAGE_DOWN", "Home": "HOME", "End": "END", "Escape": "ESCAPE"}


def found():
    """The browser that is there with what leads it, or None."""
    return next((path for path in map(shutil.which, NAMES) if path), None) if webdriver and shutil.which("chromedriver") else None


# A script that tells the texts of a page that stand out too little.
PALE = Path(__file__).resolve().parent / "page" / "pale.js"


def opened(shots, use):
    """Leads a browser through `use`, and makes the folder of screenshots if one is named. Returns why there is none, or None."""
    path = found()
    if path is None:
        return MISSING
    if shots:
        shots.mkdir(parents=True, exist_ok=True)
    try:
        page = Browser(path)
    except (Failed, OSError) as fault:
        return "%s doesn't start: %s" % (path, fault)
    with page:
        use(page)
    return None


class Browser:
    """One page of the browser."""

    def __init__(self, path):
        options = webdriver.ChromeOptions()
        options.binary_location = path
        for word in ("--headless=new", "--no-sandbox", "--disable-gpu", "--hide-scrollbars"):
            options.add_argument(word)
        options.set_capability("goog:loggingPrefs", {"browser": "ALL"})
        self.driver, self.thrown = webdriver.Chrome(service=Service(shutil.which("chromedriver")), options=options), []

    def __enter__(self):
        return self

    def __exit__(self, *_):
        self.driver.quit()

    def ask(self, method, **given):
        """The answer to a command of the browser's own protocol."""
        return self.driver.execute_cdp_cmd(method, given)

    def open(self, path, fragment=""):
        # From an empty page, since another fragment of the same file would load nothing.
        self.driver.get("about:blank")
        self.driver.get_log("browser")
        self.thrown = []
        self.driver.get("file://%s%s" % (path, fragment))

    def value(self, expression):
        """What an expression of the page's script is."""
        told = self.ask("Runtime.evaluate", expression=expression, returnByValue=True, awaitPromise=True)
        if "exceptionDetails" in told:
            raise Failed("%s: %s" % (expression[:80], told["exceptionDetails"].get("exception", {}).get("description")))
        return told["result"].get("value")

    def press(self, key, shift=False):
        self.type(getattr(Keys, KEYS[key]) if key in KEYS else key.upper() if shift else key)

    def type(self, text):
        webdriver.ActionChains(self.driver, duration=0).send_keys(text).perform()

    def colours(self, scheme, motion="reduce"):
        """Light or dark, and mostly without motion, so that what is seen stands still."""
        features = [{"name": "prefers-color-scheme", "value": scheme}, {"name": "prefers-reduced-motion", "value": motion}]
        self.ask("Emulation.setEmulatedMedia", features=features)

    def size(self, width, height):
        self.ask("Emulation.setDeviceMetricsOverride", width=width, height=height, deviceScaleFactor=1, mobile=width < 600)

    def screenshot(self, path):
        path.write_bytes(self.driver.get_screenshot_as_png())

    def looks(self, check, name, path, scheme, size, back, shots, then=lambda: None):
        """Opens a page in a scheme of colours and a width, and checks its background, that nothing is wider, and the contrast of its texts."""
        self.colours(scheme)
        self.size(*size)
        self.open(path)
        then()
        title = "%s, %s, %d wide" % (name, scheme, size[0])
        check("%s: its background" % title, self.value("getComputedStyle(document.body).backgroundColor") == back)
        check("%s: nothing is wider" % title, self.value("document.documentElement.scrollWidth") <= size[0])
        pale = self.value(PALE.read_text())
        check("%s: contrast %s" % (title, pale[:2]), pale == [])
        if shots:
            self.screenshot(shots / ("%s-%s-%d.png" % (name, scheme, size[0])))
        return title

    def faults(self):
        """What the page's script threw, and what it asked for from elsewhere, since the page was opened."""
        self.thrown += [entry["message"] for entry in self.driver.get_log("browser") if entry["level"] == "SEVERE"]
        asked = self.value("performance.getEntriesByType('resource').map((entry) => entry.name)")
        return self.thrown + [url for url in asked if not url.startswith(("file:", "data:"))]
