"""A browser without a window, and what tests do with it."""

import contextlib
import json
from collections.abc import Iterator
from pathlib import Path
from typing import Any

from selenium import webdriver
from selenium.common.exceptions import SessionNotCreatedException
from selenium.webdriver.chrome.service import Service
from selenium.webdriver.common.action_chains import ActionChains
from selenium.webdriver.common.by import By
from selenium.webdriver.support.wait import WebDriverWait

WAIT = 60.0
"""The most seconds that a test waits for anything."""
SCRIPT = 600.0
"""The most seconds that a script takes which goes on after it has returned."""
TRIES = 5
"""How often a browser is begun that doesn't come."""
WORDS = ("--headless=new", "--no-sandbox", "--disable-gpu", "--disable-dev-shm-usage", "--window-size=1200,900")


class Browser:
    """A chromium with a profile of its own, which reaches nothing but this machine."""

    def __init__(self, driver: webdriver.Chrome) -> None:
        self.driver = driver

    def open(self, address: str) -> None:
        """Opens a page, of which none of the scripts may fail."""
        self.driver.get("about:blank")
        self.faults()
        self.driver.get(address)
        assert self.faults() == []

    def faults(self) -> list[str]:
        """What the browser has complained of since it was last asked."""
        return [entry["message"] for entry in self.driver.get_log("browser") if entry["level"] == "SEVERE"]

    def run(self, script: str, *given: object) -> Any:
        """What a script gives."""
        return self.driver.execute_script(script, *given)

    def run_on(self, script: str, *given: object) -> Any:
        """What a script gives, sooner or later, to the function that it is given last."""
        self.driver.set_script_timeout(SCRIPT)
        return self.driver.execute_async_script(script, *given)

    def traces(self) -> list[dict[str, Any]]:
        """What the browser has traced since this was last asked, where it is traced."""
        messages = [json.loads(entry["message"])["message"] for entry in self.driver.get_log("performance")]
        return [message["params"] for message in messages if message["method"] == "Tracing.dataCollected"]

    def wait(self, script: str) -> None:
        """Waits until a script gives what is true."""
        WebDriverWait(self.driver, WAIT, 0.05).until(lambda driver: driver.execute_script(script))

    def press(self, *keys: str) -> None:
        """Presses keys, wherever the focus is."""
        ActionChains(self.driver, duration=0).send_keys(*keys).perform()

    def text(self, name: str) -> str:
        """The text of the element of this name."""
        return self.driver.find_element(By.ID, name).text

    def labels(self, selector: str) -> list[str]:
        """What a screen reader is told of the elements."""
        found = self.driver.find_elements(By.CSS_SELECTOR, selector)
        return [element.get_attribute("aria-label") or "" for element in found]


def _begun(options: webdriver.ChromeOptions) -> webdriver.Chrome:
    """A browser that has begun. The driver gives one up that takes long, as on a machine that is very busy."""
    for _ in range(TRIES - 1):
        with contextlib.suppress(SessionNotCreatedException):
            return webdriver.Chrome(service=Service("/usr/bin/chromedriver"), options=options)
    return webdriver.Chrome(service=Service("/usr/bin/chromedriver"), options=options)


@contextlib.contextmanager
def browsing(folder: Path, traced: str = "") -> Iterator[Browser]:
    """A browser with its profile in a folder, which is ended with the block; `traced` names kinds of events that it traces."""
    options = webdriver.ChromeOptions()
    for word in (*WORDS, f"--user-data-dir={folder}", "--host-resolver-rules=MAP * ~NOTFOUND, EXCLUDE 127.0.0.1"):
        options.add_argument(word)
    logged = {"browser": "ALL"}
    if traced:
        logged["performance"] = "ALL"
        wanted = {"enableNetwork": False, "enablePage": False, "traceCategories": traced}
        options.add_experimental_option("perfLoggingPrefs", wanted)
    options.set_capability("goog:loggingPrefs", logged)
    driver = _begun(options)
    try:
        yield Browser(driver)
    finally:
        driver.quit()
