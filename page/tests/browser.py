"""A browser without a window, and a server of the page on the loopback."""

import contextlib
import functools
import http.server
import os
import pathlib
import signal
import threading
import time

from selenium import webdriver
from selenium.common.exceptions import WebDriverException
from selenium.webdriver.chrome.service import Service
from selenium.webdriver.common.by import By
from selenium.webdriver.common.keys import Keys

PAGE = pathlib.Path(__file__).resolve().parent.parent
# what is waited for comes in a second; a machine with other work to do may take far longer
SECONDS = 900
STEP = 0.05
# a line that is longer is put into the input, since each key takes milliseconds
TYPED = 300


class Handler(http.server.SimpleHTTPRequestHandler):
    """Serves the page's folder, but for files that stand in for others, and notes what was asked for."""

    def __init__(self, *given, instead, asked, **how):
        self.instead, self.asked = instead, asked
        super().__init__(*given, directory=str(PAGE), **how)

    def do_GET(self):
        path = self.path.partition("?")[0].lstrip("/")
        if path not in self.instead:
            return super().do_GET()
        self.send_response(200)
        self.send_header("Content-Type", self.guess_type(path))
        self.send_header("Content-Length", str(len(self.instead[path])))
        self.end_headers()
        return self.wfile.write(self.instead[path])

    def log_message(self, *_):
        pass

    def log_request(self, code="-", size="-"):
        self.asked.append((self.path, int(code)))


@contextlib.contextmanager
def served(instead=None):
    """A server of the page, with bytes by path that are served instead of files: its address, and what was asked for."""
    asked = []
    handler = functools.partial(Handler, instead=instead or {}, asked=asked)
    with http.server.ThreadingHTTPServer(("127.0.0.1", 0), handler) as server:
        threading.Thread(target=server.serve_forever, daemon=True).start()
        try:
            yield f"http://127.0.0.1:{server.server_port}/", asked
        finally:
            server.shutdown()


class Browser:
    """A chromium with a profile of its own, at the page."""

    def __init__(self, profile, size=(1280, 900)):
        self.profile = pathlib.Path(profile)
        self.downloads = self.profile / "downloads"
        options = webdriver.ChromeOptions()
        words = ("--headless=new", "--no-sandbox", "--disable-dev-shm-usage", "--disable-gpu")
        for word in (*words, f"--user-data-dir={profile}", f"--window-size={size[0]},{size[1]}"):
            options.add_argument(word)
        options.add_experimental_option("prefs", {"download.default_directory": str(self.downloads)})
        options.set_capability("goog:loggingPrefs", {"browser": "ALL"})
        self.driver = webdriver.Chrome(service=Service("/usr/bin/chromedriver"), options=options)
        self.driver.set_script_timeout(SECONDS)
        self.driver.set_page_load_timeout(SECONDS)

    def __enter__(self):
        return self

    def __exit__(self, *_):
        with contextlib.suppress(WebDriverException):
            self.driver.quit()

    def kill(self):
        """Ends the browser at once, as where a machine fails. Its lock on the profile tells its process."""
        browser = int(os.readlink(self.profile / "SingletonLock").rpartition("-")[2])
        os.kill(browser, signal.SIGKILL)
        self.driver.service.process.kill()
        self.driver.service.process.wait()
        until = time.monotonic() + SECONDS
        while os.path.exists(f"/proc/{browser}") and time.monotonic() < until:
            time.sleep(STEP)

    def script(self, text, *given):
        return self.driver.execute_script(text, *given)

    def wait(self, condition, why, seconds=SECONDS):
        """Waits until a JavaScript expression holds."""
        until = time.monotonic() + seconds
        while not self.script(f"return Boolean({condition})"):
            if time.monotonic() > until:
                raise AssertionError(f"waited {seconds} seconds for this: {why}\n{self.said()}")
            time.sleep(STEP)

    def said(self):
        """What the page shows, for a failure's message."""
        notes = self.script("return document.getElementById('notice').textContent + ' | ' + document.getElementById('ended').textContent")
        return f"{notes} | {self.driver.get_log('browser')}"

    def open(self, address):
        self.driver.get(address)
        self.wait("document.body?.dataset.isReady === 'yes'", "the page is ready")

    def find(self, name):
        return self.driver.find_element(By.ID, name)

    def press(self, words, within="body"):
        """Presses the button with these words."""
        self.driver.find_element(By.CSS_SELECTOR, within).find_element(By.XPATH, f".//button[normalize-space()='{words}']").click()

    def type(self, line):
        """Types a line and sends it, without waiting for the answer."""
        found = self.find("line")
        found.click()
        if len(line) > TYPED or not line.isascii() or any(ord(letter) < 32 for letter in line):
            self.script("arguments[0].value = arguments[1]", found, line)
            found.send_keys(Keys.ENTER)
        else:
            found.send_keys(line, Keys.ENTER)

    def enter(self, lines):
        """Puts lines into the input one after the other, each once the one before is answered, up to one that ends the
        program."""
        self.driver.execute_async_script("""
            const [lines, done] = arguments;
            const answered = async () => {
              while (document.body.dataset.waits !== '0') await new Promise((wake) => setTimeout(wake));
            };
            (async () => {
              for (const line of lines) {
                if (document.getElementById('line').disabled) break;
                document.getElementById('line').value = line;
                document.getElementById('entry').requestSubmit();
                await answered();
              }
            })().then(done);""", lines)

    def settle(self):
        """Waits until all that was sent is answered and drawn."""
        self.wait("document.body.dataset.waits === '0'", "the page has answered")

    def say(self, *lines):
        """Types lines, waits for their answers, and returns the replies that are shown since."""
        before = len(self.replies())
        for line in lines:
            self.type(line)
        self.settle()
        return self.replies()[before:]

    def replies(self):
        """The replies that the transcript shows."""
        return self.script("return [...document.querySelectorAll('#transcript .reply')].map((reply) => reply.textContent)")

    def text(self, name):
        return self.script("return document.getElementById(arguments[0]).textContent", name)

    def downloaded(self, name):
        """The bytes of a file that the page gave the user, once they are there."""
        until = time.monotonic() + SECONDS
        # (chromium writes it under another name first)
        while not (self.downloads / name).exists():
            if time.monotonic() > until:
                raise AssertionError(f"waited {SECONDS} seconds for the file {name}")
            time.sleep(STEP)
        return (self.downloads / name).read_bytes()

    def table(self):
        """The objects' table: name, class, place and motion of each."""
        self.script("document.getElementById('table').open = true")
        self.wait("document.querySelector('#table tbody')", "the table")
        rows = "[...document.querySelectorAll('#table tbody tr')].map((row) => [...row.children].map((cell) => cell.textContent))"
        return self.script(f"return {rows}")


def paste(browser, lines):
    """Pastes lines into the input."""
    browser.script("""
        const data = new DataTransfer();
        data.setData('text/plain', arguments[0]);
        document.getElementById('line').dispatchEvent(new ClipboardEvent('paste', { clipboardData: data }))""", "\n".join(lines) + "\n")
