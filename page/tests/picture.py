#!/usr/bin/python3
"""Makes the picture of the page that README shows, with more colours than the one that is kept: page/tests/picture.py"""

import tempfile

from browser import PAGE, Browser, served
from in_browser import lines_of

PICTURE = PAGE.parent / "docs/pictures/page.png"
SIZE = (1100, 860)
# the line of the example before which the picture is taken
UNTIL = "tick 180"


def main():
    lines = lines_of("fleet")
    with tempfile.TemporaryDirectory(prefix="page-profile-", ignore_cleanup_errors=True) as profile:
        with served() as (address, _), Browser(profile, SIZE) as browser:
            browser.open(address)
            browser.enter(lines[: lines.index(UNTIL)])
            for name, value in (("span", "1000"), ("marked", "town")):
                text = "const [name, value] = arguments, it = document.getElementById(name); it.value = value; it.dispatchEvent(new Event('change'))"
                browser.script(text, name, value)
            browser.script("document.getElementById('notice').hidden = true; document.activeElement.blur()")
            browser.wait("new Promise((done) => requestAnimationFrame(() => requestAnimationFrame(() => done(true))))", "all is drawn")
            browser.driver.save_screenshot(str(PICTURE))


main()
