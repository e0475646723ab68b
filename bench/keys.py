"""Measures the time from a key to the frame that shows the new drawing, in Chromium: `bench/keys.py ADDRESS`."""
from __future__ import annotations

import os
import shutil
import statistics
import sys
from typing import Any, List

from selenium import webdriver
from selenium.webdriver.chrome.service import Service

#: A description, the letter in it that each key replaces, so that each key gives another drawing, and how many keys there
#: are, of which the first don't count.
TYPED = "sec. 14, NE1/4; sec. 15, NE1/4, NW1/4; sec. 5, lots 1 and 2, S1/2NE1/4."
PLACE = TYPED.index("NW1/4")
KEYS = 60
WARMING = 10

#: The most milliseconds at the median.
MEDIAN_MOST = 150

#: Types a text in place of what is between two places, and waits for the first frame after the drawing was replaced.
KEY = """
const [start, end, text, done] = arguments;
const area = document.querySelector('#description');
const begun = performance.now();
const seen = new MutationObserver(() => {
  seen.disconnect();
  requestAnimationFrame(() => setTimeout(() => done(performance.now() - begun)));
});
seen.observe(document.querySelector('#drawing'), { childList: true });
area.focus();
area.setSelectionRange(start, end);
document.execCommand('insertText', false, text);
"""


def browser() -> Any:
    """Start Chromium without a window."""
    options = webdriver.ChromeOptions()
    options.binary_location = shutil.which("chromium")
    for word in ("--headless=new", "--window-size=1280,1000", "--disable-gpu", *(["--no-sandbox"] * (os.geteuid() == 0))):
        options.add_argument(word)
    return webdriver.Chrome(service=Service(shutil.which("chromedriver")), options=options)


def main() -> None:
    driver = browser()
    try:
        driver.set_script_timeout(30)
        driver.get(sys.argv[1])
        driver.find_element("css selector", "#start-sample").click()
        driver.execute_async_script(
            "const done = arguments[0]; const wait = () => document.querySelector('#drawing svg') ? done() : setTimeout(wait, 50); wait()"
        )
        driver.find_element("css selector", "#tab-land").click()
        driver.execute_async_script(KEY, 0, 0, TYPED)
        letters = ("SN"[key % 2] for key in range(KEYS))
        times: List[float] = [driver.execute_async_script(KEY, PLACE, PLACE + 1, letter) for letter in letters]
    finally:
        driver.quit()
    kept = sorted(times[WARMING:])
    median = statistics.median(kept)
    print(f"key to new drawing: median {median:.0f} ms, longest {kept[-1]:.0f} ms, {len(kept)} keys")
    if median > MEDIAN_MOST:
        raise SystemExit(f"key to new drawing: more than {MEDIAN_MOST} ms")


if __name__ == "__main__":
    main()
