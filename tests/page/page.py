"""The page in a browser, as a person uses it."""
from __future__ import annotations

import json
import time
from pathlib import Path
from typing import Any, Callable, List

from asking import SAMPLE, Interface

#: The seconds that an answer may take. It takes some milliseconds; a machine that builds packages at the same time takes
#: many times as long. Times that users notice are tested in test_times.py.
PATIENCE = 30.0


class Page:
    """The page, which answers while one types."""

    def __init__(self, driver: Any, server: Interface) -> None:
        self.driver = driver
        self.server = server

    def open_afresh(self) -> None:
        """Open the page without anything that the browser has kept."""
        self.driver.get(f"{self.server.address}static/icon.svg")
        self.driver.execute_script("localStorage.clear(); sessionStorage.clear()")
        self.open()

    def start_nominal(self, township: str = "T. 2 N., R. 3 W.") -> None:
        """Choose a nominal township for a case that is empty."""
        self.put("#start-township", township)
        self.one("#start-nominal button").click()
        self.wait_for(lambda: self.all("#drawing svg"))
        self.settle()

    def open(self, fragment: str = "") -> None:
        """Open the page, and wait for its first drawing, or for the choice of a plat."""
        self.driver.get("about:blank")
        self.driver.get(self.server.address + fragment)
        self.wait_for_start()

    def wait_for_start(self) -> None:
        """Wait until the page that is loaded shows all of its answers."""
        self.wait_for(lambda: self.all("#work[aria-busy=false]"))

    def open_sample(self) -> None:
        """Open the sample's field notes from their file, in the panel of the plat."""
        self.one("#open-notes").send_keys(str(SAMPLE))
        self.wait_for_text("#plat-answer", "23,037.57")

    def settle(self) -> None:
        """Wait until all answers are shown."""
        self.wait_for(lambda: self.one("#work").get_attribute("aria-busy") == "false")

    def wait_for(self, found: Callable[[], Any]) -> Any:
        """Wait until something is so, and return it."""
        end = time.monotonic() + PATIENCE
        while time.monotonic() < end:
            try:
                result = found()
            except Exception as error:  # An element can be replaced while it is looked at.
                if type(error).__name__ not in ("StaleElementReferenceException", "NoSuchElementException"):
                    raise
                result = None
            if result:
                return result
            time.sleep(0.02)
        raise AssertionError(f"not within {PATIENCE} seconds")

    def wait_for_text(self, selector: str, text: str) -> None:
        """Wait until an element contains a text, and all answers are shown."""
        try:
            self.wait_for(lambda: text in self.text(selector))
        except AssertionError:
            raise AssertionError(f"no {text!r} in {selector}: {self.text(selector)[:500]!r}") from None
        self.settle()

    def one(self, selector: str) -> Any:
        """Return the first element that matches."""
        return self.driver.find_element("css selector", selector)

    def all(self, selector: str) -> List[Any]:
        """Return all elements that match."""
        return self.driver.find_elements("css selector", selector)

    def text(self, selector: str) -> str:
        """Return the text of an element, shown or not."""
        return str(self.one(selector).get_property("textContent"))

    def value(self, selector: str) -> str:
        """Return the value of an input."""
        return str(self.one(selector).get_property("value"))

    def tab(self, name: str) -> None:
        """Open a panel, and wait for its answers."""
        self.one(f"#tab-{name}").click()
        self.settle()

    def type(self, selector: str, text: str) -> None:
        """Replace the text of an input, key by key."""
        element = self.one(selector)
        element.click()
        element.send_keys(self.CONTROL + "a")
        element.send_keys(text or self.DELETE)

    def put(self, selector: str, text: str) -> None:
        """Set the text of an input at once, as a paste does."""
        self.driver.execute_script(
            "const e = document.querySelector(arguments[0]); e.value = arguments[1];"
            "e.dispatchEvent(new InputEvent('input', {bubbles: true}))",
            selector,
            text,
        )

    def press(self, *keys: str) -> None:
        """Press keys, wherever the focus is."""
        for key in keys:
            self.driver.switch_to.active_element.send_keys(key)

    def click_target(self, kind: str, value: str) -> None:
        """Click a line, a lot, or a section in the drawing, and wait for the answers."""
        self.driver.execute_script(
            "document.querySelector(arguments[0]).dispatchEvent(new MouseEvent('click', {bubbles: true}))",
            f".targets [data-{kind}='{value}']",
        )
        self.settle()

    def open_section(self, number: int) -> None:
        """Show a section alone, as a person does who clicks it in the drawing."""
        self.click_target("section", str(number))
        self.one("#selected").find_element("xpath", f".//button[.='Section {number} alone']").click()
        self.settle()

    def focused(self) -> str:
        """Return the name of the element with the focus: its id, or its label."""
        return str(
            self.driver.execute_script(
                "const e = document.activeElement; return e.id || e.getAttribute('aria-label') || e.textContent"
            )
        )

    def saved(self, name: str) -> str:
        """Return the text of a file that the page has saved, and remove it."""
        path: Path = self.driver.downloads / name
        self.wait_for(lambda: path.exists() and path.stat().st_size)
        text = path.read_bytes().decode("utf-8")
        path.unlink()
        return text

    def hosts(self) -> "set[str]":
        """Return the hosts that the browser has sent requests to since this was last called."""
        found = set()
        for entry in self.driver.get_log("performance"):
            message = json.loads(entry["message"])["message"]
            if message["method"] == "Network.requestWillBeSent":
                url = message["params"]["request"]["url"]
                if not url.startswith(("data:", "blob:", "about:", "chrome")):
                    found.add(url.split("/")[2])
        return found

    def complaints(self) -> List[str]:
        """Return the errors that the browser has logged, such as scripts that its policy blocked."""
        return [entry["message"] for entry in self.driver.get_log("browser") if entry["level"] == "SEVERE"]

    CONTROL = "\ue009"
    DELETE = "\ue017"
    ENTER = "\ue007"
    ESCAPE = "\ue00c"
    TAB = "\ue004"
    LEFT, UP, RIGHT, DOWN = "\ue012", "\ue013", "\ue014", "\ue015"
