"""What tests do with the cases of the page."""
from __future__ import annotations

import base64
import json
from typing import List

from page import Page


def describe(page: Page, description: str, acres: str) -> None:
    """Type a description, and wait for its acreage."""
    page.tab("land")
    page.type("#description", description)
    page.wait_for_text("#land-answer", acres)


def manage(page: Page) -> None:
    """Open what can be done with the case."""
    page.driver.execute_script("document.querySelector('#this-case').open = true")


def loaded(page: Page, act: "object") -> None:
    """Do something that loads the page anew, and wait until it is loaded."""
    page.driver.execute_script("document.body.dataset.old = ''")
    act()
    page.wait_for(lambda: page.all("body") and not page.all("body[data-old]"))
    page.wait_for_start()


def listed(page: Page) -> List[str]:
    """What the cases are called, without the time at which they were changed."""
    return [each.get_property("textContent").split(", 20")[0] for each in page.all("#case option")]


def name_of_case(page: Page) -> str:
    return page.one("#case option:checked").text


def choose(page: Page, words: str) -> None:
    """Choose a case in the list."""
    [found] = [each for each in page.all("#case option") if each.text.startswith(words)]
    loaded(page, found.click)


def link_in(page: Page) -> str:
    """Copy the link of the case."""
    manage(page)
    page.one("#copy-link").click()
    page.wait_for_text("#said", "It carries the whole case.")
    link = page.value("#link")
    assert link.startswith(f"{page.server.address}#case=")
    return link.partition("#")[2]


def link_of(**values: object) -> str:
    """A link that carries these values."""
    text = base64.urlsafe_b64encode(json.dumps(values).encode()).decode().rstrip("=")
    return f"#case={text}"
