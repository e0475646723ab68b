"""How soon the page answers, and in which order it shows an answer and its drawing."""
from __future__ import annotations

from typing import List

from page import Page
from strain import Strain

#: How often a time is taken. The least one counts: other work on the machine only ever adds to it.
TRIES = 5

#: The milliseconds from a key to the answer on the screen that users don't notice, and those after a paste.
KEY_MOST = 200
PASTE_MOST = 1_000

CORNERS = ("NE1/4", "NW1/4", "SW1/4", "SE1/4")
#: A thousand of the smallest parts of a section.
PARTS = ["".join(CORNERS[k >> 2 * step & 3] for step in range(5)) for k in range(1000)]


def list_of(count: int) -> str:
    """Return a list of so many tracts."""
    return "name,description\n" + "".join(f'{k},"sec. 8, {part}."\n' for k, part in enumerate(PARTS[:count]))


def test_a_long_description_is_answered_at_once(page: Page) -> None:
    """65,536 bytes of description: from the key to the answer on the screen in 200 milliseconds."""
    groups = [f"sec. {section}, {', '.join(PARTS)}" for section in (8, 9)]
    text = f"{'; '.join(groups)}; sec. 10."
    text += " " * (65_536 - len(text) - TRIES)
    strain = Strain()
    page.tab("land")
    pasted = [time_of_paste(page, "#description", "#land-answer", text, "acres") for _ in range(TRIES)]
    page.settle()
    strain.look()
    typed = [time_of_key(page, "#description", "#land-answer", 0) for _ in range(TRIES)]
    assert len(page.value("#description")) == 65_536 and "acres" in page.text("#land-answer")
    check(strain, pasted, typed)


def test_a_long_list_is_answered_at_once(page: Page) -> None:
    """1,000 tracts: from the key to the answer on the screen in 200 milliseconds, whether it changes land or not."""
    strain = Strain()
    page.tab("tracts")
    pasted = [time_of_paste(page, "#tracts", "#tracts-answer", list_of(1000), "1000 tracts") for _ in range(TRIES)]
    page.settle()
    strain.look()
    # In the last description, before the quotation mark that ends it.
    blanks = [time_of_key(page, "#tracts", "#tracts-answer", len('"\n')) for _ in range(TRIES)]
    strain.look()
    assert "1000 tracts" in page.text("#tracts-answer") and len(page.all("#tracts-table tbody tr")) == 1000
    # The last tract is in the north half of its section, and then in the south half, in which it overlaps another one.
    changes = [time_of_change(page) for _ in range(TRIES + 1)]
    assert "1000 tracts" in page.text("#tracts-answer") and "Overlapping" not in page.text("#tracts-answer")
    check(strain, pasted, blanks, changes)


def check(strain: Strain, pasted: List[float], *typed: List[float]) -> None:
    """Compare the least times with their limits."""
    longer = strain.factor()
    print("milliseconds to the answer:", *typed, "after a paste:", pasted, "times", longer)
    assert max(map(min, typed)) < KEY_MOST * longer
    # A paste of all tracts makes their whole table anew.
    assert min(pasted) < PASTE_MOST * longer


def time_of_paste(page: Page, area: str, answer: str, text: str, wanted: str) -> float:
    """Return the milliseconds from a change of a whole text to the frame that shows its answer."""
    page.put(area, "sec. 36.")
    page.wait_for(lambda: "640.00" in page.text(answer))
    edit = "input.value = given; input.dispatchEvent(new InputEvent('input', { bubbles: true }));"
    return time_of(page, area, answer, wanted, edit, text)


def time_of_key(page: Page, area: str, answer: str, from_end: int) -> float:
    """Return the milliseconds from the key for a blank, typed before the end, to the frame that shows the answer."""
    place = len(page.value(area)) - from_end
    edit = "input.setSelectionRange(given, given); document.execCommand('insertText', false, ' ');"
    milliseconds = time_of(page, area, answer, "", edit, place)
    page.settle()
    return milliseconds


def time_of_change(page: Page) -> float:
    """Return the milliseconds from a key that moves the last tract to the other half of its section to the answer."""
    place = page.value("#tracts").rindex("sec. 8, ") + len("sec. 8, ")
    edit = (
        "input.setSelectionRange(given, given + 1);"
        "document.execCommand('insertText', false, input.value[given] === 'N' ? 'S' : 'N');"
    )
    milliseconds = time_of(page, "#tracts", "#tracts-answer", "", edit, place)
    page.settle()
    return milliseconds


def time_of(page: Page, area: str, answer: str, wanted: str, edit: str, given: object) -> float:
    """Return the milliseconds from an edit of an input to the frame that shows an answer with `wanted`."""
    return page.driver.execute_async_script(
        """
        const [area, answer, wanted, given, done] = arguments;
        const place = document.querySelector(answer);
        const input = document.querySelector(area);
        input.focus();
        const begin = performance.now();
        new MutationObserver((_, watcher) => {
            if (!place.textContent.includes(wanted)) return;
            watcher.disconnect();
            requestAnimationFrame(() => setTimeout(() => done(performance.now() - begin)));
        }).observe(place, { childList: true, subtree: true, characterData: true });
        """
        + edit,
        area,
        answer,
        wanted,
        given,
    )


#: Remembers what is shown, in order: an answer, a frame after it, and how many outlines a new drawing has.
WATCH = """
window.seen = [];
const frame = window.frame ?? requestAnimationFrame;
new MutationObserver(() => {
    seen.push("answer");
    frame.call(window, () => seen.push("frame"));
}).observe(document.querySelector("#tracts-answer"), { childList: true });
const drawing = document.querySelector("#drawing");
new MutationObserver(() => seen.push(drawing.querySelectorAll(".outlines path").length)).observe(drawing, { childList: true });
"""


def watched(page: Page) -> List[object]:
    """Return what was shown since the page was watched."""
    return list(page.driver.execute_script("return window.seen"))


def test_a_long_drawing_is_shown_after_its_answer(page: Page) -> None:
    page.tab("tracts")
    page.driver.execute_script(WATCH)
    page.put("#tracts", list_of(400))
    page.wait_for_text("#tracts-answer", "400 tracts")
    page.wait_for(lambda: len(page.all(".outlines path")) == 400)
    assert watched(page) == ["answer", "frame", 400]


def test_a_short_drawing_is_shown_with_its_answer(page: Page) -> None:
    page.tab("tracts")
    page.driver.execute_script(WATCH)
    page.put("#tracts", list_of(4))
    page.wait_for_text("#tracts-answer", "4 tracts")
    page.wait_for(lambda: len(watched(page)) == 3)
    assert watched(page) == ["answer", 4, "frame"]


def test_a_long_drawing_is_not_shown_late(page: Page) -> None:
    """While it waits for the answer to be shown, the list changes again."""
    page.tab("tracts")
    page.driver.execute_script(WATCH)
    page.driver.execute_script(
        """
        const [area, answer] = ["#tracts", "#tracts-answer"].map((each) => document.querySelector(each));
        const put = (text) => { area.value = text; area.dispatchEvent(new InputEvent("input", { bubbles: true })); };
        new MutationObserver((_, watcher) => {
            watcher.disconnect();
            put(arguments[1]);
        }).observe(answer, { childList: true });
        put(arguments[0]);
        """,
        list_of(400),
        list_of(4),
    )
    page.wait_for_text("#tracts-answer", "4 tracts:")
    assert [each for each in watched(page) if isinstance(each, int)] == [4]


def test_a_long_drawing_is_shown_where_no_frames_are(page: Page) -> None:
    """A page in the background has none: it isn't busy for ever."""
    page.tab("tracts")
    page.driver.execute_script("window.requestAnimationFrame = () => 0")
    page.put("#tracts", list_of(400))
    page.wait_for(lambda: len(page.all(".outlines path")) == 400)
    page.settle()


def test_a_drawing_stays_while_no_land_changes(page: Page) -> None:
    page.tab("tracts")
    page.put("#tracts", list_of(4))
    page.wait_for_text("#tracts-answer", "4 tracts")
    page.click_target("section", "8")
    page.driver.execute_script("document.querySelector('#drawing svg').dataset.kept = 'yes'")
    page.put("#tracts", list_of(4) + "\n")
    page.settle()
    assert page.all("#drawing svg[data-kept]") and page.all("#drawing .selection")
    # The same tracts, of which one has another name.
    page.put("#tracts", list_of(4).replace("\n3,", "\nD,"))
    page.wait_for_text("#drawing .names", "D")
    assert page.all("#drawing svg[data-kept]") == [] and page.all("#drawing .selection")
