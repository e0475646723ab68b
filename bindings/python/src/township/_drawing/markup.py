"""Elements of SVG, as text. Every text and every attribute is escaped."""
from __future__ import annotations

import functools
import re
from html import escape
from typing import Iterable, Union

#: A value of an attribute. Lengths are in millimeters.
Value = Union[str, int, float]

#: Characters that XML does not allow, and those that change the direction of the text around them.
_UNFIT = re.compile(
    "[^\t\n -\ud7ff\ue000-\ufdcf\ufdf0-\ufffd\U00010000-\U0010ffff]"
    "|[\x7f-\x9f\u061c\u200e\u200f\u202a-\u202e\u2066-\u2069]"
)


def number(value: float) -> str:
    """Return a length with at most three decimal places, and no zeros at its end.

    >>> number(0.8), number(25.60001), number(-0.0)
    ('0.8', '25.6', '0')
    """
    text = f"{value:.3f}".rstrip("0").rstrip(".")
    return "0" if text == "-0" else text


def fit(text: str) -> str:
    """Return a text in which each character that a drawing cannot show is replaced.

    >>> fit("A\\x00\\u202eB")
    'A\\ufffd\\ufffdB'
    """
    return _UNFIT.sub("\N{REPLACEMENT CHARACTER}", text)


def element(name: str, *children: str, **attributes: Value) -> str:
    """Return an element with children, which are markup. An underscore in an attribute's name is a hyphen.

    >>> element("text", escaped("R & R"), x=1.5, text_anchor="end")
    '<text x="1.5" text-anchor="end">R &amp; R</text>'
    """
    words = [name, *(f'{each.replace("_", "-")}="{_value(value)}"' for each, value in attributes.items())]
    if not children:
        return f"<{' '.join(words)}/>"
    return f"<{' '.join(words)}>{''.join(children)}</{name}>"


def escaped(text: str) -> str:
    """Return the markup of a text."""
    return escape(fit(text), quote=False)


def attribute(text: str) -> str:
    """Return the markup of the value of an attribute, without the quotation marks around it."""
    return escape(fit(text))


@functools.lru_cache(maxsize=4096)
def text(words: str, x: float, y: float, size: float, **attributes: Value) -> str:
    """Return a line of text whose baseline begins at (x, y).

    Most of them are the same in each drawing of a plat, of which the page asks for one with each key, so they are kept.
    """
    return element("text", escaped(words), x=x, y=y, font_size=size, **attributes)


def group(parts: Iterable[str], **attributes: Value) -> str:
    """Return a group of elements, one on a line, or nothing if there are none."""
    lines = list(parts)
    return element("g", "\n", "\n".join(lines), "\n", **attributes) if lines else ""


def _value(value: Value) -> str:
    return number(value) if isinstance(value, float) else attribute(str(value))
