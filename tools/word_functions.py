"""How tools/words.py writes the functions that are classes of the table of words."""

import textwrap
from collections import defaultdict
from typing import Dict, Iterable, List, NamedTuple, Tuple

#: The first line of each file that is written.
MADE = "// Made by tools/words.py from words.tsv and classes.tsv. To change a word, change its row there."

#: The forms of a class that is a function: a test of a word, or of two; what is written for a word; or its value.
FORMS = ("word", "two words", "text", "number")

#: The most columns of a source, of a comment, and of the arguments of a call on one line.
COLUMNS, COMMENT, ARGUMENTS = 92, 110, 60

#: The words of each class, with their values: an empty list for a class without values.
Table = Dict[str, Dict[str, List[str]]]


class Class(NamedTuple):
    """A function of twp_words, or the heading of a module of them: a row of classes.tsv."""

    name: str
    module: str
    form: str
    within: Tuple[str, ...]
    meaning: str


def sources_of(table: Table, classes: List[Class]) -> Dict[str, str]:
    """The source of each module that is written, by its name."""
    sources = {}
    for heading in (it for it in classes if it.form == "module"):
        functions = [it for it in classes if it.module == heading.name and it.form != "module"]
        bodies = [function_of(it, table.get(it.name, {})) for it in functions]
        imports = [name for name in ("is_among", "is_same") if any(f"{name}(" in it for it in bodies)]
        if any("value_among(" in it for it in bodies):
            imports.append("value_among")
        named = imports[0] if len(imports) == 1 else "{" + ", ".join(imports) + "}"
        lines = [MADE, *comment_lines("//!", heading.meaning), "", f"use crate::same::{named};"]
        sources[heading.name] = "\n".join(lines) + "\n\n" + "\n".join(bodies)
    return sources


def comment_lines(mark: str, text: str) -> List[str]:
    """A comment, wrapped."""
    return textwrap.wrap(text, COMMENT, initial_indent=f"{mark} ", subsequent_indent=f"{mark} ", break_on_hyphens=False)


def function_of(it: Class, words: Dict[str, List[str]]) -> str:
    """The function that is a class: it looks at the length of a word first."""
    heading, arm, otherwise = {
        "word": ("(word: &[u8]) -> bool", arm_of_words, "false"),
        "two words": ("(first: &[u8], second: &[u8]) -> bool", arm_of_two, "false"),
        "text": ("(word: &[u8]) -> Option<&'static [u8]>", arm_of_texts, "None"),
        "number": ("(word: &[u8]) -> Option<u64>", arm_of_numbers, "None"),
    }[it.form]
    looked_at = "first" if it.form == "two words" else "word"
    by_length = defaultdict(dict)
    for word in sorted(words):
        by_length[len(word.split(" ")[0])][word] = words[word]
    lines = [*comment_lines("///", it.meaning), f"pub fn {it.name}{heading} {{", f"    match {looked_at}.len() {{"]
    for length in sorted(by_length):
        lines += arm(length, by_length[length])
    return "\n".join([*lines, f"        _ => {otherwise},", "    }", "}", ""])


def arm_of_words(length: int, words: Dict[str, List[str]]) -> List[str]:
    """The arm for words of one length."""
    return call_lines(f"        {length} => ", "is_among", words, "", ",")


def edges_of(words: Iterable[str]) -> str:
    """The number that has a bit for the first byte of each word, and 32 bits higher, one for the last byte. The bit is
    that of the byte's low five bits."""
    heads, tails = (sum(1 << bit for bit in {word.encode()[at] % 32 for word in words}) for at in (0, -1))
    return f"0x{tails:x}_{heads:08x}"


def call_lines(before: str, function: str, words: Iterable[str], more: str, after: str) -> List[str]:
    """A call with a word, and with words of one length, as `rt fmt` lays it out."""
    edges, text = edges_of(words), " ".join(words)
    arguments = f'word, {edges}, "{text}"' + (f", {more}" if more else "")
    if len(arguments) <= ARGUMENTS:
        return [f"{before}{function}({arguments}){after}"]
    indent = " " * (len(before) - len(before.lstrip()) + 4)
    wrapped = textwrap.wrap(text, COLUMNS - len(indent) - 3, break_on_hyphens=False)
    literal = (" \\\n" + indent + " ").join(wrapped)
    lines = [f"{before}{function}(", f"{indent}word,", f"{indent}{edges},", *f'{indent}"{literal}",'.split("\n")]
    lines += [f"{indent}{more},"] if more else []
    return [*lines, f"{indent[4:]}){after}"]


def arm_of_two(length: int, words: Dict[str, List[str]]) -> List[str]:
    """The arm for two words, the first of which has this length."""
    pairs = defaultdict(list)
    for word in words:
        first, second = word.split(" ")
        pairs[first].append(f'is_same(second, b"{second}")')
    cases = [(f'is_same(first, b"{first}")', " || ".join(seconds)) for first, seconds in pairs.items()]
    return returning_lines(length, cases, "false")


def arm_of_texts(length: int, words: Dict[str, List[str]]) -> List[str]:
    """The arm for words of one length for which texts are written. A table of texts would be set up at each start."""
    by_text = defaultdict(list)
    for word, [text] in words.items():
        by_text[text].append(word)
    lines = [f"        {length} => {{"]
    for text, some in sorted(by_text.items()):
        lines += [*condition_lines(some), f'                return Some(b"{text}");', "            }"]
    return [*lines, "            None", "        }"]


def condition_of(words: List[str]) -> str:
    """The condition that a word is one of these."""
    return f'is_same(word, b"{words[0]}")' if len(words) == 1 else f'is_among(word, {edges_of(words)}, "{" ".join(words)}")'


def condition_lines(words: List[str]) -> List[str]:
    """The lines of an `if` with the condition that a word is one of these."""
    if len(words) == 1:
        return [f"            if {condition_of(words)} {{"]
    return call_lines("            if ", "is_among", words, "", " {")


def returning_lines(length: int, cases: List[Tuple[str, str]], otherwise: str) -> List[str]:
    """An arm that tries some conditions, each with what it returns."""
    lines = [f"        {length} => {{"]
    for condition, value in cases:
        lines += [f"            if {condition} {{", f"                return {value};", "            }"]
    return [*lines, f"            {otherwise}", "        }"]


def arm_of_numbers(length: int, words: Dict[str, List[str]]) -> List[str]:
    """The arm for words of one length that have values."""
    values = ", ".join(value for [value] in words.values())
    return call_lines(f"        {length} => ", "value_among", words, f"&[{values}]", ",")


