#!/usr/bin/env python3
"""Wraps the long lines of definitions and proofs (.antt) where a reader would break them.

    python3 tools/wrap_proofs.py [--check] [--width N] [FILE or FOLDER ..]

A folder means all .antt files below it that are not in an out/ folder; the default is crates/. With --check
nothing is written: each line that is too long is named, and each file of more than 400 lines; the status is 1
if there are any. The default width is 110 columns.

A line that fits is left as it is. A longer one is taken apart into the shape of its term, and broken first
where that shape is: after `in` and `=`, before `→` and the operators, between arguments. The indentation is
that of `rt fmt`: an item (a declaration, a clause, a field, a case) goes on four columns further in, however
deep its brackets are, and the parts of a record, of a tuple, and of an `elim`, once broken, are on lines of
their own. A second run changes nothing.

Only white space changes, except in two ways that keep the meaning. A long `use` list becomes several `use`
lines of one module. And a broken record, tuple or `elim` gets the marks that `rt fmt` gives it: `;` or `,`
after the last part, `|` before the first case. Before a file is written, its tokens are compared with those
that it had.
"""

import argparse
import re
import sys
from dataclasses import dataclass, field
from pathlib import Path
from typing import Callable, Iterator, List, Optional, Tuple, Union

WIDTH = 110
# A file with more lines is to be split by subject.
LINES = 400
CONTINUATION = 4
BLOCK = 2
# The most columns that may follow the block or the body that a term ends with.
BEHIND_BLOCK = 40
BEHIND_BODY = 8
# A tuple of at most this many columns is not broken if it fits on a line of its own.
SHORT_TUPLE = 80

# Operators, those that bind least first: a term is broken at the first of these rows with an operator in it.
OPERATORS = [
    {"→"},
    {"↔", "≃"},
    {"⊎"},
    {"×"},
    {"≡", "≢", "<", "≤", ">", "≥", "∈"},
    {"∙"},
    {"||"},
    {"&&"},
    {"==", "<?", "≤?"},
    {"∷", "++"},
    {"+", "-"},
    {"*", "/", "%"},
]
# In a chain of these, each part is on a line of its own if the chain is broken at all.
ONE_A_LINE = {"∙"}

TOKEN = re.compile(r'--.*|"(?:\\.|[^"\\])*"|[(){};,]|[^\s(){};,"]+')
CLOSERS = {"(": ")", "{": "}", "[": "]"}


# The tokens of a line, as a tree of its brackets.


@dataclass
class Atom:
    """A word, a string, or a bracket whose partner is on another line."""

    text: str
    spaced: bool


@dataclass
class Bracket:
    """The contents of brackets. One bracket is empty if it is on another line."""

    opener: str
    closer: str
    spaced: bool
    nodes: List["Node"] = field(default_factory=list)
    closer_spaced: bool = False


Node = Union[Atom, Bracket]
# Nodes with no space between them, such as `(f x).size` or `x,`: a line is never broken inside.
Run = List[Node]


def tokens_of(text: str) -> Iterator[Tuple[str, bool]]:
    """Each token, and whether white space precedes it."""
    end = 0
    for found in TOKEN.finditer(text):
        yield found.group(), found.start() > end
        end = found.end()


def tree_of(line: str) -> List[Node]:
    """The line as a tree. A bracket without a partner contains the text between it and the line's end."""
    root: List[Node] = []
    open_brackets: List[Bracket] = []
    for text, spaced in tokens_of(line):
        nodes = open_brackets[-1].nodes if open_brackets else root
        if text in CLOSERS:
            bracket = Bracket(text, "", spaced)
            nodes.append(bracket)
            open_brackets.append(bracket)
        elif text in CLOSERS.values():
            if open_brackets and CLOSERS[open_brackets[-1].opener] == text:
                bracket = open_brackets.pop()
                bracket.closer, bracket.closer_spaced = text, spaced
            elif open_brackets:
                raise ValueError(f"brackets don't match: {line.strip()}")
            else:
                root = [Bracket("", text, bool(root) and root[0].spaced, root, spaced)]
        else:
            nodes.append(Atom(text, spaced))
    return [plain_if_empty(node) for node in root]


def plain_if_empty(node: Node) -> Node:
    """An opening bracket at the line's end, or a closing one at its beginning, is a word like others."""
    if isinstance(node, Atom) or (node.opener and node.closer):
        return node
    node.nodes = [plain_if_empty(inner) for inner in node.nodes]
    return node if node.nodes else Atom(node.opener + node.closer, node.spaced)


def runs_of(nodes: List[Node]) -> List[Run]:
    runs: List[Run] = []
    for node in nodes:
        if runs and not node.spaced:
            runs[-1].append(node)
        else:
            runs.append([node])
    return runs


def word_of(run: Run) -> Optional[str]:
    """The run's text, if it is a single word."""
    return run[0].text if len(run) == 1 and isinstance(run[0], Atom) else None


def parts_at(nodes: List[Node], separator: str) -> List[List[Node]]:
    """The nodes between separators, without an empty part at either end."""
    parts: List[List[Node]] = [[]]
    for node in nodes:
        if isinstance(node, Atom) and node.text == separator:
            parts.append([])
        else:
            parts[-1].append(node)
    return [part for part in parts if part]


# Documents: texts with places where they can be broken. The forms are those of Wadler's printer.


class Document:
    """A text that can be broken.

    `flat` is the text on one line. `head` is the width of the text before the block that it ends with, or
    before the body of the `λ` that it ends with: with that much room, the text can begin on a line. `room` is
    the width of what may come after it.
    """

    flat: str = ""
    head: Optional[int] = None
    room: int = 0


class Text(Document):
    def __init__(self, text: str):
        self.flat = text


class Line(Document):
    """A space, or the end of a line."""

    flat = " "


class Join(Document):
    def __init__(self, *parts: Document):
        self.parts = list(parts)
        self.flat = "".join(part.flat for part in parts)
        self.head, self.room = head_of(self.parts, 0)


class Group(Document):
    """A document that is broken at all of its lines, or at none."""

    def __init__(self, *parts: Document):
        self.inner = Join(*parts)
        self.flat, self.head, self.room = self.inner.flat, self.inner.head, self.inner.room


class Fill(Document):
    """Parts with lines between them, each of which is broken only if the next part does not fit."""

    def __init__(self, parts: List[Document]):
        self.parts = parts
        self.flat = " ".join(part.flat for part in parts)
        self.head, self.room = head_of(parts, 1)


class Block(Document):
    """A record, a tuple, or the cases of an `elim`: one part per line, if it is broken."""

    def __init__(self, bracket: Bracket, separator: str, parts: List[Document]):
        self.opener, self.closer = bracket.opener, bracket.closer
        self.separator, self.parts = separator, parts
        joint = " | " if separator == "|" else separator + " "
        space = " " if bracket.closer_spaced else ""
        self.flat = bracket.opener + space + joint.join(part.flat for part in parts) + space + bracket.closer
        if separator != "," or len(self.flat) > SHORT_TUPLE:
            self.head, self.room = len(bracket.opener), BEHIND_BLOCK


class Behind(Document):
    """The text after `=`, `↦`, or the binders of a `λ`, on the same line if it fits or begins there."""

    def __init__(self, inner: Document, is_body: bool = False):
        self.inner = inner
        self.flat = " " + inner.flat
        if inner.head is not None:
            self.head, self.room = 1 + inner.head, inner.room
        elif is_body:
            self.head, self.room = 0, BEHIND_BODY


def headed(parts: List[Document]) -> Optional[int]:
    """Which part contains the head of the whole: the one with a head, if only little follows it."""
    for at, part in enumerate(parts):
        if part.head is not None:
            others = parts[at + 1 :]
            is_last = all(it.head is None for it in others)
            return at if is_last and sum(len(it.flat) for it in others) <= part.room else None
        if isinstance(part, Line):
            return None
    return None


def head_of(parts: List[Document], space: int) -> Tuple[Optional[int], int]:
    at = headed(parts)
    if at is None:
        return None, 0
    return sum(len(part.flat) + space for part in parts[:at]) + (parts[at].head or 0), parts[at].room


# The document of a term.


def document_of(nodes: List[Node]) -> Document:
    return of_runs(runs_of(nodes))


def of_runs(runs: List[Run]) -> Document:
    """The document of a term, a clause, a signature, the head of a block, or a piece of one."""
    if len(runs) > 1 and word_of(runs[-1]) == "where":
        return of_block_head(runs)
    for at, run in enumerate(runs):
        word = word_of(run)
        if word == "in":
            return Join(*joined(runs[:at]), Text("in"), *(after_line(runs[at + 1 :])))
        if word == "let":
            return led(runs[:at], of_let(runs[at:]))
        if word == "λ":
            return led(runs[:at], of_lambda(runs[at:]))
        if word in ("=", "↦"):
            return Join(*joined(runs[:at]), Text(word), *behind(runs[at + 1 :]))
        if word == ":":
            return of_signature(runs, at)
    return of_operators(runs, 0)


def joined(runs: List[Run]) -> List[Document]:
    """The document of the runs and a space, or nothing if there are no runs."""
    return [of_runs(runs), Text(" ")] if runs else []


def after_line(runs: List[Run]) -> List[Document]:
    """The text after an `in`: on a line of its own, unless it is a tuple."""
    if not runs:
        return []
    document = of_runs(runs)
    is_tuple = isinstance(document, Block) or word_of(runs[0]) in CLOSERS
    return [Text(" ") if is_tuple else Line(), document]


def behind(runs: List[Run]) -> List[Document]:
    return [Behind(of_runs(runs))] if runs else []


def led(front: List[Run], rest: Document) -> Document:
    """A `λ` or a `let`, as the last argument or operand of the text before it."""
    if not front:
        return rest
    return Join(of_operators(front, 0), Behind(rest))


def of_let(runs: List[Run]) -> Document:
    """A chain of `let`s, each on a line of its own if the chain is broken."""
    parts: List[Document] = []
    while runs and word_of(runs[0]) == "let":
        end = end_of_let(runs)
        parts.append(Group(of_binding(runs[:end], is_whole=end < len(runs))))
        runs = runs[end + 1 :]
        if runs and word_of(runs[0]) == "let":
            parts.append(Line())
    parts += after_line(runs)
    chain = Group(*parts)
    chain.head = None
    return chain


def end_of_let(runs: List[Run]) -> int:
    """The place of the `in` of the first `let`, or the end."""
    depth = 0
    for at, run in enumerate(runs):
        word = word_of(run)
        depth += (word == "let") - (word == "in")
        if word == "in" and depth == 0:
            return at
    return len(runs)


def of_binding(runs: List[Run], is_whole: bool) -> Document:
    end = Text(" in") if is_whole else Text("")
    for at, run in enumerate(runs):
        if word_of(run) == "=":
            bound = behind(runs[at + 1 :])
            return Join(Text("let "), of_runs(runs[1:at]), Text(" ="), *bound, end)
    return Join(Text("let"), *behind(runs[1:]), end)


def of_lambda(runs: List[Run]) -> Document:
    """`λ`, its binders up to the dot, and the body."""
    for at, run in enumerate(runs):
        last = run[-1]
        if isinstance(last, Atom) and last.text.endswith("."):
            binders = [flat_of_run(it) for it in runs[: at + 1]]
            body = runs[at + 1 :]
            return Join(Text(" ".join(binders)), *([Behind(of_runs(body), is_body=True)] if body else []))
    return of_operators(runs, 0)


def of_block_head(runs: List[Run]) -> Document:
    """The head of a record, of data, or of a section: its binders can be broken, but not its end."""
    ends = [at for at, run in enumerate(runs) if word_of(run) == ":"] or [len(runs) - 2]
    end = " ".join(flat_of_run(run) for run in runs[ends[0] :])
    return Fill([*(of_run(run) for run in runs[: ends[0]]), Text(end)])


def of_signature(runs: List[Run], colon: int) -> Document:
    """A name and its type."""
    front, rest = runs[:colon], runs[colon + 1 :]
    if not rest:
        return Join(*joined(front), Text(":"))
    if len(rest) == 1:
        return Join(*joined(front), Text(":"), Behind(of_run(rest[0])))
    return Join(*joined(front), Text(": "), of_operators(rest, 0))


def of_operators(runs: List[Run], level: int) -> Document:
    """Operands with operators between them, from this row of the table on."""
    if level == len(OPERATORS):
        return of_application(runs)
    operators = OPERATORS[level]
    marks = [at for at, run in enumerate(runs) if word_of(run) in operators]
    if not marks:
        return of_operators(runs, level + 1)
    parts = [of_runs_above(runs[: marks[0]], level)] if marks[0] else []
    for at, end in zip(marks, marks[1:] + [len(runs)]):
        operator = Text(word_of(runs[at]) or "")
        operand = runs[at + 1 : end]
        parts.append(Join(operator, Text(" "), of_runs_above(operand, level)) if operand else operator)
    if all(word_of(runs[at]) in ONE_A_LINE for at in marks):
        return Group(*with_lines(parts))
    return Fill(parts)


def of_runs_above(runs: List[Run], level: int) -> Document:
    return of_operators(runs, level + 1)


def with_lines(parts: List[Document]) -> List[Document]:
    spread: List[Document] = []
    for part in parts:
        spread += [Line(), part] if spread else [part]
    return spread


def of_application(runs: List[Run]) -> Document:
    """A function and its arguments. The block of an `elim` or a record stays after the term that it belongs to."""
    parts: List[Document] = []
    for at, run in enumerate(runs):
        document = of_run(run, is_record=at > 0 and word_of(runs[0]) == "record")
        if parts and (is_attached(document) or word_of(run) in CLOSERS):
            parts[-1] = Join(parts[-1], Text(" "), document)
        else:
            parts.append(document)
    if len(parts) == 1:
        return parts[0]
    if isinstance(parts[-1], Join) and is_attached(parts[-1].parts[-1]):
        last = parts[-1].parts
        return Join(Fill([*parts[:-1], Join(*last[:-2])]), *last[-2:])
    return Fill(parts)


def is_attached(document: Document) -> bool:
    return isinstance(document, Block) and document.opener in "{["


def of_run(run: Run, is_record: bool = False) -> Document:
    parts = [Text(it.text) if isinstance(it, Atom) else of_bracket(it, is_record) for it in run]
    return parts[0] if len(parts) == 1 else Join(*parts)


def of_bracket(bracket: Bracket, is_record: bool) -> Document:
    if not bracket.nodes:
        return Text(flat_of_bracket(bracket))
    is_closed = bool(bracket.opener and bracket.closer)
    if is_closed and bracket.opener == "[":
        return Block(bracket, "|", [document_of(part) for part in parts_at(bracket.nodes, "|")])
    if is_closed and bracket.opener == "{" and is_record:
        return Block(bracket, ";", [document_of(part) for part in parts_at(bracket.nodes, ";")])
    if is_closed and bracket.opener == "(" and len(parts_at(bracket.nodes, ",")) > 1:
        return Block(bracket, ",", [document_of(part) for part in parts_at(bracket.nodes, ",")])
    inner = Text(flat_of(bracket.nodes)) if bracket.opener == "{" else document_of(bracket.nodes)
    first, last = spaces_in(bracket)
    return Group(Text(bracket.opener + first), inner, Text(last + bracket.closer))


def spaces_in(bracket: Bracket) -> Tuple[str, str]:
    """The space after the opening bracket, and the one before the closing bracket."""
    is_spaced = bool(bracket.opener and bracket.nodes) and bracket.nodes[0].spaced
    return " " if is_spaced else "", " " if bracket.closer_spaced else ""


def flat_of_run(run: Run) -> str:
    return "".join(it.text if isinstance(it, Atom) else flat_of_bracket(it) for it in run)


def flat_of_bracket(bracket: Bracket) -> str:
    first, last = spaces_in(bracket)
    return bracket.opener + first + flat_of(bracket.nodes) + last + bracket.closer


def flat_of(nodes: List[Node]) -> str:
    return " ".join(flat_of_run(run) for run in runs_of(nodes))


# The printer.

# How a document is printed: on one line; broken, if it does not fit; or begun on this line, and broken in the
# block or body that it ends with.
FLAT, BROKEN, BEGUN = range(3)
# What remains to be printed: the column where an item continues, how to print it, and the document or a step
# that needs to know where the printer is.
Command = Tuple[int, int, Union[Document, Callable[[], None]]]


class Printer:
    def __init__(self, width: int, indentation: int):
        self.width = width
        self.lines: List[str] = []
        self.line = " " * indentation
        self.rest: List[Command] = []

    def print(self, document: Document, continued: int) -> List[str]:
        self.rest = [(continued, BROKEN, document)]
        while self.rest:
            column, mode, document = self.rest.pop()
            if not isinstance(document, Document):
                document()
            elif isinstance(document, Text) or mode == FLAT:
                self.line += document.flat
            else:
                self.print_broken(document, column, mode)
        return [*self.lines, self.line]

    def print_broken(self, document: Document, column: int, mode: int) -> None:
        if isinstance(document, Line):
            self.break_line(column)
        elif isinstance(document, Join):
            modes = [mode] * len(document.parts)
            if mode == BEGUN:
                at = headed(document.parts) or 0
                modes = [FLAT] * at + [BEGUN] + [BROKEN] * len(document.parts)
            self.rest += [(column, how, part) for how, part in reversed(list(zip(modes, document.parts)))]
        elif isinstance(document, Group):
            how = mode if mode == BEGUN else FLAT if self.fits(document) else BROKEN
            self.rest.append((column, how, document.inner))
        elif isinstance(document, Fill):
            self.print_fill(document, column, mode)
        elif isinstance(document, Block):
            self.print_block(document, column)
        elif isinstance(document, Behind):
            self.print_behind(document, column, mode)

    def print_fill(self, fill: Fill, column: int, mode: int) -> None:
        parts = fill.parts
        at = (headed(parts) or 0) if mode == BEGUN else 0
        self.line += "".join(part.flat + " " for part in parts[:at])
        how = mode if mode == BEGUN else FLAT if self.fits(parts[at]) else BROKEN
        self.print_part(parts, at, column, how)

    def print_part(self, parts: List[Document], at: int, column: int, mode: int) -> None:
        """Prints a part of a fill, and leaves the others for later, with the line before them."""
        start = len(self.lines)
        if at + 1 < len(parts):
            self.rest.append((column, BROKEN, lambda: self.go_on(parts, at + 1, column, mode, start)))
        self.rest.append((column, mode, parts[at]))

    def go_on(self, parts: List[Document], at: int, column: int, before: int, start: int) -> None:
        """Continues a fill: on the same line, if the next part fits or begins there."""
        part = parts[at]
        is_broken = before == BROKEN and len(self.lines) > start
        if not is_broken and self.fits(Join(Line(), part)):
            self.line += " "
            self.print_part(parts, at, column, FLAT)
        elif not is_broken and self.begins_here(part, column):
            self.line += " "
            self.print_part(parts, at, column, BEGUN)
        else:
            self.break_line(column)
            self.print_part(parts, at, column, FLAT if self.fits(part) else BROKEN)

    def print_block(self, block: Block, column: int) -> None:
        if self.fits(block):
            self.line += block.flat
            return
        start = self.indentation()
        steps: List[Command] = [(column, BROKEN, Text(block.opener))]
        for part in block.parts:
            is_case = block.separator == "|"
            inside = start + BLOCK + CONTINUATION
            steps.append((start + BLOCK, BROKEN, Line()))
            steps += [(inside, BROKEN, Text("| "))] if is_case else []
            steps.append((inside, BROKEN, part))
            steps += [] if is_case else [(inside, BROKEN, Text(block.separator))]
        steps += [(start, BROKEN, Line()), (column, BROKEN, Text(block.closer))]
        self.rest += reversed(steps)

    def print_behind(self, document: Behind, column: int, mode: int) -> None:
        inner = document.inner
        if self.fits(document):
            self.line += " "
            self.rest.append((column, FLAT, inner))
        elif self.begins_here(inner, column, mode == BEGUN):
            self.line += " "
            self.rest.append((column, BEGUN, inner))
        else:
            self.break_line(column)
            self.rest.append((column, FLAT if self.fits(inner) else BROKEN, inner))

    def break_line(self, column: int) -> None:
        self.lines.append(self.line.rstrip())
        self.line = " " * column

    def indentation(self) -> int:
        return len(self.line) - len(self.line.lstrip())

    def fits(self, document: Document) -> bool:
        """Whether the document fits flat, with the text after it up to the next possible break."""
        return len(self.line) + len(document.flat) + self.width_behind() <= self.width

    def fits_alone(self, document: Document, column: int) -> bool:
        """Whether it would fit flat on a line of its own."""
        return column + len(document.flat) + self.width_behind() <= self.width

    def begins_here(self, document: Document, column: int, is_begun: bool = False) -> bool:
        """Whether the document begins on this line, and continues in the block or body that it ends with.

        It does if the line has room for what comes before that, and no line of its own has room for the whole.
        """
        if not is_begun and self.fits_alone(document, column):
            return False
        if isinstance(document, Block):
            return True
        return document.head is not None and len(self.line) + 1 + document.head <= self.width

    def width_behind(self) -> int:
        """The width of the text that must follow the document being printed on the same line."""
        width = 0
        for _, mode, document in reversed(self.rest):
            if not isinstance(document, Document):
                break
            more, is_broken = first_width(document, mode)
            width += more
            if is_broken:
                break
        return width


def first_width(document: Document, mode: int) -> Tuple[int, bool]:
    """The width up to the first place where the document can be broken, and whether there is one."""
    if isinstance(document, Text) or mode == FLAT:
        return len(document.flat), False
    if isinstance(document, (Line, Behind)):
        return 0, True
    if isinstance(document, Block):
        return len(document.opener), True
    if isinstance(document, Fill):
        width, is_broken = first_width(document.parts[0], mode)
        return width, is_broken or len(document.parts) > 1
    parts = document.inner.parts if isinstance(document, Group) else document.parts
    width = 0
    for part in parts:
        more, is_broken = first_width(part, mode)
        width += more
        if is_broken:
            return width, True
    return width, False


# Lines and files.


def indentation_of(line: str) -> int:
    return len(line) - len(line.lstrip())


def wrapped_use(line: str, width: int) -> List[str]:
    """Several `use` lines of one module, in place of one."""
    found = re.fullmatch(r"((?:pub )?use [^{]*\{)(.*)\}", line)
    if not found:
        return [line]
    head, names = found.group(1), re.findall(r"[^,{}]+(?:\{[^{}]*\})?", found.group(2))
    lines: List[str] = []
    current = ""
    for name in (it.strip() for it in names):
        longer = f"{current}, {name}" if current else name
        if current and len(head) + len(longer) + 1 > width:
            lines.append(head + current + "}")
            longer = name
        current = longer
    return [*lines, head + current + "}"]


def wrapped_comment(line: str, waiting: List[str], width: int) -> List[str]:
    """The comment's lines. Words that do not fit begin the next line, if the comment's sentence continues there."""
    start = line[: line.index("--") + 2]
    lines, current = [], start
    for word in line[len(start) :].split():
        if len(current) + 1 + len(word) > width and current != start:
            lines.append(current)
            current = start
        current += " " + word
    if lines and waiting and waiting[0].startswith(start + " ") and not line.endswith((".", ":")):
        waiting[0] = current + waiting[0][len(start) :]
        return lines
    return [*lines, current]


def has_comment(line: str) -> bool:
    """Whether a comment is on a line of code; such a line is not changed."""
    words = [token for token, _ in tokens_of(line) if not token.startswith('"')]
    return any(word.startswith("--") for word in words) or "{-" in "".join(words)


def wrapped_code(line: str, continued: int, width: int) -> List[str]:
    indentation = indentation_of(line)
    nodes = tree_of(line.strip())
    lead = ""
    if nodes and isinstance(nodes[0], Atom) and nodes[0].text in ("|", "pub", "abbrev", "unfolding"):
        lead, nodes = nodes[0].text + " ", nodes[1:]
    document = document_of(nodes)
    return Printer(width, indentation).print(Join(Text(lead), document), continued)


class Items:
    """Where items begin, line by line through a file."""

    def __init__(self) -> None:
        self.columns: List[int] = [0]
        self.before = ""
        self.awaits = False

    def begins_item(self, line: str) -> bool:
        """Whether the line begins an item, rather than continuing one."""
        column = indentation_of(line)
        if self.awaits:
            self.columns.append(column)
        while column < self.columns[-1]:
            self.columns.pop()
        begins = column == self.columns[-1] or line.lstrip().startswith("|")
        begins = begins or self.before.endswith(("{", "[", ";", ","))
        begins = begins or self.before.endswith("(") and column == indentation_of(self.before) + BLOCK
        self.before = line
        self.awaits = bool(re.search(r"(^|\s)where$", line))
        return begins


def wrapped(text: str, width: int) -> str:
    """The text with its long lines wrapped."""
    lines: List[str] = []
    items = Items()
    continued = 0
    waiting = text.split("\n")
    while waiting:
        line = waiting.pop(0)
        if not line.strip() or line.lstrip().startswith("--"):
            lines += wrapped_comment(line, waiting, width) if len(line) > width else [line]
            continue
        begins = items.begins_item(line)
        before, continued = continued, indentation_of(line) + (CONTINUATION if begins else 0)
        if len(line) <= width or has_comment(line):
            lines.append(line)
        elif re.match(r"(pub )?use ", line):
            lines += wrapped_use(line, width)
        else:
            pieces = wrapped_code(line, continued, width)
            if pieces[0].strip() in ("(", "[") and not begins:
                # The bracket of a broken block ends the line before it.
                front, continued = lines.pop(), before
                line = f"{front} {line.lstrip()}"
                pieces = wrapped_code(line, continued, width)
            lines += pieces
            shift_block(waiting, indentation_of(line), indentation_of(lines[-1]), lines[-1][-1:])
    return "\n".join(lines)


def shift_block(waiting: List[str], old: int, new: int, opener: str) -> None:
    """Moves the lines of a block whose opening bracket is now on a line with more indentation."""
    if opener not in CLOSERS or old == new:
        return
    left = [at for at, line in enumerate(waiting) if line.strip() and indentation_of(line) <= old]
    if not left or not waiting[left[0]].startswith(" " * old + CLOSERS[opener]):
        return
    for at in range(left[0] + 1):
        waiting[at] = " " * (new - old) + waiting[at] if waiting[at].strip() else waiting[at]


def meaning_of(text: str) -> List[str]:
    """The tokens, with `use` lists name by name, and without the additional marks of a broken block."""
    words: List[str] = []
    for line in text.split("\n"):
        found = re.fullmatch(r"((?:pub )?use [^{]*)\{(.*)\}", line)
        if found:
            names = re.findall(r"[^,{}]+(?:\{[^{}]*\})?", found.group(2))
            words += [f"{found.group(1)}{name.strip()}" for name in names]
        elif line.lstrip().startswith("--"):
            words += line.replace("--", " ").split()
        else:
            words += [token for token, _ in tokens_of(line)]
    kept: List[str] = []
    for word in words:
        if word in (")", "}", "]") and kept and kept[-1] in (",", ";"):
            kept.pop()
        if not (word == "|" and kept and kept[-1] == "["):
            kept.append(word)
    return kept


def files_in(paths: List[str]) -> Iterator[Path]:
    for path in map(Path, paths):
        if path.is_file():
            yield path
        else:
            yield from sorted(it for it in path.rglob("*.antt") if "out" not in it.parts)


def wrap_file(path: Path, width: int) -> int:
    """Wraps a file, and returns how many lines are still too long."""
    old = path.read_text(encoding="utf-8")
    new = wrapped(old, width)
    if meaning_of(old) != meaning_of(new):
        sys.exit(f"{path}: the wrapped text has other tokens: nothing was written")
    if wrapped(new, width) != new:
        sys.exit(f"{path}: a second run would change it again: nothing was written")
    if new != old:
        path.write_text(new, encoding="utf-8")
    return sum(len(line) > width for line in new.split("\n"))


def check_file(path: Path, width: int) -> int:
    """Names the lines that are too long, and the file if it has too many, and returns the number of faults."""
    lines = path.read_text(encoding="utf-8").splitlines()
    faults = [f"{path}:{at}: {len(line)} columns" for at, line in enumerate(lines, 1) if len(line) > width]
    if len(lines) > LINES:
        faults.append(f"{path}: {len(lines)} lines")
    for fault in faults:
        print(fault)
    return len(faults)


def main() -> None:
    parser = argparse.ArgumentParser(description="Wraps the long lines of .antt files.")
    parser.add_argument("--check", action="store_true", help="write nothing; name what is too long")
    parser.add_argument("--width", type=int, default=WIDTH, help=f"the most columns ({WIDTH})")
    parser.add_argument("paths", nargs="*", default=["crates"], help="files, or folders of .antt files")
    given = parser.parse_args()
    visit = check_file if given.check else wrap_file
    left = sum(visit(path, given.width) for path in files_in(given.paths))
    if left and given.check:
        print(f"{left} faults: more than {given.width} columns, or more than {LINES} lines")
    elif left:
        print(f"{left} lines have more than {given.width} columns")
    sys.exit(1 if given.check and left else 0)


if __name__ == "__main__":
    main()
