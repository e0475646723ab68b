#!/usr/bin/env python3
"""Writes man/python3-township.1, the man page of the command line of the package for Python, from what its --help says.

    python3 tools/python_man_page.py [--check]

With --check, nothing is written: the status is 1 if the page is not the one that would be. The package is the one that
this Python imports, or the one of this repository with its library. The page is made from the parser and not from the
text of --help, which differs between the versions of Python.
"""
from __future__ import annotations

import argparse
import difflib
import importlib.util
import os
import re
import sys
import textwrap
from pathlib import Path
from typing import Iterator, List

TOP = Path(__file__).resolve().parents[1]
PAGE = TOP / "man" / "python3-township.1"

#: A row of a table in a text of help: a word, and its meaning.
ROW = re.compile(r"  (\S+) +(\S.*)")

HEAD = r"""
.\" Made by tools/python_man_page.py from what python3 -m township --help says: change that instead.
.Dd November 29, 2026
.Dt PYTHON3-TOWNSHIP 1
.Os
.Sh NAME
.Nm python3-township
.Nd acreage of lists of land in the United States rectangular survey
.Sh SYNOPSIS
.Nm python3
.Fl m Cm township
.Ar command
.Op Ar options
.Ar files
.Nm python3
.Fl m Cm township
.Op Ar command
.Fl -help
.Nm python3
.Fl m Cm township
.Fl -version
.Sh DESCRIPTION
The package
.Cm township
for Python has a command line of its own.
Its answers are those of the proved library, as those of
.Xr township 1
are.
The commands are:
""".strip()

MIDDLE = r"""
.Pp
.Fl -version
prints the version of the library and, if it is not a release, the build of
the package.
.Sh COMMANDS
""".strip()

FOOT = r"""
.Sh SEE ALSO
.Xr township 1
.Pp
In the Debian package township-doc, the pages
.Pa docs/BATCH.md ,
.Pa docs/DESCRIPTIONS.md ,
.Pa docs/GIS.md ,
.Pa docs/HTTP.md ,
.Pa docs/LOTS-FORMAT.md ,
.Pa docs/NOTES-FORMAT.md ,
.Pa docs/PHRASES.md ,
.Pa docs/REFUSALS.md ,
and
.Pa docs/SERVING.md
in the folder
.Pa /usr/share/doc/township .
""".strip()


def typed(text: str) -> str:
    """A text in which no character is a command of the page, or is replaced with a nicer one."""
    for plain, name in (("\\", r"\e"), ("-", r"\-"), ("`", r"\(ga"), ("'", r"\(aq"), ("^", r"\(ha"), ("~", r"\(ti")):
        text = text.replace(plain, name)
    return rf"\&{text}" if text.startswith((".", r"\(aq")) else text


def argument(text: str) -> str:
    """A text as one argument of a macro."""
    text = typed(text)
    if len(text) < 4:
        text = rf"\&{text}"
    return f'"{text}"' if " " in text else text


def sentences(text: str) -> List[str]:
    """The lines of a text, with each sentence on a line of its own."""
    words = " ".join(text.split()).replace("python -m township", "python3 -m township")
    parts = re.sub(r"(?<=[A-Za-z0-9)][.]) (?=[A-Z])", "\n", words).splitlines()
    return [typed(line) for part in parts for line in textwrap.wrap(part, 70, break_on_hyphens=False)]


def capital(text: str) -> str:
    """A text with a capital letter at its beginning."""
    return text[:1].upper() + text[1:]


def body(text: str) -> Iterator[str]:
    """The paragraphs of a text of help, and its tables."""
    lines = text.strip("\n").splitlines()
    while lines:
        line = lines.pop(0)
        row = ROW.fullmatch(line)
        if row:
            yield ".Bl -tag -width reading_acres -compact"
            while row:
                meaning = [row[2]]
                while lines and re.match(r"    ", lines[0]) and not ROW.fullmatch(lines[0]):
                    meaning.append(lines.pop(0))
                yield f".It {argument(row[1])}"
                yield from sentences(" ".join(meaning))
                row = ROW.fullmatch(lines[0]) if lines else None
                if row:
                    lines.pop(0)
            yield ".El"
        elif line:
            paragraph = [line]
            while lines and lines[0] and not ROW.fullmatch(lines[0]):
                paragraph.append(lines.pop(0))
            yield ".Pp"
            yield from sentences(capital(" ".join(paragraph)))


def usage(parser: argparse.ArgumentParser) -> Iterator[str]:
    """How a command is called."""
    yield ".Bd -literal -compact"
    for line in (parser.usage or "").splitlines():
        yield typed(line.strip().replace("python -m", "python3 -m"))
    yield ".Ed"


def option(action: argparse.Action) -> str:
    """The names of an option, and what follows it."""
    names = " , ".join(f"Fl {argument(name[1:])}" for name in action.option_strings)
    if action.nargs == 0:
        return names
    value = action.metavar if isinstance(action.metavar, str) else "|".join(map(str, action.choices or ["VALUE"]))
    return f"{names} Ar {argument(value)}"


def command(name: str, parser: argparse.ArgumentParser) -> Iterator[str]:
    """The section of a command."""
    yield f".Ss {name}"
    yield from usage(parser)
    yield from body(parser.description or "")
    yield ".Bl -tag -width Ds"
    for action in parser._actions:
        if action.option_strings:
            yield f".It {option(action)}"
        else:
            yield f".It Ar {argument(str(action.metavar or action.dest))}"
        yield from sentences(f"{capital((action.help or '').rstrip('.'))}.")
    yield ".El"
    yield from body(parser.epilog or "")


def commands(name: str, parser: argparse.ArgumentParser) -> Iterator[str]:
    """The section of a command, or those of the commands that it has."""
    for action in parser._actions:
        if isinstance(action, argparse._SubParsersAction):
            for second, subparser in action.choices.items():
                yield from command(f"{name} {second}", subparser)
            return
    yield from command(name, parser)


def page() -> str:
    """The whole page."""
    from township import _command

    parser, _ = _command._parsers()
    chosen, = (action for action in parser._actions if isinstance(action, argparse._SubParsersAction))
    lines = [HEAD, ".Bl -tag -width compare"]
    for each in chosen._choices_actions:
        lines += [f".It Cm {each.dest}", *sentences(f"{capital(each.help or '')}.")]
    lines += [".El", MIDDLE]
    for name, subparser in chosen.choices.items():
        lines += commands(name, subparser)
    return "\n".join([*lines, FOOT, ""])


def main() -> int:
    made = page()
    if sys.argv[1:] != ["--check"]:
        PAGE.write_text(made, encoding="utf-8")
        return 0
    there = PAGE.read_text(encoding="utf-8")
    sys.stdout.writelines(difflib.unified_diff(there.splitlines(True), made.splitlines(True), str(PAGE), "from --help"))
    return int(there != made)


if __name__ == "__main__":
    if importlib.util.find_spec("township") is None:
        sys.path.insert(0, str(TOP / "bindings" / "python" / "src"))
        os.environ.setdefault("TOWNSHIP_LIBRARY", str(TOP / "lib" / "libtownship.so"))
    sys.exit(main())
