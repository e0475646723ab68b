"""Reads the rows in the folder `rows`, each of which is one or more runs of the program. README.md describes them."""
from __future__ import annotations

import enum
import json
import re
from dataclasses import dataclass
from pathlib import Path
from typing import Any, Dict, Iterator, List, NamedTuple, Optional, Tuple

from wrapping import wrapped

TOP = Path(__file__).resolve().parents[2]
FOLDER = Path(__file__).resolve().parent / "rows"
HINTS = Path(__file__).resolve().parent / "hints.toml"

#: The words of each kind of run, which name the files that it reads.
KINDS = {
    "plat": ("plat", "notes.csv"),
    "acres": ("acres", "notes.csv", "land.txt"),
    "acres by the plat": ("acres", "--account", "plat", "notes.csv", "land.txt"),
    "normal": ("normal", "notes.csv", "land.txt"),
    "normal again": ("normal", "notes.csv", "land.txt"),
    "report": ("report", "notes.csv", "list.csv"),
    "joined": (),
}
#: The samples of field notes that a row can name in place of their text.
SAMPLES = {"even": "b0.csv", "uneven": "b1.csv"}
KEYS = {
    *("name", "kind", "args", "ways", "notes", "records", "land", "list", "files", "stdin"),
    *("status", "stdout", "lines", "stderr"),
}
#: A row without a name is named by so many characters of its input.
NAME_MOST = 100
ESCAPE = re.compile(r"\\(?:x([0-9A-Fa-f]{2})|u\{([0-9A-Fa-f]+)\}|([nrt\\])|)")
HINT = re.compile(r"\{hint:([a-z0-9-]+)((?: \w+=[^\s{}]+)*)\}")
LETTERS = {"n": b"\n", "r": b"\r", "t": b"\t", "\\": b"\\"}


class Way(enum.Enum):
    """How a run is given its files, and where its standard error goes."""

    FILES = "on files"
    PIPES = "on pipes"
    CLOSED = "standard error closed"
    FULL = "standard error full"
    UNREAD = "standard error unread"

    @property
    def shows_errors(self) -> bool:
        """Whether standard error can be compared."""
        return self in (Way.FILES, Way.PIPES)


class Wanted(NamedTuple):
    """How a run must end. Without `stdout`, its standard output contains `lines`; without `stderr`, only the form of
    its standard error is checked."""

    status: int
    stdout: Optional[bytes]
    lines: Tuple[bytes, ...]
    stderr: Optional[bytes]


@dataclass(frozen=True)
class Run:
    """One run of the program. A file without contents is a folder."""

    name: str
    words: Tuple[bytes, ...]
    files: Dict[bytes, Optional[bytes]]
    stdin: Optional[bytes]
    way: Way
    wanted: Wanted

    def __str__(self) -> str:
        return self.name


class RowError(Exception):
    """A row that is not written as README.md says."""


def written(text: str) -> bytes:
    """The bytes of a text with escapes."""

    def one(found: re.Match[str]) -> str:
        byte, character, letter = found.groups()
        if byte:
            return bytes([int(byte, 16)]).decode("utf-8", "surrogateescape")
        if character:
            return chr(int(character, 16))
        if letter:
            return LETTERS[letter].decode()
        raise RowError(f"a backslash begins no escape in: {text}")

    # Bytes that are escaped one by one may be a character together.
    return ESCAPE.sub(one, text).encode("utf-8", "surrogateescape")


def contents(given: Any) -> bytes:
    """The bytes of an input: a text, a sample, a text repeated, or a list of these."""
    if isinstance(given, str):
        return written(given)
    if isinstance(given, list):
        return b"".join(map(contents, given))
    if set(given) == {"sample"}:
        return (TOP / "samples" / str(given["sample"])).read_bytes()
    if set(given) == {"times", "text"}:
        return int(given["times"]) * written(given["text"])
    raise RowError(f"no input is made of: {given}")


def with_records(notes: bytes, records: Dict[str, str]) -> bytes:
    """Field notes with the records of these numbers changed, left out, or added at the end."""
    lines = notes.splitlines(keepends=True)
    # From the last one, so that a record that is left out moves no other.
    for number, text in sorted(((int(it), text) for it, text in records.items()), reverse=True):
        record = written(text)
        if record and not record.endswith((b"\n", b"\r")):
            record += b"\n"
        lines[number - 1 : number] = [record]
    return b"".join(lines)


def notes_of(row: Dict[str, Any]) -> bytes:
    """The field notes of a row, by default the even township's."""
    notes = row.get("notes", "even")
    if isinstance(notes, str) and notes in SAMPLES:
        notes = {"sample": SAMPLES[notes]}
    return with_records(contents(notes), row.get("records", {}))


def text_of(given: str) -> bytes:
    """An expected text, which ends with a line feed unless it is empty."""
    return (given if given.endswith("\n") or not given else given + "\n").encode()


def wanted_of(row: Dict[str, Any], kind: str) -> Wanted:
    """What a row expects of a run of this kind."""
    stdout, lines, stderr = row.get("stdout"), row.get("lines", []), row.get("stderr")
    if (stdout is None) == (not lines):
        raise RowError("a row has either `stdout` or `lines`")
    refused = stdout is not None and stdout.startswith("refused ")
    status = row.get("status", 1 if refused else 0)
    if stderr is None and status > 1:
        raise RowError("a row of status 2 or 3 needs `stderr`")
    if stderr is not None and kind == "joined":
        stderr = as_joined(stderr)
    return Wanted(
        status,
        None if stdout is None else text_of(stdout),
        tuple(it.encode() for it in lines),
        None if stderr is None else wrapped(stderr, text_of).encode(),
    )


def as_joined(stderr: str) -> str:
    """The explanation of joined input, whose field notes begin on line 2 of standard input."""
    if stderr.startswith("township: land.txt:"):
        return stderr.replace("township: land.txt:", "township: standard input:", 1)
    moved = re.sub(r"^(township: notes\.csv:| +)(\d+)(?=:| \|)", one_more, stderr, flags=re.MULTILINE)
    moved = re.sub(r"( at line )(\d+)", one_more, moved)
    return moved.replace("township: notes.csv:", "township: standard input:", 1)


def one_more(found: re.Match[str]) -> str:
    return f"{found[1]}{int(found[2]) + 1}"


def land_of(row: Dict[str, Any], kind: str) -> bytes:
    """The description of a row, by default a whole section. A canonical text is spelled the same again."""
    return text_of(row["stdout"]) if kind == "normal again" else contents(row.get("land", "sec. 14."))


def files_of(row: Dict[str, Any], kind: str, words: Tuple[bytes, ...]) -> Dict[bytes, Optional[bytes]]:
    """The files of a row that the words name, and those that it lists itself."""
    files: Dict[bytes, Optional[bytes]] = {}
    if b"notes.csv" in words:
        files[b"notes.csv"] = notes_of(row)
    if b"land.txt" in words:
        files[b"land.txt"] = land_of(row, kind)
    if b"list.csv" in words:
        files[b"list.csv"] = contents(row.get("list", {"sample": "tracts.csv"}))
    for name, given in row.get("files", {}).items():
        files[written(name)] = None if given == {"folder": True} else contents(given)
    return files


def stdin_of(row: Dict[str, Any], kind: str) -> Optional[bytes]:
    """What a run reads from standard input, if anything."""
    if kind == "joined":
        return land_of(row, kind) + b"\n" + notes_of(row)
    return contents(row["stdin"]) if "stdin" in row else None


def runs_of_kind(row: Dict[str, Any], name: str, kind: str) -> Iterator[Run]:
    """The runs of a row that are of one kind, or with its own words."""
    words = tuple(map(written, KINDS[kind] if kind else row["args"]))
    files, stdin, wanted = files_of(row, kind, words), stdin_of(row, kind), wanted_of(row, kind)
    for way in map(Way, row.get("ways", ["on files"])):
        yield Run(f"{name}, {way.value}", words, files, stdin, way, wanted)


def runs_of(row: Dict[str, Any], subject: str) -> Iterator[Run]:
    """The runs of a row of the file with this subject."""
    if set(row) - KEYS:
        raise RowError(f"{subject}: there are no such keys: {set(row) - KEYS}")
    if ("kind" in row) == ("args" in row):
        raise RowError(f"{subject}: a row has either a `kind` or `args`")
    kinds = row.get("kind", "")
    about = row.get("name") or str(row.get("land") or row.get("list") or row.get("records") or row.get("args"))
    about = about if len(about) <= NAME_MOST else about[:NAME_MOST] + ".."
    for kind in kinds if isinstance(kinds, list) else [kinds]:
        try:
            yield from runs_of_kind(row, f"{subject}: {kind}: {about}" if kind else f"{subject}: {about}", kind)
        except (KeyError, RowError, ValueError) as error:
            raise RowError(f"{subject}: {about}: {error!r}") from error


def with_defaults(row: Dict[str, Any], all_rows: Dict[str, Any]) -> Dict[str, Any]:
    """A row with what its file says of all its rows, where it says nothing else."""
    files = {**all_rows.get("files", {}), **row.get("files", {})}
    other = {it: all_rows[it] for it in all_rows if it != "kind" or "args" not in row}
    return {**other, **row, **({"files": files} if files else {})}


def tables() -> Dict[str, Dict[str, Any]]:
    """All files of rows, by their subjects, with the words of the hints that they name."""
    import tomllib  # Only the tests of packages do without it, on an older Python.

    hints = tomllib.loads(HINTS.read_text(encoding="utf-8"))
    files = sorted(FOLDER.glob("*.toml"))
    return {it.stem: tomllib.loads(with_hints(it.read_text(encoding="utf-8"), hints)) for it in files}


def with_hints(text: str, hints: Dict[str, str]) -> str:
    """The rows of a file with the words of each hint in place of its name, as in `{hint:a-lot next=2}`."""

    def words_of(found: re.Match[str]) -> str:
        name, given = found[1], dict(re.findall(r"(\w+)=(\S+)", found[2]))
        if name not in hints or set(given) != set(re.findall(r"\{(\w+)\}", hints[name])):
            raise RowError(f"no hint has these words: {found[0]}")
        return re.sub(r"\{(\w+)\}", lambda place: given[place[1]], hints[name])

    return HINT.sub(words_of, text)


def rows(files: Dict[str, Dict[str, Any]]) -> Iterator[Tuple[str, Dict[str, Any]]]:
    """All rows, each with the subject of its file."""
    for subject, file in files.items():
        if set(file) - {"all", "row"}:
            raise RowError(f"{subject}: there are no such tables: {set(file) - {'all', 'row'}}")
        for row in file["row"]:
            yield subject, with_defaults(row, file.get("all", {}))


def all_runs(files: Dict[str, Dict[str, Any]]) -> List[Run]:
    """The runs of all rows. Runs with the same name are numbered."""
    found: Dict[str, int] = {}
    runs = []
    for subject, row in rows(files):
        for run in runs_of(row, subject):
            found[run.name] = count = found.get(run.name, 0) + 1
            name = run.name if count == 1 else f"{run.name} ({count})"
            runs.append(Run(name, run.words, run.files, run.stdin, run.way, run.wanted))
    return runs


def main() -> None:
    """Print all rows as JSON, for a Python that can't read TOML."""
    print(json.dumps(tables()))


if __name__ == "__main__":
    main()
