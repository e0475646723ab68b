"""Tries the wrong bodies of a crate, many of them in one check.

rt tries one wrong body after another. Each takes a check of its crate, most of which loads what the crate depends on.
But a check says which goals of which functions aren't proved, and the proof of a function knows the functions that it
calls by their contracts alone. So wrong bodies of different functions can be in one check, which refuses each of them
by a goal of its own function.

A wrong body counts as refused here only if

- it changes the bodies of functions, or a constant or a table that only bodies name, and nothing else but imports, and
  no other wrong body in the same check changes these functions;
- and the check names a goal that isn't proved, of one of these functions: in their lines of `src/`, or in the folder
  of `proofs/` that has the answers to their goals. An answer that only lacks a name that the edit took away doesn't
  count.

All others are tried by rt itself, one at a time and over the work of these checks, if the crate is also proved over it as
it stands: those that change a clause, a signature, or a type, by which the proofs of other functions know a function;
those that break a goal of a caller; and all those of a check that finds an error in a definition or a lemma, which
functions share. What is said of them ends with `[tried alone]`. Each takes as long as a proof of the crate, so prefer a
wrong body that a goal of its own function refuses.

The first check of a crate begins with nothing, or with what `rt check` kept, and checks the functions that are changed
and those that they call. A second check, of other wrong bodies of the same functions, is then over the work of the
first; over that, these functions must also be proved as they stand.
"""
import re
import shutil
import tempfile
from dataclasses import dataclass
from pathlib import Path

# What `rt fmt` makes of the first line of a function, and of an `impl` or a trait. The last line is the next one that
# is a closing brace with the same indent.
FUNCTION = re.compile(r"( *)(?:pub(?:\([\w:]+\))? )?(?:unsafe )?(?:extern \"C\" )?fn (\w+)")
OWNER = re.compile(r"(?:pub )?(?:unsafe )?(?:impl(?:<.*?>)? (?:([\w:]+).* for )?|trait )([\w:]*\w)")
# A constant, or a static table, which ends as an item does; and a line that can change no meaning by itself.
NAMED = re.compile(r"(?:pub(?:\([\w:]+\))? )?(?:const|static) (\w+):")
IMPORT = re.compile(r"use .*;$")
# What a check says of a goal that isn't proved: of code, and of a written answer.
OF_CODE = re.compile(r"note: (src/\S+\.rt):(\d+):\d+: (?:it is not proved |`search` found no proof )")
OF_ANSWER = re.compile(r"(?:\./)?proofs/(\S+)/(?:Answers|Invariants|Proof)\.antt:\d+:\d+: error: (?:`(\w+)-)?")
# The folder of the answers of functions that call one another. A goal there begins with the name of its function.
CYCLE = "+"
LACKS_NAME = re.compile(r"has no field|\(nearest: |is not in scope|has no `|was not admitted")
# An error in a definition or a lemma, which several functions may rest on.
OF_LEMMA = re.compile(r"(?:\./)?(?:specs|proofs)/(?!.*/(?:Answers|Invariants|Proof)\.antt)\S+\.antt:\d+:\d+: error: ")

# A check of some functions takes their names as it prints them. Sources don't always say how that is, as for the methods of
# a type with arguments; and two types may have the same name.
UNNAMED = re.compile(r"has no function `([^`]+)`|several functions are named `([^`]+)`")
# The last line of a check of some functions alone.
JUDGED = re.compile(r"only=\d+ proved=\d+$")

# The files that may name a constant, and those of them that are of a function's proof.
READ = ("src/**/*.rt", "specs/**/*.antt", "proofs/**/*.antt")
OF_FUNCTIONS = ("Answers.antt", "Invariants.antt", "Proof.antt")

# What is used of the kit's rt.
NEEDED = ("checked", "must_fail", "unread", "rtlib.STALE")


@dataclass(frozen=True)
class Function:
    """A function of a source: its lines, counted from 1, the type that it belongs to, its name, and the trait of a method
    of a trait that a type has."""

    path: str
    first: int
    last: int
    owner: str
    name: str
    trait: str = ""
    # The line with the brace at which its body begins, or 0 if it has no body.
    brace: int = 0

    @property
    def module(self):
        return [it for it in self.path.removeprefix("src/").removesuffix(".rt").split("/") if it != "lib"]

    @property
    def full_name(self):
        """Its name as a check takes it: that of a method, which may be in a module of its own, begins with its type's."""
        return "::".join([*([f"{self.owner}{self.trait}"] if self.owner else self.module), self.name])

    def has_line(self, path, line):
        return path == self.path and self.first <= line <= self.last

    def has_in_body(self, line, old, new):
        """Whether a line that an edit changes, of its file, has only parts of its body that are changed."""
        head, brace, _ = old.partition("{")
        return bool(self.brace) and (line > self.brace or (line == self.brace and new.startswith(head + brace)))

    def has_answers(self, folder, begins):
        """Whether its answers are in this folder of proofs/, such as line/Line/index for `Line::index`. That of a method
        is in the module of its type, whatever file has the method, and names its trait, too, as lanes/LaneRowsPlot/meets.
        That of a cycle has those of several functions, by the word that a goal begins with."""
        *around, name = folder.split("/")
        name = begins if name.startswith(CYCLE) else name
        # `Sections+LaneRows` is `Sections<LaneRows>`.
        owner = around[-1].partition("+")[0] if around else ""
        is_owner = owner in (self.owner, f"{self.owner}{self.trait}")
        return name == self.name and (is_owner if self.owner else around == self.module)

    def may_share_answers(self, other):
        """Whether the folder of its answers may be that of another function, so that a goal may be of either: both may be a
        type's `fmt`, of two traits, or methods of two types of one name."""
        same = (self.owner, self.name) == (other.owner, other.name)
        return same and (bool(self.owner) or self.path == other.path)


def functions_of(path, text):
    """The functions of a source, without those within other functions."""
    lines, found, of, of_ends = text.split("\n"), [], ("", ""), -1
    for at, line in enumerate(lines):
        if at > of_ends and (named := OWNER.match(line)):
            of, of_ends = [(it or "").rpartition("::")[2] for it in named.groups()], end_of(lines, at, "")
        head = FUNCTION.match(line)
        if head and not (found and at < found[-1].last):
            first, last = start_of(lines, at, head[1]), end_of(lines, at, head[1])
            trait, owner = of if at < of_ends else ("", "")
            brace = brace_of(lines, at, last, head[1]) + 1
            found.append(Function(path, first + 1, last + 1, owner, head[2], trait, brace))
    return found


def brace_of(lines, head, last, indent):
    """The line with the brace at which the body of a function begins: its only line, or the first one with its indent that
    ends with a brace; -1 if it has none."""
    if head == last and "{" in lines[head]:
        return head
    begins = (at for at in range(head, last) if re.match(rf"{indent}(?! ).*\{{$", lines[at]))
    return next(begins, last if lines[last].startswith(f"{indent}{{}}") else -1)


def constants_in(text):
    """The constants and the tables of a source: the name of each, and its first and last line, counted from 1."""
    lines = text.split("\n")
    for at, line in enumerate(lines):
        if named := NAMED.match(line):
            last = next((it for it in range(at, len(lines)) if lines[it].endswith(";")), len(lines) - 1)
            yield named[1], at + 1, last + 1


def constant_at(text, line):
    """The name of the constant or the table that a line is in, or None if it is in none."""
    return next((name for name, first, last in constants_in(text) if first <= line <= last), None)


def are_named(names, text, first, last):
    """Whether some lines of a source have one of these names."""
    return any(names & set(re.findall(r"\w+", line)) for line in text.split("\n")[first - 1 : last])


def functions_that_name(name, texts):
    """The functions whose bodies name a constant, or another one that is made of it, in files that are given by their
    paths; none if anything but a body names it: a type, a clause, a signature, a definition, or a lemma."""
    names, more = set(), {name}
    sources = {path: text for path, text in texts.items() if path.endswith(".rt")}
    while more:
        names |= more
        found = [(it, text, first, last) for text in sources.values() for it, first, last in constants_in(text)]
        more = {it for it, *where in found if it not in names and are_named(names, *where)}
    every = {path: functions_of(path, text) for path, text in sources.items()}
    if any(is_named_elsewhere(names, path, text, every.get(path, [])) for path, text in texts.items()):
        return []
    return [it for path in every for it in every[path] if are_named(names, texts[path], it.first, it.last)]


def is_named_elsewhere(names, path, text, functions):
    """Whether a line of a file has one of these names, but for bodies of functions and their answers, constants, comments,
    and imports."""
    if Path(path).name in OF_FUNCTIONS:
        return False
    bodies = [range(it.brace, it.last + 1) for it in functions if it.brace]
    skipped = [*bodies, *(range(first, last + 1) for _, first, last in constants_in(text))]
    for at, line in enumerate(text.split("\n"), 1):
        code = re.split("//|--", line)[0]
        if names & set(re.findall(r"\w+", code)) and not IMPORT.match(line.strip()):
            if not any(at in it for it in skipped):
                return True
    return False


def start_of(lines, head, indent):
    """Where a function begins whose head is in a line: with its first attribute."""
    first = head
    while first > 0 and lines[first - 1].startswith(f"{indent}#["):
        first -= 1
    return first


def end_of(lines, first, indent):
    """Where an item ends that begins in a line: at its closing brace, or in a line that ends in a semicolon, as a
    function without a body, which may have clauses."""
    has_body = False
    for at in range(first, len(lines)):
        line = lines[at]
        if line == f"{indent}}}" or line.startswith(f"{indent}{{}}") or (at == first and line.endswith("}")):
            return at
        is_outer = len(line) - len(line.lstrip()) <= len(indent)
        if line.endswith(";") and (is_outer or not has_body):
            return at
        has_body = has_body or (is_outer and line.endswith("{"))
    return len(lines) - 1


class Edit:
    """A wrong body: texts that are once in a file of the crate, and what it has in their place."""

    def __init__(self, file):
        self.file, self.name, self.pairs = str(file), Path(file).name, []
        path = old = ""
        for line in Path(file).read_text(encoding="utf-8").splitlines():
            word, _, text = line.partition(":")
            text = text.removeprefix(" ")
            if word == "file":
                path = text.strip()
            elif word == "old":
                old = text
            elif word == "new":
                self.pairs.append((path, old, text))

    def made(self, text_of):
        """The texts of the files that it changes, by their paths, given the text of each file; and why it can't be applied,
        or None if it can."""
        texts = {}
        for path, old, new in self.pairs:
            text = texts[path] if path in texts else text_of(path)
            if text.count(old) != 1:
                return {}, f"{path} has {text.count(old)} times: {old}"
            texts[path] = text.replace(old, new)
        return texts, None

    def functions(self, text_of, files=()):
        """The functions whose bodies it changes: those with changed lines, and those of these files that name a constant with
        changed lines, or one made of it. It has none if it can't be applied, or changes anything else but imports."""
        found = set()
        for path, text in self.made(text_of)[0].items():
            is_source = path.startswith("src/")
            functions, lines = functions_of(path, text_of(path)) if is_source else [], text_of(path).split("\n")
            for at, (old, new) in enumerate(zip(lines, text.split("\n")), 1):
                if old == new or (is_source and IMPORT.match(old) and IMPORT.match(new)):
                    continue
                around = [it for it in functions if it.has_line(path, at)]
                if not around and is_source and (name := constant_at(text_of(path), at)):
                    around = functions_that_name(name, {it: text_of(it) for it in files})
                elif not all(it.has_in_body(at, old, new) for it in around):
                    return set()
                if not around:
                    return set()
                found.update(around)
        return found


class Together:
    """Wrong bodies of different functions, which are tried by one check."""

    def __init__(self, text_of):
        self.text_of, self.texts, self.edits = text_of, {}, {}

    def takes(self, edit, functions):
        """Adds a wrong body, unless one of the others changes the same function or text. Returns whether it was added."""
        taken = [it for others in self.edits.values() for it in others]
        if any(it.may_share_answers(other) for it in functions for other in taken):
            return False
        texts, misfit = edit.made(lambda path: self.texts[path] if path in self.texts else self.text_of(path))
        if misfit:
            return False
        self.texts.update(texts)
        self.edits[edit] = functions
        return True

    def functions(self):
        """The functions that these wrong bodies change."""
        return {it for functions in self.edits.values() for it in functions}

    def refused(self, said):
        """The wrong bodies that a check refused, each with what it said of the goal."""
        found = {}
        for line in said.split("\n"):
            for edit, functions in self.edits.items():
                if any(names_goal(line, it) for it in functions):
                    found.setdefault(edit, line)
        return found


def names_goal(line, function):
    """Whether a line of a check names a goal of a function that isn't proved."""
    if found := OF_CODE.match(line):
        return function.has_line(found[1], int(found[2]))
    found = OF_ANSWER.match(line)
    return bool(found) and function.has_answers(found[1], found[2]) and not LACKS_NAME.search(line)


class Trying:
    """The wrong bodies of a crate, which are tried over the work of earlier checks, which a folder has; at first, that may be
    empty."""

    def __init__(self, rt, crate, flags, kept):
        self.rt, self.crate, self.flags, self.kept = rt, crate, flags, kept
        self.sources, self.unnamed = {}, set()

    def text_of(self, path):
        """The text of a file of the crate, or no text if there is no such file."""
        if path not in self.sources:
            file = Path(self.crate.folder, path)
            self.sources[path] = file.read_text(encoding="utf-8") if file.is_file() else ""
        return self.sources[path]

    def groups(self, edits):
        """Wrong bodies that are tried together: as few groups as there are wrong bodies for one function."""
        folder = Path(self.crate.folder)
        found = (it for pattern in READ for it in folder.glob(pattern))
        files = sorted(str(it.relative_to(folder)) for it in found)
        left = {it: functions for it in edits if (functions := it.functions(self.text_of, files))}
        while left:
            these = Together(self.text_of)
            left = {it: functions for it, functions in left.items() if not these.takes(it, functions)}
            yield these

    def together(self, edits, known):
        """Tries wrong bodies. Returns those that were refused, each with the goal. The goals of a function may wait for
        the proof of one that it calls, which another wrong body in the same check changes: so those that a check doesn't
        refuse are tried once more without the others, unless they are known to be let through. A check over the work of
        another one counts only if the same functions, as they stand, are proved over that work."""
        found, waiting = {}, list(self.groups(edits))
        while waiting:
            these = waiting.pop(0)
            is_over_others = any(Path(self.kept).iterdir())
            refused = self.refused(these)
            if not is_over_others or self.are_proved(these):
                found.update(refused)
            left = [it for it in these.edits if it not in refused and it.file not in known]
            waiting += self.groups(left) if refused else []
        return found

    def refused(self, these):
        """Those of these wrong bodies that one check refuses."""
        ran = self.checked(these.texts, these)
        lines = ran.stdout.rstrip("\n").split("\n")
        is_judged = ran.returncode == 1 and JUDGED.match(lines[-1])
        is_read = not any(self.rt.unread(it, these.texts) or OF_LEMMA.match(it) for it in lines)
        return these.refused(ran.stdout) if is_judged and is_read and not self.rt.rtlib.STALE.search(ran.stdout) else {}

    def are_proved(self, these):
        """Whether the functions that these wrong bodies change are proved as they stand."""
        return not self.checked({}, these).returncode

    def checked(self, texts, these):
        """Checks the functions that wrong bodies change, and the whole module of one whose name rattle doesn't take, with
        these texts in place of the crate's own."""
        while True:
            parts = sorted(map(self.part_of, these.functions()))
            only = [word for it in dict.fromkeys(parts) for word in ("--only", it)]
            ran = self.rt.checked(self.crate, texts, [*self.flags, *only], self.kept)
            found = UNNAMED.search(ran.stdout) if ran.returncode == 2 else None
            name = found and (found[1] or found[2])
            if not name or name in self.unnamed or name not in parts:
                return ran
            self.unnamed.add(name)

    def part_of(self, function):
        return "::".join(function.module) if function.full_name in self.unnamed else function.full_name

    def results(self, files, known):
        """Of each wrong body, whether it is refused, and what to say. Those that no goal of their own refuses are tried one
        at a time; what that says counts only if the crate, as it stands, is proved over the same work. Otherwise, and for
        those that weren't refused, unless they are known to be let through, rt begins with nothing."""
        edits = [Edit(it) for it in files]
        found = self.together(edits, known)
        alone = {it: self.alone(it) for it in edits if it not in found}
        is_sound = not alone or self.is_proved()
        return [self.result(it, found.get(it), alone.get(it), is_sound, it.file in known) for it in edits]

    def alone(self, edit):
        """What rt says of a wrong body by itself."""
        return self.rt.must_fail(self.crate, edit.file, self.flags, self.kept)

    def is_proved(self):
        """Whether the crate is proved as it stands."""
        return not self.rt.checked(self.crate, {}, self.flags, self.kept).returncode

    def result(self, edit, goal, alone, is_sound, is_known):
        # Kits say that it is refused by `True`, or by a word.
        refused = getattr(self.rt, "REFUSED", True)
        if goal:
            return refused, said_of(self.crate, edit, goal)
        if alone and is_sound and (alone[0] == refused or is_known):
            kind, said = alone
        else:
            kind, said = self.rt.must_fail(self.crate, edit.file, self.flags)
        return kind, f"{said} [tried alone]"


def said_of(crate, edit, goal):
    return f"must-fail {crate.name}/{edit.name}: refused, as it must be: {goal[:160]}"


def must_fail_all(rt, crate, files, flags, over=None, known=()):
    """Of each wrong body, whether it is refused, and what to say. There may be a folder with the work of earlier checks,
    which is copied, and some wrong bodies may be known to be let through."""
    with tempfile.TemporaryDirectory(prefix="rt-edits-") as kept:
        if over:
            shutil.copytree(over, kept, dirs_exist_ok=True)
        return Trying(rt, crate, flags, kept).results(files, known)
