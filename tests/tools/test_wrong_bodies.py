#!/usr/bin/env python3
"""Tests how tools/wrong_bodies.py tells which functions an edit changes, and which goals of a check are theirs."""
import pathlib
import re
import sys
import tempfile
import types
import unittest

sys.dont_write_bytecode = True
sys.path.insert(0, str(pathlib.Path(__file__).resolve().parent.parent.parent / "tools"))

from wrong_bodies import Edit, Function, Together, functions_of, must_fail_all, names_goal  # noqa: E402

SOURCE = """//! Lines.

const LINES: usize = 84;

impl Line {
    /// The index.
    #[inline(always)]
    pub fn index(self) -> usize
        ensures { result ≡ index_of self }
    {
        if self.run == Run::North {
            return 1;
        }
        usize::from(self.number)
    }

    pub(crate) fn number(self) -> u8 { self.number % LINES }
}

impl<P: Plot> Land for Sections<P> {
    fn meets(&self, block: Block) -> bool {
        self.first.meets(block)
    }
}

pub fn sides(section: Section) -> Sides {
    Sides { north: section.row() }
}
"""

# The line of `sides` that a wrong body changes.
LINE_OF_SIDES = 27


def text_of(path):
    return SOURCE if path == "src/line.rt" else ""


def edit(old, new, path="src/line.rt"):
    with tempfile.TemporaryDirectory() as folder:
        file = pathlib.Path(folder, "line_wrong.edit")
        file.write_text(f"file: {path}\nold: {old}\nnew: {new}\n")
        return Edit(file)


INDEX, NUMBER, MEETS, SIDES = functions_of("src/line.rt", SOURCE)


class Functions(unittest.TestCase):
    def test_lines_with_attributes_owners_and_names(self):
        found = [(it.first, it.last, it.owner, it.name) for it in (INDEX, NUMBER, MEETS, SIDES)]
        wanted = [(7, 15, "Line", "index"), (17, 17, "Line", "number"), (21, 23, "Sections", "meets")]
        self.assertEqual(found, [*wanted, (26, 28, "", "sides")])

    def test_functions_that_an_edit_changes(self):
        self.assertEqual(edit("return 1;", "return 2;").functions(text_of), {INDEX})
        self.assertEqual(edit("section.row()", "section.column()").functions(text_of), {SIDES})

    def test_an_edit_of_a_constant_changes_the_functions_that_name_it(self):
        one = edit("= 84;", "= 83;")
        self.assertEqual(one.functions(text_of, ["src/line.rt"]), {NUMBER})
        self.assertEqual(one.functions(text_of, ["src/other.rt"]), set())

    def test_an_edit_of_a_constant_changes_the_functions_that_name_what_is_made_of_it(self):
        one = "pub const SIDE: u32 = 80;\n\nconst AREA: u32 = SIDE *\n    SIDE;\n\nfn side() -> u32 {\n    SIDES\n}\n"
        other = "use crate::one::AREA;\n\nfn area() -> u32 {\n    AREA\n}\n"
        texts = {"src/one.rt": one, "src/other.rt": other}
        found = edit("u32 = 80;", "u32 = 40;", "src/one.rt").functions(lambda path: texts.get(path, ""), list(texts))
        self.assertEqual([(it.path, it.name) for it in found], [("src/other.rt", "area")])

    def test_an_edit_of_a_constant_that_a_type_or_a_clause_names_changes_no_body(self):
        one = "pub const SIDE: u32 = 80;\n\nconst AREA: u32 = SIDE;\n\nfn area() -> u32 {\n    AREA\n}\n"
        body = "fn side() -> u32 {\n    // SIDE is in chains.\n    SIDE\n}\n"
        texts = {"src/one.rt": one, "src/two.rt": f"use crate::one::{{AREA, SIDE}};\n\n{body}"}

        def named(**more):
            every = texts | {it.replace("_", "/").replace("/rt", ".rt").replace("/antt", ".antt"): text for it, text in more.items()}
            found = edit("u32 = 80;", "u32 = 40;", "src/one.rt").functions(lambda path: every.get(path, ""), list(every))
            return {it.name for it in found}

        self.assertEqual(named(), {"area", "side"})
        self.assertEqual(named(proofs_area_Answers_antt="returns = refl AREA\n"), {"area", "side"})
        self.assertEqual(named(src_row_rt="struct Row {\n    sides: [u8; SIDE],\n}\n"), set())
        self.assertEqual(named(src_row_rt="struct Row {\n    areas: [u8; AREA],\n}\n"), set())
        self.assertEqual(named(src_row_rt="fn row() -> u32\n    ensures { result ≡ AREA }\n{\n    0\n}\n"), set())
        self.assertEqual(named(specs_Sides_antt="side = SIDE\n"), set())
        self.assertEqual(named(proofs_Sides_antt="side : SIDE ≡ 80\n"), set())

    def test_an_edit_of_a_clause_or_a_signature_changes_no_body(self):
        for old, new in (
            ("index_of self }", "number_of self }"),
            ("pub fn index(self) -> usize", "pub fn index(&self) -> usize"),
            ("#[inline(always)]", "#[inline(never)]"),
            ("fn number(self) -> u8 {", "fn number(self) -> u16 {"),
            ("pub fn sides(section: Section) -> Sides {", "pub fn sides(_section: Section) -> Sides {"),
        ):
            self.assertEqual(edit(old, new).functions(text_of), set(), old)
        both = edit("return 1;", "return 2;")
        both.pairs.append(("src/line.rt", "index_of self }", "number_of self }"))
        self.assertEqual(both.functions(text_of), set())

    def test_a_body_may_begin_in_the_line_of_its_signature(self):
        for old, new in (("self.number % LINES", "self.number"), ("-> u8 { self", "-> u8 { return 1; self")):
            self.assertEqual(edit(old, new).functions(text_of), {NUMBER}, old)
        self.assertEqual(edit("block: Block) -> bool {", "block: Block) -> bool { return true;").functions(text_of), {MEETS})

    def test_an_edit_of_a_row_changes_the_functions_that_name_the_table(self):
        rows = "static ROWS: [[u8; 2]; 2] = [\n    *b\"a=\",\n    *b\"b=\",\n];\n\nfn row() -> u8 {\n    ROWS[0][1]\n}\n"
        found = edit('*b"b=",', '*b"c=",', "src/rows.rt").functions(lambda path: rows, ["src/rows.rt"])
        self.assertEqual([(it.name, it.first, it.last) for it in found], [("row", 6, 8)])

    def test_an_import_changes_nothing_else(self):
        source = "use crate::Line;\n" + SOURCE
        one = edit("use crate::Line;", "use crate::{Line, Run};")
        one.pairs.append(("src/line.rt", "section.row()", "section.column()"))
        self.assertEqual({it.name for it in one.functions(lambda path: source)}, {"sides"})

    def test_an_edit_of_anything_else_changes_no_function(self):
        self.assertEqual(edit("/// The index.", "/// The number.").functions(text_of, ["src/line.rt"]), set())

    def test_names_that_a_check_takes(self):
        found = [it.full_name for it in (INDEX, NUMBER, MEETS, SIDES)]
        self.assertEqual(found, ["Line::index", "Line::number", "SectionsLand::meets", "line::sides"])
        self.assertEqual(functions_of("src/lib.rt", "fn one() {\n}\n")[0].full_name, "one")

    def test_a_text_that_is_not_there_once_does_not_fit(self):
        self.assertEqual(edit("self", "other").functions(text_of), set())
        self.assertIsNotNone(edit("self", "other").made(text_of)[1])
        self.assertIsNone(edit("return 1;", "return 2;").made(text_of)[1])


class Goals(unittest.TestCase):
    def test_an_invariant_of_a_result_is_a_goal_too(self):
        said = "note: src/line.rt:12:9: `search` found no proof (`invariant_of-result`)"
        self.assertTrue(names_goal(said, INDEX))

    def test_goals_in_the_lines_of_a_function(self):
        said = "note: src/line.rt:{}:9: it is not proved that what the function ensures holds when it returns (`returns`)"
        self.assertTrue(names_goal(said.format(12), INDEX))
        self.assertTrue(names_goal(said.format(7), INDEX))
        self.assertFalse(names_goal(said.format(17), INDEX))
        self.assertFalse(names_goal(said.format(12).replace("line.rt", "lines.rt"), INDEX))

    def test_goals_with_a_written_answer(self):
        said = "./proofs/line/{}/Answers.antt:9:3: error: `returns`: the two types differ"
        self.assertTrue(names_goal(said.format("Line/index"), INDEX))
        self.assertTrue(names_goal(said.format("SectionsLand/meets"), MEETS))
        self.assertTrue(names_goal(said.format("sides"), SIDES))
        # A method in a file of its own has its answers beside those of its type's other methods.
        self.assertTrue(names_goal("./proofs/lines/Line/index/Answers.antt:9:3: error: `returns`", INDEX))
        # A type with arguments, and one whose name only begins as another's does.
        self.assertTrue(names_goal(said.format("Sections+LaneRows/rows"), Function("src/land_rows.rt", 1, 9, "Sections", "rows")))
        self.assertFalse(names_goal(said.format("LaneRowsPlot/full"), Function("src/place_set.rt", 1, 9, "L", "full", "PlaceSet")))
        self.assertFalse(names_goal(said.format("Line/number"), INDEX))
        self.assertFalse(names_goal(said.format("index"), INDEX))
        self.assertFalse(names_goal(said.format("Line/sides"), SIDES))

    def test_a_goal_of_a_cycle_begins_with_the_name_of_its_function(self):
        said = "./proofs/line/+descent/Answers.antt:9:3: error: `{}-returns-then-at`: as printed, the types differ"
        self.assertTrue(names_goal(said.format("sides"), SIDES))
        self.assertFalse(names_goal(said.format("write_sides"), SIDES))
        self.assertFalse(names_goal(said.format("index"), INDEX))

    def test_an_answer_that_lacks_a_name_says_nothing(self):
        said = "./proofs/line/sides/Answers.antt:9:3: error: `returns`: "
        self.assertFalse(names_goal(said + "module `Goals` has no `returns-2` that can be named from here", SIDES))
        self.assertFalse(names_goal(said + "record `Lts.After-row` (nearest: .if-has_half, .if-at)", SIDES))

    def test_other_lines_are_no_goals(self):
        self.assertFalse(names_goal("fn twp_grid::line::sides: no proof: it calls `row`, which is not proved", SIDES))
        self.assertFalse(names_goal("./proofs/line/sides/Answers.antt:9:3: note: the two sides may differ", SIDES))


class Sharing(unittest.TestCase):
    def test_methods_of_two_types_of_one_name_may_share_answers_and_functions_of_two_modules_do_not(self):
        one, other = (Function(f"src/{it}.rt", 1, 9, "Found", "new") for it in ("after", "before"))
        self.assertTrue(one.may_share_answers(other))
        one, other = (Function(f"src/{it}.rt", 1, 9, "", "new") for it in ("after", "before"))
        self.assertFalse(one.may_share_answers(other))


class Checks(unittest.TestCase):
    def test_one_edit_of_a_function_in_a_check(self):
        one, two, other = edit("return 1;", "return 2;"), edit("Run::North", "Run::West"), edit("north:", "south:")
        these = Together(text_of)
        self.assertTrue(these.takes(one, one.functions(text_of)))
        self.assertFalse(these.takes(two, two.functions(text_of)))
        self.assertTrue(these.takes(other, other.functions(text_of)))
        self.assertIn("return 2;", these.texts["src/line.rt"])
        self.assertIn("south:", these.texts["src/line.rt"])

    def test_each_edit_is_refused_by_its_own_goal_alone(self):
        one, other = edit("return 1;", "return 2;"), edit("north:", "south:")
        these = Together(text_of)
        for it in (one, other):
            these.takes(it, it.functions(text_of))
        goal = "note: src/line.rt:27:5: it is not proved that what the function ensures holds when it returns (`returns`)"
        self.assertEqual(these.refused(f"fn twp_grid::line::Line::index: not proved\n{goal}\n"), {other: goal})


class TraitFunctions(unittest.TestCase):
    """The functions of a trait, most of which have no body."""

    SOURCE = """pub trait Plot: Copy + Drop {
    fn empty() -> Self
        ensures { held result ≡ nothing_held };

    fn is_untouched(&self) -> bool
        ensures { IsTrue result → held self.now ≡ nothing_held }
    {
        false
    }
}

fn added<P: Plot>(plot: &mut P) {
    plot.add();
}
"""

    def test_each_ends_with_its_clauses_or_its_body(self):
        found = [(it.owner, it.name, it.first, it.last) for it in functions_of("src/plot.rt", self.SOURCE)]
        self.assertEqual(found, [("Plot", "empty", 2, 3), ("Plot", "is_untouched", 5, 9), ("", "added", 12, 14)])


class Tried(unittest.TestCase):
    """All wrong bodies of a crate."""

    def setUp(self):
        room = tempfile.TemporaryDirectory()
        self.addCleanup(room.cleanup)
        folder = pathlib.Path(room.name)
        (folder / "src").mkdir()
        (folder / "src" / "line.rt").write_text(SOURCE)
        # Two of the same function, one of another, and one of a comment.
        pairs = {"one": ("return 1;", "return 2;"), "two": ("self.number)", "7)"), "sides": ("north:", "south:")}
        pairs["lines"] = "//! Lines.", "//! 84 lines."
        self.files = {}
        for name, (old, new) in pairs.items():
            file = folder / f"{name}.edit"
            file.write_text(f"file: src/line.rt\nold: {old}\nnew: {new}\n")
            self.files[name] = str(file)
        self.checks, self.alone, self.is_proved, self.unnamed = [], [], True, []
        # What each check finds that earlier ones left.
        self.found = []
        # Whether `sides` is refused where no other function is changed.
        self.waits = False
        self.crate = types.SimpleNamespace(name="twp_grid", folder=str(folder))
        self.rt = types.SimpleNamespace(
            checked=self.checked,
            must_fail=self.must_fail,
            unread=lambda line, texts: False,
            rtlib=types.SimpleNamespace(STALE=re.compile("stale")),
            REFUSED="refused",
        )

    def checked(self, crate, texts, flags, kept):
        """A check that refuses `index` of a wrong body, and nothing else."""
        self.checks.append((texts.get("src/line.rt", "as it stands"), flags))
        self.found.append(sorted(str(it.relative_to(kept)) for it in pathlib.Path(kept).rglob("*.oantt")))
        pathlib.Path(kept, "changed.oantt").touch()
        if any(it in self.unnamed for it in flags):
            said = f"rattle: error: `twp_grid` has no function `{self.unnamed[0]}`: help: write the name that a check prints"
            return types.SimpleNamespace(stdout=said, returncode=2)
        if not texts:
            return types.SimpleNamespace(stdout="logic=proved", returncode=int(not self.is_proved))
        end = "only=2 proved=1" if "--only" in flags else "logic=not-proved"
        line = LINE_OF_SIDES if self.waits and "Line::index" not in flags else 12
        return types.SimpleNamespace(stdout=f"note: src/line.rt:{line}:9: it is not proved that ..\n{end}", returncode=1)

    def must_fail(self, crate, file, flags, kept=None):
        """A try of one wrong body, by which it is refused if that begins with nothing."""
        self.alone.append((pathlib.Path(file).stem, bool(kept)))
        return ("missed", "NOT REFUSED") if kept else ("refused", "from nothing")

    def tried(self, *names, known=(), over=None):
        """What is said of these wrong bodies."""
        files = [self.files[it] for it in names]
        return must_fail_all(self.rt, self.crate, files, ["--jobs", "1"], over, [self.files[it] for it in known])

    def test_those_of_different_functions_are_in_one_check(self):
        found = self.tried("one", "sides", "lines")
        self.assertEqual([it[0] for it in found], ["refused"] * 3)
        self.assertIn("must-fail twp_grid/one.edit: refused, as it must be: note: src/line.rt:12", found[0][1])
        ((text, flags), again, same, whole) = self.checks
        self.assertEqual(whole, ("as it stands", ["--jobs", "1"]))
        self.assertTrue("return 2;" in text and "south:" in text)
        self.assertTrue("return 2;" not in again[0] and "south:" in again[0] and same[0] == "as it stands")
        self.assertEqual(flags, ["--jobs", "1", "--only", "Line::index", "--only", "line::sides"])
        # The others are tried alone: over the work of the check, and from nothing if that is no refusal.
        self.assertEqual(self.alone, [("sides", True), ("lines", True), ("sides", False), ("lines", False)])

    def test_one_that_waits_for_a_function_that_another_changes_is_tried_once_more(self):
        self.waits = True
        found = self.tried("one", "sides")
        self.assertIn(f"src/line.rt:{LINE_OF_SIDES}:9", found[1][1])
        self.assertEqual(self.alone, [])
        self.assertEqual([it[1][2:] for it in self.checks[1:]], [["--only", "line::sides"]] * 2)

    def test_one_that_only_a_try_by_itself_refuses_is_marked(self):
        self.rt.must_fail = lambda crate, file, flags, kept=None: ("refused", "refused, as it must be")
        self.assertEqual(self.tried("lines"), [("refused", "refused, as it must be [tried alone]")])

    def test_a_function_whose_name_is_not_taken_is_checked_with_its_module(self):
        self.unnamed = ["Line::index"]
        self.assertEqual([it[0] for it in self.tried("one")], ["refused"])
        self.assertEqual([it[1][2:] for it in self.checks], [["--only", "Line::index"], ["--only", "line"]])

    def test_a_check_that_fails_for_another_reason_is_not_repeated(self):
        self.unnamed = ["line::sides", "line"]
        self.assertEqual([it[1] for it in self.tried("sides")], ["from nothing [tried alone]"])
        self.assertEqual([it[1][2:] for it in self.checks], [["--only", "line::sides"], ["--only", "line"], []])

    def test_over_the_work_of_one_check_another_needs_its_functions_proved_as_they_stand(self):
        self.assertIn("src/line.rt:12", self.tried("one", "two")[1][1])
        (_, (second, flags), (third, same)) = self.checks
        self.assertTrue("7)" in second and "return 2;" not in second)
        self.assertEqual((third, same), ("as it stands", flags))

    def test_a_second_check_says_nothing_if_they_are_not(self):
        self.is_proved = False
        self.assertEqual([it[1] for it in self.tried("one", "two")][1], "from nothing [tried alone]")
        self.assertEqual(self.alone, [("two", True), ("two", False)])

    def test_a_check_is_over_the_work_of_the_one_before(self):
        self.tried("one", "two")
        self.assertEqual(self.found, [[], ["changed.oantt"], ["changed.oantt"]])

    def test_the_first_check_is_over_what_rt_check_kept(self):
        over = pathlib.Path(self.crate.folder, "kept")
        over.mkdir()
        (over / "line.oantt").touch()
        self.tried("one", over=over)
        self.assertEqual(self.found, [["line.oantt"], ["changed.oantt", "line.oantt"]])
        self.assertEqual([it.name for it in over.iterdir()], ["line.oantt"])

    def test_one_of_a_clause_is_tried_by_itself(self):
        file = pathlib.Path(self.crate.folder, "clause.edit")
        file.write_text("file: src/line.rt\nold: index_of self\nnew: number_of self\n")
        self.files["clause"] = str(file)
        found = self.tried("clause", "sides")
        self.assertEqual([it[1] for it in found], ["from nothing [tried alone]"] * 2)
        self.assertEqual([it[0] for it in self.alone], ["clause", "sides"] * 2)
        self.assertNotIn("number_of", "".join(text for text, _ in self.checks))

    def test_one_that_is_known_to_be_let_through_is_not_tried_from_nothing(self):
        self.assertEqual([it[0] for it in self.tried("lines", known=["lines"])], ["missed"])

    def test_what_is_said_of_one_alone_counts_only_if_the_crate_is_proved(self):
        self.is_proved = False
        self.assertEqual([it[1] for it in self.tried("lines", known=["lines"])], ["from nothing [tried alone]"])


if __name__ == "__main__":
    unittest.main()
