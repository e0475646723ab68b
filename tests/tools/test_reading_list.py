"""Tests how tools/reading_list finds what a contract rests on: `python3 tests/tools/test_reading_list.py`.

Each test makes a small repository of its own, whose definitions bind and import names in the ways that the real ones
do, and compares what a definition or a contract names with what a reader would say.
"""

import sys
import tempfile
import unittest
from pathlib import Path

sys.path.insert(0, str(Path(__file__).resolve().parents[2] / "tools" / "reading_list"))
from closure import Outside, Sources, Untraced, closure  # noqa: E402

FILES = {
    "crates.txt": "low:\nhigh: low\n",
    "kit/std/specs/Prelude.antt": (
        "pub use Prim.Native.Nat.{ℕ, ◌+◌, ◌≡◌, List}\npub use Rattle.core.specs.Char.{encode_utf8}\n"
    ),
    "kit/core/specs/Char.antt": "-- bytes\nunfoldable pub use lib.Utf8.{encode as encode_utf8}\n",
    "crates/low/specs/Lib.antt": "pub mod Places\n",
    "crates/low/specs/Places.antt": """\
-- Places.
use Rattle.std.specs.Prelude.{ℕ, ◌+◌}

-- how many
abbrev pub COUNT : ℕ
COUNT = 5

-- two numbers
pub data Pair : Type 0 where
  pair : ℕ → ℕ → Pair
  none neither : Pair

-- their sum
abbrev pub sum : Pair → ℕ
sum (pair a b) = a + b
sum none = COUNT
sum neither = 0
""",
    "crates/low/src/lib.rt": "pub use kind::Kind;\n",
    "crates/low/src/kind.rt": """\
/// A kind.
pub enum Kind {
    /// One.
    One,
    /// Other, of a side.
    Other(Side),
}

/// A side.
pub struct Side {
    place: u8,
}
""",
    "crates/low/src/run.rt": """\
ghost use Rattle.std.specs.Prelude.{◌≡◌};
ghost use Rattle.low.specs.Places.{COUNT, sum};

use crate::kind::Kind;

/// Runs.
pub fn run(count: u32) -> Kind
    // The count.
    ensures counted { result ≡ sum (λ (pair : Kind). pair) }
    ensures kind { result ≡ Kind.One }
{
    Kind::One
}
""",
}
FIRST = """\
-- The first crate's texts.
use Rattle.std.specs.Prelude.{ℕ, ◌≡◌, List}
use Rattle.low.specs.Places.{COUNT, Pair, sum}
use Rattle.low.specs.Places as places
use Rattle.low.specs.declared.kind.Kind.TheVariants as kind
"""


class Names(unittest.TestCase):
    def setUp(self):
        folder = tempfile.TemporaryDirectory()
        self.addCleanup(folder.cleanup)
        self.root = Path(folder.name)
        for name, text in FILES.items():
            self.write(name, text)

    def write(self, name, text):
        path = self.root / name
        path.parent.mkdir(parents=True, exist_ok=True)
        path.write_text(text, encoding="utf-8")
        return path

    def sources(self):
        return Sources(self.root, self.root / "kit")

    def used(self, body, header="abbrev pub f : ℕ", more=""):
        """What the last definition of a file of the crate `high` names, without the words of numbers."""
        path = self.write("crates/high/specs/First.antt", f"{FIRST}{more}\n-- c\n{header}\n{body}\n")
        sources = self.sources()
        *_, entry = sources.file(path).entries.values()
        return [it.name for it in sources.uses(entry) if not isinstance(it, Outside) or it.where != "Prim.Native.Nat"]

    def test_names_that_are_imported(self):
        self.assertEqual(self.used("f p = sum p", "abbrev pub f : Pair → ℕ"), ["Pair", "sum"])
        self.assertEqual(self.used("f places = places.COUNT"), ["COUNT"])
        self.assertEqual(self.used("f = kind.One"), ["Kind"])

    def test_a_name_that_the_kit_passes_on_twice_under_another_name(self):
        more = "use Rattle.std.specs.Prelude.{encode_utf8}\n"
        self.assertEqual(self.used("f code = encode_utf8 code", more=more), ["encode"])

    def test_a_constructor_is_its_type(self):
        self.assertEqual(self.used("f = sum places.none"), ["sum", "Pair"])
        self.assertEqual(self.used("f = sum places.neither"), ["sum", "Pair"])

    def test_variables_and_fields_are_no_names(self):
        self.assertEqual(self.used("f other = (λ x (y : ℕ). x) other.sum"), [])
        self.assertEqual(self.used("f = record { one = 1; two = 2 }"), [])
        self.assertEqual(self.used("  pub x : ℕ\n  pub is : x ≡ n", "pub record R (n : ℕ) : Type 0 where"), [])

    def test_a_variable_that_has_the_name_of_a_definition_counts_as_that(self):
        self.assertEqual(self.used("f sum 0 = 1\nf other 1 = sum other"), ["sum"])
        self.assertEqual(self.used("f = (COUNT : ℕ) → COUNT ≡ COUNT"), ["COUNT"])

    def test_what_cannot_be_traced_is_an_error(self):
        for body in ("f = summ", "f = places.summ", "f = kind.Two", "f = COUNT + x", "f = 1\n\nfoo bar"):
            with self.assertRaises(Untraced, msg=body):
                self.used(body)
        for more in ("use Rattle.low.specs.Places.{nothing}\n", "use Rattle.low.specs.Nowhere.{nothing}\n"):
            with self.assertRaises(Untraced, msg=more):
                self.used("f = nothing", more=more)
        with self.assertRaises(Untraced):
            self.used("f = 1", more="use Rattle.low.specs.Places.{COUNT as sum}\n")

    def test_what_a_contract_rests_on(self):
        sources = self.sources()
        run = sources.find_declared("low", "run", "run", "run")
        uses, outside = closure(sources, [run])
        self.assertEqual({it.name for it in uses}, {"run", "COUNT", "Pair", "sum", "Kind", "Side"})
        self.assertEqual({it.name for it in outside}, {"ℕ", "◌+◌", "◌≡◌"})
        self.assertEqual([it.name for it in sources.named_in(run, ["{ result ≡ Kind.One }"])], ["◌≡◌", "Kind"])

    def test_an_unknown_name_in_a_contract_is_an_error(self):
        for old, new in (("sum (", "summ ("), ("Kind.One }", "Sort.One }"), ("-> Kind", "-> Sort")):
            self.write("crates/low/src/run.rt", FILES["crates/low/src/run.rt"].replace(old, new, 1))
            sources = self.sources()
            with self.assertRaises(Untraced, msg=new):
                closure(sources, [sources.find_declared("low", "run", "run", "run")])


if __name__ == "__main__":
    unittest.main()
