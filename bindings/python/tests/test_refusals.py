"""Refusals: their numbers, places, and explanations."""
import pickle
import tempfile
import traceback
import unittest
from pathlib import Path

import township
from documented import examples
from samples import NOTES, TRACTS, RefusalCase, even, uneven


class OfDescriptions(RefusalCase):
    REFUSED = examples("The text of a description", "The land that a description names")

    def test_numbers_and_places(self):
        for call in (uneven().acres, uneven().area, uneven().normal):
            for number, at, description, _ in self.REFUSED:
                with self.subTest(call=call.__name__, description=description[:80]):
                    refused = self.refused(call, description)
                    self.assertEqual((refused.number, refused.at, refused.inner), (number, at, None))

    def test_by_the_plat(self):
        for number, at, description, _ in self.REFUSED:
            with self.subTest(description=description[:80]):
                refused = self.refused(uneven().acres, description, account="plat")
                self.assertEqual((refused.number, refused.at), (number, at))

    def test_line_and_column(self):
        refused = self.refused(even().acres, "sec. 14, NE1/4;\nsec. 15, N1/2, NW1/4.\n")
        self.assertEqual((refused.at, refused.line, refused.column), (31, 2, 16))

    def test_places_count_bytes_and_columns_characters(self):
        # Each half is two bytes, and one character.
        refused = self.refused(even().acres, "sec. 14, N½, N½.")
        self.assertEqual((refused.number, refused.at, refused.column), (67, 14, 14))

    def test_explanation(self):
        refused = self.refused(even().acres, "sec. 14, NE1/4 and N1/2.")
        self.assertEqual(str(refused), "description:1:20: this land was named before")
        self.assertEqual(refused.sentence, "this land was named before")
        lines = refused.explanation.splitlines()
        self.assertEqual(lines[0], "township: " + str(refused))
        self.assertEqual(lines[1:3], ["  1 | sec. 14, NE1/4 and N1/2.", "    |" + " " * 20 + "^^^^"])

    def test_odd_bytes(self):
        for description in (b"sec. 14\xff", b"sec. 14\xff".decode("utf-8", "surrogateescape"), "sec. 14\ud800"):
            with self.subTest(description=description):
                refused = self.refused(even().acres, description)
                self.assertEqual((refused.number, refused.at), (42, 7))

    def test_bytes_of_zero(self):
        self.assertEqual(self.refused(even().acres, b"sec. 14.\0").at, 8)
        self.assertEqual(self.refused(even().acres, "\0sec. 14.").at, 0)

    def test_nothing(self):
        for nothing in ("", b""):
            refused = self.refused(even().acres, nothing)
            self.assertEqual((refused.number, refused.at), (44, 0))

    def test_the_most_bytes(self):
        most = "sec. 14." + " " * (65536 - 8)
        self.assertEqual(even().acres(most), 640)
        self.assertEqual(self.refused(even().acres, most + " ").number, 41)


class OfNotes(RefusalCase):
    def test_numbers_and_places(self):
        for number, at, notes, _ in examples("Field notes", "The plat"):
            with self.subTest(number=number, at=at):
                refused = self.refused(township.Plat.read, notes)
                self.assertEqual((refused.number, refused.at, refused.inner), (number, at, None))

    def test_line_that_is_missing(self):
        lines = [line for line in NOTES.splitlines(True) if not line.startswith(b"W,6,7,")]
        refused = self.refused(township.Plat.read, b"".join(lines))
        self.assertEqual((refused.number, refused.at), (11, 53))
        self.assertEqual((refused.line, refused.column), (None, None))
        self.assertEqual(refused.sentence, "missing record: W,6,7 (section line 53)")

    def test_record_that_is_no_line(self):
        refused = self.refused(township.Plat.read, NOTES.replace(b"N,1,,", b"N,40,,"))
        self.assertEqual((refused.number, refused.line), (7, 3))

    def test_no_plat(self):
        refused = self.refused(township.Plat.read, NOTES.replace(b"N,1,,40.00,80.00", b"N,1,,80.00,40.00"))
        self.assertEqual((refused.number, refused.at), (21, 0))

    def test_nothing(self):
        refused = self.refused(township.Plat.read, b"")
        self.assertEqual((refused.number, refused.at), (2, 1))

    def test_too_large(self):
        refused = self.refused(township.Plat.read, b"\n" * 65537)
        self.assertEqual((refused.number, refused.at), (1, 65536))

    def test_text(self):
        self.assertEqual(township.Plat.read(NOTES.decode()), uneven())


class OfLists(RefusalCase):
    def test_numbers_and_places(self):
        for number, at, tracts, inner in examples("A list of tracts"):
            with self.subTest(number=number, at=at):
                refused = self.refused(uneven().report_csv, tracts)
                self.assertEqual((refused.number, refused.at, refused.inner), (number, at, inner))

    def test_tract_with_its_own_refusal(self):
        refused = self.refused(uneven().report, [("A", "sec. 14, NE1/4 and N1/2.")])
        self.assertEqual((refused.number, refused.at, refused.inner), (83, 2, (67, 19)))
        self.assertEqual((refused.inner.number, refused.inner.at), (67, 19))
        self.assertEqual(refused.line, 2)
        self.assertEqual(refused.sentence, "tract `A`: this land was named before")

    def test_others(self):
        lot = "sec. 7, lot 1."
        for number, at, tracts in (
            (81, 2, [("", lot)]),
            (81, 3, [("A", lot), ("Peña", lot)]),
            (82, 3, [("A", lot), ("A", lot)]),
            (84, 3, [("A", lot), ("B", "sec. 7, lots 1 and 4.")]),
            (80, 1048576, [("A", lot), ("B", " " * 1048576)]),
        ):
            with self.subTest(number=number):
                refused = self.refused(uneven().report, tracts)
                self.assertEqual((refused.number, refused.at, refused.inner), (number, at, None))

    def test_csv(self):
        refused = self.refused(uneven().report_csv, TRACTS.replace(b"name,", b"name;"))
        self.assertEqual((refused.number, refused.at), (81, 1))


class OfFiles(RefusalCase):
    """Field notes by the name of their file."""

    def setUp(self):
        folder = tempfile.TemporaryDirectory()
        self.addCleanup(folder.cleanup)
        self.folder = Path(folder.name)

    def put(self, notes, name="notes.csv"):
        path = self.folder / name
        path.write_bytes(notes)
        return path

    def test_name_is_shown(self):
        path = self.put(NOTES.replace(b"N,1,,", b"N,40,,"))
        refused = self.refused(township.Plat.open, path)
        self.assertEqual((refused.number, refused.at, refused.line), (7, 3, 3))
        self.assertEqual(refused.source, str(path))
        self.assertTrue(str(refused).startswith(f"{path}:3: "), refused)
        self.assertTrue(refused.explanation.startswith(f"township: {path}:3: "))
        other = self.refused(township.Plat.read, path.read_bytes())
        self.assertEqual((other.source, refused.sentence), ("notes", other.sentence))

    def test_odd_names(self):
        wanted = self.refused(township.Plat.read, b"line\n").sentence
        for name in ("a: b:1:2: c.csv", "li\nne.csv", "Peña.csv", "x" * 200 + ".csv", "\udcff.csv"):
            with self.subTest(name=name):
                refused = self.refused(township.Plat.open, self.put(b"line\n", name))
                self.assertEqual(refused.sentence, wanted)
                self.assertNotIn("\n", refused.source)

    def test_too_large(self):
        self.assertEqual(self.refused(township.Plat.open, self.put(b"\n" * 65537)).number, 1)
        self.assertEqual(self.refused(township.Plat.open, self.put(b"\n" * 10_000_000)).number, 1)

    def test_name_given_for_notes(self):
        name = "samples/b1.csv"
        refused = self.refused(township.Plat.read, name)
        self.assertTrue(refused.explanation.endswith("  this looks like the name of a file: Plat.open reads one\n"))
        self.assertEqual(refused.sentence, self.refused(township.Plat.read, "samples\n").sentence)
        if hasattr(refused, "__notes__"):
            self.assertEqual(refused.__notes__, ["this looks like the name of a file: Plat.open reads one"])
        there = self.put(b"", "notes")
        for given in (b"b1.csv", str(there)):
            self.assertIn("Plat.open", self.refused(township.Plat.read, given).explanation)
        with self.assertRaisesRegex(TypeError, "Plat.open"):
            township.Plat.read(there)

    def test_no_name(self):
        for notes in ("", "line", "line,between,and,quarter,corner\nb1.csv", b"\0.csv"):
            self.assertNotIn("Plat.open", self.refused(township.Plat.read, notes).explanation)


class Sentences(RefusalCase):
    def test_sentence_that_the_program_shows_on_two_lines(self):
        refused = self.refused(even().acres, "sec. 14,")
        self.assertIn("or another\n  section's number\n", refused.explanation)
        sentence = "incomplete description: expected a part of the section, or another section's number"
        self.assertEqual(refused.sentence, sentence)
        self.assertEqual(str(refused), "description:1:9: " + sentence)

    def test_hints_on_lines_that_continue(self):
        # The hint is longer than two lines, and two hints take two lines.
        for text, count in (("secs. 1 to 36; secs. 1 to 36.", 1), ("sec. 14, NE/4, SE/4.", 2)):
            with self.subTest(text=text):
                refused = self.refused(even().acres, text)
                shown = refused.explanation.splitlines()[3:]
                self.assertEqual(" ".join(line.strip() for line in shown), " ".join(refused.hints))
                self.assertEqual(len(refused.hints), count)

    def test_repair_can_be_read(self):
        refused = self.refused(even().acres, "sec. 14, NE/4, SW/4.")
        self.assertEqual(refused.repair, "sec. 14, NE1/4, SW1/4.")
        self.assertEqual(refused.hints[-1], "perhaps: sec. 14, NE1/4, SW1/4.")
        self.assertEqual(str(even().acres(refused.repair)), "320.00")
        # White space becomes a single space in the reading, which is on one line.
        self.assertEqual(self.refused(even().acres, "sec. 14,\n\tNE/4, SW/4.").repair, refused.repair)
        self.assertIsNone(self.refused(even().acres, "sec. 37.").repair)

    def test_repair_of_a_tract(self):
        refused = self.refused(even().report_csv, 'name,description\nA,"sec. 14, NE/4"\n')
        self.assertEqual(refused.repair, "sec. 14, NE1/4")

    def test_underlined_letter_of_a_name(self):
        # `ñ` has two bytes, both of which are underlined.
        text = 'name,description\nPeña,"sec. 7, lot 4."\n'
        refused = self.refused(even().report_csv, text)
        self.assertEqual(text.encode()[refused.start : refused.end].decode(), "ñ")

    def test_underlined_bytes(self):
        # `¼` has two bytes, so N½NE¼ has 8.
        for text, underlined in (
            ("sec. 14, N½NE¼ and N½.", "N½"),
            ("sec. 37, all.", "37"),
            ("sec. 14, NE1/4 & SE1/4.", "&"),
            ("sec. 14, ", ""),
        ):
            with self.subTest(text=text):
                refused = self.refused(even().acres, text)
                self.assertEqual(text.encode()[refused.start : refused.end].decode(), underlined)

    def test_fault_that_is_not_at_one_place(self):
        refused = self.refused(even().acres, " " * 65537)
        self.assertEqual((refused.start, refused.end, refused.other), (None, None, None))


class OtherPlaces(RefusalCase):
    def shown(self, text, refused):
        other = refused.other
        return other.record, text[other.start : other.end]

    def test_land_named_before(self):
        text = "sec. 14, NE1/4 and N1/2."
        refused = self.refused(even().acres, text)
        self.assertEqual(self.shown(text, refused), (None, "NE1/4"))
        self.assertIsNone(self.refused(even().acres, "sec. 37.").other)

    def test_land_named_before_in_a_tract(self):
        text = 'name,description\nA,"sec. 14, NE1/4 and N1/2."\n'
        self.assertEqual(self.shown(text, self.refused(even().report_csv, text)), (None, "NE1/4"))

    def test_tracts_that_overlap(self):
        text = 'name,description\nA,sec. 13.\nB,"sec. 14, NE1/4."\nC,sec. 14.\n'
        self.assertEqual(self.shown(text, self.refused(even().report_csv, text)), (3, '"sec. 14, NE1/4."'))

    def test_name_repeated(self):
        text = "name,description\nA,sec. 13.\nB,sec. 14.\nA,sec. 15.\n"
        self.assertEqual(self.shown(text, self.refused(even().report_csv, text)), (2, "A"))

    def test_line_returned_again(self):
        lines = "line,between,and,quarter,corner\nT,2,N,3,W\nN,1,2,40.000,80.000\n"
        text = f"{lines}N,2,3,40.000,80.000\nN,1,2,40.000,80.000\n"
        refused = self.refused(township.Plat.read, text)
        self.assertEqual(self.shown(text, refused), (3, "N,1,2,40.000,80.000"))


class AsExceptions(RefusalCase):
    def test_value_error(self):
        with self.assertRaises(ValueError):
            uneven().acres("sec. 37.")

    def test_equal(self):
        refused = self.refused(uneven().acres, "sec. 14, NE1/4 and N1/2.")
        again = self.refused(uneven().acres, "sec. 14, NE1/4 and N1/2.")
        self.assertEqual(refused, again)
        self.assertEqual(hash(refused), hash(again))
        self.assertEqual(len({refused, again, self.refused(uneven().acres, "sec. 37.")}), 2)
        self.assertNotEqual(refused, self.refused(uneven().acres, "sec. 14,  NE1/4 and N1/2."))
        self.assertNotEqual(refused, township.Refused(67, 19))
        self.assertNotEqual(refused, (67, 19))
        self.assertEqual(township.Refused(67, 19), township.Refused(67, 19))

    def test_pickled(self):
        refused = self.refused(uneven().report, [("A", "sec. 7, lot 9.")])
        again = pickle.loads(pickle.dumps(refused))
        self.assertIs(type(again), township.Refused)
        self.assertEqual(vars(again), vars(refused))
        self.assertEqual(str(again), str(refused))

    def test_in_a_traceback(self):
        refused = self.refused(uneven().acres, "sec. 14, NE1/4 and N1/2.")
        last = traceback.format_exception_only(type(refused), refused)[-1]
        self.assertEqual(last, "township.Refused: description:1:20: this land was named before\n")

    def test_without_an_explanation(self):
        bare = township.Refused(67, 19)
        self.assertEqual(str(bare), "refused 67 at 19")
        self.assertEqual(bare.sentence, "refused 67 at 19")
        self.assertEqual((bare.line, bare.column, bare.inner), (None, None, None))


if __name__ == "__main__":
    unittest.main()
