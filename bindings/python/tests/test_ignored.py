"""Phrases that are left out of readings because the caller says that they are not land."""
import codecs
import doctest
import pickle
import unittest
from decimal import Decimal
from unittest import mock

import township
from batches import NOTES, BatchCase
from samples import TOP, RefusalCase
from township import Change, Reading, Readings, _library, _suggested
from township._phrases import condition_of, shared_of

PLAT = township.Plat.open(NOTES)
TEXT = "sec. 14, blah NE1/4"
#: What a reading of this text without `blah` assumes.
SAID = "without `blah`: you said that this is not land"

#: Why a phrase is refused.
WHY = "can't be left out: it names, excepts, or limits land, or contains a number that could be that of a section"


def made_by(reading, given):
    """What the changes of a reading make of a text, with a space for each run of white space."""
    at, made = 0, b""
    for change in reading.changes:
        made += given[at : change.start] + change.written.encode()
        at = change.end
    return " ".join((made + given[at:]).decode().split())


class Suggested(RefusalCase):
    def test_left_out(self):
        self.assertEqual(list(township.suggest(TEXT)), [])
        reading, = township.suggest(TEXT, ignore=["blah"])
        self.assertEqual((reading.text, reading.assumptions), ("sec. 14, NE1/4", (SAID,)))
        aside, = [change for change in reading.changes if change.rule == "set aside"]
        self.assertEqual(aside, (9, 13, "blah", " ", "set aside", "set aside", "blah"))
        self.assertEqual(aside.assumption, SAID)

    def test_by_plats_and_lot_tables(self):
        lots = township.Lots.of_figures(PLAT.township, {(5, 1): "40.45"})
        for found, acres in (
            (PLAT.suggest(TEXT, ignore=["blah"]), "160.00"),
            (PLAT.suggest("sec. 7, BLAH lots 1 to 4", "plat", ["blah"]), "156.42"),
            (lots.suggest("sec. 5, blah lot 1", ignore=["Blah"]), "40.45"),
        ):
            reading, = found
            self.assertEqual(reading.acres, Decimal(acres))
            self.assertEqual([each.assumes for each in reading.changes if each.rule == "set aside"], ["set aside"])

    def test_nothing_to_leave_out(self):
        for ignore in ([], (), township.Phrases(), ["quux"], ["", " "]):
            self.assertEqual(PLAT.suggest("NENE, S2NE4 Sec 14-2N-3W", ignore=ignore), PLAT.suggest("NENE, S2NE4 Sec 14-2N-3W"))
            self.assertEqual(PLAT.suggest(TEXT, ignore=ignore), PLAT.suggest(TEXT))

    def test_whole_words_in_either_case(self):
        for text, phrase, is_found in (
            ("PAYOUT GROUP KESTREL NE/4 Sec. 14", "payout group kestrel", True),
            ("NE/4 Sec. 14, Kestrels", "Kestrel", False),
            ("NE/4 Sec. 14, AKestrel", "Kestrel", False),
            ("NE/4 Sec. 14, (Kestrel)", "Kestrel", True),
            ("Payout  group Kestrel NE/4 Sec. 14", "Payout group Kestrel", False),
        ):
            self.assertEqual(bool(township.Phrases([phrase])._places_in(text)), is_found, text)

    def test_the_first_phrase_of_the_list_counts(self):
        self.assertEqual(township.Phrases(["old", "old mill"])._places_in("the old mill"), [(4, 7)])
        self.assertEqual(township.Phrases(["old mill", "old"])._places_in("the old mill"), [(4, 12)])

    def test_changes_make_the_text(self):
        for text in (
            TEXT, "sec. 14, NE/4 blah", "blah sec. 14, NE/4", "blah NE/4 blah Sec. 14 BLAH", "sec. 14, NE/4(blah)",
            "sec. 14: NE/4 blah SW/4", "T2N R3W blah Sec. 14:\n blah NENE, SWSW Blah", "TRACT 1: blah sec. 14, NE/4",
        ):
            given = text.encode()
            found = township.suggest(text, ignore=["(blah)", "blah"])
            self.assertGreater(len(found), 0, text)
            for reading in found:
                self.assertEqual(made_by(reading, given), reading.text, text)
                self.assertEqual([given[each.start : each.end].decode() for each in reading.changes],
                                 [each.left_out for each in reading.changes], text)
                ends = [0, *(each.end for each in reading.changes)]
                self.assertTrue(all(end <= each.start for end, each in zip(ends, reading.changes)), text)
                left_out = [each.left_out for each in reading.changes if each.rule == "set aside"]
                self.assertEqual(len(left_out), text.lower().count("blah"), text)

    def test_a_change_around_a_phrase(self):
        # Without `blah`, one part: the space on both sides is left out. Two parts: the comma is written before the phrase.
        text = "sec. 14, NE1/4 blah SW1/4"
        around = Change(14, 20, " " * 6, "", "one part", "no missing comma", "NE1/4 SW1/4")
        between = Change(16, 16, "", ",", "comma")
        found = Readings([Reading("sec. 14, NE1/4SW1/4", (around,), "changed"),
                          Reading("sec. 14, NE1/4  ,    SW1/4", (between,), "changed")])
        with mock.patch.object(_suggested, "readings_of", lambda *_: found):
            one, two = township.suggest(text, ignore=["blah"])
        self.assertEqual([each[:4] for each in one.changes], [(14, 15, " ", ""), (15, 19, "blah", ""), (19, 20, " ", "")])
        self.assertEqual([each[:4] for each in two.changes], [(15, 15, "", ","), (15, 19, "blah", " ")])
        self.assertEqual(made_by(one, text.encode()), one.text)
        self.assertEqual(sorted(one.assumptions), ["`NE1/4 SW1/4`: no comma is missing", SAID])
        self.assertEqual(two.assumptions, (SAID,))
        # They differ in the space alone, whatever is written for the phrase.
        self.assertEqual(condition_of(text.encode(), one, [one, two]), "as it is written")
        self.assertEqual(condition_of(text.encode(), two, [one, two]), "if the space separates two parts")
        self.assertEqual([change.rule for change in shared_of([one, two])], ["set aside"])

    def test_a_label_around_a_phrase(self):
        # What is left of it is not land, either; white space is nothing at all.
        text = "TRACT blah 1: blah sec. 14"
        label = Change(0, 19, "TRACT" + " " * 6 + "1:" + " " * 6, "", "label", "not land", "TRACT      1:      ")
        found = Readings([Reading("sec. 14", (label,), "changed")])
        with mock.patch.object(_suggested, "readings_of", lambda *_: found):
            reading, = township.suggest(text, ignore=["blah"])
        self.assertEqual([each.left_out for each in reading.changes], ["TRACT ", "blah", " 1: ", "blah", " "])
        said = ("without `TRACT`: this is not land", SAID, "without `1:`: this is not land", "the plat has the standard lots")
        self.assertEqual(reading.assumptions, said)

    def test_what_is_unread_besides(self):
        text = "½ bläh\nthe old blah mill"
        found = township.suggest(text, ignore=["blah"])
        words = [text.encode()[each.start : each.end].decode() for each in found.unread if each.ways is None]
        self.assertEqual(words[-2:], ["old", "mill"])
        self.assertEqual(words, [each.text for each in found.unread if each.ways is None])

    def test_bytes_and_text(self):
        self.assertEqual(township.suggest(TEXT.encode(), ignore=[b"blah"]), township.suggest(TEXT, ignore=["blah"]))
        # Places are bytes of the text in UTF-8: each `½`, `¼`, or `ä` has two. A byte that is not UTF-8 can be left out, too.
        reading, = PLAT.suggest("sec. 14, N½NE¼, bläh SW¼", ignore=["BLäH"])
        self.assertEqual([each[:3] for each in reading.changes if each.rule == "set aside"], [(18, 23, "bläh")])
        self.assertEqual(reading.acres, Decimal("240.00"))
        reading, = township.suggest(b"sec. 14, bl\xe4h NE1/4", ignore=[b"bl\xe4h"])
        self.assertEqual(reading.text, "sec. 14, NE1/4")

    def test_parts(self):
        text = "blah T2N-R3W Sec 14: NE/4 blah; blah T3N-R3W Sec 32: S2 BLAH"
        for parts in (township.suggest_parts(text, ["blah"]), township.Plats([PLAT]).suggest(text, ignore=["blah"])):
            self.assertEqual([str(part.township) for part, _ in parts], ["T. 2 N., R. 3 W.", "T. 3 N., R. 3 W."])
            self.assertEqual([[reading.text for reading in readings] for _, readings in parts],
                             [["T2N R3W Sec 14: NE1/4"], ["T3N R3W Sec 32: S1/2"]])
            # No phrase is left out without a word, even if it is between two parts.
            left_out = [
                text.encode()[part.start + each.start : part.start + each.end]
                for part, (reading,) in parts for each in reading.changes if each.rule == "set aside"
            ]
            self.assertEqual(left_out, [b"blah", b"blah", b"blah", b"BLAH"])
        part, readings = parts[0]
        self.assertEqual(readings[0].acres, Decimal("160.00"))
        self.assertEqual((part.start, part.text[:28]), (0, "     T2N-R3W Sec 14: NE/4   "))

    def test_more_places_than_a_first_call_has_room_for(self):
        reading, = township.suggest("blah " * 1000 + "sec. 14, NE/4", ignore=["blah"])
        self.assertEqual([change.rule for change in reading.changes].count("set aside"), 1000)
        self.assertEqual(reading.assumptions, (SAID,))

    def test_the_account_is_checked_first(self):
        with self.assertRaisesRegex(ValueError, "account"):
            PLAT.suggest(TEXT, "both", ["Lot 3"])


class Phrases(RefusalCase):
    def test_refused(self):
        for phrase in ("Lot 3", "NE/4", "less", "north of", "14", "Sec", "except the road"):
            refused = self.refused(township.Phrases, ["Kestrel", phrase])
            self.assertEqual((refused.number, refused.at, refused.line), (51, 2, None))
            self.assertEqual(str(refused), f"phrases: `{phrase}` (phrase 2) {WHY}")
            self.assertEqual(refused.explanation, f"township: {refused}\n")
            self.assertEqual(self.refused(township.suggest, TEXT, ignore=["Kestrel", phrase]), refused)

    def test_accepted(self):
        for phrase in ("Unit 7", "5 years", "$2,040.00", "Payout group Kestrel", "Ed", "", "Bläuling"):
            self.assertEqual(list(township.Phrases([phrase])), [phrase])

    def test_too_large(self):
        for phrases in (["a"] * 65_537, [""] * 65_537, ["a" * 65_537], ["a" * 32_769] * 2):
            refused = self.refused(township.Phrases, phrases)
            self.assertEqual((refused.number, refused.at), (50, 65_536))
            self.assertIn("there are more than 65,536 phrases, or they have more than 65,536 bytes", str(refused))
        self.assertEqual(len(township.Phrases(["a"] * 65_536)), 65_536)
        self.assertEqual(len(township.Phrases(["a" * 65_536])), 1)

    def test_a_sequence(self):
        phrases = township.Phrases(["Kestrel", b"Unit 7", "Bl\udce4uling"])
        self.assertEqual((len(phrases), phrases[0], phrases[1:]), (3, "Kestrel", ("Unit 7", "Bl\udce4uling")))
        self.assertEqual(list(phrases), ["Kestrel", "Unit 7", "Bl\udce4uling"])
        self.assertEqual({phrases, township.Phrases(["Kestrel", "Unit 7", b"Bl\xe4uling"])}, {phrases})
        self.assertNotEqual(phrases, township.Phrases(["Kestrel"]))
        self.assertNotEqual(phrases, ["Kestrel"])
        self.assertEqual(repr(phrases), "<township.Phrases: 3>")
        self.assertEqual(pickle.loads(pickle.dumps(phrases)), phrases)
        self.assertFalse(township.Phrases())

    def test_wrong_types(self):
        for phrases in ("Kestrel", b"Kestrel"):
            with self.assertRaisesRegex(TypeError, "many phrases"):
                township.Phrases(phrases)
            with self.assertRaisesRegex(TypeError, "many phrases"):
                township.suggest(TEXT, ignore=phrases)
        for phrases in ([14], [None], None, 14):
            with self.assertRaises(TypeError):
                township.Phrases(phrases)

    def test_the_library_fails(self):
        phrases = township.Phrases(["Kestrel"])
        for verdict, exception in ((_library.NO_MEMORY, MemoryError), (_library.NO_RANGE, RuntimeError), (99, RuntimeError)):
            answer = _library.Answer(verdict=verdict)
            for call in (lambda: township.Phrases(["Kestrel"]), lambda: township.suggest(TEXT, ignore=phrases)):
                with mock.patch.object(_library, "set_aside", lambda *_: answer), self.assertRaises(exception):
                    call()


class File(BatchCase, RefusalCase):
    def test_lines(self):
        for data in (
            "Payout group Kestrel\nUnit 7\n", "\n  Payout group Kestrel \r\n\r\n\tUnit 7", "Payout group Kestrel\rUnit 7",
            codecs.BOM_UTF8 + b"Payout group Kestrel\nUnit 7", "Payout group Kestrel\nUnit 7".encode("utf-16"),
        ):
            self.assertEqual(list(township.Phrases.open(self.put(data, "phrases.txt"))), ["Payout group Kestrel", "Unit 7"])
        self.assertEqual(list(township.Phrases.open(self.put("", "phrases.txt"))), [])

    def test_refused(self):
        path = self.put("Kestrel\n\n  Blä\n\t Lot 3 \n", "phrases.txt")
        refused = self.refused(township.Phrases.open, path)
        # The third phrase is on line 4, after two bytes of white space.
        self.assertEqual((refused.number, refused.at, refused.line, refused.column), (51, 3, 4, 3))
        self.assertEqual(str(refused), f"{path}:4:3: `Lot 3` {WHY}")
        self.assertEqual((refused.source, path.read_bytes()[refused.start : refused.end]), (str(path), b"Lot 3"))

    def test_too_large(self):
        refused = self.refused(township.Phrases.open, self.put("a" * 65_537, "phrases.txt"))
        self.assertEqual((refused.number, refused.at, refused.line), (50, 65_536, None))
        # Lines without phrases don't count, up to a mebibyte.
        self.assertEqual(len(township.Phrases.open(self.put("Kestrel\n" + "\n" * 1_000_000, "phrases.txt"))), 1)
        refused = self.refused(township.Phrases.open, self.put("\n" * ((1 << 20) + 1), "phrases.txt"))
        self.assertEqual((refused.number, refused.at), (50, 1 << 20))
        self.assertIn("the file is longer than 1,048,576 bytes", str(refused))

    def test_no_file(self):
        with self.assertRaises(FileNotFoundError):
            township.Phrases.open(self.folder / "none.txt")


class Document(RefusalCase):
    TEXT = (TOP / "docs" / "PHRASES.md").read_text()

    def test_examples(self):
        failed, tried = doctest.testfile(str(TOP / "docs" / "PHRASES.md"), module_relative=False, encoding="utf-8")
        self.assertEqual((failed, tried), (0, 6))

    def test_phrases(self):
        for phrase in ("Payout group Kestrel", "Ed", "5 years", "Unit 7", "$2,040.00"):
            self.assertIn(f"`{phrase}`", self.TEXT)
            self.assertEqual(len(township.Phrases([phrase])), 1)
        self.assertEqual(township.Phrases(["Ed"])._places_in("Edna"), [])
        for phrase in ("Lot 3", "NE/4", "less", "north of"):
            self.assertIn(f"`{phrase}`", self.TEXT)
            self.assertEqual(self.refused(township.Phrases, ["Unit 7", phrase]).at, 2)
        # Which numbers may be those of sections.
        for number in (0, 37, 100, 2040):
            self.assertEqual(len(township.Phrases([str(number)])), 1)
        for number in (1, 9, 10, 36):
            self.assertEqual(self.refused(township.Phrases, [str(number)]).number, 51)


if __name__ == "__main__":
    unittest.main()
