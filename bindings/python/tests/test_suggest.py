"""Readings: of the package, of `python -m township suggest`, and of `python -m township batch --suggest`."""
import unittest
from decimal import Decimal
from fractions import Fraction

import township
from batches import ADDED, NOTES, BatchCase, records
from samples import TOP
from township import _library, _readings
from township._phrases import tidy

PLAT = township.Plat.open(NOTES)
TWO = "sec. 14: NE¼NE¼ SW¼SW¼"
MANY = "NENE, S2NE4 Sec 14-2N-3W"

#: The columns that `--suggest` adds.
SUGGESTED = ["reading", "readings", "assumes", "reading_acres", "unread"]


class Suggested(unittest.TestCase):
    def test_order_and_changes(self):
        first, second = township.suggest(TWO)
        self.assertEqual(first.text, "sec. 14: NE¼NE¼, SW¼SW¼")
        self.assertEqual(second.text, "sec. 14: NE¼NE¼SW¼SW¼")
        # The space is the byte 17: each `¼` before it has two bytes.
        self.assertEqual(first.changes, ((17, 17, "", ",", "comma", None, None),))
        self.assertEqual(second.changes, ((17, 18, " ", "", "one part", "no missing comma", "NE¼NE¼ SW¼SW¼"),))

    def test_changes_make_the_text(self):
        for text in (TWO, MANY, "08 0020N 0030W 014 ALIQ NENE;", "the South Half of the Northeast Quarter of Section Fourteen (14)"):
            given = text.encode()
            readings = township.suggest(text)
            self.assertGreater(len(readings), 0, text)
            for reading in readings:
                at, made = 0, b""
                self.assertEqual(reading.manner, "changed")
                for change in reading.changes:
                    self.assertEqual(given[change.start : change.end].decode(), change.left_out)
                    made += given[at : change.start] + change.written.encode()
                    at = change.end
                self.assertEqual((made + given[at:]).decode(), reading.text)

    def test_a_description_is_its_own_reading(self):
        reading, = PLAT.suggest("sec. 14, NE1/4.")
        self.assertEqual((reading.text, reading.changes, reading.assumptions), ("sec. 14, NE1/4.", (), ()))

    def test_acres_are_those_of_each_reading(self):
        # Two parts of 40 acres each; or one of a sixteenth of 40 acres.
        self.assertEqual([each.acres for each in PLAT.suggest(TWO)], [Decimal("80.00"), Decimal("2.50")])
        for reading in PLAT.suggest(TWO):
            self.assertEqual(reading.acres, PLAT.acres(reading.text))
            self.assertEqual(reading.normal, PLAT.normal(reading.text))
            self.assertIsNone(reading.refused)
        # By the printed plat, lots 1 to 4 of section 7 have 0.02 acre more.
        acres = [PLAT.suggest("Lots 1-4 Sec 7", account)[0].acres for account in ("exact", "plat")]
        self.assertEqual(acres, [Decimal("156.40"), Decimal("156.42")])

    def test_without_a_plat(self):
        reading, = township.suggest(MANY)
        self.assertEqual((reading.acres, reading.normal, reading.refused), (None, None, None))

    def test_refused_by_the_plat(self):
        reading, = PLAT.suggest("N2 Sec 14-3N-3W")
        self.assertEqual((reading.acres, reading.normal, reading.refused.number), (None, None, 61))

    def test_assumptions(self):
        reading, = PLAT.suggest("TRACT 1: NE/4 Sec 14, T2N R3W, Boise Meridian, containing 160.00 acres")
        self.assertEqual(reading.assumptions, (
            "without `TRACT 1:`: this is not land",
            "without `Boise Meridian`: the meridian, state, or county is that of the plat",
            "without `containing 160.00 acres`: the acreage is not compared",
        ))

    def test_assumptions_of_each_kind(self):
        for text, assumes, phrase, said in (
            ("Sec. 14: NE/4, Boise Meridian", "same meridian", " Boise Meridian",
             "without `Boise Meridian`: the meridian, state, or county is that of the plat"),
            ("Sec. 5: Lot 1 (40.21)", "same acreage", "(40.21)", "without `(40.21)`: the acreage is not compared"),
            ("TRACT 1: sec. 14, NE1/4.", "not land", "TRACT 1:", "without `TRACT 1:`: this is not land"),
            ("Section Fourteen (14): NE/4", "said before", "(14)", "without `(14)`: this repeats what is before it"),
            # The words around the letter, or around one that is copied to the beginning. The period isn't part of them.
            ("Sec. 14, NEI/4.", "wrong letter", "NEI/4", "`NEI/4`: a letter or digit is wrong"),
            ("NE/4 Sec. 1O", "wrong letter", "1O", "`1O`: a letter or digit is wrong"),
            ("Sec. 14: Nothwest quarter", "wrong letter", "Nothwest", "`Nothwest`: a letter or digit is wrong"),
            # Runs that may have lost a comma, without and with white space between the steps.
            ("Sec. 14: N2SW;", "no missing comma", "N2SW", "`N2SW`: no comma is missing"),
            ("Sec. 28: E/2 SE/4", "no missing comma", "E/2 SE/4", "`E/2 SE/4`: no comma is missing"),
        ):
            reading, = PLAT.suggest(text)
            assumed = [change for change in reading.changes if change.assumes is not None]
            self.assertEqual([(each.assumes, each.phrase.strip()) for each in assumed], [(assumes, phrase.strip())], text)
            self.assertEqual(reading.assumptions, (said,), text)

    def test_nothing_is_assumed(self):
        # White space within a corner or before a fraction, `of`, the word for a section, and a section that moved.
        for text in ("Sec. 22, S.W.¼ of N.W.¼", "Sec. 14: NE ¼", "N2 of the NE4 of Sec 14", "NE4Sec 14", "Sec 14: N 1/2"):
            reading, = township.suggest(text)
            self.assertEqual(reading.assumptions, (), text)

    def test_an_assumption_is_said_once(self):
        # Three changes within one run.
        reading, = township.suggest("Sec. 14: N2SESWSE")
        self.assertEqual([change.assumes for change in reading.changes].count("no missing comma"), 3)
        self.assertEqual(reading.assumptions, ("`N2SESWSE`: no comma is missing",))

    def test_none(self):
        for text in ("", "the old mill", b"sec. 14\xff", "sec. 5, N½ of lot 2 and the old mill"):
            readings = township.suggest(text)
            self.assertEqual(list(readings), [], text)

    def test_not_expressible(self):
        text = "that portion of the NE/4 lying north of the road"
        readings = PLAT.suggest(text)
        self.assertEqual((list(readings), readings.reason), ([], "a portion needs a survey"))
        start, end = readings.beyond
        self.assertIn("portion", text[start:end])
        self.assertEqual(township.suggest("sec. 14.").reason, None)

    def test_unread(self):
        # Runs of words on one line, in which connectives and marks may be; no byte of a phrase is in one.
        text = "½ bläh\nblip Sec. 14 blop"
        for readings in (township.suggest(text), PLAT.suggest(text)):
            self.assertEqual(list(readings), [])
            self.assertEqual(readings.unread, (
                (0, 8, "½ bläh", None), (9, 13, "blip", None), (22, 26, "blop", None)
            ))
            self.assertEqual(str(readings.unread[1]), "not understood: `blip`")
        number, phrase = township.suggest("S2, 12, T2N R3W").unread
        self.assertEqual(str(number), "not understood: `12`")
        self.assertEqual(str(phrase), "`S2` can be read in two ways: a section, or a half")
        self.assertEqual(township.suggest(TWO).unread, ())
        self.assertEqual(township.suggest("").unread, ())

    def test_unread_with_a_reason(self):
        readings = township.suggest("that portion of the NE/4 Sec 9 lying north of the road")
        self.assertEqual(readings.reason, "a portion needs a survey")
        self.assertIn("portion", readings.unread[0].text)

    def test_manners(self):
        for text, manner, land in (
            ("N2 Sec 5", "lots named", "sec. 5, lots 1 to 4, S1/2N1/2."),
            ("Sec 14, less and except the NE/4", "remainder", "sec. 14, NW1/4, S1/2."),
        ):
            reading, = PLAT.suggest(text)
            self.assertEqual((reading.manner, reading.normal), (manner, PLAT.normal(land)))

    def test_text_of_bytes(self):
        self.assertEqual(township.suggest(TWO.encode()), township.suggest(TWO))
        with self.assertRaises(TypeError):
            township.suggest(14)
        with self.assertRaises(ValueError):
            PLAT.suggest(TWO, "both")

    def test_long_texts_are_read_whole(self):
        text = "sec. 14, " + ", ".join(["NE4NE4NE4", "NW4NE4NE4", "SW4NE4NE4", "SE4NE4NE4"]) + "\n" * 5000
        reading, = township.suggest(text)
        self.assertEqual(len(reading.changes), 12)
        self.assertEqual(PLAT.area(reading.text), Fraction(40))
        # More changes than a first call has room for.
        text = "; ".join(f"sec. {section}, NE4NE4, NW4NE4, NE4SW4, NW4SW4" for section in (8, 9, 10, 11, 14, 15, 16, 17, 20))
        reading, = township.suggest(text)
        self.assertEqual(len(reading.changes), 9 * 8)
        self.assertEqual(PLAT.acres(reading.text), Decimal("1440.00"))

    def test_names_are_those_of_the_header(self):
        header = (TOP / "include" / "township.h").read_text()
        for number, rule in enumerate(_readings.RULES, 1):
            name = rule.upper().replace(" ", "_")
            self.assertRegex(header, rf"(?m)^#define TOWNSHIP_RULE_{name} {number}u ")
        self.assertEqual(header.count("#define TOWNSHIP_RULE_"), len(_readings.RULES))
        for number, assumption in enumerate(_readings.ASSUMED, 1):
            name = assumption.upper().replace(" ", "_")
            self.assertRegex(header, rf"(?m)^#define TOWNSHIP_ASSUMES_{name} {number}u ")
        self.assertEqual(header.count("#define TOWNSHIP_ASSUMES_"), len(_readings.ASSUMED))
        for number, manner in enumerate(_readings.MANNERS):
            self.assertIn(f"#define TOWNSHIP_{manner.upper().replace(' ', '_')} {number}u", header)
        self.assertIn(f"#define TOWNSHIP_READINGS_MOST {_library.READINGS_MOST}\n", header)

    def test_tidy_descriptions_are_of_the_same_land(self):
        for line in (TOP / "tests" / "descriptions" / "written.tsv").read_text().splitlines()[1:]:
            text = line.split("\t")[3].replace("\\n", "\n").replace("\\t", "\t")
            for reading in PLAT.suggest(text):
                if reading.refused is None:
                    self.assertEqual(PLAT.normal(tidy(reading.text)), reading.normal, reading.text)


class Command(BatchCase):
    def assertShows(self, text, status, *lines):
        run = self.run_words("suggest", NOTES, "-", input=text.encode())
        self.assertEqual((run.returncode, run.stdout.decode(), run.stderr), (status, "".join(f"{line}\n" for line in lines), b""))

    def test_one_reading(self):
        self.assertShows(
            MANY + "\n", 0,
            "1. T. 2 N., R. 3 W., sec. 14, NE1/4NE1/4, S1/2NE1/4.    120.00 acres",
            "     NENE      is NE1/4NE1/4",
            "     S2NE4     is S1/2NE1/4",
            "     Sec 14-2N-3W is section, township, and range",
            "     `NENE`: no comma is missing",
            "     `S2NE4`: no comma is missing",
        )

    def test_several_readings(self):
        self.assertShows(
            TWO + "\n", 1,
            "1. sec. 14, NE1/4NE1/4, SW1/4SW1/4.    80.00 acres    if the space separates two parts",
            "2. sec. 14, NE1/4NE1/4SW1/4SW1/4.       2.50 acres    as it is written",
        )

    def test_the_document_shows_what_is_printed(self):
        document = (TOP / "docs" / "DESCRIPTIONS.md").read_text()
        for text in (MANY, TWO, "that portion of the NE/4 lying north of the road", "NE/4 Sec 9 by the old mill"):
            shown = self.run_words("suggest", NOTES, "-", input=text.encode()).stdout.decode()
            self.assertIn("\n\n" + "".join(f"    {line}\n" for line in shown.splitlines()) + "\n", document)

    def test_shared_changes_come_last(self):
        self.assertShows(
            "sec 14 NE4 SW4", 1,
            "1. sec 14 NE1/4, SW1/4.    320.00 acres    if the space separates two parts",
            "2. sec 14 NE1/4SW1/4.       40.00 acres    as it is written",
            "     sec 14 NE4 SW4 is sec 14 NE1/4 SW1/4",
        )

    def test_spaces_are_named(self):
        # 2.5 acres and 160; and 40 acres and a quarter of 40 acres.
        self.assertShows(
            "sec. 14: NE¼NE¼ SW¼SW¼ NW¼", 1,
            "1. sec. 14, NE1/4NE1/4, SW1/4SW1/4, NW1/4.    240.00 acres    if each space separates two parts",
            "2. sec. 14, NE1/4NE1/4SW1/4SW1/4, NW1/4.      162.50 acres    if only the space after SW¼SW¼ separates two parts",
            "3. sec. 14, NE1/4NE1/4, SW1/4SW1/4NW1/4.       50.00 acres    if only the space after NE¼NE¼ separates two parts",
            "4. sec. 14, NE1/4NE1/4SW1/4SW1/4NW1/4.          0.63 acres    as it is written",
        )

    def test_an_of_for_both_parts(self):
        # 320 acres and 80; or two parts of 80 acres each.
        self.assertShows(
            "Sec 14: W½ and E½ of SE¼", 1,
            "1. Sec 14, W1/2 and E1/2 of SE1/4.         400.00 acres    as it is written",
            "2. Sec 14, W1/2SE1/4 and E1/2 of SE1/4.    160.00 acres    if the `of` is for both parts",
        )

    def test_several_sections(self):
        self.assertShows(
            "Sections 14 and 23: W½", 0,
            "1. sec. 14, W1/2; sec. 23, W1/2.    640.00 acres",
            "     Sections 14 and 23 is several sections: the land is written for each of them",
        )

    def test_assumptions_are_said(self):
        self.assertShows(
            "TRACT 1: sec. 14, NE/4, Boise Meridian", 0,
            "1. sec. 14, NE1/4.    160.00 acres",
            "     NE/4      is NE1/4",
            "     without `TRACT 1:`: this is not land",
            "     without `Boise Meridian`: the meridian, state, or county is that of the plat",
        )

    def test_refused_by_the_plat(self):
        self.assertShows(
            "N2 Sec 14-3N-3W", 0,
            "1. T. 3 N., R. 3 W., sec. 14, N1/2.    refused 61: this heading says T. 3 N., R. 3 W.; the plat is for "
            "T. 2 N., R. 3 W.",
            "     N2        is N1/2",
            "     Sec 14-3N-3W is section, township, and range",
        )

    def test_lots_are_named(self):
        # 40.45 + 40.55 + 40.65 + 40.75, and two parts of 80 acres.
        self.assertShows(
            "N2 Sec 5", 0,
            "1. sec. 5, lots 1, 2, 3, 4, S1/2NE1/4, S1/2NW1/4.    322.40 acres",
            "     N2        is N1/2",
            "     Sec 5     is the section",
            "     the aliquot part includes lots, which are named in its place",
        )

    def test_what_remains(self):
        # 640 acres without 160.
        run = self.run_words("suggest", NOTES, "-", input=b"Sec 14, less and except the NE/4")
        self.assertEqual(run.returncode, 0, run.stdout)
        lines = run.stdout.decode().splitlines()
        self.assertEqual(lines[0], "1. sec. 14, NW1/4, S1/2.    480.00 acres")
        self.assertEqual(lines[-1], "     this is the land that is left without the exception")

    def test_not_expressible(self):
        text = "that portion of the NE/4 lying north of the road"
        self.assertShows(
            text, 4,
            "not expressible by lots and aliquot parts: a portion needs a survey",
            "     not understood: `that portion`",
            "     not understood: `lying north of the road`",
        )

    def test_no_reading(self):
        self.assertShows("the old mill", 4, "no reading is certain", "     not understood: `old mill`")
        self.assertShows(
            "S2, 12, T2N R3W", 4, "no reading is certain",
            "     not understood: `12`",
            "     `S2` can be read in two ways: a section, or a half",
        )
        self.assertShows("", 4, "no reading is certain")

    def test_account(self):
        for account, acres in (("exact", "156.40"), ("plat", "156.42")):
            run = self.run_words("suggest", "--account", account, NOTES, self.put("sec. 7, lots 1-4", "land.txt"))
            self.assertIn(f"    {acres} acres\n", run.stdout.decode())

    def test_misuse(self):
        for words in (("suggest",), ("suggest", NOTES), ("suggest", "-", "-")):
            run = self.run_words(*words)
            self.assertEqual((run.returncode, run.stdout), (2, b""))
        run = self.run_words("suggest", NOTES, self.folder / "none.txt")
        self.assertEqual((run.returncode, run.stdout), (3, b""))
        self.assertIn(b"No such file or directory", run.stderr)
        run = self.run_words("suggest", TOP / "samples" / "tracts.csv", "-", input=b"sec. 14.")
        self.assertEqual((run.returncode, run.stdout), (3, b""))
        self.assertIn(b"tracts.csv:1:", run.stderr)

    def test_what_a_terminal_obeys_is_escaped(self):
        run = self.run_words("suggest", NOTES, "-", input=b"\x1b[2J\xc2\x9b\xffNENE Sec 14, TRACT\x1b 1:")
        self.assertNotIn(b"\x1b", run.stdout)


class Batch(BatchCase):
    def answers(self, *words, data):
        run = self.run_words("batch", NOTES, self.put(data), *words)
        return run.returncode, records(run.stdout)

    def test_columns(self):
        data = f'description\n"{MANY}"\n{TWO}\n"sec. 14, NE1/4."\nthe old mill\n"N2 Sec 14-3N-3W"\n"TRACT 1: sec. 14, all."\n' \
            '"TRACT 1: sec. 14."\n"RABBIT CREEK: sec. 14."\n'
        status, (heading, *rows) = self.answers("--suggest", data=data)
        self.assertEqual((status, heading), (1, ["description", *ADDED, *SUGGESTED]))
        self.assertEqual([row[-5:-1] for row in rows], [
            ["T. 2 N., R. 3 W., sec. 14, NE1/4NE1/4, S1/2NE1/4.", "1", "`NENE`: no comma is missing; `S2NE4`: no comma is missing", "120.00"],
            ["", "2", "", ""],
            ["sec. 14, NE1/4.", "1", "", "160.00"],
            ["", "0", "", ""],
            ["T. 3 N., R. 3 W., sec. 14, N1/2.", "1", "", ""],
            ["sec. 14, all.", "1", "without `TRACT 1:`: this is not land", "640.00"],
            ["sec. 14.", "1", "without `TRACT 1:`: this is not land", "640.00"],
            # A section without land beside a remark: the land may be in the remark.
            ["", "0", "", ""],
        ])
        # Only a description without a reading has something unread.
        self.assertEqual([row[-1] for row in rows[:7]], ["", "", "", "not understood: `old mill`", "", "", ""])
        # The columns of the answer are the same as without readings.
        without = self.answers(data=data)[1]
        self.assertEqual([row[: len(ADDED) + 1] for row in (heading, *rows)], without)
        # A hyphen is not allowed in a description.
        self.assertEqual(rows[0][1:3], ["", "42"])

    def test_in_several_processes_and_resumed(self):
        data = "description\n" + f'"{MANY}"\n{TWO}\nsec. 14.\n' * 500
        alone = self.answers("--suggest", data=data)
        self.assertEqual(self.answers("--suggest", "--jobs", "2", data=data), alone)
        made = self.folder / "made.csv"
        self.run_words("batch", NOTES, self.put(data), "--suggest", "--output", made)
        whole = made.read_bytes()
        made.write_bytes(whole[: len(whole) // 2])
        self.run_words("batch", NOTES, self.put(data), "--suggest", "--output", made, "--resume")
        self.assertEqual(made.read_bytes(), whole)

    def test_record_that_is_not_answered(self):
        status, (heading, row) = self.answers("--suggest", data='description\n"sec. 14."x\n')
        self.assertEqual((status, len(row), row[-5:]), (1, len(heading), [""] * 5))

    def test_reason_and_unread(self):
        data = "description\nPT NENE SEC 21 T2N R3W\n"
        status, (heading, row) = self.answers("--suggest", data=data)
        self.assertEqual(row[-1], "not expressible: a portion needs a survey; not understood: `PT`")

    def test_column_that_is_there_already(self):
        run = self.run_words("batch", NOTES, self.put("description,reading\nsec. 14.,\n"), "--suggest")
        self.assertEqual(run.returncode, 3)
        self.assertIn(b"the heading already has a column `reading`", run.stderr)


if __name__ == "__main__":
    unittest.main()
