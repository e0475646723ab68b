"""Many descriptions, and lists of tracts, by a lot table: the same as by a plat, but for the acreage."""
import itertools
import unittest
from decimal import Decimal

import township
from samples import RefusalCase, even, uneven
from township import Land, Lots, LotsOverlap, Refusal, TractAnswer

WHERE = "T. 2 N., R. 3 W."
OTHER = "T. 3 N., R. 3 W."

#: 41.23 acres for lot 1 of section 5, and 36.86 for lot 7 of section 6.
TABLE = "section,lot,acres\nT,2,N,3,W\n5,1,41.23\n6,7,36.86\n"

#: Accepted; accepted with a note; refused by any plat; refused because the table lacks lot 2; without lots.
DESCRIPTIONS = [
    "sec. 5, lot 1, S1/2NE1/4.", "sec. 14, NE1/4 SE1/4.", "sec. 14, NE1/4 and N1/2.", b"sec. 5, lots 1 and 2.",
    b"sec. 36.", "", "sec. 14, N\u00bd.",
]


def table() -> Lots:
    return Lots.read(TABLE)


def printed(plat: township.Plat) -> Lots:
    """The figures that a plat prints, as a lot table."""
    sections = plat.sections.items()
    figures = {(number, lot): acres for number, section in sections for lot, acres in section.lots.items()}
    return Lots.of_figures(plat.township, figures)


class Many(RefusalCase):
    #: The hundredths of an acre of each description: lot 1 and 80 acres; 40; none; none; 640; none; 320.
    HUNDREDTHS = [12_123, 4_000, 0, 0, 64_000, 0, 32_000]
    REFUSED = [2, 3, 5]

    def one_by_one(self):
        """The answers to the descriptions, by a call for each."""
        answers = []
        for description in DESCRIPTIONS:
            try:
                answers.append(table().acres(description))
            except township.Refused as refused:
                answers.append(refused)
        return answers

    def test_shared_by_threads(self):
        descriptions = DESCRIPTIONS * 1000
        wanted = table().acres_many(descriptions)
        for threads in (2, 4):
            answers = table().acres_many(descriptions, threads=threads)
            self.assertEqual((answers.hundredths, answers.refused), (wanted.hundredths, wanted.refused))
        self.assertGreater(sum(wanted.hundredths), 0)
        self.assertEqual(table().normal_many(descriptions, threads=3), table().normal_many(descriptions))
        for call in (table().acres_many, table().normal_many):
            with self.assertRaises(ValueError):
                call([], threads=0)

    def test_acres_many(self):
        answers, wanted = table().acres_many(DESCRIPTIONS), self.one_by_one()
        self.assertEqual(list(answers.hundredths), self.HUNDREDTHS)
        self.assertEqual((answers.refused, len(answers)), (self.REFUSED, len(DESCRIPTIONS)))
        self.assertEqual(list(answers), wanted)
        self.assertEqual((answers[-1], answers[1:4]), (wanted[-1], wanted[1:4]))
        self.assertEqual([answer.number for answer in answers if isinstance(answer, township.Refused)], [67, 94, 44])

    def test_acres_of(self):
        self.assertEqual(list(table().acres_of(DESCRIPTIONS)), self.one_by_one())
        taken = table().acres_of(f"sec. {k}." for k in itertools.count(8))
        self.assertEqual(list(itertools.islice(taken, 3)), [640, 640, 640])

    def test_nothing(self):
        for call in (table().acres_many, table().acres_of, table().normal_many):
            self.assertEqual(list(call([])), [])

    def test_one_description_is_not_many(self):
        for call in (table().acres_many, table().acres_of, table().normal_many):
            for description in ("sec. 14.", b"sec. 14."):
                with self.assertRaisesRegex(TypeError, r"for one there is Lots\.(acres|normal)"):
                    call(description)

    def test_what_is_no_text(self):
        for values in ([None], ["sec. 14.", 14]):
            with self.assertRaises(TypeError):
                table().acres_many(values)

    def test_figures_of_a_plat_are_its_account(self):
        for plat in (even(), uneven()):
            descriptions = [f"sec. {number}." for number in range(1, 37)] + ["sec. 6, lots 3 to 5, SE1/4NW1/4."]
            wanted = plat.acres_many(descriptions, "plat").hundredths
            self.assertEqual(printed(plat).acres_many(descriptions).hundredths, wanted)
            self.assertEqual(printed(plat)._full_answers(descriptions).hundredths, list(wanted))

    def test_everything_by_one_call(self):
        answers, wanted = table()._full_answers(DESCRIPTIONS), self.one_by_one()
        self.assertEqual((answers.hundredths, answers.refused, answers.noted), (self.HUNDREDTHS, self.REFUSED, [1]))
        for index in self.REFUSED:
            self.assertEqual(answers.refused_at(index), wanted[index])
            self.assertEqual(answers.refusal(index), (wanted[index].number, wanted[index].at))
            self.assertEqual(answers.sentence(index), wanted[index].sentence)
        self.assertEqual(answers.sentence(1), uneven().notes(DESCRIPTIONS[1])[0].sentence)
        texts = answers.texts()
        self.assertEqual([bool(text) for text in texts], [True, True, False, False, True, False, True])
        self.assertEqual(texts[0], f"{WHERE},\nsec. 5, lot 1, S1/2NE1/4.\n")
        self.assertEqual(answers.texts(on_one_line=True), [text[:-1].replace("\n", " ") for text in texts])

    def test_a_note_and_a_lot_that_is_lacking(self):
        answers = table()._full_answers(["sec. 14, NE1/4 SE1/4; sec. 7, lot 1."])
        self.assertEqual((answers.noted, answers.refused, answers.refusal(0)), ([], [0], (94, 701)))


class Described(RefusalCase):
    """What depends on no acreage is the same as on a plat."""

    def test_canonical_texts(self):
        for description in DESCRIPTIONS:
            try:
                wanted = uneven().normal(description)
            except township.Refused as refused:
                self.assertEqual(self.refused(table().normal, description), refused)
            else:
                self.assertEqual(table().normal(description), wanted)
        self.assertEqual(table().normal_many(DESCRIPTIONS), uneven().normal_many(DESCRIPTIONS))

    def test_land(self):
        land = table().land("sec. 5, lots 1 to 4.")
        self.assertEqual(land, Land.of(WHERE, "sec. 5, lots 1 to 4."))
        self.assertEqual(self.refused(table().land, "sec. 37.").number, 62)

    def test_notes(self):
        for description in ("sec. 14, NE1/4 SE1/4.", "sec. 14."):
            self.assertEqual(table().notes(description), uneven().notes(description))
        self.assertEqual(self.refused(table().notes, "sec. 37.").number, 62)

    def test_readings(self):
        first, second = table().suggest("sec. 5: Lot 1; NE¼SE¼ SW¼SE¼") or [None, None]
        self.assertEqual([first.acres, second.acres], [Decimal("121.23"), Decimal("43.73")])
        lacking, = table().suggest("Lot 2, Sec 5")
        self.assertEqual((lacking.acres, lacking.normal, lacking.refused.number), (None, None, 94))
        found = table().suggest("that portion of sec. 14 lying north of the road")
        self.assertEqual(found.reason, "a portion needs a survey")


class Tracts(RefusalCase):
    TRACTS = [
        ("A", "sec. 5, lot 1."), ("B", "sec. 5, lots 1 and 2."), ("C", "sec. 14, NE1/4 and N1/2."), ("A", "sec. 14."),
        ("", "sec. 14."), ("E", Land.of(WHERE, "sec. 5, lot 1, S1/2NE1/4.")), ("F", Land.of(WHERE, "sec. 7, lot 1.")),
    ]
    ANSWERS = (
        TractAnswer("A", Decimal("41.23"), None, None),
        TractAnswer("B", None, Refusal(83, 3), Refusal(94, 502)),
        TractAnswer("C", None, Refusal(83, 4), Refusal(67, 19)),
        TractAnswer("A", None, Refusal(82, 5), None),
        TractAnswer("", None, Refusal(81, 6), None),
        TractAnswer("E", Decimal("121.23"), None, None),
        TractAnswer("F", None, Refusal(83, 8), Refusal(94, 701)),
    )

    def test_report_each(self):
        self.assertEqual(table().report_each(self.TRACTS), self.ANSWERS)
        self.assertEqual(table().report_each(iter(self.TRACTS)), self.ANSWERS)
        self.assertEqual(table().report_each([]), ())

    def test_refusals_are_those_of_a_plat_or_of_a_lot(self):
        on_plat, by_table = uneven().report_each(self.TRACTS), table().report_each(self.TRACTS)
        for one, other in zip(on_plat, by_table):
            if one.refusal is not None:
                self.assertEqual(one, other)

    def test_overlaps(self):
        # Lots 1 and 2 of section 5 are 41.23 acres, and not in the table.
        overlaps = table().overlaps([*self.TRACTS, ("G", "sec. 5, lot 2.")])
        self.assertEqual(overlaps, (
            LotsOverlap(0, 1, Decimal("41.23")),
            LotsOverlap(0, 5, Decimal("41.23")),
            LotsOverlap(1, 5, Decimal("41.23")),
            LotsOverlap(1, 7, None),
        ))
        pairs = [(each.first, each.second) for each in uneven().overlaps([*self.TRACTS, ("G", "sec. 5, lot 2.")])]
        self.assertEqual([(each.first, each.second) for each in overlaps], pairs)
        self.assertEqual(table().overlaps([]), ())

    def test_list_that_is_refused_as_a_whole(self):
        many = [(f"{k}", "sec. 14.") for k in range(1001)]
        for call in ("report_each", "overlaps"):
            for tracts, number in ((many, 85), ([("A", "x" * 1_048_577)], 80)):
                refused = self.refused(getattr(table(), call), tracts)
                self.assertEqual(refused, self.refused(getattr(uneven(), call), tracts))
                self.assertEqual(refused.number, number)

    def test_land_in_another_township(self):
        # Its text begins with the heading of the other township.
        answer, = table().report_each([("A", Land.of(OTHER, "sec. 14."))])
        self.assertEqual((answer.acres, answer.inner.number), (None, 61))
        self.assertEqual(table().overlaps([("A", Land.of(OTHER, "sec. 14.")), ("B", "sec. 14.")]), ())


class New(unittest.TestCase):
    #: The sections that have lots, in order, with the numbers of their lots.
    LOTS = [(1, 4), (2, 4), (3, 4), (4, 4), (5, 4), (6, 7), (7, 4), (18, 4), (19, 4), (30, 4), (31, 4)]

    def test_table(self):
        records = [f"{section},{lot},40.00\n" for section, count in self.LOTS for lot in range(1, count + 1)]
        self.assertEqual(Lots.new("T. 2 N., R. 3 W.").csv(), "section,lot,acres\nT,2,N,3,W\n" + "".join(records))
        self.assertEqual(Lots.new((20, "S", 9, "E")).csv()[18:27], "T,20,S,9,")
        with self.assertRaises(ValueError):
            Lots.new("sec. 14.")

    def test_each_lot_of_the_library_is_in_it(self):
        # The library refuses land with a lot that is not there (64), and one that a table lacks (94).
        empty = Lots.of_figures(WHERE, {})
        found = []
        for section in range(1, 37):
            for lot in range(1, 9):
                with self.assertRaises(township.Refused) as caught:
                    empty.acres(f"sec. {section}, lot {lot}.")
                self.assertIn(caught.exception.number, (64, 94))
                if caught.exception.number == 94:
                    found.append((section, lot))
        self.assertEqual(list(Lots.new(WHERE).figures), found)

    def test_figures_are_in_the_order_of_the_library(self):
        # Each lot alone in a table: the library puts its figure where the package finds it.
        for section, lot in Lots.new(WHERE).figures:
            made = Lots.read(f"section,lot,acres\nT,2,N,3,W\n{section},{lot},12.34\n")
            found = {key: figure for key, figure in made.figures.items() if figure is not None}
            self.assertEqual(found, {(section, lot): Decimal("12.34")})


if __name__ == "__main__":
    unittest.main()
