"""Reports of tracts."""
import ctypes
import pickle
import unittest
from decimal import Decimal

from township import Land, Lots, Overlap, Plats, Refusal, Refused, TractAnswer, _library
from township._written import text_by

from samples import TRACTS, even, uneven


def report_text(listed):
    """The text of the report that the library writes for a list."""
    answer, text = text_by(_library.report, ctypes.byref(uneven()._parts), listed, len(listed))
    return text if answer.verdict == _library.ACCEPTED else None


def printed(report):
    """The text of a report, from its figures."""
    lines = [f"tract {tract.name}: {tract.acres} acres" for tract in report.tracts]
    return "\n".join([*lines, f"total: {report.total} acres", f"remaining: {report.remaining} acres", ""])


class Reports(unittest.TestCase):
    def test_tracts(self):
        report = uneven().report([("A", "sec. 7, lot 1."), ("B", "sec. 7, lot 4.")])
        self.assertEqual([(t.name, t.acres) for t in report.tracts], [("A", Decimal("39.18")), ("B", Decimal("39.03"))])
        # 39.175 and 39.025 acres.
        self.assertEqual(report.total, Decimal("78.20"))
        self.assertEqual(report.remaining, Decimal("22959.37"))

    def test_the_same_of_a_list(self):
        self.assertEqual(uneven().report_csv(TRACTS), uneven().report([("A", "sec. 7, lot 1."), ("B", "sec. 7, lot 4.")]))
        self.assertEqual(uneven().report_csv(TRACTS.decode()), uneven().report_csv(TRACTS))

    def test_the_same_as_the_text(self):
        odd = 'name,description\n"the ""old"" place: 1.00 acres",sec. 14\ntotal,sec. 15\n" ",sec. 7\n'
        for listed in (TRACTS, b"name,description\n", odd.encode()):
            self.assertEqual(printed(uneven().report_csv(listed)), report_text(listed))

    def test_any_iterable_of_text_or_bytes(self):
        report = uneven().report({"A": b"sec. 7, lot 1.", b"B": "sec. 14, N½."}.items())
        self.assertEqual([tract.acres for tract in report.tracts], [Decimal("39.18"), Decimal("320.00")])

    def test_land(self):
        plat = uneven()
        described = [("A", "sec. 7, lot 1."), ("B", "sec. 7, lot 4; sec. 14, N1/2."), ("C", "sec. 15.")]
        lands = [(name, plat.land(description)) for name, description in described]
        self.assertEqual(plat.report(lands), plat.report(described))
        self.assertEqual(plat.report([lands[0], *described[1:]]), plat.report(described))
        again = [*lands, ("D", plat.land("sec. 14, NE1/4."))]
        self.assertEqual(plat.report_each(again)[3].acres, plat.acres("sec. 14, NE1/4."))
        self.assertEqual([(it.first, it.second) for it in plat.overlaps(again)], [(1, 3)])
        for land, number in ((Land.empty("T. 2 N., R. 3 W."), 44), (Land.of("T. 3 N., R. 3 W.", "sec. 14."), 61)):
            with self.subTest(land=land), self.assertRaises(Refused) as refused:
                plat.report([("A", land)])
            self.assertEqual((refused.exception.number, refused.exception.inner.number), (83, number))

    def test_land_that_is_too_long_for_a_list(self):
        # A checkerboard in each section without lots.
        rows = {section: [0x55555555, 0xAAAAAAAA] * 16 for section in (*range(8, 18), *range(20, 30))}
        land = Land.of_rows(uneven().township, rows)
        self.assertGreater(len(land.text), 65_536)
        lots = Lots.new(uneven().township)
        for call in (uneven().report, uneven().report_each, uneven().overlaps, lots.report, lots.report_each, lots.overlaps):
            with self.assertRaisesRegex(ValueError, "longer than 65,536 bytes, the limit of a description"):
                call([("A", land), ("B", "sec. 36.")])
        overlaps = Plats([uneven()]).overlaps([("A", land), ("B", land), ("C", "T2N R3W sec. 8, NE1/4")])
        self.assertEqual([(each.first, each.second) for each in overlaps], [(0, 1), (0, 2), (1, 2)])
        self.assertEqual(overlaps[0].acres, uneven().acres(land))

    def test_no_tracts(self):
        report = uneven().report([])
        self.assertEqual((report.tracts, report.total, report.remaining), ((), 0, uneven().total))

    def test_names_of_any_printable_characters(self):
        names = ["Jones, heirs of", 'the "old" place', "a: 1.00 acres", "total", " ", "remaining: 0.00 acres", "~" * 64]
        report = even().report((name, f"sec. {14 + k}.") for k, name in enumerate(names))
        self.assertEqual([tract.name for tract in report.tracts], names)
        self.assertEqual(report.total, 640 * len(names))

    def test_description_of_several_lines(self):
        self.assertEqual(uneven().report([("A", "sec. 14;\r\nsec. 15.\n")]).total, 1280)

    def test_most_tracts_with_the_longest_names(self):
        quarters = ["NE1/4", "NW1/4", "SE1/4", "SW1/4"]
        parts = [f"{a}{b}{c}" for a in quarters for b in quarters for c in quarters]
        lands = [f"sec. {section}, {part}." for section in range(8, 18) for part in parts]
        report = uneven().report((f"{k:064}", land) for k, land in enumerate(lands))
        self.assertEqual(len(report.tracts), 640)
        self.assertEqual(report.tracts[639], (f"{639:064}", 10))

    def test_pickled(self):
        report = uneven().report_csv(TRACTS)
        self.assertEqual(pickle.loads(pickle.dumps(report)), report)


class Answers(unittest.TestCase):
    # Each fault that a tract can have by itself; lot 5 of section 7 does not exist, and the part in two pieces
    # of D is named twice.
    MIXED = (
        "name,description\n"
        'A,"sec. 7, lot 1."\n'
        'B,"sec. 7, lot 5."\n'
        "C\n"
        "A,sec. 14\n"
        "C,sec. 14,more\n"
        "C,sec. 15\n"
        'D,"sec. 14, NE1/4 and N1/2."\n'
        '"E, ""the"" one",sec. 14\n'
        'F,"sec. 14, NE1/4"\n'
    )
    ANSWERS = (
        TractAnswer("A", Decimal("39.18"), None, None),
        TractAnswer("B", None, Refusal(83, 3), Refusal(64, 12)),
        TractAnswer("", None, Refusal(81, 4), None),
        TractAnswer("A", None, Refusal(82, 5), None),
        TractAnswer("", None, Refusal(81, 6), None),
        TractAnswer("C", None, Refusal(82, 7), None),
        TractAnswer("D", None, Refusal(83, 8), Refusal(67, 19)),
        TractAnswer('E, "the" one', Decimal("640.00"), None, None),
        TractAnswer("F", Decimal("160.00"), None, None),
    )

    def test_each_fault(self):
        self.assertEqual(uneven().report_each_csv(self.MIXED), self.ANSWERS)

    def test_tracts(self):
        answers = uneven().report_each([("A", "sec. 7, lot 1."), ("", "sec. 14.")])
        self.assertEqual(answers, (self.ANSWERS[0], TractAnswer("", None, Refusal(81, 3), None)))
        self.assertEqual(uneven().report_each([]), ())

    def test_an_accepted_list_has_the_figures_of_its_report(self):
        report = uneven().report_csv(TRACTS)
        answers = uneven().report_each_csv(TRACTS)
        self.assertEqual([(answer.name, answer.acres) for answer in answers], list(report.tracts))

    def test_lists_that_are_refused_as_a_whole(self):
        many = "name,description\n" + "A,sec. 14\n" * 1001
        large = "name,description\n" + " " * 1048576
        for listed, refusal in (("", (81, 1)), ("name\n", (81, 1)), (many, (85, 1002)), (large, (80, 1048576))):
            with self.subTest(refusal=refusal), self.assertRaises(Refused) as caught:
                uneven().report_each_csv(listed)
            self.assertEqual((caught.exception.number, caught.exception.at), refusal)

    def test_pickled(self):
        self.assertEqual(pickle.loads(pickle.dumps(self.ANSWERS)), self.ANSWERS)


class Overlaps(unittest.TestCase):
    def test_whatever_else_is_wrong(self):
        # The tracts with indexes 3, 7, and 8 have land of section 14; 8 has its northeast quarter.
        wanted = (Overlap(3, 7, 640), Overlap(3, 8, 160), Overlap(7, 8, 160))
        self.assertEqual(uneven().overlaps_csv(Answers.MIXED), wanted)

    def test_none(self):
        self.assertEqual(uneven().overlaps_csv(TRACTS), ())
        self.assertEqual(uneven().overlaps([]), ())

    def test_more_than_a_first_call_has_room_for(self):
        # 20 tracts of the same land make 20 * 19 / 2 pairs.
        overlaps = even().overlaps((str(k), "sec. 36.") for k in range(20))
        self.assertEqual(len(overlaps), 190)
        self.assertEqual(overlaps[0], Overlap(0, 1, 640))
        self.assertEqual(overlaps[-1], Overlap(18, 19, 640))
        self.assertEqual(list(overlaps), sorted(overlaps, key=lambda overlap: (overlap.second, overlap.first)))

    def test_lists_that_are_refused_as_a_whole(self):
        with self.assertRaises(Refused) as caught:
            uneven().overlaps_csv("name\n")
        self.assertEqual((caught.exception.number, caught.exception.at), (81, 1))
        self.assertIn("name,description", caught.exception.explanation)
