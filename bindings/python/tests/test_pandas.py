"""Descriptions in the columns of pandas data frames."""
import unittest
from importlib.util import find_spec

import township
from samples import even, uneven
from township import Land, Lots

ACCEPTED = "sec. 5, lots 1 and 2, S1/2NE1/4."
REFUSED = "sec. 14, NE1/4 and N1/2."
WHERE = "T. 2 N., R. 3 W."

#: 41.23 acres for lot 1 of section 5.
TABLE = "section,lot,acres\nT,2,N,3,W\n5,1,41.23\n"


@unittest.skipUnless(find_spec("pandas"), "pandas isn't installed")
class Columns(unittest.TestCase):
    def setUp(self):
        import pandas
        import township.pandas

        self.pandas = pandas
        self.column = pandas.Series([ACCEPTED, REFUSED, None, "sec. 5, lot 1."], index=[7, 8, 9, 7])

    def test_acres(self):
        acres = self.column.township.acres(uneven())
        self.assertEqual((str(acres.dtype), acres.name, list(acres.index)), ("float64", "acres", [7, 8, 9, 7]))
        self.assertEqual(acres.fillna(-1).tolist(), [161.0, -1, -1, 40.45])
        self.assertEqual(acres.sum(), 201.45)

    def test_acres_by_the_plat(self):
        column = self.pandas.Series(["sec. 7, lots 1 to 4."])
        self.assertEqual(column.township.acres(uneven(), account="plat").tolist(), [156.42])
        with self.assertRaises(ValueError):
            column.township.acres(uneven(), account="printed")

    def test_answers(self):
        answers = self.column.township.answers(uneven())
        self.assertEqual([str(dtype) for dtype in answers.dtypes], ["float64", "Int64", "Int64", "string"])
        self.assertEqual(list(answers.columns), ["acres", "refusal", "at", "sentence"])
        self.assertEqual(list(answers.index), [7, 8, 9, 7])
        self.assertEqual(answers.iloc[1, 1:].tolist(), [67, 19, "this land was named before"])
        self.assertEqual(answers.iloc[0, 1:].isna().tolist(), [True] * 3)

    def test_missing_values_stay_missing(self):
        nan, missing = float("nan"), self.pandas.NA
        for column in (self.pandas.Series([None, nan, missing]), self.pandas.Series([nan, nan]),
                       self.pandas.Series([None, missing], dtype="string")):
            self.assertTrue(column.township.answers(uneven()).isna().all(axis=None))
            self.assertTrue(column.township.acres(uneven()).isna().all())
            self.assertTrue(column.township.normal(uneven()).isna().all())

    def test_normal(self):
        normal = self.column.township.normal(uneven())
        self.assertEqual(str(normal.dtype), "string")
        self.assertEqual(normal.iloc[3], "T. 2 N., R. 3 W.,\nsec. 5, lot 1.\n")
        self.assertEqual(normal.isna().tolist(), [False, True, True, False])

    def test_a_plat_for_each_row(self):
        column = self.pandas.Series(["sec. 5, lot 1."] * 3, index=["a", "b", "c"])
        plats = self.pandas.Series([uneven(), even(), None], index=["a", "b", "c"])
        self.assertEqual(column.township.acres(plats).fillna(-1).tolist(), [40.45, 40.0, -1])
        with self.assertRaisesRegex(ValueError, "same index"):
            column.township.acres(plats.iloc[::-1])

    def test_what_is_no_plat(self):
        names = self.pandas.Series(["samples/b1.csv"] * 4, index=self.column.index)
        for plat in ("samples/b1.csv", [uneven()], None, names):
            with self.subTest(plat=plat), self.assertRaises(TypeError):
                self.column.township.acres(plat)

    def test_plat_that_is_missing(self):
        column = self.pandas.Series(["sec. 14.", "sec. 37.", None, "sec. 14."], index=[4, 5, 6, 7])
        plats = self.pandas.Series([None, float("nan"), None, uneven()], index=column.index)
        answers = column.township.answers(plats)
        said = "there is no plat and no lot table for this row"
        self.assertEqual(answers["sentence"].fillna("-").tolist(), [said, said, "-", "-"])
        self.assertEqual(answers["acres"].fillna(-1).tolist(), [-1, -1, -1, 640])
        self.assertEqual([str(dtype) for dtype in answers.dtypes], ["float64", "Int64", "Int64", "string"])
        self.assertTrue(answers[["refusal", "at"]].isna().all(axis=None))

    def test_what_is_no_text(self):
        for value in (14, ["sec. 14."], b"sec. 14."):
            column = self.pandas.Series([value])
            with self.subTest(value=value):
                if isinstance(value, bytes):
                    self.assertEqual(column.township.acres(uneven()).tolist(), [640.0])
                else:
                    with self.assertRaises(TypeError):
                        column.township.acres(uneven())

    def test_other_types_of_columns(self):
        for dtype in ("string", "category"):
            acres = self.column.astype(dtype).township.acres(uneven())
            self.assertEqual(acres.fillna(-1).tolist(), [161.0, -1, -1, 40.45])

    def test_shared_by_threads(self):
        column = self.pandas.concat([self.column] * 1000)
        for by in (uneven(), Lots.read(TABLE)):
            one, two = column.township.answers(by), column.township.answers(by, threads=2)
            self.assertTrue(one.equals(two))
            self.assertTrue(column.township.acres(by, threads=3).equals(one["acres"]))
            self.assertTrue(column.township.normal(by, threads=4).equals(column.township.normal(by)))
        for call in (self.column.township.acres, self.column.township.answers, self.column.township.normal):
            with self.assertRaises(ValueError):
                call(uneven(), threads=0)
        with self.assertRaises(ValueError):
            self.column.iloc[:0].township.acres(uneven(), threads=0)

    def test_by_a_lot_table(self):
        lots = Lots.read(TABLE)
        self.assertEqual(self.column.township.acres(lots).fillna(-1).tolist(), [-1, -1, -1, 41.23])
        answers = self.column.township.answers(lots, account="plat")
        self.assertEqual(answers["refusal"].fillna(0).tolist(), [94, 67, 0, 0])
        self.assertEqual(answers["at"].fillna(0).tolist(), [502, 19, 0, 0])
        self.assertEqual(answers["sentence"].iloc[0], "the lot table has no record for lot 2 of section 5")
        normal = self.column.township.normal(lots)
        self.assertEqual(normal.isna().tolist(), [False, True, True, False])

    def test_plats_and_lot_tables(self):
        column = self.pandas.Series(["sec. 5, lot 1."] * 4)
        by = self.pandas.Series([Lots.read(TABLE), uneven(), even(), Lots.read(TABLE)])
        self.assertEqual(column.township.acres(by).tolist(), [41.23, 40.45, 40.0, 41.23])

    def test_lands(self):
        for by in (uneven(), Lots.read(TABLE)):
            lands = self.column.township.lands(by)
            self.assertEqual((lands.name, str(lands.dtype), list(lands.index)), ("land", "object", [7, 8, 9, 7]))
            self.assertEqual(lands.tolist(), [Land.of(WHERE, ACCEPTED), None, None, Land.of(WHERE, "sec. 5, lot 1.")])

    def test_column_of_lands(self):
        lands = self.column.township.lands(uneven())
        lands = self.pandas.concat([lands, self.pandas.Series([Land.empty(WHERE)])])
        texts = self.pandas.Series([*self.column, None], index=lands.index)
        self.assertEqual(lands.township.acres(uneven()).fillna(-1).tolist(), [161.0, -1, -1, 40.45, 0.0])
        self.assertEqual(lands.township.lands(uneven()).tolist(), lands.tolist())
        normal, wanted = lands.township.normal(uneven()), texts.township.normal(uneven())
        self.assertEqual(normal.fillna("-").tolist(), [*wanted.iloc[:4].fillna("-"), ""])
        answers = lands.township.answers(Lots.read(TABLE))
        self.assertEqual(answers["refusal"].fillna(0).tolist(), [94, 0, 0, 0, 0])
        self.assertEqual(answers["acres"].fillna(-1).tolist(), [-1, -1, -1, 41.23, 0.0])
        lots = self.pandas.Series([Land.of(WHERE, "sec. 7, lots 1 to 4.")])
        self.assertEqual(lots.township.acres(uneven(), account="plat").tolist(), [156.42])

    def test_land_in_another_township(self):
        lands = self.pandas.Series([Land.of("T. 3 N., R. 3 W.", "sec. 14.")])
        for by in (uneven(), Lots.read(TABLE)):
            with self.assertRaisesRegex(ValueError, "two different townships"):
                lands.township.acres(by)

    def test_overlaps(self):
        leases = ["sec. 14.", "sec. 15.", REFUSED, None, "sec. 14, NE1/4; sec. 15, N1/2.", "sec. 5, lots 1 and 2."]
        leases.append("sec. 5.")
        column = self.pandas.Series(leases, index=list("abcdefg"))
        found = column.township.overlaps(uneven())
        self.assertEqual(list(found.columns), ["first", "second", "acres", "canonical"])
        self.assertEqual(found.values.tolist(), [
            ["a", "e", 160.0, f"{WHERE},\nsec. 14, NE1/4.\n"],
            ["b", "e", 320.0, f"{WHERE},\nsec. 15, N1/2.\n"],
            ["f", "g", 81.0, f"{WHERE},\nsec. 5, lots 1, 2.\n"],
        ])
        # They are those of the library.
        tracts = [(str(row), lease or "") for row, lease in enumerate(leases)]
        rows = [(column.index.get_loc(first), column.index.get_loc(second)) for first, second in
                zip(found["first"], found["second"])]
        self.assertEqual(rows, [(one.first, one.second) for one in uneven().overlaps(tracts)])
        lands = column.township.lands(uneven())
        self.assertTrue(lands.township.overlaps(uneven()).equals(found))
        # The table lacks lot 2.
        by_table = column.township.overlaps(Lots.read(TABLE))
        self.assertEqual(by_table["acres"].fillna(-1).tolist(), [160.0, 320.0, -1])

    def test_overlaps_of_several_in_one_section(self):
        # The second one is in the same section, and apart.
        column = self.pandas.Series(["sec. 14, N1/2.", "sec. 14, S1/2.", "sec. 14, E1/2.", "sec. 14, NE1/4."])
        found = column.township.overlaps(uneven())
        self.assertEqual(found[["first", "second", "acres"]].values.tolist(),
                         [[0, 2, 160.0], [1, 2, 160.0], [0, 3, 160.0], [2, 3, 160.0]])

    def test_overlaps_in_several_townships(self):
        column = self.pandas.Series(["sec. 14."] * 6)
        plats = self.pandas.Series([uneven(), even(), even(), None, uneven(), even()])
        found = column.township.overlaps(plats)
        self.assertEqual(found[["first", "second"]].values.tolist(), [[1, 2], [0, 4], [1, 5], [2, 5]])
        found = self.pandas.Series(["sec. 14.", "sec. 15."]).township.overlaps(uneven())
        self.assertEqual([str(dtype) for dtype in found.dtypes], ["int64", "int64", "float64", "string"])
        self.assertEqual(len(found), 0)

    def test_empty_column(self):
        answers = self.pandas.Series([], dtype=object).township.answers(uneven())
        self.assertEqual([str(dtype) for dtype in answers.dtypes], ["float64", "Int64", "Int64", "string"])
        self.assertEqual(len(answers), 0)

    def test_refusals_are_those_of_acres(self):
        with self.assertRaises(township.Refused) as caught:
            uneven().acres(REFUSED)
        refused = caught.exception
        row = self.column.township.answers(uneven()).iloc[1]
        self.assertEqual((row["refusal"], row["at"], row["sentence"]), (refused.number, refused.at, refused.sentence))


if __name__ == "__main__":
    unittest.main()
