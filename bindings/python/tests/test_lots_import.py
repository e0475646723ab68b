"""`python3 -m township lots import`: lot tables from an attribute table of CadNSDI."""
import random
import sys
import unittest
from fractions import Fraction

from batches import BatchCase, records
from samples import TOP
from township import Lots
from township._cadnsdi.dividing import divided
from township._cadnsdi.quarters import QUARTER_QUARTERS, quarter_quarter_of

sys.path.insert(0, str(TOP / "tests" / "lots"))
from descriptions import Refused, items_of  # noqa: E402
from meaning import area_of, land_of, rounded  # noqa: E402
from places import size  # noqa: E402
from tables import table_of  # noqa: E402

SAMPLE = TOP / "samples" / "intersected.csv"

HEADING = "PLSSID,FRSTDIVNO,QSEC,QQSEC,GOVLOT,RECRDAREANO,SECDIVNO,SECDIVTYP,SECDIVSUF\n"

#: The identifier of T. 2 N., R. 3 W. on the Boise Meridian.
ID = "ID080020N0030W0"


def row(lot, quarter_quarter, acres, section=14, plss_id=ID, kind="L", suffix=""):
    """A row of a lot, or of an aliquot part."""
    number = lot if kind == "L" else quarter_quarter
    return f"{plss_id},{section},{quarter_quarter[2:]},{quarter_quarter},{lot},{acres},{number},{kind},{suffix}\n"


class ImportCase(BatchCase):
    """A test of the command on rows in the folder."""

    def imported(self, rows, *words, heading=HEADING, input=b""):
        """The status, the report without its heading, and the tables by their names, of some rows."""
        file = "-" if rows is None else self.put(heading + "".join(rows), "attributes.csv")
        run = self.run_words("lots", "import", file, "--out", self.folder / "plats", *words, input=input)
        self.run = run
        plats = self.folder / "plats"
        files = (path for path in plats.rglob("*") if path.is_file())
        tables = {str(path.relative_to(plats)): path.read_text() for path in files}
        return run.returncode, records(run.stdout)[1:], tables

    def reasons(self, *rows, heading=HEADING):
        """The lines of rows that are not used, and why. No table of theirs is complete."""
        status, report, tables = self.imported(rows, heading=heading)
        self.assertEqual(status, 1)
        self.assertTrue(report)
        self.assertNotIn("2N-3W.csv", tables)
        return {int(line): reason for line, *_, reason in report}


class Sample(ImportCase):
    def test_sample(self):
        data = SAMPLE.read_text().splitlines(True)
        status, report, tables = self.imported(data[1:], "--no-land", "SURVTYP=W", heading=data[0])
        self.assertEqual(status, 1)
        self.assertEqual([int(each[0]) for each in report], [36, 37, 31, 32, 33, 34])
        self.assertEqual(set(tables), {"2N-3W.csv", "3N-3W.csv.incomplete"})
        self.assertEqual(tables["3N-3W.csv.incomplete"].count("\n"), 2 + 3)
        self.assertIn(b"36 rows, of which 6 could not be used; 2 lot tables in ", self.run.stderr)
        self.assertIn(b"plats, 1 of them incomplete\n", self.run.stderr)

    def test_meaning_of_its_table(self):
        data = SAMPLE.read_text().splitlines(True)
        _, _, tables = self.imported(data[1:], "--no-land", "SURVTYP=W", heading=data[0])
        table = table_of(tables["2N-3W.csv"].encode())
        # The lots have 38.50 + 12.25 + 19.80 + 71.10 acres and four quarter-quarters, the lake has one, and the other
        # 11 have 40 acres.
        self.assertEqual(answer(table, "sec. 14."), 14165 + 44000)
        self.assertEqual(answer(table, "sec. 14, lots 2 and 4, SW1/4NW1/4."), 1225 + 7110 + 4000)
        self.assertEqual(answer(table, "sec. 14, NW1/4NW1/4."), (68, 9))


def answer(table, description):
    """The acres of a description in hundredths, or its refusal."""
    try:
        return rounded(area_of(table, land_of(table, items_of(description.encode()))))
    except Refused as refused:
        return refused.number, refused.at


class Rows(ImportCase):
    def test_order_and_repeated_rows(self):
        rows = [row(1, "SENE", ""), row(10, "NENE", 40, 6), "\n", row(2, "SENE", "40.01", 6),
                row(" 1 ", "NENE", "40.10"), row(2, "NENE", "40.01", 6), row(1, "NENE", "40.1")]
        status, report, tables = self.imported(rows)
        self.assertEqual((status, report, self.run.stderr.count(b"\n")), (0, [], 1))
        self.assertIn(b"township: 6 rows, ", self.run.stderr)
        self.assertEqual(tables, {"2N-3W.csv": (
            "section,lot,acres,land\nT,2,N,3,W\n"
            '6,2,40.01,"N1/2NE1/4NE1/4, SE1/4NE1/4"\n'
            "6,10,40.00,S1/2NE1/4NE1/4\n"
            '14,1,40.10,"NE1/4NE1/4, SE1/4NE1/4"\n')})

    def test_standard_lots(self):
        rows = [row(n, quarter, "40.45", 5) for n, quarter in enumerate(("NENE", "NWNE", "NENW", "NWNW"), 1)]
        _, _, tables = self.imported(rows)
        self.assertIn("\n5,4,40.45,NW1/4NW1/4\n", tables["2N-3W.csv"])

    def test_faults(self):
        good = row(1, "NENE", "38.50")
        for bad, reason in (
            (row(2, "NWNE", ""), "the lot has no acreage"),
            (row(2, "NWNE", "0"), "the lot has no acreage"),
            (row(2, "NWNE", "<Null>"), "the lot has no acreage"),
            (row(2, "NWNE", "4O.00"), "`4O.00` is not an acreage"),
            (row(2, "NWNE", "NaN"), "`NaN` is not 0.01 to 999.99 acres"),
            (row(2, "NWNE", "-1"), "`-1` is not 0.01 to 999.99 acres"),
            (row(2, "NWNE", "1000"), "`1000` is not 0.01 to 999.99 acres"),
            (row(2, "NWNE", "0.0000001"), "`0.0000001` is not 0.01 to 999.99 acres"),
            (row(2, "NWNE", "999.9999999"), "`999.9999999` is not 0.01 to 999.99 acres"),
            (row(2, "NWNE", "38.505"), "`38.505` has more than two decimal places"),
            (row(2, "", "38.50"), "the quarter-quarter is missing"),
            (row(2, "NWNN", "38.50"), "`NN` is not a quarter-quarter section, such as NENW"),
            (row(2, "NENWNE", "38.50"), "`NENWNE` is not a quarter-quarter section, such as NENW"),
            (row("", "NWNE", "38.50"), "the number of the lot is missing"),
            (row("2A", "NWNE", "38.50"), "`2A` is not the number of a lot, 1 to 99"),
            (row(100, "NWNE", "38.50"), "`100` is not the number of a lot, 1 to 99"),
            (row(2, "NWNE", "38.50", suffix="B"), "the lot has the suffix `B`: in a lot table, lots have only numbers"),
            (row(2, "NWNE", "38.50", 37), "`37` is not the number of a section, 1 to 36"),
            (row(2, "NWNE", "38.50", ""), "`` is not the number of a section, 1 to 36"),
            (row(2, "NWNE", "38.50").replace(",2,L,", ",3,L,"), "the row names two lots, 2 and 3"),
            (row(2, "NWNE", "38.50").replace(",NE,", ",SW,"), "`NWNE` is not in the quarter section `SW`"),
            (row(2, "NWNE", "38.50").replace(",NE,", ",NENW,"), "`NENW` is not one quarter section"),
            (row(2, "NW", "38.50"), "`NW` is only one quarter, and the quarter section is missing"),
            (row(2, "NWNE", "38.50").strip() + ",more\n", "the row has more fields than the heading"),
        ):
            with self.subTest(bad=bad):
                self.assertEqual(self.reasons(good, bad), {3: reason})
                self.assertEqual((self.folder / "plats" / "2N-3W.csv.incomplete").read_text(),
                                 "section,lot,acres,land\nT,2,N,3,W\n14,1,38.50,NE1/4NE1/4\n")

    def test_rows_without_a_township(self):
        for plss_id, reason in (
            ("", "the identifier of the township is missing"),
            ("ID080020N0030", "`ID080020N0030` is not the identifier of a township, such as ID080020N0030W0"),
            ("ID080021N0030W0", "the township has a fraction in its number or range: a lot table cannot name it"),
            ("ID080020N0032W0", "the township has a fraction in its number or range: a lot table cannot name it"),
            ("ID080020N0030WA", "the township is a duplicate: a lot table cannot say which of several it is"),
            ("ID081000N0030W0", "the numbers of a township and of its range are 1 to 99"),
            ("ID080000N0030W0", "the numbers of a township and of its range are 1 to 99"),
        ):
            with self.subTest(plss_id=plss_id):
                status, report, tables = self.imported([row(1, "NENE", "38.50", plss_id=plss_id)])
                self.assertEqual((status, [each[-1] for each in report], tables), (1, [reason], {}))

    def test_contradictions(self):
        different = "the rows of this lot have different acreages: 38.50 and 38.55"
        self.assertEqual(self.reasons(row(1, "NENE", "38.50"), row(1, "NENE", "38.55")), {2: different, 3: different})
        other = "another row of this lot cannot be used"
        self.assertEqual(self.reasons(row(1, "NENE", "38.50"), row(1, "", "38.50")),
                         {2: other, 3: "the quarter-quarter is missing"})
        aliquot = "an aliquot part is in the same quarter-quarter (line 4)"
        rows = row(1, "NENE", "38.50"), row(1, "NWNE", "38.50"), row("", "NWNE", "40", kind="A")
        self.assertEqual(self.reasons(*rows), {2: other, 3: aliquot})

    def test_too_many_lots(self):
        rows = [row(n, QUARTER_QUARTERS[n // 8], "5.00") for n in range(1, 66)]
        self.assertEqual(set(self.reasons(*rows).values()), {"the section has more than 64 lots"})
        status, report, tables = self.imported(rows[:-1], "--replace")
        self.assertEqual((status, report, tables["2N-3W.csv"].count("\n")), (0, [], 66))

    def test_land_that_is_not_there(self):
        heading = HEADING.strip() + ",SURVTYP\n"
        rows = [each.strip() + "," + mark + "\n" for each, mark in (
            (row(1, "NENE", "38.50"), ""), (row("", "NENE", "", kind=""), "W"), (row("", "NWNW", "", kind=""), "W"),
            (row("", "SESE", "", 20, kind=""), "W"), (row("", "SWSE", "", 20, kind=""), "W"))]
        status, report, tables = self.imported(rows, "--no-land", "SURVTYP=W", heading=heading)
        self.assertEqual((status, report), (0, []))
        self.assertEqual(tables["2N-3W.csv"].splitlines()[2:], [
            "14,1,38.50,NE1/4NE1/4", "14,,,NW1/4NW1/4", '20,,,"SW1/4SE1/4, SE1/4SE1/4"'])
        rows.append(row("", "SESE", "40", 20, kind="A").strip() + ",\n")
        status, report, _ = self.imported(rows, "--no-land", "SURVTYP=W", heading=heading)
        self.assertEqual((status, [each[0] for each in report]), (1, ["5"]))
        self.assertEqual(report[0][-1], "an aliquot part is in the same quarter-quarter (line 7)")
        # A row of which the place is not known leaves the table incomplete.
        rows = [rows[0], row("", "", "", kind="").strip() + ",W\n"]
        status, report, tables = self.imported(rows, "--replace", "--no-land", "SURVTYP=W", heading=heading)
        self.assertEqual((status, [each[-1] for each in report]), (1, ["the quarter-quarter is missing"]))
        self.assertIn("2N-3W.csv.incomplete", tables)

    def test_rows_of_other_land(self):
        rows = [row("", "NENE", "40", kind="A"), row("", "", "640", kind="A"), row("", "NWNW", "3.2", kind="M"),
                row("", "NWNW", "3.2", kind="A", plss_id="?"), row(3, "NWNW", "39.00")]
        status, report, tables = self.imported(rows)
        self.assertEqual((status, report, tables["2N-3W.csv"].splitlines()[2:]), (0, [], ["14,3,39.00,NW1/4NW1/4"]))
        # Without lots, there is no table.
        (self.folder / "plats" / "2N-3W.csv").unlink()
        self.assertEqual(self.imported(rows[:-1]), (1, [], {}))
        self.assertIn(b"0 lot tables", self.run.stderr)


class Columns(ImportCase):
    def test_other_names(self):
        heading = "TWP,SEC,QQ,LOT,ACRES\n"
        names = ("--plss-id", "TWP", "--section", "SEC", "--quarter-quarter", "QQ", "--lot", "LOT", "--acres", "5")
        status, report, tables = self.imported([f"{ID},14,NE4NW4,1,38.5\n", f"{ID},14,SWNW,,40\n"], *names,
                                               heading=heading)
        self.assertEqual((status, report, tables["2N-3W.csv"].splitlines()[2:]), (0, [], ["14,1,38.50,NE1/4NW1/4"]))

    def test_aliquot_parts_without_types(self):
        heading = "PLSSID,FRSTDIVNO,QQSEC,GOVLOT,RECRDAREANO\n"
        self.assertEqual(self.reasons(f"{ID},14,NENE,1,38.5\n", f"{ID},14,NENE,,40\n", heading=heading),
                         {2: "an aliquot part is in the same quarter-quarter (line 3)"})

    def test_identifier_of_the_section(self):
        heading = "FRSTDIVID,QQSEC,SECDIVNO,SECDIVTYP,RECRDAREANO\n"
        rows = [f"{ID}SN140,NENE,1,L,38.5\n", f"{ID}SN140,SENE,SENE,A,40\n"]
        status, report, tables = self.imported(rows, heading=heading)
        self.assertEqual((status, report, tables["2N-3W.csv"].splitlines()[2:]), (0, [], ["14,1,38.50,NE1/4NE1/4"]))
        for division_id, reason in (
            ("TR140", "the first division is not a section: its type is `TR`"),
            ("SN14A", "the section is a duplicate: a lot table cannot say which of several it is"),
            ("SN1", "`` is not the number of a section, 1 to 36"),
        ):
            with self.subTest(division_id=division_id):
                (self.folder / "plats" / "2N-3W.csv").unlink(missing_ok=True)
                rows = [f"{ID}{division_id},NENE,2,L,38.5\n"]
                self.assertEqual(self.reasons(*rows, heading=heading), {2: reason})

    def test_identifiers_that_contradict(self):
        heading = "PLSSID,FRSTDIVID,FRSTDIVNO,QQSEC,GOVLOT,RECRDAREANO,SECDIVTYP\n"
        for division_id, section in ((f"{ID}SN150", 14), ("ID080020N0040W0SN140", 14)):
            self.assertEqual(self.reasons(f"{ID},{division_id},{section},NENE,1,38.5,L\n", heading=heading),
                             {2: f"`{division_id}` is the identifier of another section"})

    def test_quarters(self):
        for quarter, quarter_quarter in (("NW", "NE"), ("", "NENW"), ("NW", "NENW"), ("NW¼", "NE¼"), ("", "NE/4NW/4"),
                                         ("", "ne nw"), ("", "NE1/4 of the NW1/4"), ("NW1/4", "NE 1/4, NW 1/4")):
            self.assertEqual(quarter_quarter_of(quarter, quarter_quarter), "NENW")
        self.assertEqual(len(set(QUARTER_QUARTERS)), 16)

    def test_missing_columns(self):
        for left_out, option in (("PLSSID", "--plss-id"), ("FRSTDIVNO", "--section"), ("QQSEC", "--quarter-quarter"),
                                 ("RECRDAREANO", "--acres")):
            with self.subTest(left_out=left_out):
                status, report, tables = self.imported([], heading=HEADING.replace(left_out, "X"))
                self.assertEqual((status, tables), (3, {}))
                self.assertRegex(self.run.stderr.decode(), f"attributes.csv:1: .*`{left_out}`.*{option}")
        status, _, _ = self.imported([], heading=HEADING.replace("GOVLOT", "X").replace("SECDIVTYP", "Y"))
        self.assertEqual(status, 3)
        self.assertIn("`SECDIVTYP`", self.run.stderr.decode())
        status, _, _ = self.imported([], "--note", "REMARK")
        self.assertEqual(status, 3)
        self.assertIn("--note", self.run.stderr.decode())
        status, _, _ = self.imported([], "--no-land", "SURVTYP=W")
        self.assertEqual(status, 3)
        self.assertIn("--no-land", self.run.stderr.decode())


class Files(ImportCase):
    def test_meridians(self):
        rows = [row(1, "NENE", "38.50"), row(1, "NENE", "39.50", plss_id="OR330020N0030W0")]
        status, report, tables = self.imported(rows)
        self.assertEqual((status, report, set(tables)), (0, [], {"Boise/2N-3W.csv", "Willamette/2N-3W.csv"}))
        self.assertIn("39.50", tables["Willamette/2N-3W.csv"])

    def test_a_township_in_two_states(self):
        rows = [row(1, "NENE", "38.50"), row(2, "NENE", "39.50", plss_id="OR080020N0030W0")]
        reason = "ID080020N0030W0 and OR080020N0030W0 are the same township, T. 2 N., R. 3 W."
        self.assertEqual(self.reasons(*rows), {2: reason, 3: reason})

    def test_tables_that_exist(self):
        rows = [row(1, "NENE", "38.50")]
        table = self.imported(rows)[2]["2N-3W.csv"]
        self.assertEqual(self.imported(rows)[0], 0)
        (self.folder / "plats" / "2N-3W.csv").write_text("corrected by hand\n")
        status, _, tables = self.imported(rows)
        self.assertEqual((status, tables), (3, {"2N-3W.csv": "corrected by hand\n"}))
        self.assertIn(b"--replace replaces it", self.run.stderr)
        self.assertEqual(self.imported(rows, "--replace")[::2], (0, {"2N-3W.csv": table}))

    def test_tables_that_are_refused(self):
        """More quarter-quarters with two lots than a table can divide: 16 in each of 9 sections, and not 128."""
        rows = [row(2 * place + side, quarter, "20.00", section) for section in range(1, 10)
                for place, quarter in enumerate(QUARTER_QUARTERS, 1) for side in (0, 1)]
        status, report, tables = self.imported(rows)
        self.assertEqual((status, report, list(tables)), (1, [], ["2N-3W.csv.incomplete"]))
        self.assertIn(b"2N-3W.csv.incomplete", self.run.stderr)
        self.assertIn(b"1 lot tables", self.run.stderr)
        status, report, tables = self.imported([each for each in rows if not each.startswith(f"{ID},9,")])
        self.assertEqual((status, report, "2N-3W.csv" in tables), (0, [], True))

    def test_encodings_and_standard_input(self):
        data = HEADING + row(1, "NENE", "38.50")
        for encoding in ("utf-8", "utf-8-sig", "utf-16"):
            status, report, tables = self.imported(None, input=data.replace("\n", "\r\n").encode(encoding))
            self.assertEqual((status, report, len(tables)), (0, [], 1))

    def test_files_that_cannot_be_read(self):
        run = self.run_words("lots", "import", self.folder / "none.csv")
        self.assertEqual((run.returncode, run.stdout.count(b"\n")), (3, 1))
        self.assertIn(b"cannot read", run.stderr)
        for data, said in ((b"", b"the heading has no column"), (b"PK\x03\x04", b"this is not CSV")):
            run = self.run_words("lots", "import", self.put(data, "other.csv"))
            self.assertEqual(run.returncode, 3)
            self.assertIn(said, run.stderr)

    def test_output_that_cannot_be_written(self):
        file = self.put(HEADING + row("", "NENE", "38.50"), "attributes.csv")
        with open("/dev/full", "wb") as full:
            run = self.run_command("lots", "import", file, "--out", self.folder / "plats", stdout=full)
        self.assertEqual(run.returncode, 3)
        self.assertRegex(run.stderr, rb"\Atownship: cannot write: [^\n]*\n\Z")
        (self.folder / "blocked").write_text("")
        file = self.put(HEADING + row(1, "NENE", "38.50"), "attributes.csv")
        run = self.run_words("lots", "import", file, "--out", self.folder / "blocked")
        self.assertEqual(run.returncode, 3)
        self.assertIn(b"cannot write", run.stderr)

    def test_command_lines_that_are_not_valid(self):
        for words in ((), ("a.csv", "b.csv"), ("--no-land", "W", "a.csv"), ("--no-land", "=W", "a.csv")):
            run = self.run_words("lots", "import", *words)
            self.assertEqual((run.returncode, run.stdout), (2, b""))


class Random(ImportCase):
    def test_parts_of_shared_quarter_quarters(self):
        for count in range(1, 65):
            parts = divided(count, "NE1/4NW1/4")
            lots = "".join(f'14,{number},1.00,{part}\n' for number, part in enumerate(parts, 1))
            table = table_of(f"section,lot,acres,land\nT,2,N,3,W\n{lots}".encode())
            self.assertEqual(sum(size(lot.places) for lot in table.section(14).lots.values()), 64)

    def test_tables_are_accepted_and_have_each_lot(self):
        """Lots in random quarter-quarters: the slow model reads the tables, and finds each lot and its acreage."""
        source = random.Random(1)
        acres, places, rows = {}, {}, []
        for number in range(1, 21):
            for section in source.sample(range(1, 37), 6):
                for lot in source.sample(range(1, 100), source.randint(1, 30)):
                    key = (number, section, lot)
                    acres[key] = source.randint(1, 99_999)
                    places[key] = source.sample(QUARTER_QUARTERS, source.choice((1, 1, 1, 2, 3)))
                    rows += [row(lot, quarter, f"{acres[key] / 100:.2f}", section, f"ID08{number:03}0N0030W0")
                             for quarter in places[key]]
        source.shuffle(rows)
        status, report, tables = self.imported(rows)
        self.assertEqual((status, report, len(tables)), (0, [], 20))
        read = {number: table_of(tables[f"{number}N-3W.csv"].encode()) for number in range(1, 21)}
        for number in range(1, 21):
            # The library reads it, too, and writes the same lots.
            lots = Lots.read(tables[f"{number}N-3W.csv"])
            self.assertEqual(Lots.read(lots.csv()).csv(), lots.csv())
            found = {key: round(100 * figure) for key, figure in lots.figures.items()}
            self.assertEqual(found, {key[1:]: acres[key] for key in acres if key[0] == number})
        self.assertEqual(sum(len(each.lots) for table in read.values() for each in table.sections.values()), len(acres))
        self.assertGreater(len(acres), 1_000)
        for (number, section, lot), hundredths in acres.items():
            found = read[number].section(section).lots[lot]
            self.assertEqual(found.hundredths, hundredths)
            land = land_of(read[number], items_of(f"sec. {section}, lot {lot}.".encode()))
            self.assertEqual(area_of(read[number], land), Fraction(hundredths, 100))


if __name__ == "__main__":
    unittest.main()
