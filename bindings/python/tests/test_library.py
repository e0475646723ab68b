"""The shared library: how it is found, and how each of its verdicts is treated."""
import ctypes
import functools
import itertools
import os
import re
import subprocess
import sys
import unittest
from pathlib import Path
from unittest import mock

import township
from samples import NOTES, TOP, uneven
from township import _library, _loading
from township._written import text_by

HEADER = (TOP / "include" / "township.h").read_text()

LAND = township.Land.of((2, "N", 3, "W"), "sec. 14.")
LOTS = township.Lots.read("section,lot,acres\nT,2,N,3,W\n")
LAKE = township.Lots.read("section,lot,acres,land\nT,2,N,3,W\n14,1,38.50,NE1/4NE1/4\n")
LAND_OF_LOTS = LAKE.land("sec. 14, lot 1.")


class Found(unittest.TestCase):
    def importing(self, named):
        """The result of an import with this name of the library, or with none."""
        environment = {key: value for key, value in os.environ.items() if key != "TOWNSHIP_LIBRARY"}
        if named is not None:
            environment["TOWNSHIP_LIBRARY"] = named
        command = [sys.executable, "-c", "import township; print(township.version())"]
        return subprocess.run(command, env=environment, capture_output=True, text=True)

    def test_named_by_the_environment(self):
        self.assertEqual(self.importing(_loading.LIBRARY._name).stdout, township.version() + "\n")

    def test_named_one_that_is_not_there(self):
        run = self.importing("/nowhere/libtownship.so")
        self.assertNotEqual(run.returncode, 0)
        self.assertIn("ImportError: cannot load the township library: /nowhere/libtownship.so", run.stderr)

    def test_neither_named_nor_beside_the_package(self):
        with mock.patch.object(_loading, "default", lambda: "/nowhere/libtownship.so"):
            for named in ("", "/none/libtownship.so"):
                with mock.patch.dict(os.environ, TOWNSHIP_LIBRARY=named), self.assertRaises(ImportError) as caught:
                    _loading._load()
                self.assertIn(named or "/nowhere/libtownship.so", str(caught.exception))
                self.assertIn("TOWNSHIP_LIBRARY", str(caught.exception))

    def test_in_the_repository(self):
        made = str(TOP / "lib" / "libtownship.so")
        for folder, found in (
            (TOP / "bindings/python/src/township", made), ("/usr/lib/python3/dist-packages/township", ""),
            ("/xbindings/python/src/township", ""), ("/bindings/python/src/township", "/lib/libtownship.so"),
        ):
            with mock.patch.object(_loading, "_FOLDER", str(folder)):
                self.assertEqual(_loading.in_repository(), found)
                for there in ([], [found], [_loading.BESIDE], [found, _loading.BESIDE]):
                    with mock.patch.object(os.path, "exists", there.__contains__):
                        self.assertEqual(_loading.default(), found if there == [found] and found else _loading.BESIDE)

    def test_beside_the_package(self):
        self.assertEqual(Path(_loading.BESIDE), Path(township.__file__).resolve().parent / "libtownship.so")

    def test_version(self):
        self.assertRegex(township.version(), r"\A[0-9]+\.[0-9]+\.[0-9]+\Z")
        # The package is a release, or a build before it.
        build = r"\.dev[0-9]{14}\+g[0-9a-f]{8}(\.dirty)?"
        self.assertRegex(township.__version__, rf"\A{re.escape(township.version())}({build})?\Z")


class Declared(unittest.TestCase):
    def test_sizes(self):
        structs = (_library.Plat, _library.Answer, _library.FullAnswer, _library.Fraction, _library.PlatFigures)
        self.assertEqual([ctypes.sizeof(struct) for struct in structs], [340, 48, 400, 24, 2312])
        structs = (_library.Tract, _library.Totals, _library.Explanation)
        self.assertEqual([ctypes.sizeof(struct) for struct in structs], [80, 16, 112])
        structs = (_library.Designation, _library.Land, _library.Lots, _library.Part)
        self.assertEqual([ctypes.sizeof(struct) for struct in structs], [4, 4620, 13972, 6])
        structs = (_library.TractAnswer, _library.Overlap)
        self.assertEqual([ctypes.sizeof(struct) for struct in structs], [120, 16])
        structs = (_library.Reading, _library.Change, _library.Suggestion)
        self.assertEqual([ctypes.sizeof(struct) for struct in structs], [40, 56, 56])

    def test_fields_are_those_of_the_header(self):
        declared = re.findall(r"^typedef struct township_(\w+) \{(.*?)^\}", HEADER, re.MULTILINE | re.DOTALL)
        self.assertGreater(len(declared), 15)
        for name, body in declared:
            struct = getattr(_library, name.title().replace("_", ""))
            fields = re.findall(r"^ +(?:uint\d+_t|char|township_\w+) (\w+)", body, re.MULTILINE)
            self.assertEqual([field for field, _ in struct._fields_], fields)

    def test_limits_are_those_of_the_header(self):
        self.constants_are_those_of_the_header(r"^#define TOWNSHIP_(?!VERSION)(\w+) (\d+)$", "LINES", "NAME_ROOM")

    def test_codes_are_those_of_the_header(self):
        self.constants_are_those_of_the_header(r"^#define TOWNSHIP_(\w+) (\d+)u\b", "OTHER_TOWNSHIP", "REMAINDER")

    def constants_are_those_of_the_header(self, form, *some):
        declared = dict(re.findall(form, HEADER, re.MULTILINE))
        self.assertLessEqual({*some}, {*declared})
        for name, number in declared.items():
            self.assertEqual(getattr(_library, name), int(number), name)


class Orders(unittest.TestCase):
    """If several verdicts apply, it is the first of them in the order that the header gives."""

    NO_PLAT, NO_LOTS, NO_LAND = _library.Plat(), _library.Lots(), _library.Land()
    NO_ACCOUNT = NO_OPERATION = 9
    ELSEWHERE = township.Land.of("T. 3 N., R. 3 W.", "sec. 14.")._parts

    def verdict(self, call, *given):
        by_reference = (ctypes.byref(each) if isinstance(each, ctypes.Structure) else each for each in given)
        return call(*by_reference).verdict

    def test_land_on_a_plat(self):
        plat, land = uneven()._parts, LAND._parts
        for given, verdict in (
            ((self.NO_PLAT, self.NO_LAND, self.NO_ACCOUNT), _library.NO_PLAT),
            ((plat, self.NO_LAND, self.NO_ACCOUNT), _library.NO_LAND),
            ((plat, self.ELSEWHERE, self.NO_ACCOUNT), _library.NO_ACCOUNT),
            ((plat, self.ELSEWHERE, _library.EXACT), _library.OTHER_TOWNSHIP),
            ((plat, land, _library.EXACT), _library.ACCEPTED),
        ):
            self.assertEqual(self.verdict(_library.land_acres, *given), verdict)
            self.assertEqual(self.verdict(_library.land_area, *given, _library.Fraction()), verdict)

    def test_land_by_a_table(self):
        lots, lacking = LOTS._parts, township.Land.of("T. 3 N., R. 3 W.", "sec. 5, lot 1.")._parts
        for given, verdict in (
            ((self.NO_LOTS, self.NO_LAND), _library.NO_LOTS),
            ((lots, self.NO_LAND), _library.NO_LAND),
            ((lots, lacking), _library.OTHER_TOWNSHIP),
            ((lots, township.Land.of("T. 2 N., R. 3 W.", "sec. 5, lot 1.")._parts), _library.REFUSED),
        ):
            self.assertEqual(self.verdict(_library.lots_land_acres, *given), verdict)

    def test_two_lands(self):
        land, made = LAND._parts, _library.Land()
        for given, verdict in (
            ((land, self.NO_LAND, self.NO_OPERATION), _library.NO_LAND),
            ((land, self.ELSEWHERE, self.NO_OPERATION), _library.NO_OPERATION),
            ((land, self.ELSEWHERE, _library.UNION), _library.OTHER_TOWNSHIP),
        ):
            self.assertEqual(self.verdict(_library.land_combine, *given, made), verdict)

    def test_descriptions(self):
        plat, no_text = uneven()._parts, ctypes.create_string_buffer(1)
        for given, verdict in (
            ((self.NO_PLAT, b"sec.", 4, self.NO_ACCOUNT), _library.NO_PLAT),
            ((plat, b"sec.", 4, self.NO_ACCOUNT), _library.NO_ACCOUNT),
            ((plat, b"sec.", 4, _library.EXACT), _library.REFUSED),
        ):
            self.assertEqual(self.verdict(_library.acres, *given), verdict)
        self.assertEqual(self.verdict(_library.normal, plat, b"sec.", 4, no_text, 0), _library.REFUSED)
        self.assertEqual(self.verdict(_library.normal, plat, b"sec. 14.", 8, no_text, 0), _library.NO_ROOM)
        self.assertEqual(self.verdict(_library.land_read, _library.Designation(), b"sec.", 4, _library.Land()),
                         _library.NO_TOWNSHIP)

    def test_lists(self):
        plat, tracts = uneven()._parts, (_library.Tract * 1)()
        wrong, right = b"name,description\nA,sec. 37\n", b"name,description\nA,sec. 14\n"
        for by, given, verdict in (
            (self.NO_PLAT, wrong, _library.NO_PLAT),
            (plat, wrong, _library.TRACT_REFUSED),
            (plat, right, _library.NO_ROOM),
        ):
            found = self.verdict(_library.account, by, given, len(given), tracts, 0, _library.Totals())
            self.assertEqual(found, verdict)

    def test_readings_by_a_table(self):
        rooms = (_library.Reading * 1)(), 0, (_library.Change * 1)(), 0, ctypes.create_string_buffer(1), 0
        for lots, verdict in ((self.NO_LOTS, _library.NO_LOTS), (LOTS._parts, _library.NO_ROOM)):
            found = self.verdict(_library.lots_suggest, lots, b"sec. 14.", 8, *rooms, _library.Suggestion())
            self.assertEqual(found, verdict)

    def test_explanations_without_room(self):
        plat, no_text = uneven()._parts, ctypes.create_string_buffer(1)
        asked = (b"sec.", 4, b"x", 1, no_text, 0)
        self.assertEqual(self.verdict(_library.explain_description, plat, *asked), _library.NO_ROOM)
        self.assertEqual(self.verdict(_library.explain_description, self.NO_PLAT, *asked), _library.NO_PLAT)

    def test_many_descriptions(self):
        # Room comes first; then each description is answered, and the verdict of the call is the same.
        plat, wrong, offsets = uneven()._parts, self.NO_ACCOUNT, (ctypes.c_size_t * 3)(0, 8, 16)
        for kind, call, by, account, verdict in (
            (_library.Answer, _library.acres_many, self.NO_PLAT, [wrong], _library.NO_PLAT),
            (_library.FullAnswer, _library.answer_many, self.NO_PLAT, [wrong], _library.NO_PLAT),
            (_library.Answer, _library.acres_many, plat, [wrong], _library.NO_ACCOUNT),
            (_library.FullAnswer, _library.answer_many, plat, [wrong], _library.NO_ACCOUNT),
            (_library.Answer, _library.lots_acres_many, self.NO_LOTS, [], _library.NO_LOTS),
            (_library.FullAnswer, _library.lots_answer_many, self.NO_LOTS, [], _library.NO_LOTS),
        ):
            answers = (kind * 3)()
            given = by, b"sec. 14.sec. 15.", 16, offsets, 3, *account, answers
            self.assertEqual(self.verdict(call, *given, 1), _library.NO_ROOM)
            self.assertEqual(bytes(answers), bytes(ctypes.sizeof(answers)))
            self.assertEqual(self.verdict(call, *given, 3), verdict)
            found = [(answer if kind is _library.Answer else answer.acres).verdict for answer in answers]
            self.assertEqual(found, [verdict, verdict, 0])
            self.assertEqual(self.verdict(call, by, b"", 0, offsets, 0, *account, answers, 0), verdict)


class Verdicts(unittest.TestCase):
    # Some of these answers of the library are too rare to wait for.

    EXCEPTIONS = (
        (_library.NO_MEMORY, MemoryError),
        (_library.NO_PLAT, ValueError),
        (_library.NO_ACCOUNT, ValueError),
        (_library.NO_LAND, ValueError),
        (_library.NO_LOTS, ValueError),
        (_library.NO_TOWNSHIP, ValueError),
        (_library.NO_OPERATION, ValueError),
        (_library.OTHER_PLAT, ValueError),
        (99, RuntimeError),
    )

    CALLS = {
        "read": lambda: township.Plat.read(b""),
        "acres": lambda: uneven().acres("sec. 14."),
        "area": lambda: uneven().area("sec. 14."),
        "normal": lambda: uneven().normal("sec. 14."),
        "account": lambda: uneven().report([]),
        "report_each": lambda: uneven().report_each([]),
        "overlaps": lambda: uneven().overlaps([]),
        "print_plat": lambda: uneven()._print(),
        "figures": lambda: township.Plat.read(NOTES).total,
        "write_notes": lambda: uneven().write_notes(),
        "acres_many": lambda: uneven().acres_many(["sec. 14."]),
        "answer_many": lambda: uneven().normal_many(["sec. 14."]),
        "suggest": lambda: township.suggest("sec. 14."),
        "unread": lambda: township.suggest("the old mill").unread,
        "set_aside": lambda: township.suggest("sec. 14.", ignore=["Kestrel"]),
        "split": lambda: township.split("T2N R3W sec. 14; T3N R3W sec. 15"),
        "version": township.version,
        "explain_notes_parts": lambda: township.Plat.read(b""),
        "explain_description_parts": lambda: uneven().acres(""),
        "explain_list_parts": lambda: uneven().report_csv(b""),
        "designation_read": lambda: township.Township.of("98N-97W"),
        # The texts of townships are remembered: no other test writes this one.
        "designation_text": lambda: str(township.Township(97, "S", 98, "E")),
        "land_read": lambda: uneven().land("sec. 14."),
        "land_acres": lambda: uneven().acres(LAND),
        "land_area": lambda: uneven().area(LAND),
        "land_text": lambda: LAND.text,
        "land_combine": lambda: LAND | LAND,
        "land_compare": lambda: LAND <= LAND,
        "land_parts": lambda: LAND.parts,
        "lots_read": lambda: township.Lots.read(b""),
        "lots_plain": lambda: township.Lots.read(b","),
        "explain_lots_parts": lambda: township.Lots.read(b""),
        "explain_lacking_parts": lambda: LOTS.acres("sec. 31."),
        "lots_suggest": lambda: LOTS.suggest("sec. 14."),
        "lots_acres": lambda: LOTS.acres("sec. 14."),
        "lots_area": lambda: LOTS.area("sec. 14."),
        "lots_land_read": lambda: LOTS.land("sec. 14."),
        "lots_land_text": lambda: LAND_OF_LOTS.text,
        "lots_explain_description_parts": lambda: LOTS.acres(""),
        "lots_land_acres": lambda: LOTS.acres(LAND),
        "lots_land_area": lambda: LOTS.area(LAND),
        "lots_report": lambda: LOTS.report([]),
        "lots_report_each": lambda: LOTS.report_each([]),
        "lots_overlaps": lambda: LOTS.overlaps([]),
        "lots_acres_many": lambda: LOTS.acres_many(["sec. 14."]),
        "lots_answer_many": lambda: LAKE._full_answers(["sec. 14."]),
        "lots_explain_list_parts": lambda: LOTS.report_csv(b""),
    }

    #: The calls that answer one of many in turn.
    CALLS_FOR_MANY = {
        "lots_acres": lambda: list(LOTS.acres_of(["sec. 14."])),
        "lots_acres_many": lambda: LOTS._full_answers(["sec. 14."]),
        "answer_many": lambda: LOTS.normal_many(["sec. 14."]),
    }

    def test_each_call_for_many_by_a_table(self):
        for (name, call), (verdict, exception) in itertools.product(self.CALLS_FOR_MANY.items(), self.EXCEPTIONS):
            answer = _library.Answer(verdict=verdict)
            with self.subTest(name=name, verdict=verdict):
                with mock.patch.object(_library, name, lambda *_: answer), self.assertRaises(exception) as caught:
                    call()
                self.assertNotIsInstance(caught.exception, township.Refused)
        answer = _library.Answer(verdict=_library.NO_MEMORY)
        with mock.patch.object(_library, "lots_acres", lambda *_: answer), self.assertRaises(MemoryError):
            list(LOTS.acres_of(["sec. 14."]))

    def test_notes(self):
        calls = {"explain_description": "sec. 14.", "explain_description_parts": "sec. 14, NE1/4 SE1/4."}
        for (verdict, exception), name in itertools.product(self.EXCEPTIONS, calls):
            answer = _library.Answer(verdict=verdict)
            with self.subTest(verdict=verdict, name=name):
                with mock.patch.object(_library, name, lambda *_: answer), self.assertRaises(exception):
                    uneven().notes(calls[name])

    def test_each_call(self):
        for name, call in self.CALLS.items():
            for verdict, exception in self.EXCEPTIONS:
                answer = _library.Answer(verdict=verdict)
                with self.subTest(name=name, verdict=verdict):
                    with mock.patch.object(_library, name, lambda *_: answer), self.assertRaises(exception) as caught:
                        call()
                    self.assertNotIsInstance(caught.exception, township.Refused)

    def test_texts_with_and_without_parts(self):
        plat = ctypes.byref(uneven()._parts)
        for given, alone, with_parts in (
            ((b"line", 4), _library.explain_notes, _library.explain_notes_parts),
            ((plat, b"sec. 14, NE1/4 SE1/4.", 21), _library.explain_description, _library.explain_description_parts),
            ((plat, b"name\n", 5), _library.explain_list, _library.explain_list_parts),
            ((b"section", 7), _library.explain_lots, _library.explain_lots_parts),
            ((ctypes.byref(LOTS._parts), 503), _library.explain_lacking, _library.explain_lacking_parts),
            ((ctypes.byref(LOTS._parts), b"sec. 14, NE1/4 SE1/4.", 21), _library.lots_explain_description,
             _library.lots_explain_description_parts),
            ((ctypes.byref(LOTS._parts), b"name\n", 5), _library.lots_explain_list, _library.lots_explain_list_parts),
        ):
            parts = _library.Explanation()
            with_parts_of = functools.partial(self.call_with, with_parts, ctypes.byref(parts))
            answer, text = text_by(alone, *given, b"x", 1)
            again, same_text = text_by(with_parts_of, *given, b"x", 1)
            with self.subTest(text=text):
                self.assertEqual((bytes(answer), text), (bytes(again), same_text))
                is_whole = alone is _library.explain_lacking
                self.assertEqual(parts.shown, _library.SHOWN_NOTHING if is_whole else _library.SHOWN_BYTES)

    @staticmethod
    def call_with(call, parts, *arguments):
        return call(*arguments, parts)

    def test_many_stop_for_want_of_memory(self):
        answer = _library.Answer(verdict=_library.NO_MEMORY)
        with mock.patch.object(_library, "acres", lambda *_: answer), self.assertRaises(MemoryError):
            list(uneven().acres_of(["sec. 14."]))

    def test_plat_that_is_none(self):
        # A plat cannot be made like this, but the library detects it anyway.
        none = township.Plat._of_struct(_library.Plat())
        for call in (none.acres, none.area, none.normal, none.notes, none.report_csv, none.report_each_csv, none.overlaps_csv):
            with self.subTest(call=call.__name__), self.assertRaises(ValueError):
                call("sec. 14.")

    def test_land_and_lots_that_are_none(self):
        # They cannot be made like this, either.
        no_land = township.Land._of_struct(_library.Land())
        no_lots = township.Lots._of_struct(_library.Lots())
        for call in (
            *(lambda: no_land.text, lambda: no_land.parts, lambda: no_land | LAND, lambda: LAND <= no_land),
            *(lambda: uneven().acres(no_land), lambda: LOTS.area(no_land)),
            *(lambda: no_lots.acres(LAND), lambda: no_lots.area("sec. 14."), lambda: no_lots.report([])),
            *(lambda: no_lots.acres_many([]), lambda: no_lots._full_answers([]), lambda: no_lots.report_each([])),
            *(lambda: no_lots.overlaps([]), lambda: next(no_lots.acres_of(["sec. 14."]))),
        ):
            with self.assertRaises(ValueError) as caught:
                call()
            self.assertNotIsInstance(caught.exception, township.Refused)

    def test_numbers_that_are_none(self):
        first, made = ctypes.byref(LAND._parts), ctypes.byref(_library.Land())
        self.assertEqual(_library.land_combine(first, first, 3, made).verdict, _library.NO_OPERATION)
        self.assertEqual(_library.land_acres(ctypes.byref(uneven()._parts), first, 2).verdict, _library.NO_ACCOUNT)
        none = ctypes.byref(_library.Designation(100, 0, 3, 1))
        text = ctypes.create_string_buffer(18)
        self.assertEqual(_library.designation_text(none, text, 18).verdict, _library.NO_TOWNSHIP)
        self.assertEqual(_library.land_read(none, b"sec. 14.", 8, made).verdict, _library.NO_TOWNSHIP)

    def test_account_that_is_none(self):
        answer = _library.acres(ctypes.byref(uneven()._parts), b"sec. 14.", 8, 2)
        self.assertEqual(answer.verdict, _library.NO_ACCOUNT)
