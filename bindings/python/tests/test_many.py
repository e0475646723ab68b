"""Many descriptions at once, and calls from many threads."""
import itertools
import threading
import unittest
from concurrent.futures import ThreadPoolExecutor
from decimal import Decimal
from importlib.util import find_spec
from unittest import mock

import township
from samples import even, uneven
from township import _library

ACCEPTED = "sec. 5, lots 1 and 2, S1/2NE1/4."
REFUSED = "sec. 14, NE1/4 and N1/2."


def numbers(answers):
    """Answers in a form that can be compared: acres, or the number and place of a refusal."""
    return [answer if isinstance(answer, Decimal) else (answer.number, answer.at) for answer in answers]


class Many(unittest.TestCase):
    def test_in_order(self):
        answers = uneven().acres_of([ACCEPTED, REFUSED, b"sec. 36.", "", "sec. 5, lot 1."])
        self.assertEqual(numbers(answers), [Decimal("161.00"), (67, 19), 640, (44, 0), Decimal("40.45")])

    def test_refusals_are_those_that_are_raised(self):
        [answer] = uneven().acres_of([REFUSED])
        self.assertEqual((answer.line, answer.column), (1, 20))
        self.assertEqual(answer.sentence, "this land was named before")

    def test_by_the_plat(self):
        self.assertEqual(list(uneven().acres_of(["sec. 7, lots 1 to 4."], account="plat")), [Decimal("156.42")])

    def test_nothing(self):
        self.assertEqual(list(uneven().acres_of([])), [])

    def test_descriptions_are_taken_one_at_a_time(self):
        taken = uneven().acres_of(f"sec. {k}." for k in itertools.count(8))
        self.assertEqual(list(itertools.islice(taken, 3)), [640, 640, 640])

    def test_no_account_is_found_out_at_once(self):
        with self.assertRaises(ValueError):
            uneven().acres_of([], account="printed")

    def test_one_description_is_not_many(self):
        for description in ("sec. 14.", b"sec. 14."):
            with self.assertRaises(TypeError):
                uneven().acres_of(description)

    def test_what_is_no_text(self):
        answers = uneven().acres_of(["sec. 14.", float("nan")])
        self.assertEqual(next(answers), 640)
        with self.assertRaises(TypeError):
            next(answers)

    def test_by_one_call(self):
        descriptions = [ACCEPTED, REFUSED, b"sec. 36.", "", "sec. 14, N\u00bd.", "sec. 7, lots 1 to 4."]
        for account in ("exact", "plat"):
            with self.subTest(account=account):
                answers = uneven().acres_many(descriptions, account)
                wanted = list(uneven().acres_of(descriptions, account))
                self.assertEqual(list(answers), wanted)
                self.assertEqual([answers[k] for k in range(len(answers))], wanted)
                self.assertEqual((answers[-1], answers[1:3]), (wanted[-1], wanted[1:3]))
                self.assertEqual(answers.refused, [1, 3])
                hundredths = [0 if k in (1, 3) else 100 * acres for k, acres in enumerate(wanted)]
                self.assertEqual(list(answers.hundredths), hundredths)

    def test_canonical_texts_by_one_call(self):
        # The last text is longer than the room that the call has for each.
        long = "; ".join(f"sec. {section}" for section in range(1, 37, 2)) + "."
        descriptions = [ACCEPTED, REFUSED, b"sec. 36.", "", "sec. 14, N\u00bd.", "sec. 14, NE1/4 SE1/4.", long]
        texts = uneven().normal_many(descriptions)
        for description, text in zip(descriptions, texts):
            try:
                self.assertEqual(text, uneven().normal(description))
            except township.Refused as refused:
                self.assertEqual(text, refused)
        self.assertGreater(len(texts[-1]), 256)
        self.assertEqual([isinstance(text, str) for text in texts], [True, False, True, False, True, True, True])
        self.assertEqual(uneven().normal_many(()), [])

    def test_one_description_is_not_many_texts(self):
        for description in ("sec. 14.", b"sec. 14."):
            with self.assertRaises(TypeError):
                uneven().normal_many(description)

    def test_everything_by_one_call(self):
        descriptions = [ACCEPTED, REFUSED, "sec. 14, NE1/4 SE1/4.", "", "sec. 7, lots 1 to 4."]
        for account, hundredths in (("exact", 15640), ("plat", 15642)):
            answers = uneven()._full_answers(descriptions, account)
            self.assertEqual(answers.hundredths, [16100, 0, 4000, 0, hundredths])
            self.assertEqual((answers.refused, answers.noted), ([1, 3], [2]))
            self.assertEqual(answers.refused_at(1), uneven().normal_many([REFUSED])[0])
            self.assertEqual(answers.refusal(1), (67, 19))
            self.assertEqual(answers.sentence(1), answers.refused_at(1).sentence)
            self.assertEqual(answers.sentence(2), uneven().notes(descriptions[2])[0].sentence)
            one_line = answers.texts(on_one_line=True)
            self.assertEqual(one_line, [text[:-1].replace("\n", " ") for text in answers.texts()])
            self.assertEqual(one_line[1:3], ["", "T. 2 N., R. 3 W., sec. 14, NE1/4SE1/4."])

    def test_memory_that_runs_out_for_one(self):
        for name in ("acres", "normal", "note"):
            def answer_many(*given, name=name):
                answer = real(*given)
                getattr(given[6][1], name).verdict = _library.NO_MEMORY
                return answer

            real = _library.answer_many
            with self.subTest(name=name), mock.patch.object(_library, "answer_many", answer_many):
                with self.assertRaises(MemoryError):
                    uneven().normal_many(["sec. 14.", "sec. 15."])

    def test_by_one_call_in_ascii_alone(self):
        answers = uneven().acres_many(("sec. 5, lot 1.", REFUSED))
        self.assertEqual(numbers(answers), [Decimal("40.45"), (67, 19)])

    def test_nothing_by_one_call(self):
        answers = uneven().acres_many([])
        self.assertEqual((len(answers), list(answers), answers.refused), (0, [], []))
        with self.assertRaises(IndexError):
            answers[0]

    def test_shared_by_threads(self):
        descriptions = [ACCEPTED, REFUSED, "sec. 36.", "sec. 14, N\u00bd."] * 1000 + ["sec. 5, lot 1."]
        wanted = uneven().acres_many(descriptions)
        self.assertEqual((wanted[-1], len(wanted.refused)), (Decimal("40.45"), 1000))
        for threads, calls in ((1, 1), (2, 2), (3, 3), (4, 4), (100, 4)):
            real = mock.Mock(wraps=_library.acres_many)
            with self.subTest(threads=threads), mock.patch.object(_library, "acres_many", real):
                answers = uneven().acres_many(descriptions, threads=threads)
                self.assertEqual(real.call_count, calls)
                self.assertEqual((answers.hundredths, answers.refused), (wanted.hundredths, wanted.refused))
                self.assertEqual(numbers(answers[-5:]), numbers(wanted[-5:]))

    def test_texts_shared_by_threads(self):
        descriptions = [ACCEPTED, REFUSED, "sec. 36.", "sec. 14, N\u00bd."] * 1000 + ["sec. 5, lot 1."]
        wanted = uneven().normal_many(descriptions)
        self.assertEqual(wanted[-2:], ["T. 2 N., R. 3 W.,\nsec. 14, N1/2.\n", "T. 2 N., R. 3 W.,\nsec. 5, lot 1.\n"])
        for threads, calls in ((1, 1), (2, 2), (3, 3), (100, 4)):
            real = mock.Mock(wraps=_library.answer_many)
            with self.subTest(threads=threads), mock.patch.object(_library, "answer_many", real):
                texts = uneven().normal_many(descriptions, threads=threads)
                self.assertEqual(real.call_count, calls)
                self.assertEqual(texts, wanted)

    def test_a_few_descriptions_take_one_call(self):
        real = mock.Mock(wraps=_library.acres_many)
        with mock.patch.object(_library, "acres_many", real):
            self.assertEqual(numbers(uneven().acres_many([ACCEPTED] * 1999, threads=4))[-1], Decimal("161.00"))
        self.assertEqual(real.call_count, 1)

    def test_numbers_of_threads_that_are_none(self):
        for threads, error in ((0, ValueError), (-1, ValueError), ("2", TypeError), (1.5, TypeError)):
            for call in (uneven().acres_many, uneven().normal_many):
                with self.subTest(threads=threads, call=call.__name__), self.assertRaises(error):
                    call([ACCEPTED], threads=threads)

    def test_what_is_not_answered_by_one_call(self):
        for descriptions, error in (("sec. 14.", TypeError), ([None], TypeError), ([14], TypeError)):
            with self.subTest(descriptions=descriptions), self.assertRaises(error):
                uneven().acres_many(descriptions)
        with self.assertRaises(ValueError):
            uneven().acres_many([], account="printed")

    @unittest.skipUnless(find_spec("pandas"), "pandas isn't installed")
    def test_column_of_a_data_frame(self):
        import pandas

        frame = pandas.DataFrame({"description": [ACCEPTED, REFUSED, None]}, index=[7, 8, 9])
        described = frame["description"].fillna("")
        frame["acres"] = pandas.Series(list(uneven().acres_of(described)), index=frame.index)
        self.assertEqual(numbers(frame["acres"]), [Decimal("161.00"), (67, 19), (44, 0)])


class Threads(unittest.TestCase):
    THREADS = 8
    ROUNDS = 5

    def test_one_plat_in_many_threads(self):
        wanted = numbers([Decimal("161.00"), township.Refused(67, 19)]) * self.ROUNDS
        together = threading.Barrier(self.THREADS)

        def run(_):
            together.wait()
            return numbers(uneven().acres_of([ACCEPTED, REFUSED] * self.ROUNDS))

        with ThreadPoolExecutor(self.THREADS) as pool:
            self.assertEqual(list(pool.map(run, range(self.THREADS))), [wanted] * self.THREADS)

    def test_texts_in_many_threads(self):
        together = threading.Barrier(self.THREADS)

        def run(number):
            together.wait()
            plat = township.Plat.of_parts((number, "N", 3, "W"), [20_000] * 84)
            return plat.normal(f"sec. {number}."), plat.sections[36].total

        with ThreadPoolExecutor(self.THREADS) as pool:
            answers = list(pool.map(run, range(8, 8 + self.THREADS)))
        wanted = [(f"T. {n} N., R. 3 W.,\nsec. {n}, all.\n", Decimal("640.00")) for n in range(8, 8 + self.THREADS)]
        self.assertEqual(answers, wanted)

    def test_a_plat_of_another_thread(self):
        with ThreadPoolExecutor(1) as pool:
            plat = pool.submit(township.Plat.of_parts, even().township, even().closing_quarters).result()
        self.assertEqual(plat.acres("sec. 14."), 640)
