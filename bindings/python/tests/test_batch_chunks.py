"""The chunks of a list, which are found before its records are read, and records that are copied as they are."""
import csv
import io
import itertools
import random
import unittest
from unittest import mock

from batches import NOTES, BatchCase
from township._batch.added import Added
from township._batch.chunks import Chunk, Chunks
from township._batch.lines import Lines, from_line, line_count
from township._batch.plain import plain_rows
from township._batch.records import Records, records_of
from township._batch.rows import read_rows
from township._batch.shape import Shape

SHAPE = Shape(width=2, column=1, separator=",")

#: Lines whose quotation marks are regular, and lines whose are not.
REGULAR = [
    "7,sec. 14.\n", '7,"sec. 5, lot 1."\n', '"a ""b""",sec. 14.\n', '7,"sec. 14;\nsec. 15."\n', ",\n", "\n", '"",""\n',
]
IRREGULAR = ['5" pipe,sec. 14.\n', '7,"sec. 14.\n', '7,"sec. 14."x\n', 'a"b"c,d"\n', '"\n', '7\n', "7,sec. 14,NE1/4\n"]


def chunks_in(text, size, piece=None, is_full=False):
    """The chunks of a text that arrives in pieces."""
    piece = piece or len(text) or 1
    pieces = iter([text[at : at + piece] for at in range(0, len(text), piece)])
    chunks = Chunks(lambda: next(pieces, ""), "", 1)
    chunks.size, chunks.is_full = size, is_full
    return chunks


def whole(text):
    """The records of a text that is one chunk."""
    return list(records_of(Chunk(text, 1, True), SHAPE))


class Division(unittest.TestCase):
    def test_chunks_are_the_text(self):
        text = "".join(REGULAR) * 20
        for size, piece, is_full in itertools.product((1, 10, 100, 10_000), (1, 7, 1000), (False, True)):
            found = list(chunks_in(text, size, piece, is_full))
            self.assertEqual("".join(chunk.text for chunk in found), text)
            lines = 1
            for chunk in found:
                self.assertEqual(chunk.line, lines)
                lines += line_count(chunk.text)

    def test_chunk_ends_after_a_record(self):
        text = "".join(REGULAR) * 20
        for chunk in chunks_in(text, 1):
            self.assertEqual(chunk.text.count('"') % 2, 0)
            self.assertLess(len(chunk.text), 30)

    def test_chunk_has_the_size_that_is_asked_for(self):
        sizes = [len(chunk.text) for chunk in chunks_in("7,sec. 14.\n" * 100, 200, 10, is_full=True)]
        self.assertEqual(sizes, [198] * 5 + [110])

    def test_what_has_arrived_is_not_held_back(self):
        text = '7,sec. 14.\n7,"sec. 14;\nsec. 15."\n7,sec. 16.\n'
        found = [chunk.text for chunk in chunks_in(text, 1000, 25)]
        self.assertEqual(found, ["7,sec. 14.\n", '7,"sec. 14;\nsec. 15."\n7,sec. 16.\n'])

    def test_line_end_of_two_characters_is_never_divided(self):
        text = "7,sec. 14.\r\n" * 50
        for size, piece in itertools.product((1, 11, 12, 13), (1, 11, 12)):
            for chunk in chunks_in(text, size, piece):
                self.assertTrue(chunk.text.endswith("\r\n"), chunk)

    def test_records_do_not_depend_on_the_chunks(self):
        chance = random.Random(1)
        for _ in range(300):
            lines = chance.choices(REGULAR + IRREGULAR, k=chance.randrange(12))
            text = "".join(lines).replace("\n", chance.choice(("\n", "\r\n", "\r")))[: chance.choice((None, -1))]
            wanted = whole(text)
            for size, piece in ((1, 1), (20, 7), (60, 1000)):
                self.assertEqual(list(Records(chunks_in(text, size, piece), SHAPE)), wanted, text)

    def test_record_that_is_longer_than_a_chunk(self):
        text = '7,"sec. 14;\n' + "\n" * 5000 + 'sec. 15."\n7,sec. 16.\n'
        for size in (1, 100):
            found = list(Records(chunks_in(text, size, 64), SHAPE))
            self.assertEqual([record.line for record in found], [1, 5003])

    def test_records_that_are_given_back(self):
        text = "7,sec. 14.\n\n8,sec. 15.\n9,sec. 16.\n" * 3
        for taken in range(10):
            chunks = chunks_in(text, 30)
            records = Records(chunks, SHAPE)
            first = list(itertools.islice(records, taken))
            records.give_back()
            self.assertEqual(first + list(Records(chunks, SHAPE)), whole(text))

    def test_lines_of_a_text_that_arrives_in_pieces(self):
        text = "a\r\nb\rc\n\n\rd"
        for piece in range(1, 10):
            pieces = iter([text[at : at + piece] for at in range(0, len(text), piece)])
            lines = Lines(lambda: next(pieces, ""))
            self.assertEqual(list(lines), ["a\r\n", "b\r", "c\n", "\n", "\r", "d"])
        self.assertEqual([from_line(text, count) for count in (0, 1, 5, 9)], [text, "b\rc\n\n\rd", "d", ""])


class Plain(unittest.TestCase):
    """Records that are copied as they are."""

    FIELDS = ["7", "", "sec. 14.", '"sec. 5, lot 1."', '"a ""b"""', '"a\nb"', "é½", " x ", "'", "=1", "a;b|c\td"]

    def added(self, count):
        """Fields to add, of which some have to be quoted."""
        added = Added([4045] * count, ["T. 2 N., R. 3 W., sec. 5; sec. 6"] * count)
        added.others[1 % count] = [None, 67, 19, 'a "b", c', None, None]
        return added

    def plain(self, text, shape=SHAPE):
        return plain_rows(Chunk(text, 1, True), shape, [shape.column])

    def rows(self, chance, width, separator, line_end):
        """Records with random fields, none of which is quoted without need."""
        kept = [field for field in self.FIELDS if line_end == "\n" or "\n" not in field]
        # A separator in a field is quoted, and a comma is one in none but the first case.
        fields = [field.replace(",", separator) if '"' in field else field for field in kept]
        fields = [field for field in fields if '"' in field or separator not in field]
        rows = [separator.join(chance.choices(fields, k=width)) for _ in range(50)]
        return [row for row in rows if row.strip(separator)]

    def test_they_are_written_as_by_a_csv_writer(self):
        chance = random.Random(1)
        for separator, line_end, width in itertools.product(",;\t|", ("\n", "\r\n"), (1, 2, 5)):
            rows = self.rows(chance, width, separator, line_end)
            chunk = Chunk("".join(row + line_end for row in rows), 1, True)
            shape = Shape(width, width // 2, separator)
            found, wanted = plain_rows(chunk, shape, [shape.column]), read_rows(chunk, shape)
            with self.subTest(chunk=chunk):
                self.assertEqual(found.number, len(rows))
                self.assertEqual(list(found.column(shape.column)), wanted.column(shape.column))
                self.assertEqual(found.csv(self.added(len(rows))), wanted.csv(self.added(len(rows))))

    def test_last_line_without_a_line_end(self):
        self.assertEqual(self.plain("7,sec. 14.").column(1), ["sec. 14."])

    def test_other_records_are_read(self):
        for text in ("7\n", "7,8,9\n", "\n", ",\n", '"7",8\n', '7,"8"\n', '7,""\n', '5" pipe,8\n', '7,"8,9"x\n',
                     '7,"8,9\n', "7,8\r", '7,"8\r,"\n', "7,8\n7,8\r\n", "7,8\0\n", '7,"8,9"""\n"\n'):
            with self.subTest(text=text):
                self.assertIsNone(self.plain(text))
                self.assertIsNone(self.plain("7,sec. 14.\n" + text + "7,sec. 15.\n"))
        self.assertIsNone(self.plain("7.8\n", Shape(2, 1, ".")))

    def test_it_takes_no_longer_where_it_fails(self):
        # A pattern that could match the same text in many ways would not end.
        for text in ('7,"' + "," * 50_000, '7,"' + '"",' * 20_000, "7," + '"a,' * 20_000):
            self.assertIsNone(self.plain(text))


class Answered(BatchCase):
    def test_answers_do_not_depend_on_the_chunks(self):
        listed = self.put("id,description\n" + "".join(REGULAR + IRREGULAR) * 3)
        wanted = self.run_words("batch", NOTES, listed)
        for size, block in itertools.product((1, 50, 1 << 16), (1, 64, 1 << 16)):
            with mock.patch("township._batch.chunks.SIZE", size), mock.patch("township._batch.decoding._BLOCK", block):
                run = self.run_words("batch", NOTES, listed)
            self.assertEqual((run.returncode, run.stdout), (wanted.returncode, wanted.stdout))

    def test_several_processes_where_chunks_have_to_be_divided_again(self):
        # After a quotation mark that means nothing, chunks end within fields.
        rows = ['5" pipe,sec. 14.\n', *['7,"sec. 14;\nsec. 15."\n'] * 200]
        for text in ("".join(rows), "".join(rows * 3)):
            listed = self.put("id,description\n" + text)
            wanted = self.run_words("batch", NOTES, listed)
            for size in (1, 100, 1000):
                with mock.patch("township._batch.workers._CHUNK", size):
                    run = self.run_words("batch", NOTES, listed, "--jobs", 3)
                self.assertEqual((run.returncode, run.stdout), (wanted.returncode, wanted.stdout))
        rows = list(csv.reader(io.StringIO(wanted.stdout.decode(), newline="")))
        self.assertEqual([row[2] for row in rows[1:]], (["640.00"] + ["1280.00"] * 200) * 3)


if __name__ == "__main__":
    unittest.main()
