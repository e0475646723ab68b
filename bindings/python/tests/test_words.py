"""The option `--words` of `python -m township suggest` and `python -m township batch`."""
import unittest

from batches import EVEN_NOTES, NOTES, BatchCase, records
from samples import TOP
from test_ignored import SAID, TEXT, WHY


class Words(BatchCase):
    def test_suggest(self):
        words = self.put("blah\n", "phrases.txt")
        for order in (("--words", words, NOTES, "-"), (NOTES, "-", "--words", words)):
            run = self.run_words("suggest", *order, input=TEXT.encode())
            self.assertEqual((run.returncode, run.stderr), (0, b""))
            self.assertEqual(run.stdout.decode(), f"1. sec. 14, NE1/4.    160.00 acres\n     {SAID}\n")
        self.assertEqual(self.run_words("suggest", NOTES, "-", input=TEXT.encode()).returncode, 4)

    def test_several_readings_share_what_is_left_out(self):
        text = "sec. 14: NE¼NE¼ SW¼SW¼ blah"
        run = self.run_words("suggest", NOTES, "-", "--words", self.put("blah", "p.txt"), input=text.encode())
        self.assertEqual((run.returncode, run.stdout.decode().splitlines()), (1, [
            "1. sec. 14, NE1/4NE1/4, SW1/4SW1/4.    80.00 acres    if the space separates two parts",
            "2. sec. 14, NE1/4NE1/4SW1/4SW1/4.       2.50 acres    as it is written",
            f"     {SAID}",
        ]))

    def test_a_refused_phrase(self):
        words = self.put("Kestrel\nLot 3\n", "phrases.txt")
        said = f"township: {words}:2:1: `Lot 3` {WHY}\n".encode()
        run = self.run_words("suggest", NOTES, "-", "--words", words, input=TEXT.encode())
        self.assertEqual((run.returncode, run.stdout, run.stderr), (3, b"", said))
        run = self.run_words("batch", NOTES, self.put("description\nsec. 14.\n"), "--suggest", "--words", words)
        self.assertEqual((run.returncode, run.stdout, run.stderr), (1, b"", said))

    def test_no_file(self):
        none = self.folder / "none.txt"
        said = f"township: cannot read {none}: No such file or directory\n".encode()
        for words in (("suggest", NOTES, "-"), ("batch", "--suggest", NOTES, self.put("description\nsec. 14.\n"))):
            run = self.run_words(*words, "--words", none)
            self.assertEqual((run.returncode, run.stdout, run.stderr), (3, b"", said))

    def test_the_document_shows_what_is_printed(self):
        document = (TOP / "docs" / "PHRASES.md").read_text()
        text = "Payout group Kestrel NE/4 Sec. 14"
        self.assertIn(f"`{text}`", document)
        words = self.put("Payout group Kestrel\n", "phrases.txt")
        shown = self.run_words("suggest", "--words", words, NOTES, "-", input=text.encode()).stdout.decode()
        self.assertIn("\n\n" + "".join(f"    {line}\n" for line in shown.splitlines()) + "\n", document)
        words = self.put("Kestrel\nLot 3\n", "phrases.txt")
        said = self.run_words("suggest", "--words", words, NOTES, "-", input=TEXT.encode()).stderr.decode()
        self.assertIn(f"    {said.replace(str(words), 'phrases.txt')}", document)

    def test_batch(self):
        words = self.put("blah\nquux\n", "phrases.txt")
        data = f'description\n"{TEXT}"\n"sec. 14, BLAH all."\nthe old mill\n"sec. 14, NE1/4."\n'
        run = self.run_words("batch", NOTES, self.put(data), "--suggest", "--words", words)
        (heading, *rows), plain = records(run.stdout), records(self.run_words("batch", NOTES, self.put(data)).stdout)
        self.assertEqual([row[-5:] for row in rows], [
            ["sec. 14, NE1/4.", "1", SAID, "160.00", ""],
            ["sec. 14, all.", "1", "without `BLAH`: you said that this is not land", "640.00", ""],
            ["", "0", "", "", "not understood: `old mill`"],
            ["sec. 14, NE1/4.", "1", "", "160.00", ""],
        ])
        # The columns of the answer are the same as without phrases, and those of readings the same in two processes.
        self.assertEqual([row[:-5] for row in (heading, *rows)], plain)
        alone = run.stdout
        self.assertEqual(self.run_words("batch", NOTES, self.put(data), "--suggest", "--words", words, "--jobs", "2").stdout, alone)

    def test_batch_by_headings(self):
        plats = self.folder / "plats"
        plats.mkdir()
        self.put(EVEN_NOTES.read_bytes(), "plats/2n3w.csv")
        self.put_notes("plats/3n3w.csv", "T,3,N,3,W", EVEN_NOTES)
        data = 'description\n"blah T2N-R3W Sec 14: NE/4; blah T3N-R3W Sec 32: S2"\n'
        words = self.put("blah\n", "phrases.txt")
        run = self.run_words("batch", "--plats", plats, "--headings", "--suggest", "--words", words, self.put(data))
        _, row = records(run.stdout)
        self.assertEqual(row[-5:], ["T2N R3W Sec 14, NE1/4; T3N R3W Sec 32, S1/2.", "1", SAID, "480.00", ""])

    def test_misuse(self):
        words = self.put("Kestrel\n", "phrases.txt")
        run = self.run_words("batch", NOTES, self.put("description\nsec. 14.\n"), "--words", words)
        self.assertEqual((run.returncode, run.stdout), (2, b""))
        self.assertIn(b"--words needs --suggest", run.stderr)

    def test_phrases_are_not_overwritten(self):
        words = self.put("Kestrel\n", "phrases.txt")
        run = self.run_words("batch", NOTES, self.put("description\nsec. 14.\n"), "--suggest", "--words", words, "--output", words)
        self.assertEqual((run.returncode, words.read_text()), (3, "Kestrel\n"))
        self.assertIn(b"the output must not be one of the inputs", run.stderr)


if __name__ == "__main__":
    unittest.main()
