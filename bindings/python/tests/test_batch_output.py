"""The output of a batch: files, a resumed batch, an interrupted one, and a terminal."""
import os
import pty
import select
import signal
import subprocess
import sys
import threading
import unittest
from importlib.util import find_spec

from batches import ADDED, EVEN_NOTES, HEADING, NOTES, BatchCase, command, feed, records

LIST = "id,description\n" + "".join(f'{k},"sec. {k % 36 + 1};\nsec. 14."\n' for k in range(300))


class Output(BatchCase):
    def test_to_a_file(self):
        made = self.folder / "answers.csv"
        run = self.run_words("batch", NOTES, self.put("description\nsec. 14.\n"), "--output", made)
        self.assertEqual((run.returncode, run.stdout, run.stderr), (0, b"", b""))
        self.assertEqual(records(made.read_bytes())[1], ["sec. 14.", "640.00", "", "", "", "", HEADING + "sec. 14, all."])

    def test_to_standard_output(self):
        listed = self.put("description\nsec. 14.\n")
        wanted = self.run_words("batch", NOTES, listed).stdout
        run = self.run_command("batch", NOTES, listed, "--output", "-", cwd=self.folder)
        self.assertEqual((run.returncode, run.stdout), (0, wanted))
        self.assertFalse((self.folder / "-").exists())

    def test_earlier_output_is_replaced(self):
        made = self.put("much longer\n" * 100, "answers.csv")
        self.run_words("batch", NOTES, self.put("description\nsec. 14.\n"), "--output", made)
        self.assertEqual(len(records(made.read_bytes())), 2)

    def test_inputs_are_never_overwritten(self):
        listed, notes = self.put("description\nsec. 14.\n"), self.put_notes("notes.csv")
        for name in (listed, notes, self.folder / "." / "list.csv"):
            before = name.read_bytes()
            run = self.run_words("batch", notes, listed, "--output", name)
            self.assertEqual(run.returncode, 3)
            self.assertIn(b"the output must not be one of the inputs", run.stderr)
            self.assertEqual(name.read_bytes(), before)

    def test_folder_that_is_not_there(self):
        run = self.run_words("batch", NOTES, self.put("description\n"), "--output", self.folder / "no" / "x.csv")
        self.assertEqual(run.returncode, 3)
        self.assertRegex(run.stderr, rb"\Atownship: cannot write [^\n]*x.csv: No such file or directory\n\Z")


class Resumed(BatchCase):
    def whole(self, data=LIST):
        """The answers to a list, written without interruption."""
        made = self.folder / "whole.csv"
        self.run_words("batch", NOTES, self.put(data), "--output", made)
        return made.read_bytes()

    def resume(self, made, data=LIST, *words):
        return self.run_words("batch", NOTES, self.put(data), "--output", made, "--resume", *words)

    def test_from_any_byte(self):
        # Wherever the output was cut off, also within a field of several lines, the rest is added to it.
        whole = self.whole()
        for end in (0, 1, 20, 40, 41, *range(60, 260, 7), len(whole) // 2, len(whole) - 1, len(whole)):
            with self.subTest(end=end):
                made = self.put(whole[:end], "answers.csv")
                run = self.resume(made)
                self.assertEqual((run.returncode, run.stderr), (1, b""))
                self.assertEqual(made.read_bytes(), whole)

    def test_without_an_earlier_output(self):
        made = self.folder / "answers.csv"
        self.assertEqual(self.resume(made).returncode, 1)
        self.assertEqual(made.read_bytes(), self.whole())

    def test_status_is_that_of_the_whole(self):
        for refused in ("sec. 14.\nsec. 37.\n", "sec. 37.\nsec. 14.\n"):
            data = "description\n" + refused
            whole = self.whole(data)
            for end in range(len(whole)):
                made = self.put(whole[:end], "answers.csv")
                if end % 9 == 0:
                    self.assertEqual(self.resume(made, data).returncode, 1)
        data = "description\nsec. 14.\nsec. 15.\n"
        made = self.put(self.whole(data), "answers.csv")
        self.assertEqual(self.resume(made, data).returncode, 0)

    def test_list_that_has_grown(self):
        made = self.put(self.whole("description\nsec. 14.\n"), "answers.csv")
        run = self.resume(made, "description\nsec. 14.\nsec. 15.\n")
        self.assertEqual(run.returncode, 0)
        self.assertEqual([row[1] for row in records(made.read_bytes())[1:]], ["640.00", "640.00"])

    def test_output_of_another_list(self):
        made = self.put(self.whole("description\nsec. 14.\n"), "answers.csv")
        before = made.read_bytes()
        for data, said in (
            ("description\nsec. 15.\n", b"record 2 is not an answer to this list"),
            ("description\n", b"record 2 is not an answer to this list"),
            ("id,description\n", b"answers.csv:1: the heading is not that of this list's answers"),
        ):
            run = self.resume(made, data)
            self.assertEqual(run.returncode, 3)
            self.assertIn(said, run.stderr)
            self.assertEqual(made.read_bytes(), before)

    def test_output_by_other_options_or_notes(self):
        data = 'description\nsec. 14.\n"sec. 7, lots 1 to 4."\n'
        made = self.put(self.whole(data), "answers.csv")
        before = made.read_bytes()
        for notes, words in ((NOTES, ("--account", "plat")), (EVEN_NOTES, ())):
            run = self.run_words("batch", notes, self.put(data), "--output", made, "--resume", *words)
            self.assertEqual((run.returncode, made.read_bytes()), (3, before))
            self.assertIn(b"answers.csv: record 3 was answered with other options or field notes", run.stderr)

    def test_output_of_no_batch(self):
        # Nothing is cut off from another file, and nothing is added to it.
        heading = ",".join(["description", *ADDED]) + "\n"
        for data, said in (
            ('"a"b\n"c"d\n', "answers.csv: this is not the output of a batch"),
            ("a letter\nwithout a line feed", "answers.csv:1: the heading is not that"),
            ("one line", "answers.csv:1: the heading is not that"),
            ("description,acres,refusals", "answers.csv:1: the heading is not that"),
            (heading[:-1] + ",more", "answers.csv:1: the heading is not that"),
            (heading + "sec. 15.,640.00,,,,x\nsec. 1", "answers.csv: record 2 is not an answer to this list"),
        ):
            with self.subTest(data=data):
                made = self.put(data, "answers.csv")
                run = self.resume(made, "description\nsec. 14.\n")
                self.assertEqual((run.returncode, made.read_bytes()), (3, data.encode()))
                self.assertIn(said, run.stderr.decode())

    def test_long_fields(self):
        data = "description\n" + " " * 200_000 + "\n"
        made = self.put(self.whole(data), "answers.csv")
        self.assertEqual(self.resume(made, data).returncode, 1)

    def test_on_a_folder_the_first_meridian_stays(self):
        self.put_notes("plats/b1.csv")
        listed = self.put("meridian,township,description\nBoise,T2N R3W,sec. 14.\nUte,T2N R3W,sec. 14.\n")
        words = ("batch", "--plats", self.folder / "plats", listed, "--output", self.folder / "answers.csv")
        self.run_words(*words)
        whole = (self.folder / "answers.csv").read_bytes()
        self.put(whole[: whole.index(b"Ute")], "answers.csv")
        self.run_words(*words, "--resume")
        self.assertEqual((self.folder / "answers.csv").read_bytes(), whole)


class Interrupted(BatchCase):
    """Ctrl-C, and a reader that closes the output, while more of the list is awaited or available."""

    def start(self, *words, **named):
        """A batch that reads its list from a pipe."""
        pipes = {"stdin": subprocess.PIPE, "stdout": subprocess.PIPE, "stderr": subprocess.PIPE, **named}
        # Nothing is read in advance here, so nothing is lost.
        process = subprocess.Popen(command(NOTES, "-", *words), bufsize=0, **pipes)
        self.addCleanup(process.kill)
        return process

    def read_answer(self, process):
        """What is written next, which must come soon."""
        ready, _, _ = select.select([process.stdout], [], [], 60)
        self.assertTrue(ready, "no answer in 60 seconds")
        return process.stdout.read(1000)

    def test_each_answer_is_written_while_the_next_record_is_awaited(self):
        process = self.start()
        process.stdin.write(b"description\nsec. 14.\n")
        self.assertEqual(records(self.read_answer(process))[1][:2], ["sec. 14.", "640.00"])
        process.stdin.write(b'"sec. 5, lot 1."\n')
        self.assertEqual(records(self.read_answer(process))[0][:2], ["sec. 5, lot 1.", "40.45"])
        process.stdin.write(b"sec. 40.\n")
        self.assertEqual(records(self.read_answer(process))[0][:2], ["sec. 40.", ""])
        self.assertEqual(process.communicate(timeout=60), (b"", b""))
        self.assertEqual(process.returncode, 1)

    def test_ctrl_c_while_the_list_is_awaited(self):
        process = self.start()
        process.stdin.write(LIST.encode())
        process.stdin.flush()
        # The first answers have arrived, so the batch is running.
        head = self.read_answer(process)
        process.send_signal(signal.SIGINT)
        rest, said = process.communicate(timeout=60)
        self.assertEqual(process.returncode, 130)
        self.assertRegex(said, rb"\Atownship: interrupted after [0-9]+ records\n\Z")
        output = head + rest
        self.assertTrue(output.endswith(b"\n"))
        rows = records(output)
        self.assertEqual({len(row) for row in rows}, {2 + len(ADDED)})
        self.assertEqual(len(rows) - 1, int(said.split()[3]))

    def test_ctrl_c_in_the_middle_of_the_work(self):
        # The list never ends, so the batch is always running.
        made = self.folder / "answers.csv"
        process = self.start("--output", made)
        feeding = threading.Thread(target=feed, args=(process.stdin,))
        feeding.start()
        while not made.exists() or made.stat().st_size < 100_000:
            self.assertIsNone(process.poll())
        process.send_signal(signal.SIGINT)
        process.wait(timeout=60)
        feeding.join()
        self.assertRegex(process.stderr.read(), rb"\Atownship: interrupted after [0-9]+ records\n\Z")
        self.assertEqual(process.returncode, 130)
        rows = records(made.read_bytes())
        self.assertEqual({len(row) for row in rows}, {2 + len(ADDED)})
        self.assertTrue(made.read_bytes().endswith(b"\n"))
        process.stderr.close()
        process.stdout.close()

    def test_closed_pipe(self):
        process = self.start()
        feeding = threading.Thread(target=feed, args=(process.stdin,))
        feeding.start()
        self.assertTrue(process.stdout.read(100).startswith(b"id,description,acres"))
        process.stdout.close()
        said = process.stderr.read()
        process.wait(timeout=60)
        feeding.join()
        self.assertEqual((process.returncode, said), (141, b""))
        process.stderr.close()

    def test_closed_pipe_in_a_shell(self):
        listed = self.put("id,description\n" + "7,sec. 14.\n" * 50_000)
        words = " ".join(command(NOTES, listed))
        run = subprocess.run(["bash", "-c", f"{words} | head -n 1; echo ${{PIPESTATUS[0]}}"], capture_output=True)
        self.assertEqual(run.stdout.splitlines()[-1], b"141")
        self.assertEqual(run.stderr, b"")


class OnATerminal(BatchCase):
    #: The command, in a Python without these packages.
    WITHOUT = "import sys; sys.modules.update(dict.fromkeys({})); from township._command import main; sys.exit(main())"

    def said(self, without=()):
        """The text shown on a terminal in place of standard error."""
        listed = self.put("id,description\n" + "7,sec. 14.\n" * 30_000)
        words = [sys.executable, "-c", self.WITHOUT.format(repr(list(without))), "batch", NOTES, listed]
        master, slave = pty.openpty()
        with open(self.folder / "answers.csv", "wb") as output:
            process = subprocess.Popen(words, stdout=output, stderr=slave, env={**os.environ, "TERM": "xterm"})
        os.close(slave)
        shown = b""
        while True:
            try:
                more = os.read(master, 1 << 16)
            except OSError:
                break
            if not more:
                break
            shown += more
        os.close(master)
        self.assertEqual(process.wait(timeout=60), 0)
        return shown

    SUMMARY = b"township: 30000 records: 30000 accepted, 0 not"

    def test_without_a_bar(self):
        said = self.said(without=["tqdm", "rich", "rich.console", "rich.progress"])
        self.assertEqual(said.strip(), self.SUMMARY)

    @unittest.skipUnless(find_spec("tqdm"), "tqdm isn't installed")
    def test_bar_of_tqdm(self):
        said = self.said()
        self.assertIn(b"B/s", said)
        self.assertIn(self.SUMMARY, said)

    @unittest.skipUnless(find_spec("rich"), "rich isn't installed")
    def test_bar_of_rich(self):
        said = self.said(without=["tqdm"])
        self.assertIn(b"%", said)
        self.assertIn(self.SUMMARY, said)

    def test_nothing_is_shown_elsewhere(self):
        self.assertEqual(len(self.batch("description\n" + "sec. 14.\n" * 30_000, status=0)), 30_001)


if __name__ == "__main__":
    unittest.main()
