"""Batches in several processes: their answers are those of one, however they end."""
import os
import signal
import subprocess
import threading
import time
import unittest
from pathlib import Path
from unittest import mock

from batches import ADDED, EVEN_NOTES, NOTES, BatchCase, command, feed, records

#: Accepted and refused descriptions, and records with faults of all kinds.
MIXED = "id,description,county\n" + "".join(
    f'{k},"sec. {k % 40 + 1}, NE1/4",Lane\n'
    f'{k},sec. 14\n\n{k},sec. 14, NE1/4,Lane,x\n"{k}"x,sec. 14,Lane\n{k},sec. 5,Doña\n'
    for k in range(100)
)


def children_of(process):
    """The processes that a process has started."""
    try:
        return list(map(int, Path(f"/proc/{process.pid}/task/{process.pid}/children").read_text().split()))
    except FileNotFoundError:
        raise unittest.SkipTest("the system does not list the children of a process") from None


class Jobs(BatchCase):
    def same(self, *words, jobs=(2, 3), chunks=(1, 7, 1000)):
        """Expects the same output, errors, and status from several processes as from one. Returns them."""
        one = self.run_words("batch", *words)
        for count in jobs:
            for size in chunks:
                with self.subTest(jobs=count, chunk=size), mock.patch("township._batch.workers._CHUNK", size):
                    run = self.run_words("batch", *words, "--jobs", count)
                    self.assertEqual((run.returncode, run.stderr), (one.returncode, one.stderr))
                    self.assertEqual(run.stdout, one.stdout)
        return one

    def test_records_and_faults(self):
        run = self.same(NOTES, self.put(MIXED))
        self.assertEqual((run.returncode, len(records(run.stdout))), (1, 501))

    def test_short_lists(self):
        for data in ("description\n", "description\nsec. 14.\n", "description\nsec. 14.\nsec. 15.\n"):
            self.same(NOTES, self.put(data), jobs=(2, 5))

    def test_bytes_that_are_not_utf_8(self):
        run = self.same(NOTES, self.put(b"description\n" + b"sec. 14\xbd\n" * 10))
        self.assertIn(b"township: 10 of the descriptions are not UTF-8", run.stderr)

    def test_separator_and_mark(self):
        data = b"\xef\xbb\xbfdescription;x\r\n" + b'"sec. 14;\r\nsec. 15.";y\r\n' * 10
        self.assertEqual(self.same(NOTES, self.put(data)).returncode, 0)

    def test_townships_on_the_first_meridian(self):
        # The first meridian is in the third record, and then counts for all.
        self.put_notes("plats/b1.csv")
        self.put_notes("plats/b0.csv", "T,3,S,4,E", EVEN_NOTES)
        rows = ["T2N R3W,,sec. 14.", "T9N R9W,Ute,sec. 14.,x", "T3S R4E,Boise,sec. 14.", "T2N R3W,Ute,sec. 14."]
        listed = self.put("township,meridian,description\n" + "\n".join(rows * 5) + "\n")
        run = self.same("--plats", self.folder / "plats", listed)
        acres = [row[3] for row in records(run.stdout)[1:]]
        self.assertEqual(acres, ["640.00", "", "640.00", ""] * 5)

    def test_resumed(self):
        whole = self.run_words("batch", NOTES, self.put(MIXED)).stdout
        for end in (0, 30, len(whole) // 3, len(whole) - 1):
            made = self.put(whole[:end], "answers.csv")
            words = ("batch", NOTES, self.put(MIXED), "--output", made, "--resume", "--jobs", 2)
            self.assertEqual(self.run_words(*words).returncode, 1)
            self.assertEqual(made.read_bytes(), whole)

    def test_processes_that_cannot_be_started(self):
        failing = mock.patch("multiprocessing.context.ForkProcess.start", side_effect=OSError(11, "Try again"))
        with failing:
            run = self.run_words("batch", NOTES, self.put("description\nsec. 14.\n"), "--jobs", 2)
        self.assertEqual((run.returncode, run.stdout), (3, b""))
        self.assertEqual(run.stderr, b"township: cannot start a process: Try again\n")

    def test_wrong_numbers(self):
        for count in ("0", "-1", "1.5", "x", "", "1025"):
            run = self.run_words("batch", NOTES, self.put("description\n"), f"--jobs={count}")
            self.assertEqual((run.returncode, run.stdout), (2, b""))
            self.assertIn(f"--jobs: `{count}` is not a number of processes, 1 to 1,024".encode(), run.stderr)


class Ended(BatchCase):
    """A batch in several processes whose list never ends."""

    def start(self, *words, **named):
        pipes = {"stdin": subprocess.PIPE, "stdout": subprocess.PIPE, "stderr": subprocess.PIPE, **named}
        process = subprocess.Popen(command(NOTES, "-", "--jobs", 2, *words), bufsize=0, **pipes)
        self.addCleanup(process.kill)
        feeding = threading.Thread(target=feed, args=(process.stdin,))
        feeding.start()
        self.addCleanup(feeding.join)
        for stream in (process.stdout, process.stderr):
            self.addCleanup(lambda stream=stream: stream and stream.close())
        return process

    def await_answers(self, process, made):
        """Waits until there are answers."""
        while not made.exists() or made.stat().st_size < 200_000:
            self.assertIsNone(process.poll())

    def assert_gone(self, numbers):
        """Expects that processes end soon."""
        until = time.monotonic() + 30
        while any(Path(f"/proc/{number}").exists() for number in numbers):
            self.assertLess(time.monotonic(), until, f"{numbers} have not ended")
            time.sleep(0.01)

    def test_ctrl_c_on_a_terminal(self):
        # It goes to all processes.
        made = self.folder / "answers.csv"
        process = self.start("--output", made, start_new_session=True)
        self.await_answers(process, made)
        children = children_of(process)
        os.killpg(process.pid, signal.SIGINT)
        said = process.stderr.read()
        self.assertEqual(process.wait(timeout=60), 130)
        self.assertRegex(said, rb"\Atownship: interrupted after [0-9]+ records\n\Z")
        rows = records(made.read_bytes())
        self.assertEqual({len(row) for row in rows}, {2 + len(ADDED)})
        self.assertEqual(len(rows) - 1, int(said.split()[3]))
        self.assertTrue(made.read_bytes().endswith(b"\n"))
        self.assertEqual(len(children), 2)
        self.assert_gone(children)

    def test_closed_pipe(self):
        process = self.start()
        self.assertTrue(process.stdout.read(100).startswith(b"id,description,acres"))
        children = children_of(process)
        process.stdout.close()
        self.assertEqual((process.stderr.read(), process.wait(timeout=60)), (b"", 141))
        self.assert_gone(children)

    def test_first_process_is_killed(self):
        made = self.folder / "answers.csv"
        process = self.start("--output", made)
        self.await_answers(process, made)
        children = children_of(process)
        process.kill()
        self.assertEqual((process.stderr.read(), process.wait(timeout=60)), (b"", -signal.SIGKILL))
        self.assert_gone(children)

    def test_other_process_is_killed(self):
        # As the system does where memory runs out.
        made = self.folder / "answers.csv"
        process = self.start("--output", made)
        self.await_answers(process, made)
        children = children_of(process)
        os.kill(children[0], signal.SIGKILL)
        said = process.stderr.read()
        self.assertEqual(process.wait(timeout=60), 3)
        self.assertRegex(said, rb"\Atownship: a process that answers [^\n]*; perhaps memory ran out\n\Z")
        self.assertEqual({len(row) for row in records(made.read_bytes())}, {2 + len(ADDED)})
        self.assert_gone(children)

    def test_memory_that_runs_out(self):
        with mock.patch("township._batch.answers.Answers.added_to_all", side_effect=MemoryError):
            run = self.run_words("batch", NOTES, self.put("description\nsec. 14.\n"), "--jobs", 2)
        self.assertEqual((run.returncode, run.stderr), (3, b"township: out of memory\n"))

    @unittest.skipUnless(os.path.exists("/dev/full"), "there is no /dev/full")
    def test_full_disk(self):
        listed = self.put("description\n" + "sec. 14.\n" * 5000)
        with open("/dev/full", "wb") as full:
            run = self.run_command("batch", NOTES, listed, "--jobs", 2, stdout=full)
        self.assertEqual(run.returncode, 3)
        self.assertRegex(run.stderr, rb"\Atownship: cannot write: [^\n]*\n\Z")


if __name__ == "__main__":
    unittest.main()
