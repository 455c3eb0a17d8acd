"""`play`: the scenario's text, the book of what waits, and the rounds against worked cases of document 01."""
import json
import os
import tempfile
import unittest

from j1850 import scenario, waiting
from j1850.trouble import Trouble

from .support import ROOT, needs_library, run

CONTEST = str(ROOT / "examples" / "contest.txt")
FF_AND_FF_FF = b"station a short 49 long 112 sof 182\nstation b\nload a FF\nload b FF FF\nround\n"


def play(text, *options):
    """A scenario played from standard input."""
    return run("play", *options, "-", given=text)


class Text(unittest.TestCase):
    def test_steps(self):
        names, steps = scenario.steps("x", b"# a comment\n\nstation engine sof 190\nload engine 48 6b10 # and one more\nround 3\n")
        self.assertEqual(names, ["engine"])
        self.assertEqual(steps[0], (3, "station", 0, (64, 128, 190)))
        self.assertEqual(steps[1], (4, "load", 0, bytes.fromhex("486B10")))
        self.assertEqual(steps[2], (5, "round", None, 3))

    def test_a_bad_line_is_told_with_its_number(self):
        for bad in ("stations a", "station", "load", "load b 00", "load a 0", "load a xx", "withdraw", "withdraw a a", "clock a short",
                    "clock a wide 3", "clock a short -3", "clock a short 4294967296", "round 0", "round -1", "round 1 2", "round x",
                    "round 10001", "station a", "station \x01", "\0"):
            with self.assertRaises(Trouble, msg=bad) as caught:
                scenario.steps("x", f"station a\n{bad}\n".encode())
            self.assertTrue(str(caught.exception).startswith("x: line 2: "), caught.exception)
        for data in (b"station a\n\xff\n", b"station a\nload a 00\nstation b\n"):
            with self.assertRaises(Trouble):
                scenario.steps("x", data)


class Waits(unittest.TestCase):
    def test_ahead_is_the_order_of_document_01(self):
        shorter, longer = bytes.fromhex("FFFF"), bytes.fromhex("FFFF3B")
        self.assertTrue(waiting.ahead(longer, shorter) and not waiting.ahead(shorter, longer))
        self.assertTrue(waiting.ahead(b"\x00\x3b", shorter) and not waiting.ahead(shorter, b"\x00\x3b"))
        self.assertFalse(waiting.ahead(shorter, shorter))

    def test_equal_messages_ahead_count_once(self):
        book = waiting.Book()
        for place in range(3):
            book.loaded(place, b"\x00\x3b")
        book.loaded(3, b"\xff\xff")
        self.assertEqual((book.waiting[3].ahead, book.waiting[3].by), (1, 2))
        book.played([0, 1, 2])
        book.loaded(0, b"\x00\x3b")
        self.assertEqual((book.waiting[3].loadings, book.waiting[3].by, book.waiting[0].by), (1, 3, 2))


@needs_library
class Play(unittest.TestCase):
    def rounds(self, text, *options):
        """The records of a scenario's rounds."""
        status, out, err = play(text, "--json", *options)
        self.assertEqual((status, err), (0, ""))
        return [json.loads(row) for row in out.splitlines()]

    def test_document_01s_worked_case(self):
        lost, won = self.rounds(FF_AND_FF_FF)
        self.assertEqual((lost["fared"], lost["bit"], lost["sent"], lost["line"], lost["line_time"]), ("lost", 17, "nothing", 0, 2740))
        self.assertEqual((won["fared"], won["message"]), ("through", "FF FF 3B"))

    def test_three_go_out_in_rounds_1_3_2(self):
        records = self.rounds(b"station a\nstation b\nstation c\nload a 00\nload b FF\nload c FF FF\nround 3\n")
        self.assertEqual([r["station"] for r in records if r["fared"] == "through"], ["a", "c", "b"])

    def test_nobody_goes_out_later_than_promised(self):
        with open(CONTEST, "rb") as file:
            records = self.rounds(file.read())
        through = [record for record in records if record["fared"] == "through"]
        self.assertEqual([record["station"] for record in through], ["dash", "dash", "brakes", "engine"])
        self.assertTrue(all(record["round"] <= record["by"] for record in through))

    def test_table_and_tsv(self):
        status, out, _ = run("play", CONTEST)
        self.assertEqual(status, 0)
        self.assertIn("round 1: dash got through with 08 FF 20 10 73, 4154 us\n", out)
        self.assertIn("  brakes   08 FF 20        lost     25   nothing  0     0  1  2\n", out)
        self.assertEqual(run("play", "--tsv", CONTEST)[1].splitlines()[1], "1\t4154\tengine\t48 6B 10 41\tlost\t2\t1\t0\t0\t2\t3")
        self.assertIn("waiting: a, FF FF: demand 3 promises round 2 at the latest (A 0, L 1)\n", play(FF_AND_FF_FF)[1])

    def test_the_line_is_read_by_the_desk(self):
        with tempfile.TemporaryDirectory() as folder:
            path = os.path.join(folder, "line.txt")
            self.assertEqual(run("play", CONTEST, "--line", path)[0], 0)
            text = run("desk", "--tsv", path)[1]
        self.assertEqual([row.split("\t")[4] for row in text.splitlines()[1:]], ["08FF201073", "0001A3", "08FF20", "486B1041", "-"])

    def test_refusals_stand_at_their_line(self):
        row = "".join(f"station s{i}\n" for i in range(33))
        for text, line, number in (
            ("station a short 80\n", 1, 36), (row, 33, 38), ("round\n", 1, 38), ("station a\nround\n", 2, 42),
            ("station a\nload a\n", 2, 37), (f"station a\nload a {'00' * 12}\n", 2, 37), ("station a\nload a 00\nload a 01\n", 3, 41),
            ("station a\nwithdraw a\n", 2, 42), ("station a\nload a 00\nclock a long 99\n", 3, 36),
        ):
            status, _, err = play(text.encode())
            self.assertEqual(status, 1, text)
            self.assertTrue(err.startswith(f"j1850: standard input: line {line}: refused with {number}: "), err)

    def test_what_cannot_be_read_is_2(self):
        self.assertEqual(run("play", "no such file")[0], 2)
        self.assertEqual(play(b"stations\n")[0], 2)
