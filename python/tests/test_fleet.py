"""`fleet`: its table beside the desk's texts, in which order, and that a stopped command goes on without losing or repeating anything."""
import json
import os
import pathlib
import signal
import tempfile
import time
import unittest

from j1850 import batches, cli, fleet, ledger

from .support import TRUCK, needs_library, run

HEADING = "\t".join(batches.COLUMNS) + "\n"
SUMMARY = "j1850: {} recordings: {} read, {} refused, {} unreadable\n"


def small(vehicle):
    """A small recording: a fault, and then quiet."""
    return f"own\tfleet\t{vehicle}\niv\t300\niv\t64\n"


def lines_of(path, vehicle):
    """What the table has of a small recording."""
    return f"{path}\tfleet\t{vehicle}\t1\tfault-12\t-\t-\n{path}\tfleet\t{vehicle}\t1\tquiet\t-\t-\n"


class Folder(unittest.TestCase):
    """A test with a folder of its own."""

    def setUp(self):
        folder = tempfile.TemporaryDirectory()
        self.addCleanup(folder.cleanup)
        self.folder = pathlib.Path(folder.name)
        self.table = self.folder / "table.tsv"

    def filled(self, count):
        """So many small recordings in a folder, and what the table has of them."""
        inside = self.folder / "in"
        inside.mkdir()
        due = [HEADING]
        for number in range(count):
            path = inside / f"{number:05}.txt"
            path.write_text(small(number))
            due.append(lines_of(path, number))
        return inside, "".join(due)

    def leftovers(self):
        return [path.name for path in self.folder.iterdir() if path.name.startswith("table.tsv.")]


class Written(Folder):
    """What needs no library: the table that is written bit by bit."""

    def test_a_cut_piece_is_written_again_and_none_twice(self):
        first = ledger.Ledger(str(self.table), "plan")
        self.assertEqual(first.begin(b"heading\n"), 0)
        first.add(b"one\n", 2)
        first.table.write(b"cut of")
        first.close()
        again = ledger.Ledger(str(self.table), "plan")
        self.assertEqual(again.begin(b"heading\n"), 2)
        again.add(b"two\n", 1)
        again.end()
        self.assertEqual(self.table.read_bytes(), b"heading\none\ntwo\n")
        self.assertEqual(self.leftovers(), [])

    def test_a_cut_line_of_the_journal_does_not_count(self):
        first = ledger.Ledger(str(self.table), "plan")
        first.begin(b"")
        first.add(b"one\n", 1)
        first.table.write(b"two\n")
        first.lines.write("2 8")
        first.close()
        again = ledger.Ledger(str(self.table), "plan")
        self.assertEqual(again.begin(b""), 1)
        again.end()
        self.assertEqual(self.table.read_bytes(), b"one\n")

    def test_a_table_of_others_is_not_gone_on_with(self):
        first = ledger.Ledger(str(self.table), "plan")
        first.begin(b"heading\n")
        first.close()
        status, out, err = run("fleet", self.folder, "-o", self.table)
        self.assertEqual((status, out), (2, ""))
        self.assertIn("other recordings", err)
        self.assertEqual(pathlib.Path(f"{self.table}.part").read_bytes(), b"heading\n")

    def test_odd_names_stay_in_their_field(self):
        self.assertEqual(batches.shown("a\tb\nc\x1b é"), r"a\tb\nc\x1b é")
        self.assertEqual(batches.shown(b"\xff".decode("utf-8", "surrogateescape")), r"\xff")

    def test_bad_usage(self):
        for arguments in (("fleet",), ("fleet", self.folder / "missing"), ("fleet", self.folder, "--jobs", "0"), ("fleet", self.folder, "--jobs", "x"),
                          ("fleet", self.folder, "-o", self.folder / "no" / "table")):
            status, out, err = run(*arguments)
            self.assertEqual((status, out), (2, ""), arguments)
            self.assertTrue(err)


@needs_library
class Table(Folder):
    def test_each_line_is_the_desks_after_its_file(self):
        inside = self.folder / "in"
        (inside / "b").mkdir(parents=True)
        for name in ("b/2", "a", "c"):
            (inside / name).write_bytes(pathlib.Path(TRUCK).read_bytes())
        text = run("desk", "--tsv", TRUCK)[1].splitlines(keepends=True)[1:]
        due = HEADING + "".join(f"{inside / name}\t{line}" for name in ("a", "b/2", "c") for line in text)
        self.assertEqual(run("fleet", inside, "--jobs", "1"), (0, due, SUMMARY.format(3, 3, 0, 0)))
        self.assertEqual(run("fleet", inside, "--jobs", "2", "-o", self.table)[:2], (0, ""))
        self.assertEqual(self.table.read_text(), due)

    def test_json_has_the_desks_records(self):
        listed = self.folder / "list"
        listed.write_text(f"{TRUCK}\n{self.folder}/missing\n")
        status, out, _ = run("fleet", listed, "--json")
        desks = run("desk", "--json", TRUCK)[1]
        self.assertEqual((status, out[: len(desks)]), (2, desks))
        self.assertEqual(json.loads(out[len(desks) :])["kind"], "unreadable")

    def test_one_that_is_refused_or_unreadable_is_a_line(self):
        good, bad = self.folder / "good", self.folder / "bad"
        good.write_text(small("v"))
        bad.write_bytes(b"own\tfleet\tv\r\n")
        listed = self.folder / "list"
        for names, status, counts in (((good, bad), 1, (2, 1, 1, 0)), ((bad, "none", good), 2, (3, 1, 1, 1))):
            listed.write_text("".join(f"{name}\n" for name in names))
            ended, out, err = run("fleet", listed)
            self.assertEqual(ended, status)
            self.assertEqual(out.count(lines_of(good, "v")), 1)
            self.assertIn(f"{bad}\t-\t-\t1\trefused\t-\t-\n", out)
            self.assertEqual("none\t-\t-\t-\tunreadable\t-\t-\n" in out, status == 2)
            self.assertIn("a carriage return stands before its newline", err)
            self.assertTrue(err.endswith(SUMMARY.format(*counts)))

    def test_killed_in_the_middle_and_begun_again(self):
        inside, due = self.filled(200)
        child = os.fork()
        if child == 0:  # slow enough to be killed in the middle
            add = ledger.Ledger.add
            ledger.Ledger.add = lambda *given: (add(*given), time.sleep(0.05))
            os._exit(cli.main(["fleet", str(inside), "-o", str(self.table), "--jobs", "1"]))
        journal = pathlib.Path(f"{self.table}.journal")
        while not journal.exists() or journal.read_text().count("\n") < 3:
            time.sleep(0.005)
        os.kill(child, signal.SIGKILL)
        self.assertEqual(os.waitpid(child, 0)[1], signal.SIGKILL)
        finished = int(journal.read_text().splitlines()[-1].split()[0])
        self.assertTrue(0 < finished < 200)
        status, _, err = run("fleet", inside, "-o", self.table)
        self.assertEqual(status, 0)
        self.assertIn(f": {200 - finished} read, 0 refused, 0 unreadable, after {finished} from before", err)
        self.assertEqual(self.table.read_text(), due)
        self.assertEqual(self.leftovers(), [])

    def test_ten_thousand(self):
        inside, due = self.filled(10000)
        self.assertEqual(run("fleet", inside, "-o", self.table)[0], 0)
        self.assertTrue(self.table.read_text() == due, "the table of ten thousand recordings is another")

    def test_on_two_workers_of_dask(self):
        try:
            from distributed import LocalCluster
        except ImportError:
            self.skipTest("the Python package distributed is not installed (Debian's python3-distributed)")
        inside, due = self.filled(100)
        with LocalCluster(n_workers=2, threads_per_worker=1, dashboard_address=None) as cluster:
            self.assertEqual(run("fleet", inside, "-o", self.table, "--scheduler", cluster.scheduler_address)[0], 0)
        self.assertEqual(self.table.read_text(), due)


class Bar(unittest.TestCase):
    def test_no_bar_without_a_terminal(self):
        bar = fleet.Bar(10, 0)
        self.assertFalse(bar.drawn)
