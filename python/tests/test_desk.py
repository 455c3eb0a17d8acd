"""`desk`, `send` and `live`: their output, and that they agree with one another."""
import json
import os
import re
import tempfile
import unittest

from j1850 import cli

from .support import ROOT, TRUCK, needs_library, run

EXPECTED = (ROOT / "crates" / "desk" / "stdout").read_text()


class Pages(unittest.TestCase):
    """What needs no library."""

    def test_version_is_the_headers(self):
        header = (ROOT / "include" / "j1850.h").read_text()
        version = re.search(r'^#define J1850_VERSION "(.*)"', header, re.M)[1]
        self.assertEqual(run("--version"), (0, f"j1850 {version}\n", ""))

    def test_help(self):
        for command in cli.COMMANDS:
            status, out, err = run(command, "--help")
            self.assertEqual((status, err), (0, ""))
            self.assertIn("Exit status", out)

    def test_bad_usage_is_2_and_no_traceback(self):
        for arguments in ((), ("nothing",), ("desk",), ("desk", "--tsv", "--json", TRUCK), ("send", "00", "--clock", "64,128"),
                          ("send", "00", "--clock", "64,128,-1"), ("send", "00", "--plain", "0")):
            status, out, err = run(*arguments)
            self.assertEqual((status, out), (2, ""), arguments)
            self.assertIn("usage", err)


@needs_library
class Desk(unittest.TestCase):
    def test_tsv_is_the_desks_text(self):
        self.assertEqual(run("desk", "--tsv", TRUCK), (0, EXPECTED, ""))
        with open(TRUCK, "rb") as file:
            self.assertEqual(run("desk", "--tsv", "-", given=file.read()), (0, EXPECTED, ""))

    def test_table_has_the_same_fields_and_words(self):
        status, out, _ = run("desk", TRUCK)
        self.assertEqual(status, 0)
        for due, row in zip(EXPECTED.splitlines(), out.splitlines()):
            self.assertEqual(row.split()[:6], due.split("\t"))
        self.assertIn("a check byte is wrong", out)

    def test_json_has_the_same_fields(self):
        status, out, _ = run("desk", "--json", TRUCK)
        records = [json.loads(row) for row in out.splitlines()]
        self.assertEqual(status, 0)
        for due, record in zip(EXPECTED.splitlines()[1:], records):
            fields = [record[name] for name in ("customer", "vehicle", "at", "kind", "main", "response")]
            self.assertEqual(["-" if field is None else str(field) for field in fields], due.split("\t"))
        self.assertEqual(records[3]["words"], "a check byte is wrong")

    def test_a_refused_recording_has_its_reason_and_stops_no_other(self):
        reasons = {
            b"": (1, "the input has no such line"),
            b"own\tc\tv\niv\t300\r\n": (2, "a carriage return stands before its newline"),
            b"own\tc\tv\niv\t0300\n": (2, "it is not iv and a width, parted by a tab"),
            b"own\tc\tv\niv\t300": (2, "no newline closes it"),
            b"own\tc v\n": (1, "it is not own, customer and vehicle, parted by tabs"),
            b"own\tc\tv\n" + b"iv\t1\n" * 16385: (16386, "16384 lines with a width stand before it"),
            b"\xff" * 300000: (1, "no newline closes it"),
        }
        for data, (number, why) in reasons.items():
            status, out, err = run("desk", "--tsv", "-", given=data)
            self.assertEqual((status, out), (1, f"refused\t{number}\n"))
            self.assertEqual(err, f"j1850: standard input: refused with 62: the desk's input is bad: line {number}: {why}\n")
        status, out, err = run("desk", "--json", "-", TRUCK)
        self.assertEqual((status, len(out.splitlines())), (1, 11))
        self.assertEqual(json.loads(out.splitlines()[0])["line"], 1)

    def test_a_file_that_cannot_be_read_is_2(self):
        status, out, err = run("desk", "no such file")
        self.assertEqual((status, out, err), (2, "", "j1850: no such file: No such file or directory\n"))
        self.assertEqual(run("desk", str(ROOT))[0], 2)


@needs_library
class Send(unittest.TestCase):
    def test_what_is_sent_is_read_by_the_desk(self):
        status, out, err = run("send", "08 FF 10", "--plain", "28", "--customer", "c17", "--vehicle", "v204")
        self.assertEqual((status, err), (0, ""))
        self.assertEqual(run("desk", "--tsv", "-", given=out.encode())[1].splitlines()[1], "c17\tv204\t0\tframe\t08FF1071\tp:28")

    def test_every_form_has_the_same_widths(self):
        message = ("send", "68", "6A", "F1", "--clock", "49,112,182")
        widths = [int(row[3:]) for row in run(*message)[1].splitlines()[1:]]
        records = [json.loads(row) for row in run(*message, "--json")[1].splitlines()]
        self.assertEqual([record["width"] for record in records], widths)
        self.assertEqual([record["symbol"] for record in records[:2]], ["IFS", "SOF"])
        times = [int(time) for time in re.findall(r"^#(\d+)$", run(*message, "--vcd")[1], re.M)]
        self.assertEqual([after - before for before, after in zip(times, times[1:])], widths)

    def test_into_a_file(self):
        with tempfile.TemporaryDirectory() as folder:
            path = os.path.join(folder, "frame.txt")
            self.assertEqual(run("send", "00", "-o", path), (0, "", ""))
            with open(path) as file:
                self.assertEqual(file.read(), run("send", "00")[1])
            self.assertEqual(run("send", "00", "-o", folder)[0], 2)

    def test_refusals_have_their_number_and_words(self):
        self.assertEqual(run("send", "00", "--clock", "80,128,200"), (1, "", "j1850: refused with 36: the clock is outside the sending windows\n"))
        self.assertEqual(run("send", "00" * 12), (1, "", "j1850: refused with 37: the message is empty or too long\n"))
        self.assertEqual(run("send", "00", "--plain", ""), (1, "", "j1850: refused with 37: the message is empty or too long\n"))
        self.assertEqual(run("send", "00", "--customer", "a b")[0], 1)
        self.assertEqual(run("send", "0g")[0], 2)


@needs_library
class Live(unittest.TestCase):
    def test_a_recording_gives_the_desks_text(self):
        with open(TRUCK, "rb") as file:
            data = file.read()
        self.assertEqual(run("live", "--tsv", given=data), (0, EXPECTED, ""))
        bare = b"".join(row[3:] + b"\n" for row in data.splitlines()[1:])
        owner = ("--customer", "haulier-7", "--vehicle", "truck_12")
        self.assertEqual(run("live", "--tsv", *owner, given=bare), (0, EXPECTED, ""))
        self.assertEqual(len(run("live", "--json", given=data)[1].splitlines()), len(EXPECTED.splitlines()) - 1)
        self.assertIn("noise inside a frame", run("live", given=data)[1])

    def test_nothing_is_quiet(self):
        self.assertEqual(run("live", "--tsv")[1].splitlines()[1:], ["-\t-\t0\tquiet\t-\t-"])

    def test_a_bad_line_is_told(self):
        for bad in (b"x", b"-1", b"4294967296", b"iv\t1\t2", b"own\ta\tb", b"\xff", b""):
            status, _, err = run("live", given=b"300\n" + bad + b"\n")
            self.assertEqual(status, 2, bad)
            self.assertIn("line 2: ", err)
