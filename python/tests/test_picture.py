"""`picture`: a round as XML whose numbers are the library's, and the page around it."""
import json
import os
import re
import shutil
import subprocess
import tempfile
import unittest
from xml.etree import ElementTree

from j1850 import contest, excerpt, files, find, lanes, library, page, told

from .support import ROOT, TRUCK, needs_library, run

CONTEST = str(ROOT / "examples" / "contest.txt")
BROWSER = next((path for path in map(shutil.which, ("chromium", "chromium-browser", "google-chrome")) if path), None)


def marked(root, name):
    """The elements of a class."""
    return [element for element in root.iter() if element.get("class") == name]


def made_up():
    """A round as the library answers it for FF and FF FF, kept here so that drawing can be tested without it."""
    words = [300, 200] + [128, 64] * 8 + [64, 128, 128, 64, 128, 128, 128, 64] + [300]
    zero, one = library.BIT_0, library.BIT_1
    symbols = [library.IFS, library.SOF] + [one] * 16 + [zero, zero, one, one, one, zero, one, one] + [library.IFS]
    loser = contest.Lane("a <&> b", (49, 112, 182), b"\xff\xff", "lost", 17, None, 0, None)
    winner = contest.Lane("b" * 40, (64, 128, 200), b"\xff\xff\x3b", "through", 0, None, None, None)
    idle = contest.Lane("c", (64, 128, 200), b"", "idle", 0, None, None, None)
    return contest.Round(1, words, symbols, b"\xff\xff\x3b", sum(words[:-1]), [loser, winner, idle])


class Drawn(unittest.TestCase):
    """What needs no library."""

    def test_names_are_escaped_and_shown_as_far_as_there_is_room(self):
        root = ElementTree.fromstring(lanes.draw(made_up()))
        texts = ["".join(element.itertext()) for element in root.iter("{http://www.w3.org/2000/svg}text")]
        self.assertIn("a <&> b", texts)
        self.assertIn("b" * 23 + "…", texts)
        self.assertIn("idle: no message", texts)
        self.assertIn("stops at bit 17: nothing left, line had 0", texts)

    def test_the_page_is_one_file_that_names_nothing_outside(self):
        text = page.of_round(made_up(), lanes.draw(made_up()))
        self.assertEqual(re.findall(r"(?:src|href)=|@import|url\(", text), [])
        self.assertEqual(set(re.findall(r"https?://[^\"']*", text)), {"http://www.w3.org/2000/svg"})
        steps = json.loads(re.search(r"const steps = (.*);", text)[1])
        self.assertEqual([place + 1 for place, step in enumerate(steps) if step["marked"]], [17])
        self.assertIn("stops here: a <&> b", steps[16]["told"])


@needs_library
class Pictures(unittest.TestCase):
    def drawn(self, number, *options):
        """The picture of a round of the bundled contest."""
        status, out, err = run("picture", CONTEST, "--round", number, *options)
        self.assertEqual((status, err), (0, ""))
        return out

    def test_numbers_are_the_librarys(self):
        for played in contest.rounds(find.found(), CONTEST)[1]:
            root = ElementTree.fromstring(self.drawn(played.number))
            words = marked(root, "word")
            self.assertEqual([int(word.get("data-width")) for word in words], played.words)
            self.assertEqual([library.SYMBOLS.index(word.get("data-symbol")) for word in words], played.symbols)
            lost = [(mark.get("data-station"), int(mark.get("data-bit")), mark.get("data-sent"), mark.get("data-line")) for mark in marked(root, "lost")]
            due = [(lane.name, lane.bit, "" if lane.own is None else str(lane.own), str(lane.line)) for lane in played.lanes if lane.fared == "lost"]
            self.assertEqual(lost, due)
            through = [mark.get("data-station") for mark in marked(root, "through")]
            self.assertEqual(through, [lane.name for lane in played.lanes if lane.fared == "through"])

    def test_32_stations_fit(self):
        rows = [f"station s{i}\n" for i in range(32)] + [f"load s{i} {i + 1:02X} {'55' * 10}\n" for i in range(32)] + ["round\n"]
        status, out, _ = run("picture", "-", given="".join(rows).encode())
        root = ElementTree.fromstring(out)
        self.assertEqual((status, len(marked(root, "lost")), len(marked(root, "through"))), (0, 31, 1))
        wide, high = float(root.get("width")), float(root.get("height"))
        for element in root.iter():
            if element.get("x") is not None:
                self.assertTrue(0 <= float(element.get("x")) <= wide and 0 <= float(element.get("y")) <= high)

    def test_a_round_that_is_not_there(self):
        self.assertEqual(run("picture", CONTEST, "--round", 5)[2], f"j1850: {CONTEST}: it has no round 5, only 4\n")
        for bad in ("0", "-1", "x"):
            self.assertEqual(run("picture", CONTEST, "--round", bad)[0], 2)

    def test_every_frame_and_fault_of_a_recording(self):
        line = find.found()
        widths = files.recording(line, TRUCK)[2]
        for answer, main, response in line.frames(widths):
            at, kind, *_ = told.columns_of(answer, main, response)
            status, out, err = run("picture", TRUCK, "--at", at)
            self.assertEqual((status, err), (0, ""))
            root = ElementTree.fromstring(out)
            for each in marked(root, "interval"):
                place = int(each.get("data-place"))
                self.assertEqual(int(each.get("data-width")), widths[place])
                self.assertEqual(each.get("data-symbol"), library.SYMBOLS[line.symbol(place % 2 == 1, widths[place])])
            faults = [(int(mark.get("data-place")), int(mark.get("data-number"))) for mark in marked(root, "fault")]
            self.assertEqual(faults, [(at, answer.number)] if answer.number in library.FAULTS else [])
            if answer.number == library.FRAME:
                shown = [part.said for part in excerpt.excerpt(line, TRUCK, at).bytes if part.said != "NB"]
                self.assertEqual(bytes.fromhex("".join(shown)), main + response)
                self.assertEqual(marked(root, "interval")[0].get("data-place"), str(answer.opening))

    def test_windows_are_document_01s(self):
        line = find.found()
        for active, width, due in ((False, 0, (0, 34)), (True, 96, (35, 96)), (False, 97, (97, 163)), (True, 200, (164, 239)),
                                   (False, 280, (240, 280)), (False, 300, (281, None)), (True, 700, (240, 999999)), (True, 2**32 - 1, (1000000, None))):
            self.assertEqual(excerpt.window(line, active, width), due)

    def test_a_place_without_a_frame(self):
        status, _, err = run("picture", TRUCK, "--at", 7)
        self.assertEqual((status, err), (2, f"j1850: {TRUCK}: no frame and no fault stands at 7; `j1850 desk` lists where they stand\n"))
        self.assertEqual(run("picture", TRUCK, "--at", "x")[0], 2)
        self.assertEqual(run("picture", "-", "--at", "0", given=b"own\n")[0], 1)
        self.assertEqual(run("picture", TRUCK)[0], 2)

    @unittest.skipUnless(BROWSER, "no Chromium is installed: the page is not opened in a browser")
    def test_the_page_in_a_browser(self):
        text = self.drawn(1, "--html")
        probe = """<script>
        const key = k => document.dispatchEvent(new KeyboardEvent("keydown", {key: k}));
        key("l"); key("l"); document.body.dataset.told = document.getElementById("told").textContent;
        key("+"); document.body.dataset.wide = svg.getAttribute("width") / wide;
        document.body.dataset.x = cursor.getAttribute("x");
        </script></body>"""
        with tempfile.TemporaryDirectory() as folder:
            path = os.path.join(folder, "page.html")
            with open(path, "w", encoding="utf-8") as file:
                file.write(text.replace("</body>", probe))
            command = [BROWSER, "--headless", "--no-sandbox", "--disable-gpu", f"--user-data-dir={folder}/own", "--enable-logging=stderr", "--dump-dom"]
            ended = subprocess.run([*command, f"file://{path}"], capture_output=True, text=True, timeout=120)
        self.assertNotIn("CONSOLE", ended.stderr)
        self.assertIn('data-wide="1.25"', ended.stdout)
        told = re.search(r'data-told="([^"]*)"', ended.stdout)[1]
        self.assertTrue(told.startswith("bit 25 of 40: the line had 0"), told)
        self.assertIn("stops here: brakes", told)
