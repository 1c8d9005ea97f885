"""tools/draw as a command, and the pictures that are kept beside the examples."""
import importlib.machinery
import importlib.util
import os
import re
import unittest
from xml.etree import ElementTree

from lines import OPENING, SHORT, TOOLS, draw, text_of
from picture.style import COLOURED, DARK, LIGHT, SHAPED

NAMESPACE = "{http://www.w3.org/2000/svg}"
MOST_BYTES = 200_000


def pictures():
    """The program tools/pictures as a module."""
    loader = importlib.machinery.SourceFileLoader("pictures", os.path.join(TOOLS, "pictures"))
    module = importlib.util.module_from_spec(importlib.util.spec_from_loader("pictures", loader))
    loader.exec_module(module)
    return module


def light(colour):
    """The relative luminance of a colour, as WCAG 2 has it."""
    parts = [int(colour[at:at + 2], 16) / 255 for at in (1, 3, 5)]
    parts = [part / 12.92 if part <= 0.04045 else ((part + 0.055) / 1.055) ** 2.4 for part in parts]
    return 0.2126 * parts[0] + 0.7152 * parts[1] + 0.0722 * parts[2]


def contrast(first, second):
    low, high = sorted((light(first), light(second)))
    return (high + 0.05) / (low + 0.05)


class Kept(unittest.TestCase):
    def test_each_kept_picture_is_what_is_drawn(self):
        tool = pictures()
        self.assertIn("one-client", tool.names())
        for path, name, bounds in tool.kept():
            with open(path, "rb") as file:
                stored = file.read()
            self.assertTrue(stored == tool.picture_of(name, *bounds), f"{path} is another one: run tools/pictures")
            self.assertLess(len(stored), MOST_BYTES)

    def test_each_example_that_runs_has_a_picture(self):
        tool = pictures()
        reports = [name[:-len(".report")] for name in os.listdir(tool.EXAMPLES) if name.endswith(".report")]
        self.assertEqual(sorted(set(reports) - {"busy"}), tool.names())

    def test_each_arrow_and_each_event_has_its_line_as_title(self):
        tool = pictures()
        for path, name, bounds in tool.kept():
            root = ElementTree.parse(path).getroot()
            lines = {line.strip() for line in tool.listing_of(name).splitlines()}
            for group in root.iter(NAMESPACE + "g"):
                if group.get("id") is None:
                    self.assertIn(group.find(NAMESPACE + "title").text.split("\n")[0], lines)
            drawn = {group.find(NAMESPACE + "title").text.split("\n")[0] for group in root.iter(NAMESPACE + "g")
                     if group.get("id") is None}
            self.assertTrue(bounds or drawn == lines, f"{path} leaves out {lines - drawn}")

    def test_nothing_from_elsewhere(self):
        for path, _, _ in pictures().kept():
            with open(path, encoding="ascii") as file:
                text = file.read().replace('xmlns="http://www.w3.org/2000/svg"', "")
            self.assertNotRegex(text, r"<script|http|@import|url\((?!#)|href=\"(?!#)|<image|<foreignObject")


class Looks(unittest.TestCase):
    def test_text_is_large_enough(self):
        for size in re.findall(r"font(?:-size)?:(\d+)px", SHAPED):
            self.assertGreaterEqual(int(size), 11)

    def test_contrast(self):
        for colours in (LIGHT, DARK):
            for paper in (colours["paper"], colours["band"]):
                for name in ("ink", "faint", "side", "point"):
                    self.assertGreaterEqual(contrast(colours[name], paper), 4.5, f"text: {name} on {paper}")
                for name in ("ask", "answer", "side", "point"):
                    self.assertGreaterEqual(contrast(colours[name], paper), 3, f"{name} on {paper}")

    def test_light_and_dark_have_the_same_colours(self):
        self.assertEqual(LIGHT.keys(), DARK.keys())
        self.assertEqual(set(re.findall(r"(?<!{){([a-z]+)}", COLOURED)), set(LIGHT))


class Command(unittest.TestCase):
    def test_the_plain_pipe(self):
        status, written, told = draw(text_of(*SHORT))
        self.assertEqual((0, ""), (status, told))
        root = ElementTree.fromstring(written)
        self.assertEqual("graphics-document document", root.get("role"))
        self.assertEqual("A run of 3 events and 2 letters", root.find(NAMESPACE + "title").text)
        self.assertEqual(written, draw(text_of(*SHORT))[1])

    def test_lost_again_and_injected(self):
        lines = [*SHORT[:3], SHORT[3], "event 3 deliver 1 to replica 0", SHORT[3].replace("letter 2", "letter 3"),
                 "event 4 inject 1 byte to client 1 as replica 5: fetch object 0 at opening"]
        written = draw(text_of(*lines))[1]
        for words in ('class="ask again arrow"', 'class="answer lost arrow"', "as r5", "never delivered"):
            self.assertIn(words, written)

    def test_a_letter_between_replicas(self):
        sent = "  letter 3 replica 0 to replica 1: fetch object 0 at opening"
        status, written, _ = draw(text_of(*SHORT[:4], sent, "event 3 deliver 3 to replica 1"))
        self.assertEqual(0, status)
        self.assertIn('class="other arrow"', written)
        self.assertIn("another letter", written)

    def test_a_run_of_no_event(self):
        status, written, _ = draw(b"")
        self.assertEqual(0, status)
        self.assertIn("A run of 0 events and 0 letters", ElementTree.fromstring(written).find(NAMESPACE + "title").text)

    def test_wrong_words(self):
        for words in (["--bogus"], ["--events"], ["--events", "5-1"], ["--events", "a-b"], ["--letters", "1-"],
                      ["--parties", "r9"], ["--events", "7-9"], ["words"], ["--ev", "1-2"]):
            status, written, told = draw(text_of(*SHORT), *words)
            self.assertEqual((2, ""), (status, written), words)
            self.assertTrue(told, words)

    def test_malformed_texts(self):
        other = os.path.join(TOOLS, "draw")
        for data, words, kind in (
                (text_of(*SHORT, "hello"), [], "draw: line 6: unknown line\n"),
                (text_of(*SHORT), ["--script", other], f"draw: {other}: line 2: unknown line\n"),
                (text_of(*SHORT), ["--report", other], f"draw: {other}: line 1: unknown line\n")):
            self.assertEqual((3, "", kind), draw(data, *words))

    def test_too_many_events_are_refused_with_the_words_to_use(self):
        lines = [OPENING, SHORT[1]] + [f"event {number} deliver 1 to replica 0" for number in range(2, 500)]
        status, written, told = draw(text_of(*lines))
        self.assertEqual((3, ""), (status, written))
        for words in ("line 402: too many events, 499", "--events", "--parties", "--letters"):
            self.assertIn(words, told)
        self.assertEqual(0, draw(text_of(*lines), "--events", "1-400")[0])

    def test_files_that_cannot_be_read(self):
        self.assertEqual((4, ""), draw(text_of(*SHORT), "--script", os.path.join(TOOLS, "no-such-file"))[:2])


if __name__ == "__main__":
    unittest.main()
