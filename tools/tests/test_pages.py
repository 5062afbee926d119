"""Tests that the counts, lists and links of the pages are those of the repository.

    python3 -m unittest tools/tests/test_pages.py"""
import glob
import os
import re
import sys
import unittest

sys.path.insert(0, os.path.dirname(os.path.abspath(__file__)))
import beside

FENCED = re.compile(r"^```.*?^```$", re.M | re.S)
LINK = re.compile(r"\]\(([^)\s]+)\)")
HEADING = re.compile(r"^#+ (.*)$", re.M)


def text_of(*parts):
    with open(os.path.join(beside.TOP, *parts), encoding="utf-8") as file:
        return file.read()


def found(pattern):
    """The paths of the repository that fit a pattern."""
    return sorted(os.path.relpath(it, beside.TOP) for it in glob.glob(os.path.join(beside.TOP, pattern), recursive=True))


def pages():
    return ["README.md", "CHANGES.md"] + found("docs/*.md") + found("examples/**/*.md") + found("tools/planted/*.md")


def folders(name):
    return sorted(it for it in os.listdir(os.path.join(beside.TOP, name)) if os.path.isdir(os.path.join(beside.TOP, name, it)))


def crates():
    """The crates of crates.txt."""
    return sorted(re.findall(r"^(\w+):", text_of("crates.txt"), re.M))


def counted(pattern):
    """The number in the README at the group of a pattern; its line breaks count as blanks."""
    one = re.search(pattern, text_of("README.md").replace("\n", " "))
    return int(one[1].replace(",", "")) if one else None


def anchors(path):
    """The names of a page's headings, as links have them."""
    headings = HEADING.findall(FENCED.sub("", text_of(path)))
    return {re.sub(r"[^\w\- ]", "", it.lower()).replace(" ", "-") for it in headings}


class Counts(unittest.TestCase):
    def test_planted_bugs(self):
        self.assertEqual(counted(r"the prover rejects ([\d,]+) planted bugs"), len(found("crates/*/must-fail/*.edit")))
        self.assertEqual(counted(r"`tools/try_planted` tries ([\d,]+) more"), len(found("tools/planted/*/*.edit")))

    def test_tests(self):
        count = sum(len(re.findall(r"^\s*#\[test\]$", text_of(it), re.M)) for it in found("crates/*/src/**/*.rt"))
        self.assertEqual(counted(r"There are ([\d,]+) tests"), count)


class Lists(unittest.TestCase):
    def test_crates(self):
        """crates.txt names each folder of crates, and CRATES.md each crate."""
        self.assertEqual(folders("crates"), crates())
        self.assertEqual(sorted(set(re.findall(r"^- `(\w+)`", text_of("docs", "CRATES.md"), re.M))), crates())

    def test_planted_bugs_outside_the_gate(self):
        """DECISIONS.md names the crates whose planted bugs are all outside."""
        line = re.search(r"in `tools/planted` alone\*\*: ([^.]*?), since", text_of("docs", "DECISIONS.md").replace("\n", " "))
        inside = {it.split("/")[1] for it in found("crates/*/must-fail/*.edit")}
        self.assertEqual(sorted(re.findall(r"`(\w+)`", line[1])), [it for it in folders("tools/planted") if it not in inside])

    def test_examples(self):
        """The index names each example, and each example has a page."""
        self.assertEqual(sorted(set(re.findall(r"\]\(([\w-]+)/README\.md\)", text_of("examples", "README.md")))), folders("examples"))
        self.assertEqual([os.path.basename(os.path.dirname(it)) for it in found("examples/*/README.md")], folders("examples"))

    def test_commands(self):
        """COMMANDS.md and the comment of the call that reads words have the same commands."""
        table = re.findall(r"^\| `(\w+ DIR[^`]*)` \|", text_of("docs", "COMMANDS.md"), re.M)
        comment = re.sub(r"\n/// ", " ", text_of("crates", "front_words", "src", "reading.rt"))
        self.assertEqual(re.findall(r"`(\w+ DIR[^`]*)`", comment), table)

    def test_pages(self):
        """The README has a link to each page of docs."""
        self.assertEqual(sorted(set(re.findall(r"\((docs/\w+\.md)", text_of("README.md")))), found("docs/*.md"))

    def test_links(self):
        """Each link of a page within the repository leads to a file or a folder, and its anchor to a heading."""
        astray = []
        for page in pages():
            for link in LINK.findall(FENCED.sub("", text_of(page))):
                path, _, anchor = link.partition("#")
                if "://" in link:
                    continue
                target = os.path.normpath(os.path.join(os.path.dirname(page), path)) if path else page
                if not os.path.exists(os.path.join(beside.TOP, target)) or (anchor and anchor not in anchors(target)):
                    astray.append(f"{page}: {link}")
        self.assertEqual(astray, [])


if __name__ == "__main__":
    unittest.main()
