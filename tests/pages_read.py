"""The repository as tests/pages.py reads it: its files; a page's lines, headings, code, links."""

import re
from functools import cache
from pathlib import Path
from typing import NamedTuple

OF_THEIR_TIME = "Names of their time"
MADE = {".git", "target", "out", "__pycache__"}  # folders that are no part of what is handed on
HEADING = re.compile(r"(#+) (.*)")
ITEM = re.compile(r"\s*([-*]|\d+\.)\s")
CODE = re.compile(r"(?<!`)`([^`]+)`(?!`)", re.DOTALL)
LINK = re.compile(r"!?\[(?:[^\]]|`[^`]*`)*\]\(([^)\s]+)\)")
PATHS = re.compile(
    r"(?<![\w/.*-])(?:crates|docs|tests|tools|include|examples|command)/[\w./*{},-]*[\w*}]"
)


class Fault(NamedTuple):
    file: str
    line: int
    what: str

    def __str__(self):
        return f"{self.file}:{self.line}: {self.what}"


class Heading(NamedTuple):
    line: int
    level: int
    title: str


@cache
def files(root):
    """Every file of the repository, by its name from the top, sorted."""
    found = []
    for path in sorted(root.iterdir()):
        if path.name in MADE:
            continue
        if path.is_dir() and not path.is_symlink():
            found += [f"{path.name}/{name}" for name in files(path)]
        else:
            found.append(path.name)
    return found


def pages(root):
    return [name for name in files(root) if re.fullmatch(r"README\.md|docs/[^/]*\.md", name)]


@cache
def text_of(root, name):
    return (root / name).read_text(encoding="utf-8", errors="replace")


def blanked(found):
    return re.sub(r"[^\n]", " ", found[0])


def line_of(text, at):
    return text.count("\n", 0, at) + 1


class Page:
    """A page: its lines, which of them are code, and its headings."""

    def __init__(self, root, name):
        self.root, self.name = root, name
        self.text = text_of(root, name)
        self.lines = self.text.split("\n")
        self.is_code = list(code_lines(self.lines))
        self.headings = [
            Heading(number, len(found[1]), found[2].strip())
            for number, line in enumerate(self.lines, 1)
            if not self.is_code[number - 1] and (found := HEADING.fullmatch(line))
        ]

    def section_of(self, line):
        """The heading that the line stands under, if any."""
        above = [heading for heading in self.headings if heading.line <= line]
        return above[-1] if above else None

    def end_of(self, section):
        """The last line of the section, those under its own headings among them."""
        below = (h for h in self.headings if h.line > section.line and h.level <= section.level)
        return next((heading.line - 1 for heading in below), len(self.lines))

    def lines_under(self, section):
        return range(section.line, self.end_of(section) + 1)

    def of_their_time(self):
        """The lines of the sections that say that their names are of their time."""
        freed = set()
        for number, line in enumerate(self.lines, 1):
            if line.startswith(OF_THEIR_TIME) and (section := self.section_of(number)):
                freed.update(self.lines_under(section))
        return freed

    def prose(self):
        """The page's text with its code lines left empty."""
        pairs = zip(self.lines, self.is_code)
        return "\n".join("" if is_code else line for line, is_code in pairs)

    def words_in_code(self):
        """Each word or piece in backquotes, with its line; a pair stands within one paragraph."""
        prose = self.prose()
        for paragraph in re.finditer(r"(?:[^\n]+(?:\n|$))+", prose):
            for found in CODE.finditer(paragraph[0]):
                yield line_of(prose, paragraph.start() + found.start()), " ".join(found[1].split())

    def paths(self):
        """Each path that is named without backquotes and without a link, with its line."""
        prose = re.sub(r"\]\([^)\s]+\)", blanked, CODE.sub(blanked, self.prose()))
        for found in PATHS.finditer(prose):
            yield line_of(prose, found.start()), found[0]

    def files_in(self, pattern):
        """Each word of the lists that the pattern finds, with its line."""
        prose = self.prose()
        for found in pattern.finditer(prose):
            for word in re.findall(r"[A-Z]\w+", found[1]):
                yield line_of(prose, found.start()), word

    def links(self):
        prose = self.prose()
        for found in LINK.finditer(prose):
            yield line_of(prose, found.start()), found[1]

    def anchors(self):
        """What a link can lead to in this page, as the headings' words make it."""
        seen = {}
        for heading in self.headings:
            words = re.sub(r"\[([^\]]*)\]\([^)]*\)", r"\1", heading.title).lower()
            slug = re.sub(r"[^\w\- ]", "", words).replace(" ", "-")
            count = seen[slug] = seen.get(slug, -1) + 1
            yield f"{slug}-{count}" if count else slug


def code_lines(lines):
    """Whether each line is code: fenced, or four blanks in behind an empty line, in no list."""
    is_fenced = is_listed = was_code = False
    was_empty = True
    for line in lines:
        if line.startswith("```"):
            is_fenced, is_code = not is_fenced, True
        elif is_fenced:
            is_code = True
        elif not line.strip():
            is_code = False
        else:
            if ITEM.match(line) and not (was_code and line.startswith("    ")):
                is_listed = True
            elif not line.startswith(" "):
                is_listed = False
            is_code = line.startswith("    ") and not is_listed and (was_empty or was_code)
        yield is_code
        was_empty, was_code = not line.strip(), is_code


@cache
def page(root, name):
    return Page(root, name)


def titles(root, name):
    """The titles of a page's sections, and the words in bold with which a paragraph begins."""
    here = page(root, name)
    bold = re.findall(r"^(?:[-*] |\d+\. )?\*\*([^*]+?)[.?:]?\*\*", here.prose(), re.MULTILINE)
    return {heading.title for heading in here.headings} | {" ".join(t.split()) for t in bold}


ROOT = Path(__file__).resolve().parent.parent
