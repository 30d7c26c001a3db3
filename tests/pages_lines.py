"""The lines of pages and sources, for tests/pages.py: their width, the papers that none may cite by
number, the sections and files that they cite, and where a page's links lead."""

import re

from pages_names import names
from pages_read import PATHS, Fault, files, line_of, page, pages, text_of, titles

WIDTH = 100

SCRIPTS = r"[^./]+|(?:command|tests|tools)/.*\.(?:py|sh|c|h|rs)|(?:include|examples)/.*\.(?:c|h|rs)"
MADE_UP = "tests/pages_tried.py"  # what it names is of a small repository of its own
SOURCES = rf"{SCRIPTS}|crates/\w+/(?:src/.*\.rt|(?:specs|proofs)/.*\.antt)"
ALL = rf"{SOURCES}|crates/\w+/must-fail/.*\.edit|crates\.txt"

# between two words of a comment a line may end and the next begin with the comment's mark
GAP = r"(?:\s|^\s*(?://[/!]?|--|#|\*)\s)+"
PAPER = re.compile(
    rf"\bdocuments?{GAP}0\d|\bdemand{GAP}\d|\bW-2\d\d|\brequest{GAP}W\b|\bissue{GAP}#?\d",
    re.IGNORECASE | re.MULTILINE,
)
REQUESTS = "Requests"  # the section of docs/SPECIFICATION.md whose table says which is which
TITLE = r'"([^"]+)"'
CITED = re.compile(
    rf"\b(docs/\w[\w-]*\.md|README\.md),?{GAP}(?={TITLE})(?:{TITLE}(?:,?{GAP}(?:and{GAP})?)?)+",
    re.MULTILINE,
)
NUMBERED = re.compile(rf"\b(docs/\w[\w-]*\.md),?{GAP}\d+\b", re.MULTILINE)


def sources(root, pattern):
    return [name for name in files(root) if re.fullmatch(pattern, name)]


def wide(root):
    """Lines that are too wide. An attribute stands on one line, as `rt fmt` lays it out."""
    for name in pages(root) + sources(root, SOURCES):
        for number, line in enumerate(text_of(root, name).split("\n"), 1):
            if len(line) > WIDTH and not line.lstrip().startswith("#["):
                what = f"{len(line)} columns: break the line at {WIDTH}, or shorten it"
                yield Fault(name, number, what)


def allowed(root, name):
    """The lines of a page that may cite papers: the table of requests."""
    if name != "docs/SPECIFICATION.md":
        return set()
    here = page(root, name)
    found = [heading for heading in here.headings if heading.title == REQUESTS]
    return {line for heading in found for line in here.lines_under(heading)}


def papers(root):
    """Papers that are cited by number; the repository's reader has none of them."""
    for name in pages(root) + sources(root, ALL):
        text, free = text_of(root, name), allowed(root, name)
        for found in PAPER.finditer(text):
            line = line_of(text, found.start())
            if line not in free:
                said = " ".join(found[0].split())
                what = f"{said} cites a paper: name the section of docs/SPECIFICATION.md instead"
                yield Fault(name, line, what)


def citing(root):
    return [name for name in sources(root, ALL) if name != MADE_UP]


def sections(root):
    """Sections that are cited by title, behind the page's name, and are not there."""
    for name in pages(root) + citing(root):
        text = text_of(root, name)
        for found in CITED.finditer(text):
            cited = found[1]
            known = titles(root, cited) if cited in files(root) else set()
            for title in re.findall(TITLE, found[0]):
                said = re.sub(GAP, " ", title, flags=re.MULTILINE)
                if not {said, said.rstrip(".?:")} & known:
                    what = f'{cited} has no section "{said}": name one of its titles'
                    yield Fault(name, line_of(text, found.start()), what)


def numbered(root):
    """Sections that are cited by number, behind the page's name."""
    for name in pages(root) + citing(root):
        text = text_of(root, name)
        for found in NUMBERED.finditer(text):
            what = f"{found[1]} has no numbers: name the title, or the words in bold"
            yield Fault(name, line_of(text, found.start()), what)


def paths(root):
    """Files that a source names and that are not there."""
    known = names(root)
    for name in citing(root):
        text = text_of(root, name)
        for found in PATHS.finditer(text):
            if re.search(r"\{[^,]*\}|\*\*", found[0]):
                continue  # a pattern of a script
            if what := known.fault_of_path(found[0]):
                yield Fault(name, line_of(text, found.start()), what)


def links(root):
    """Links that lead nowhere, and how many links there are."""
    found, count = [], 0
    for name in pages(root):
        for line, link in page(root, name).links():
            if re.match(r"\w+:", link):
                continue
            count += 1
            what = fault_of_link(root, name, *link.partition("#")[::2])
            found += [Fault(name, line, what)] if what else []
    return found, count


def fault_of_link(root, name, file, anchor):
    place = (root / name).parent / file if file else root / name
    if not place.exists():
        return f"the link leads to {file}, which is not there: link to what stands in its place"
    there = place.resolve().relative_to(root.resolve()).as_posix()
    if anchor and (there not in pages(root) or anchor not in page(root, there).anchors()):
        return f"the link leads to #{anchor}, and {there} has no such heading: link to one it has"
    return None


def faults(root):
    checks = (wide, papers, sections, numbered, paths)
    return [fault for check in checks for fault in check(root)]


