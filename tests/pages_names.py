"""The names that a page may use, for tests/pages.py: files, crates, functions, types, definitions,
laws and must-fail edits; and what is wrong with a name in a page."""

import re
from collections import defaultdict
from functools import cache

from pages_read import Fault, files, page, pages, text_of

STRICT = "docs/PROMISES.md"  # here a word that is used alone does not do: it must be declared
# there a capitalised word alone in parentheses is a file of specs/ or proofs/
IN_FILE = re.compile(r"\(([A-Z][a-z]\w*(?:(?:,| and) [A-Z][a-z]\w*)*)\)")

# of specs/ and proofs/: a definition or law, a field, a case
RECORD = re.compile(r"^\s*(?:pub\s+)?(?:record|data)\s+([^\s(){}:]+)", re.MULTILINE)
LAW = re.compile(
    r"^\s*(?:(?:pub|abbrev|unfoldable|opaque)\s+)*([^\s(){}:,;=]+)"
    r"(?:\s*[({][^:]*:[^\n]*[)}])?\s+:\s",
    re.MULTILINE,
)
# of src/: an item, a field, a case, what is passed on, a clause's label, a ghost member
ITEM = re.compile(
    r"\b(pub(?:\([a-z]+\))?\s+)?(?:const\s+|unsafe\s+|extern\s+\"C\"\s+)*"
    r"(?:fn|struct|enum|trait|type|const|static|mod)\s+([A-Za-z_]\w*)"
)
FIELD = re.compile(r"^\s+(?:pub(?:\([a-z]+\))?\s+)?([a-z_]\w*):\s", re.MULTILINE)
CASE = re.compile(r"^\s+([A-Z]\w*)(?:\(.*\)|\s*\{.*|\s*=.*)?,?$", re.MULTILINE)
PASSED_ON = re.compile(r"\bpub(?:\([a-z]+\))?\s+use\s+([^;]+);")
LABEL = re.compile(r"\b(?:ensures|requires)\s+([A-Za-z_]\w*)\s*\{")
GHOST = re.compile(r"\bghost\s+([A-Za-z_]\w*)\s*[:=]")
CONVERTED = re.compile(r"\bimpl(?:<[^>]*>)?\s+(?:From|TryFrom)<[^{]*?>\s+for\s+\w+")

WORD = re.compile(r"[^\W\d][\w'-]*")
NAME = re.compile(r"([^\W\d][\w'-]*(?:(?:::|\.)[^\W\d][\w'-]*)*)(?:\(.*\))?")
IN_CODE = re.compile(r"\b[A-Za-z]\w*(?:::\w+)+|\b[a-z]\w*_\w+\b(?!\.\.)")
CODE_FILES = r"crates/\w+/(?:src|specs|proofs)/.*\.(?:rt|antt)"
OTHER_FILES = r"(?:command|tests|tools)/.*\.\w+|(?:include|examples)/.*|bench|part|pod1|test"
PLACEHOLDER = re.compile(r"[A-Z][A-Z0-9_]*")  # CRATE, NAME, N
FILLED_IN = re.compile(r"[A-Z][A-Z0-9_]*(?:\.(?!md$)\w+)?")  # CRATE, EDIT.edit, but no page
FREE = re.compile(r"[a-z]+|[0-9A-F]+|[0-9a-f]{7,40}|rattle-kit-\w+")  # words, bytes, commits
# what a build makes, or a chart
BUILT = re.compile(r"(?:target|crates/[\w*]+/out)(?:/.*)?|examples/\w+\.svg")


def bare(text, mark):
    """A source without its comments."""
    return re.sub(rf"(?m)(^|\s){mark}.*$", r"\1", text)


class Names:
    """What the repository has."""

    def __init__(self, root):
        self.root, self.files = root, set(files(root))
        self.folders = {"/".join(name.split("/")[:n]) for name in self.files
                        for n in range(1, name.count("/") + 1)}
        self.places = self.files | self.folders
        self.crates = {name.split("/")[1] for name in self.files if name.startswith("crates/")}
        edits = (re.fullmatch(r"crates/(\w+)/must-fail/(.*)\.edit", name) for name in self.files)
        self.edits = {f"{found[1]}/{found[2]}" for found in edits if found}
        self.public = defaultdict(set)  # of a crate
        self.within = defaultdict(set)  # of a name, those that stand in one file with it
        self.dotted, self.used = set(), set()
        for name in self.files:
            if re.fullmatch(CODE_FILES, name):
                self.enter(name, name.split("/")[1])
            elif re.fullmatch(OTHER_FILES, name):
                self.used |= set(WORD.findall(text_of(root, name)))
        self.known = set(self.within) | self.crates

    def enter(self, name, crate):
        is_code = name.endswith(".rt")
        text = bare(text_of(self.root, name), "//" if is_code else "--")
        here = self.items(text, crate) if is_code else set(RECORD.findall(text) + LAW.findall(text))
        self.used |= set(WORD.findall(text))
        self.dotted |= set(re.findall(r"\b[A-Za-z]\w*(?:\.[A-Za-z]\w*)+", text))
        for word in here:
            self.within[word] |= here

    def items(self, text, crate):
        """The names of a file of src/; those that are public are entered for the crate."""
        items = ITEM.findall(text)
        passed = {word for group in PASSED_ON.findall(text) for word in WORD.findall(group)}
        self.public[crate] |= {word for is_public, word in items if is_public} | passed
        found = passed.union(word for _, word in items)
        for pattern in (FIELD, CASE, LABEL, GHOST):
            found.update(pattern.findall(text))
        return found | ({"from", "try_from"} if CONVERTED.search(text) else set())

    # ---- paths

    def has_path(self, path):
        path = path.rstrip("/")
        if "{" in path:
            return all(map(self.has_path, opened(path)))
        if path in self.places or path in self.edits or BUILT.fullmatch(path):
            return True
        if any(FILLED_IN.fullmatch(part) for part in path.split("/")):
            return True
        if re.match("(?:src|specs|proofs|must-fail)(?:/|$)", path):
            path = f"crates/*/{path}"
        pattern = re.compile(re.escape(path).replace(r"\*", "[^/]*"))
        return "*" in path and any(map(pattern.fullmatch, self.places))

    def fault_of_path(self, path):
        path = path.removeprefix("./")
        if self.has_path(path):
            return None
        crate, _, edit = path.partition("/")
        if crate in self.crates and re.fullmatch(r"\w+", edit):
            return f"there is no edit crates/{crate}/must-fail/{edit}.edit: name one that is there"
        return f"there is no file or folder {path}: name what stands in its place"

    def fault_of_file(self, name):
        pattern = re.compile(rf"crates/\w+/(?:specs|proofs)/{name}\.antt")
        is_there = any(map(pattern.fullmatch, self.files))
        return None if is_there else f"no specs/ or proofs/ has {name}.antt: name the file"

    # ---- names

    def fault_of_pair(self, first, last):
        """`crate::function`, `module::function`, `Type::function`, or a name of std."""
        if first in self.crates:
            has = last in self.public[first]
            return None if has else f"crates/{first}/src has no public {last}: name what it has"
        modules = [name for name in self.files if re.search(rf"/src/{first}(?:/mod)?\.rt$", name)]
        if not modules and first not in self.known:
            return None
        if last in self.within[first]:
            return None
        if any(re.search(rf"\b{last}\b", bare(text_of(self.root, name), "//")) for name in modules):
            return None
        return f"{first} has no {last}: name what it has"

    def fault_of_name(self, name, is_strict=False):
        if name.startswith(("std::", "core::")):
            return None
        if "::" in name:
            return self.fault_of_pair(*name.split("::")[-2:])
        first, *rest = name.split(".")
        if first in self.known and all(word in self.within[first] for word in rest):
            return None
        if name in self.dotted or any(f"/{place}".endswith(f"/{name}") for place in self.files):
            return None
        if not rest and first in self.used and not (is_strict and re.search("[A-Z-]", first)):
            return None
        if PLACEHOLDER.fullmatch(name) or FREE.fullmatch(name) and not is_strict:
            return None
        return f"nothing is named {name}: name what stands in its place"


def opened(path):
    """`src/{a,b}.rt` is src/a.rt and src/b.rt."""
    found = re.search(r"\{([^}]*)\}", path)
    return [path[: found.start()] + part + path[found.end() :] for part in found[1].split(",")]


@cache
def names(root):
    return Names(root)


def faults_of_word(known, word, is_strict):
    """What is wrong with a word in backquotes, or with each name in a piece of code; else None."""
    if re.match(r"\./\w", word):
        word = word.split()[0]
    if "/" in word and re.fullmatch(r"[\w./*{},-]+", word):
        yield known.fault_of_path(word)
    elif found := NAME.fullmatch(word):
        yield known.fault_of_name(found[1], is_strict)
    else:
        for found in IN_CODE.finditer(word):
            yield known.fault_of_name(found[0])


def faults(root):
    """The names in pages that nothing has, and how many names there are."""
    known, found, count = names(root), [], 0
    for name in pages(root):
        here = page(root, name)
        freed = here.of_their_time()
        told = [(line, what) for line, word in here.words_in_code() if line not in freed
                for what in faults_of_word(known, word, name == STRICT)]
        told += [(line, known.fault_of_path(path))
                 for line, path in here.paths() if line not in freed]
        if name == STRICT:
            told += [(line, known.fault_of_file(word)) for line, word in here.files_in(IN_FILE)]
        count += len(told)
        found += [Fault(name, line, what) for line, what in told if what]
    return found, count
