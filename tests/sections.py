#!/usr/bin/env python3
"""What the program crates/cases reads (stdin) and must print (stdout), section by section.

    python3 tests/sections.py [VECTORS]

makes every section anew by the script of its name (tests/dose_cases.py of "dose"); each makes its
own section alone too. VECTORS is the folder of season texts, else ../shared/vectors beside the
repository.

A section that is read is a line, its name, a space and the number of its bytes in eight hexadecimal
digits, and so many bytes; what is printed of it is its name on a line, and the answers.
"""

import re
from importlib import import_module
from pathlib import Path

CRATE = Path(__file__).resolve().parent.parent / "crates" / "cases"
NAMES = (
    "account",
    "compare",
    "dates",
    "dose",
    "floats",
    "frames",
    "power",
    "report",
    "stand",
    "stretch",
    "trial",
)
HEAD = re.compile(rb"(\w+) ([0-9A-F]{8})\n")
NAME = re.compile(b"^(%b)\n" % "|".join(NAMES).encode(), re.MULTILINE)


class Sheet:
    """The commands of a section, each a line, and what they must print."""

    def __init__(self):
        self.commands, self.answers = [], []

    def command(self, letter, rest=b""):
        self.commands.append(letter + rest + b"\n")

    def section(self):
        """What is read, and what must be printed."""
        return b"".join(self.commands), "".join(said + "\n" for said in self.answers).encode()


def given():
    """What is read of each section, by name."""
    found, text, at = {}, (CRATE / "stdin").read_bytes(), 0
    while at < len(text):
        head = HEAD.match(text, at)
        end = head.end() + int(head[2], 16)
        found[head[1].decode()] = text[head.end() : end]
        at = end
    return found


def answers():
    """What is printed of each section, by name."""
    text = (CRATE / "stdout").read_bytes()
    heads = list(NAME.finditer(text))
    ends = [*(head.start() for head in heads), len(text)]
    return {head[1].decode(): text[head.end() : end] for head, end in zip(heads, ends[1:])}


def stored(name):
    """What is read and printed of one section."""
    return given()[name], answers()[name]


def store(sections):
    """All of them, each what is read and what is printed of it, by name."""
    named = [(name.encode(), *sections[name]) for name in NAMES if name in sections]
    assert not any(NAME.search(said) for _, _, said in named)
    read = b"".join(b"%b %08X\n" % (name, len(text)) + text for name, text, _ in named)
    (CRATE / "stdin").write_bytes(read)
    (CRATE / "stdout").write_bytes(b"".join(name + b"\n" + said for name, _, said in named))


def write(name, section):
    """One section in the place of what is stored of it."""
    said = answers()
    store({**{other: (text, said[other]) for other, text in given().items()}, name: section})


def main():
    store({name: import_module(f"{name}_cases").section() for name in NAMES})


if __name__ == "__main__":
    main()
