"""The commands that pages show, for tests/pages.py: run in a room of their own, and what they print
held to what the page shows of it."""

import os
import re
import shutil
import subprocess
import tempfile
from pathlib import Path
from typing import NamedTuple

from pages_read import Fault, page, pages

SHOWN_IN = ("README", "FORESTERS", "MAKERS")
BUILDERS = ("gcc", "rustc")  # what they build is a command below
SHELL = re.compile(rf"\./|(?:{'|'.join(BUILDERS)}|printf|sed) |[a-z]+=")
ASSIGNED = re.compile(r"[a-z]+=\S*")
LEFT = ("./test", "./bench", "./release", "./part")  # these take long, and are run by themselves
LIBRARY = "target/libpod1.a"
FORM = re.compile(r"(?<![-\w'$])[A-Z]+\b|\.\.(?:\s|$)")  # FILE.., N: words to be filled in
LACKING = re.compile(r"(\w+) is missing")  # what a command says of what the machine has not
REST = ".."  # a shown line: any lines
PATIENCE = 60  # seconds for a block's commands


class Block(NamedTuple):
    page: str
    line: int
    commands: tuple
    shown: tuple  # lines that they print, as the page shows them; empty where it shows none


def code_blocks(here):
    """A page's blocks of code: the number of the first line, and all lines, empty ones too."""
    block, start = [], 0
    for number, (line, is_code) in enumerate(zip(here.lines, here.is_code), 1):
        if is_code or block and not line and number < len(here.lines) and here.is_code[number]:
            start = start or number
            block.append(line.removeprefix("    "))
        elif block:
            yield start, block
            block, start = [], 0
    if block:
        yield start, block


def unfenced(lines):
    return [line.rstrip() for line in lines if not line.startswith("```")]


def bare(line):
    """A shell's line without what is said behind it."""
    return re.sub(r"\s\s+#.*$|^#.*$", "", line).strip()


def parted(lines):
    """A block's lines up to an empty one, and those behind it."""
    at = lines.index("") if "" in lines else len(lines)
    return lines[:at], [line for line in lines[at:] if line]


def blocks_of(here):
    """The page's blocks of commands: all of whose lines, up to an empty one, are a shell's."""
    found = list(code_blocks(here))
    for at, (start, lines) in enumerate(found):
        written, shown = parted(unfenced(lines))
        commands = tuple(filter(None, map(bare, written)))
        if commands and all(map(SHELL.match, commands)):
            behind = start + len(lines) - 1
            following = found[at + 1] if at + 1 < len(found) else (len(here.lines) + 1, [])
            shown = shown or shown_behind(here, behind, *following)
            yield Block(here.name, start, commands, tuple(shown))


def shown_behind(here, behind, after, lines):
    """Where the words behind the block begin `prints`: the piece in backquotes that comes next, or
    the next block."""
    between = "\n".join(here.lines[behind : after - 1])
    if found := re.match(r"\s*prints\s+`([^`]+)`", between):
        return [" ".join(found[1].split())]
    if re.match(r"\s*prints\b", between) and "\n#" not in between:
        return [line for line in unfenced(lines) if line]
    return []


def is_run(block):
    """Whether nothing in it is to be filled in, or takes long."""
    text = re.sub(r"'[^']*'|\b[0-9A-F]{6,}\b", "", "\n".join(block.commands))
    return not FORM.search(text) and not any(line.split()[0] in LEFT for line in block.commands)


def without_long(block):
    """The block without the commands that are run by themselves."""
    kept = tuple(line for line in block.commands if line.split()[0] not in LEFT)
    return block._replace(commands=kept)


def blocks(root):
    """The blocks that are run."""
    shown = [name for name in pages(root) if Path(name).stem in SHOWN_IN]
    found = [without_long(block) for name in shown for block in blocks_of(page(root, name))]
    return [block for block in found if block.commands and is_run(block)]


def commands(root):
    return [line for block in blocks(root) for line in block.commands]


# ---- running


def furnish(root, room):
    """The room has what the repository has, its examples as a copy."""
    for path in root.iterdir():
        if path.name == "examples":
            shutil.copytree(path, room / path.name)
        elif path.name != ".git":
            (room / path.name).symlink_to(path)


def lack_of(root, block):
    """What a block needs to be built with and the machine does not have."""
    for line in block.commands:
        builder = line.split()[0]
        if builder in BUILDERS and shutil.which(builder) is None:
            return builder
        if builder in BUILDERS and not (root / LIBRARY).exists():
            return LIBRARY
    return None


def agrees(printed, shown):
    """Whether the lines are those shown, where `..` stands for any lines."""
    any_lines = r"(?:.*\n)*"
    parts = [any_lines if line.strip() == REST else re.escape(line) + "\n" for line in shown]
    return re.fullmatch("".join(parts), printed) is not None


def tried(block, set_before, room):
    """What is wrong with what the block prints, and what it lacked."""
    script, first = "\n".join([*set_before, *block.commands]), block.commands[-1]
    try:
        done = subprocess.run(["bash", "-c", script], cwd=room, stdin=subprocess.DEVNULL,
                              capture_output=True, text=True, timeout=PATIENCE, errors="replace")
    except subprocess.TimeoutExpired:
        return f"{first}: had not ended after {PATIENCE} seconds", None
    if done.returncode not in (0, 1):
        if found := LACKING.search(done.stderr):
            return None, found[1]
        said = (done.stderr.strip().splitlines() or [""])[-1]
        return f"{first}: ended with status {done.returncode}: {said}", None
    printed = "".join(line.rstrip() + "\n" for line in done.stdout.splitlines())
    if block.shown and not agrees(printed, block.shown):
        begins = " / ".join(printed.splitlines()[:3])
        return f"{first}: prints {begins!r}, and the page shows otherwise", None
    return None, None


def run(root):
    """What is wrong with the commands, how many ran, and what those that were left out lack."""
    found, count, left, set_before = [], 0, set(), []
    with tempfile.TemporaryDirectory() as place:
        room = Path(place)
        furnish(root, room)
        for block in blocks(root):
            lack = lack_of(root, block)
            what, lack = (None, lack) if lack else tried(block, set_before, room)
            set_before += filter(ASSIGNED.fullmatch, block.commands)
            left.update([lack] if lack else [])
            count += 0 if lack else len(block.commands)
            found += [Fault(block.page, block.line, what)] if what else []
    return found, count, left


def is_program(path):
    return path.is_file() and os.access(path, os.X_OK)


def missing(root):
    """Commands whose program is not there, and is built by no command above."""
    made = set()
    for block in blocks(root):
        for line in block.commands:
            first, *rest = line.split()
            if first in BUILDERS:
                made.add(f"./{rest[rest.index('-o') + 1] if '-o' in rest else Path(rest[-1]).stem}")
            elif first.startswith("./") and not {first} & made and not is_program(root / first):
                what = f"there is no {first} to run, and no command above it builds one"
                yield Fault(block.page, block.line, what)
