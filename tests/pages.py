#!/usr/bin/env python3
"""The pages hold: what README.md and docs/*.md name is there, their links lead somewhere, nothing
cites a paper by number, no line is too wide, and the commands that they show print what they show.

    python3 tests/pages.py               all but the commands' runs
    python3 tests/pages.py --commands    the commands' runs; the programs must stand in target/bin
    python3 tests/pages.py PLACE..       the faults in these files or folders alone

A page may name in backquotes, and with a path also without them:
- a file or folder, from the top or within a crate (`src/lib.rt`), with `*` and `{a,b}`;
- `crate/edit`, a must-fail edit of the crate;
- `crate::name`, what the crate has for others; `module::name`, `Type::name`; std's are free;
- a definition, law, case or `Record.field` of specs/ or proofs/, a function, type, field or clause
  of src/, a crate. In docs/PROMISES.md a name with a capital or a hyphen must be declared so, and
  a capitalised word alone in parentheses is a file of specs/ or proofs/; on the other pages any
  name that the sources use will do.
Words in capitals (`CRATE`, `N`) stand for what is filled in, and lower-case words are free.

What is gone may be named in a section that says so: one with a paragraph that begins "Names of
their time" is not held to what is there, from its heading to the next of its level. Links, widths
and citations are held there too.

Papers may be named by number in the section "Requests" of docs/SPECIFICATION.md alone. A section
that is cited by its title in quotes, behind the page's name, must be there; words in bold that
begin a paragraph do too. A number behind a page's name is no title.

Lines are at most 100 columns in pages, src/, specs/, proofs/, tests/, tools/, command/, include/,
examples/ and the scripts at the top. What programs read and print (stdin, stdout, data, .txt, .csv)
and must-fail edits, whose form is one line, are as they are.

A block of commands is a code block of README.md, or of FORESTERS.md or MAKERS.md of docs/, whose
lines up to an empty one begin with `./`, gcc, rustc, printf, sed or `name=`. With words in capitals
or `..` it is a form and not run, nor are ./test, ./bench, ./release and ./part. What it prints is
what stands behind the empty line; else, where the words behind the block begin "prints", the piece
in backquotes that comes next, or the next block; `..` stands for any lines."""

import sys
from pathlib import PurePath

import pages_lines
import pages_names
import pages_runs
import pages_tried
from pages_read import ROOT

USAGE = "usage: python3 tests/pages.py [--commands | PLACE..]"


def checked(root):
    """The faults, and how many names, links and commands there are."""
    named, names = pages_names.faults(root)
    led, links = pages_lines.links(root)
    found = named + led + pages_lines.faults(root) + list(pages_runs.missing(root))
    return sorted(set(found)), names, links, len(pages_runs.commands(root))


# ---- what is said


def end(found, told):
    for fault in found:
        print(f"pages: {fault}")
    if found:
        print(f"pages: {len(found)} faults")
        sys.exit(1)
    print(f"pages: {told}")


def main():
    words = sys.argv[1:]
    if any(word.startswith("-") for word in words) and words != ["--commands"]:
        sys.exit(USAGE)
    pages_tried.hold(checked)
    if words == ["--commands"]:
        found, count, left = pages_runs.run(ROOT)
        for lack in sorted(left):
            print(f"pages: what needs {lack} is left out, which is not there")
        return end(found, f"{count} commands: all print what is shown")
    found, names, links, commands = checked(ROOT)
    places = tuple(f"{PurePath(word)}/".removeprefix("./") for word in words) or ("",)
    found = [fault for fault in found if f"{fault.file}/".startswith(places)]
    return end(found, f"{names} names, {links} links, {commands} commands: all there")


if __name__ == "__main__":
    main()
