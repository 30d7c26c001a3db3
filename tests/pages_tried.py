"""The search of tests/pages.py tried on a small repository: each fault is told where it is put, and
none where there is none."""

import sys
import tempfile
from pathlib import Path

import pages_runs

SMALL = {
    "README.md": """# A

[there](docs/B.md#its-place), `a::fed`, `a/edit`, `Kept.field`, `a-law`, crates/a/src/lib.rt

    ./say

prints

    1
    ..
    3
""",
    "docs/B.md": """# B

## Its place

As README.md, "A" has it.

- **Why so?** Because.

## What was

Names of their time.

`a::gone_by`, `Gone`
""",
    "docs/PROMISES.md": "`Kept`, `a-law` (Specs), `fed`\n",
    "crates/a/src/lib.rt": "pub fn fed() {}\nfn hidden() {}\n",
    "crates/a/specs/Specs.antt": "pub record Kept : Type 0 where\n  pub field : ℕ\n\na-law : ℕ\n",
    "crates/a/proofs/Laws.antt": "b-law : ℕ\n",
    "crates/a/must-fail/edit.edit": "file: src/lib.rt\n",
    "say": "#!/bin/sh\nseq 3\n",
}
# a page or source, what is put at its end, and words of what is then said, None where nothing is
TRIED = (
    ("README.md", "", None),
    ("README.md", "\n`a::hidden`\n", "no public hidden"),
    ("README.md", "\n`a::gone_by`\n", "no public gone_by"),
    ("README.md", "\n`a/gone`\n", "there is no edit"),
    ("README.md", "\n`Kept.gone`\n", "nothing is named Kept.gone"),
    ("README.md", "\n`gone_by`\n", "nothing is named gone_by"),
    ("README.md", "\nIn crates/a/src/gone.rt.\n", "there is no file"),
    ("README.md", "\n[a](docs/GONE.md)\n", "the link leads to docs/GONE.md"),
    ("README.md", "\n[a](docs/B.md#gone)\n", "the link leads to #gone"),
    ("README.md", "\nAs demand" + " 3 says.\n", "cites a paper"),
    ("README.md", "\nAs document" + "\n01 says.\n", "cites a paper"),
    ("README.md", "\n" + 26 * "wide" + "\n", "104 columns"),
    ("README.md", "\nAnd\n\n    ./gone\n", "there is no ./gone"),
    ("docs/B.md", "\n`a::gone_by`\n\n## C\n", None),
    ("docs/B.md", "\n## C\n\n`a::gone_by`\n", "no public gone_by"),
    ("docs/PROMISES.md", "\n`Gone`\n", "nothing is named Gone"),
    ("docs/PROMISES.md", "\n`a-gone-law`\n", "nothing is named a-gone-law"),
    ("docs/PROMISES.md", "\n`a-law` (Specs, Gone)\n", "has Gone.antt"),
    ("crates/a/src/lib.rt", "// document" + "\n// 02\n", "cites a paper"),
    ("crates/a/src/lib.rt", '// as docs/B.md, "Its\n// place"\n', None),
    ("crates/a/src/lib.rt", '// as docs/B.md, "Why so?" and "Why so"\n', None),
    ("crates/a/src/lib.rt", '// as docs/B.md, "B" and "Gone"\n', "has no section"),
    ("crates/a/src/lib.rt", "// as docs/B.md, 40\n", "docs/B.md has no numbers"),
    ("crates/a/src/lib.rt", "// as docs/GONE_BY.md has it\n", "there is no file"),
    ("crates/a/specs/Specs.antt", "-- " + 26 * "wide" + "\n", "107 columns"),
    ("crates/a/proofs/Laws.antt", "-- " + 26 * "wide" + "\n", "107 columns"),
)
# what is put below the lines that ./say prints, and how many blocks then print otherwise
SHOWN = (
    ("", 0),
    ("    4\n", 1),
    ("\nAnd\n\n    word=1\n    ./say\n\nprints `1 2 3`.\n", 1),
    ("\nAnd\n\n    word=1\n    ./say | tail -n $word\n\nprints `3`.\n", 0),
)


def made(place, name, more):
    """The small repository in a folder, one of its files with more at its end."""
    for file, text in SMALL.items():
        path = Path(place, file)
        path.parent.mkdir(parents=True, exist_ok=True)
        path.write_text(text + more if file == name else text)
    Path(place, "say").chmod(0o755)
    return Path(place)


def hold(checked):
    """Ends where the search misses a fault, or tells one where there is none."""
    for name, more, words in TRIED:
        with tempfile.TemporaryDirectory() as place:
            found = checked(made(place, name, more))[0]
        said = [fault.what for fault in found]
        is_right = not said if words is None else len(said) == 1 and words in said[0]
        if not is_right:
            sys.exit(f"pages: {more!r} at the end of {name} is told as {said}; mend tests/pages.py")
    for more, count in SHOWN:
        with tempfile.TemporaryDirectory() as place:
            if len(pages_runs.run(made(place, "README.md", more))[0]) != count:
                sys.exit(f"pages: {more!r} shown of ./say is not held; mend tests/pages_runs.py")
