"""What the scripts of this folder share: a constant array as rt fmt lays it out, and the files that
they make, written or held to what stands there."""

import sys
from pathlib import Path

WIDTH = 100  # of a line of entries
SHORT = 60  # an array of no more stands on one line
ROOT = Path(__file__).resolve().parent.parent


def array(head: str, entries: list[int]) -> list[str]:
    """`head = [..];` in lines, each filled."""
    words = [str(e) for e in entries]
    whole = f"[{', '.join(words)}]"
    if len(whole) <= SHORT:
        return [f"{head} = {whole};"]
    rows, row = [], "   "
    for word in words:
        if len(row) + len(word) + 2 > WIDTH:
            rows.append(row)
            row = "   "
        row += f" {word},"
    return [f"{head} = [", *rows, row, "];"]


def put(made: dict[str, list[str]]) -> None:
    """Writes the lines of each file, by its name from the top; with --check it writes nothing, and
    says which file has other lines: exit status 1."""
    words = sys.argv[1:]
    if words not in ([], ["--check"]):
        sys.exit(f"usage: python3 {sys.argv[0]} [--check]")
    texts = {ROOT / name: "\n".join(lines) + "\n" for name, lines in made.items()}
    if not words:
        for path, text in texts.items():
            path.write_text(text)
        return
    for path, text in texts.items():
        if not path.exists() or path.read_text() != text:
            name = path.relative_to(ROOT)
            sys.exit(f"tables: {name} is not what {sys.argv[0]} makes: run it without --check")
    print(f"tables: {sys.argv[0]} makes what stands in {', '.join(made)}")
