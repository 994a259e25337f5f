#!/usr/bin/env python3
"""Every edit of crates/*/must-fail, each of which the prover must refuse: that each can be made, and was.

    python3 tests/edits.py LOG     LOG is what `rt ci` said, which tries them; of an edit that cannot be made it says so and passes
    python3 tests/edits.py         only that each can be made

An edit names a file, and pairs of lines, an old one and a new one; each old text stands in the file exactly once, after the pairs before it
were made. The last line is how many were refused, and the status is 1 where one was not, or where there was none.
"""
import pathlib
import re
import sys

CRATES = pathlib.Path(__file__).resolve().parent.parent / "crates"
DONE = re.compile(r"^rt: ok\b.*; must-fail edits: (\d+) refused(.*?); ", re.M)


def trouble(edit):
    """Why an edit cannot be made, or nothing."""
    texts, path, old, pairs = {}, None, None, 0
    for line in edit.read_text().split("\n"):
        if line.startswith("file: "):
            path = edit.parent.parent / line[6:].strip()
            if not path.is_file():
                return f"there is no file {line[6:].strip()}"
            texts.setdefault(path, path.read_text())
        elif line.startswith("old: "):
            old = line[5:]
        elif line.startswith("new:"):
            if path is None or old is None:
                return "a new text stands before any file or old text"
            if texts[path].count(old) != 1:
                return f"an old text stands {texts[path].count(old)} times and not once: {old[:80]}"
            texts[path] = texts[path].replace(old, line[4:].removeprefix(" "))
            old, pairs = None, pairs + 1
    if all(path.read_text() == text for path, text in texts.items()):
        return "it changes nothing"
    return None


def main():
    edits = sorted(CRATES.glob("*/must-fail/*.edit"))
    wrong = [f"{edit.parent.parent.name}/{edit.stem}: {why}" for edit in edits if (why := trouble(edit))]
    refused = len(edits) - len(wrong)
    if len(sys.argv) > 1:
        done = DONE.search(pathlib.Path(sys.argv[1]).read_text(errors="replace"))
        refused = int(done[1]) if done else 0
        # bad: it could not be made; by a limit: the prover gave no verdict
        if done and done[2]:
            wrong.append(f"rt ci says of the edits: {done[2].lstrip(', ')}")
        if refused != len(edits):
            wrong.append(f"of {len(edits)} edits {refused} were refused")
    if not edits:
        wrong.append("there is no edit")
    for line in wrong:
        print(f"tests/edits.py: {line}")
    if wrong:
        print(f"{refused} must-fail edits refused, {len(wrong)} wrong")
        return 1
    print(f"{len(edits)} must-fail edits {'refused' if len(sys.argv) > 1 else 'can be made'}, 0 not")
    return 0


if __name__ == "__main__":
    sys.exit(main())
