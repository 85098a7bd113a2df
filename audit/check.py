#!/usr/bin/env python3
"""Checks the planted bugs under audit/, and prints how many there are by crate and class.

usage: audit/check.py   Status 1 where an edit does not fit.

Each edit has a line `file: PATH` and then a pair of lines, `old: TEXT` and `new: TEXT`, or several; its name is CLASS-FUNCTION-WHAT;
its file is there, and each old text stands once in what the pairs before it made. No edit leaves its file as another one does,
here or in the crate's must-fail/, whatever each of them shows of what stands round the change.
"""
import pathlib
import re
import sys

CLASSES = ["bound", "swap", "drop", "case", "constant", "index", "early", "stale", "layer", "order"]
TOP = pathlib.Path(__file__).resolve().parent.parent


def read(path):
    """The file of an edit, and its pairs of an old and a new text; None where its lines are none of an edit."""
    lines = path.read_text(encoding="utf-8").splitlines()
    words = ["file"] + ["old", "new"] * (len(lines) // 2)
    if len(lines) < 3 or [line.split(":")[0] for line in lines] != words:
        return None
    name, *texts = [line[len(word) + 2:] for line, word in zip(lines, words)]
    return name, list(zip(texts[::2], texts[1::2]))


def crate_of(path):
    """The crate that an edit is of."""
    return path.parent.name if path.parent.parent == TOP / "audit" else path.parent.parent.name


def complaints(path, left):
    """What is wrong with an edit. `left` has the files as the edits before it leave them, each with its edit."""
    if path.parent.name != "must-fail":
        if path.stem.split("-")[0] not in CLASSES or path.stem.count("-") < 2:
            yield "its name is not CLASS-FUNCTION-WHAT"
    edit = read(path)
    if edit is None:
        yield "its lines are not file, old and new"
        return
    name, pairs = edit
    file = TOP / "crates" / crate_of(path) / name
    if not file.is_file():
        yield f"there is no {name}"
        return
    text = before = file.read_text(encoding="utf-8")
    for old, new in pairs:
        if not old or text.count(old) != 1:
            yield f"the text '{old}' stands {text.count(old)} times in {name}"
            return
        text = text.replace(old, new)
    if text == before:
        yield "it changes nothing"
    # how the text is laid out makes no difference
    after = (file, re.sub(r"\s+", "", text))
    other = left.setdefault(after, path)
    if other != path:
        yield f"it changes what {other.relative_to(TOP)} changes"


def main():
    edits = sorted((TOP / "audit").glob("*/*.edit"))
    left = {}
    wrong = [(p, c) for p in sorted(TOP.glob("crates/*/must-fail/*.edit")) + edits for c in complaints(p, left)]
    for path, complaint in wrong:
        print(f"{path.relative_to(TOP)}: {complaint}")
    crates = sorted({crate_of(p) for p in edits})
    print(" ".join(["crate".ljust(10)] + [c.rjust(8) for c in CLASSES] + ["all".rjust(8)]))
    for crate in crates + ["all"]:
        mine = [p for p in edits if crate in (crate_of(p), "all")]
        counts = [sum(p.stem.startswith(c + "-") for p in mine) for c in CLASSES] + [len(mine)]
        print(" ".join([crate.ljust(10)] + [str(n).rjust(8) for n in counts]))
    return 1 if wrong else 0


if __name__ == "__main__":
    sys.exit(main())
