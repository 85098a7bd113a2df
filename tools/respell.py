#!/usr/bin/env python3
"""Gives the definitions and lemmas of this repository today's spelling: snake case, and camel case for types and facts.

usage: tools/respell.py   Once, at the top, after the kit's own script. A second run changes nothing.

It turns names that specs/ and proofs/ declare, or that an import gives with `as`, wherever they stand in specs, proofs and
contracts, and between backticks in the pages of docs/. Comments, strings, goals and functions of src/ stay as they are.
It stops where two names would fall together.
"""
import glob
import pathlib
import re
import sys

TOKEN = r"[^\s(){}\[\]:;,.`\"]+"
DECLARED = re.compile(r"^\s*(?:(?:pub|abbrev|unfoldable|data|record) )*(" + TOKEN + r")\s*(?:\([^)]*\)\s*|\{[^}]*\}\s*)*:\s*(.*)")
GIVEN = re.compile(r" as (" + TOKEN + r")")
PLAIN = re.compile(r"[A-Za-z0-9'_-]+")


def respelled(name):
    """Today's spelling of a name of ours; the name itself where it has it, or is no plain word."""
    if not PLAIN.fullmatch(name):
        return name
    if name[0].isupper():
        return "".join(part[:1].upper() + part[1:] for part in name.split("-")) if "-" in name else name
    if "-" in name:
        return name.replace("-", "_").lower()
    return re.sub(r"(?<=[a-z0-9])[A-Z]", lambda m: "_" + m.group().lower(), name)


def code_of(line, comment):
    """The part of a line before its comment, and the comment."""
    i = 0
    quoted = False
    while i < len(line):
        if line[i] == '"':
            quoted = not quoted
        elif not quoted and line.startswith(comment, i) and (i == 0 or line[i - 1].isspace()):
            return line[:i], line[i:]
        i += 1
    return line, ""


def declared(path):
    """The names that a file of specs/ or proofs/ declares, but for goals, and those that its imports give."""
    names = set()
    for line in path.read_text(encoding="utf-8").splitlines():
        code, _ = code_of(line, "--")
        if code.lstrip().startswith("use "):
            names.update(GIVEN.findall(code))
            continue
        if code.lstrip().startswith(("let ", "|")):
            continue
        found = DECLARED.match(code)
        if found and not found.group(2).startswith(("goal.", "given.", "need.")):
            names.add(found.group(1))
    return names


def main():
    top = pathlib.Path(__file__).resolve().parent.parent
    proofs = [pathlib.Path(p) for part in ("specs", "proofs") for p in sorted(glob.glob(str(top / "crates" / "*" / part / "**" / "*.antt"), recursive=True))]
    sources = sorted(top.glob("crates/*/src/**/*.rt"))
    names = set()
    for path in proofs:
        names |= declared(path)
    for path in sources:
        for line in path.read_text(encoding="utf-8").splitlines():
            if line.lstrip().startswith("ghost use "):
                names.update(GIVEN.findall(line))
    turned = {name: respelled(name) for name in names if respelled(name) != name}
    clashes = sorted(f"{old} would be {new}, which is there" for old, new in turned.items() if new in names)
    if len(set(turned.values())) < len(turned) or clashes:
        seen = {}
        for old, new in turned.items():
            seen.setdefault(new, []).append(old)
        clashes += [" and ".join(sorted(olds)) for olds in seen.values() if len(olds) > 1]
        print("\n".join(clashes), file=sys.stderr)
        return 1

    def turn(text):
        return re.sub(TOKEN, lambda m: turned.get(m.group(), m.group()), text)

    for path in proofs + sources:
        comment = "--" if path.suffix == ".antt" else "//"
        old = path.read_text(encoding="utf-8")
        lines = []
        for line in old.split("\n"):
            code, rest = code_of(line, comment)
            pieces = code.split('"')
            lines.append('"'.join(p if k % 2 else turn(p) for k, p in enumerate(pieces)) + rest)
        new = "\n".join(lines)
        if new != old:
            path.write_text(new, encoding="utf-8")
    for path in sorted(top.glob("docs/*.md")):
        old = path.read_text(encoding="utf-8")
        new = re.sub(r"`[^`\n]+`", lambda m: turn(m.group()), old)
        if new != old:
            path.write_text(new, encoding="utf-8")
    for old, new in sorted(turned.items()):
        print(old, new)
    return 0


if __name__ == "__main__":
    sys.exit(main())
