#!/usr/bin/env python3
"""Compares a sheetlog with the reference on logs made by seed.

    python3 reference/compare.py --program crates/sheetlog/out/sheetlog \\
        --seed 1 --count 10000 [--keep DIR] [--tally]

The program is started once for each log.  The first differences are shown
with the log in the text form of makelog.  --keep writes every log that
differs to DIR, with both outputs beside it.  --tally tells how often each
command got each answer.  The last line is

    10000 logs, 0 differences (seed 1)

and the exit code is 1 if there was a difference.
"""

import argparse
import collections
import os
import subprocess
import sys

import makelog
import randomlogs
import sheetlog

SECONDS = 120


def run(program, data):
    """The program's output for a log; a line of its own if it did not end
    as it should."""
    try:
        ended = subprocess.run([program], input=data, stdout=subprocess.PIPE,
                               stderr=subprocess.PIPE, timeout=SECONDS)
    except subprocess.TimeoutExpired:
        return f"(not ended after {SECONDS} seconds)\n"
    text = ended.stdout.decode("ascii", "backslashreplace")
    if ended.returncode != 0:
        text += f"(exit code {ended.returncode})\n"
    return text


def first_difference(expected, got):
    """Lines that tell where two outputs part."""
    expected, got = expected.splitlines(), got.splitlines()
    for at in range(max(len(expected), len(got))):
        one = expected[at] if at < len(expected) else "(nothing)"
        other = got[at] if at < len(got) else "(nothing)"
        if one != other:
            return [f"  output line {at + 1}",
                    f"  reference: {one}", f"  program:   {other}"]
    return ["  the outputs differ in line ends only"]


def show(index, data, expected, got, most_lines=60):
    """Print a difference with its log."""
    print(f"log {index}, {len(data)} bytes")
    print("\n".join(first_difference(expected, got)))
    lines = makelog.disassemble(data).splitlines()
    for line in lines[:most_lines]:
        print(f"    {line}")
    if len(lines) > most_lines:
        print(f"    ({len(lines) - most_lines} lines more)")


def keep(directory, name, data, expected, got):
    """Write a log and both outputs to a directory."""
    os.makedirs(directory, exist_ok=True)
    for ending, content in ((".log", data), (".reference", expected.encode()),
                            (".program", got.encode())):
        with open(os.path.join(directory, name + ending), "wb") as file:
            file.write(content)


def answers(output):
    """The kinds of answers in an output, for the tally."""
    for line in output.splitlines():
        words = line.split()
        if words[0] in ("sheet", "end"):
            continue
        if words[0] in ("no", "too"):
            yield "start " + line
        elif words[2] == "no":
            code = words[1] if words[3] != "1" else "other code"
            yield f"{code} no {words[3]}"
        elif words[1] in ("04", "05"):
            yield f"{words[1]} ok " + ("yes" if words[3] == "yes" else "short")
        else:
            yield f"{words[1]} ok"


def main():
    parser = argparse.ArgumentParser(description="compare a sheetlog with "
                                     "the reference on logs made by seed")
    parser.add_argument("--program", required=True)
    parser.add_argument("--seed", type=int, default=1)
    parser.add_argument("--count", type=int, default=1000)
    parser.add_argument("--start", type=int, default=0,
                        help="the first log's number (default 0)")
    parser.add_argument("--show", type=int, default=3,
                        help="differences to show (default 3)")
    parser.add_argument("--keep", metavar="DIR")
    parser.add_argument("--tally", action="store_true")
    args = parser.parse_args()

    differences = 0
    tally = collections.Counter()
    for index in range(args.start, args.start + args.count):
        data = randomlogs.log(args.seed, index)
        expected = sheetlog.output(data)
        got = run(args.program, data)
        if args.tally:
            tally.update(answers(expected))
        if expected != got:
            differences += 1
            if differences <= args.show:
                show(index, data, expected, got)
            if args.keep:
                keep(args.keep, f"{args.seed}-{index}", data, expected, got)
    for answer, times in sorted(tally.items()):
        print(f"{times:8} {answer}")
    print(f"{args.count} logs, {differences} "
          f"difference{'s' * (differences != 1)} (seed {args.seed})")
    return 1 if differences else 0


if __name__ == "__main__":
    sys.exit(main())
