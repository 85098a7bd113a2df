#!/usr/bin/env python3
"""Writes the stored logs that the gate replays, with the expected output.

    python3 reference/store.py DIR

writes DIR/data/logs, for each log its length in four bytes, high byte first,
and then its bytes; and DIR/stdout, for each log a line `log K`, K from
0, and then the output of the reference for it.
"""

import itertools
import os
import sys

import known
import makelog
import randomlogs
import sheetlog

HERE = os.path.dirname(os.path.abspath(__file__))
EXAMPLES = os.path.join(os.path.dirname(HERE), "examples")
SHIPPED = ["set_b", "empty_sheet", "refusals", "cut_short", "derivatives",
           "full_table", "thomas"]
SEEDED = 50

SETS = {"set-a": (3, ["x1", "x1^2", "x2", "x1 x3"]),
        "set-b": (2, ["x1^3", "x1 x2", "x2^2"]),
        "set-c": (2, ["x1", "x2", "x1 x2"]),
        "set-d": (3, ["x1^5", "x1^2 x2", "x1 x2^4", "x1^2 x3^2",
                      "x1 x2^2 x3^2", "x3^5"]),
        "set-e": (2, ["x1^2", "x2^2"])}


def log(n, kind, *commands):
    """A log from commands in the text form; a command may be several."""
    lines = [f"variables {n}", f"kind {kind}", *commands]
    return makelog.assemble("\n".join(lines))


def inserts(rows):
    return [f"insert {row}" for row in rows]


def orderings(n):
    return [" ".join(map(str, ordering))
            for ordering in itertools.permutations(range(1, n + 1))]


def powers(v, exponents):
    """Powers of one variable, the term 1 among them."""
    return [f"x{v}^{e}" if e else "1" for e in exponents]


def times(row, v, m):
    """The text of the product of a row with v to the power m."""
    u = sheetlog.element_of(makelog.read_element(row.split()))
    family, exponents = sheetlog.times_power(u, v, m)
    return makelog.write_element(makelog.element_bytes(family, exponents),
                                 False)


# Worked sets

def worked_sets():
    for name, (n, rows) in SETS.items():
        for division in makelog.DIVISIONS:
            yield f"{name}-by-{division}", log(
                n, "terms", *inserts(rows),
                *(f"weigh {division} {o}" for o in orderings(n)),
                f"verdict {division}", f"settle {division}",
                *(f"locate {times(row, v, m)}" for row in rows
                  for v in range(1, n + 1) for m in (1, 2)),
                "locate 1", "reopen", f"verdict {division}")
    e = ["d1 x1^2", "d2 x2^2"]
    yield "set-e-as-derivatives", log(
        2, "derivatives", *inserts(e), "settle janet", "locate d1 x1^2 x2^2",
        "locate d2 x1^2 x2^2", "locate d1 x2^2", "locate d2 x1 x2^65535",
        "reopen", "settle janet-like")
    yield "set-e-as-derivatives-by-thomas", log(
        2, "derivatives", *inserts(e), "verdict thomas", "weigh thomas 2 1",
        "settle thomas", "locate d1 x1^2 x2^2", "locate d2 x1^2 x2^2",
        "locate d1 x2^2", "locate d2 x1 x2^65535", "reopen",
        "insert d1 x2^2", "verdict thomas", "settle thomas")
    yield "set-e-verdict", log(2, "terms", *inserts(SETS["set-e"][1]),
                               "verdict janet", "settle janet")
    yield "withdraw-from-set-b", log(
        2, "terms", *inserts(SETS["set-b"][1]), "withdraw x1 x2",
        "withdraw x1 x2", "insert x1 x2", "settle janet", "locate x1^3",
        "locate x2^2", "locate x1 x2", "locate x1^3 x2^2")


def set_c():
    """Set C by all divisions, settled by each in turn."""
    n, rows = SETS["set-c"]
    locates = [f"locate {term}" for term in (
        "x1", "x2", "x1 x2", "x1^7", "x2^7", "x1^2 x2", "x1 x2^2",
        "x1^3 x2^4", "x1^65535", "x2^65535", "x1^65535 x2^65535", "1")]
    yield "set-c-by-all", log(
        n, "terms", *inserts(rows),
        *(f"weigh {division} {o}" for division in makelog.DIVISIONS
          for o in orderings(n)),
        "arrange 2 1", "verdict thomas", "settle thomas", *locates,
        "locate x3", "locate d1 x1", "reopen", "verdict thomas",
        "settle janet", *locates, "reopen", "settle janet-like", *locates,
        "reopen", "settle thomas", "locate x1 x2")
    yield "set-c-by-thomas-row-by-row", log(
        n, "terms", "insert x2", "verdict thomas", "insert x1",
        "verdict thomas", "weigh thomas 2 1", "verdict janet",
        "settle thomas", "insert x1 x2", "verdict thomas", "settle thomas",
        "locate x1^2 x2", "reopen", "withdraw x2", "verdict thomas",
        "settle thomas", "locate x1^2 x2", "locate x2^2", "reopen",
        "withdraw x1", "verdict thomas", "withdraw x1 x2", "verdict thomas")
    yield "set-c-of-two-functions", log(
        n, "derivatives", *(f"insert d{f} {row}" for row in rows
                            for f in (1, 2)),
        "verdict thomas", "withdraw d2 x1 x2", "verdict thomas",
        "settle thomas", "withdraw d2 x2", "verdict thomas", "settle thomas",
        "locate d1 x1^2 x2^2", "locate d2 x1^2 x2^2", "locate d2 x2",
        "locate d3 x1")


# Near misses and edge cases

def near_misses():
    d = inserts(SETS["set-d"][1])
    yield "gap-only-among-rows-that-agree", log(
        3, "terms", *d, "arrange 3 2 1", "verdict janet-like",
        "withdraw x1^2 x3^2", "verdict janet-like", "insert x1^2 x3^2",
        "withdraw x1^2 x2", "verdict janet-like")
    yield "dividing-is-not-enough", log(
        3, "terms", *d, "arrange 3 2 1", "verdict janet")
    yield "other-greatest-variable", log(
        2, "terms", *inserts(SETS["set-b"][1]), "weigh janet 1 2",
        "weigh janet 2 1", "settle janet")


def thomas():
    """Near misses and edge cases of Thomas."""
    yield "thomas-rows-of-another-family", log(
        2, "derivatives", "insert d1 x1", "insert d2 x1^2", "verdict thomas",
        "weigh thomas 2 1", "settle thomas", "locate d1 x1^9",
        "locate d2 x1", "reopen", "insert d16 x1^4095 x2^4095",
        "insert d3 x2^3", "verdict thomas", "insert d2 x1^3 x2^2",
        "verdict thomas", "settle thomas", "withdraw d2 x1^3 x2^2",
        "settle thomas", "locate d1 x1^65535 x2^65535",
        "locate d16 x1^4095 x2^65535")
    yield "thomas-equal-is-not-greater", log(
        2, "terms", "insert x1", "insert x1 x2", "verdict thomas",
        "weigh thomas 2 1", "insert x1 x2^2", "verdict thomas",
        "settle thomas", "locate x1^5", "locate x1^5 x2", "locate x1 x2^5",
        "reopen", "insert x1^2 x2^2", "verdict thomas", "settle thomas")
    yield "thomas-equal-is-not-greater-in-three-variables", log(
        3, "terms", "insert x1 x2 x3^2", "insert x1 x2^2 x3^2",
        "insert x1^2 x2 x3^2", "verdict thomas", "insert x1^2 x2^2 x3^2",
        "verdict thomas", "settle thomas", "locate x1 x2 x3^9",
        "locate x1^9 x2 x3^2", "locate x1^9 x2^9 x3^9", "locate x1 x2 x3")
    yield "thomas-rows-that-do-not-agree", log(
        2, "terms", "insert x1", "insert x2", "verdict janet",
        "verdict janet-like", "verdict thomas", "weigh thomas 2 1",
        "arrange 2 1", "verdict janet", "verdict thomas", "settle thomas",
        "settle janet", "locate x1 x2", "locate x1^2", "locate x2^2")
    yield "thomas-rows-that-do-not-agree-in-three-variables", log(
        3, "terms", "insert x1^2", "insert x1 x2", "insert x2 x3^2",
        *(f"weigh {division} {o}" for o in orderings(3)
          for division in makelog.DIVISIONS),
        *(f"settle {division}" for division in ("thomas", "janet")))
    yield "thomas-limit-is-no-difference", log(
        1, "terms", "insert x1", "insert x1^3", "verdict thomas",
        "verdict janet-like", "settle thomas", "insert x1^2",
        "verdict thomas", "settle thomas", "locate x1^2", "locate x1^9",
        "locate 1")
    yield "thomas-after-edits", log(
        2, "terms", "insert x1", "insert x2^2", "insert x1 x2^2",
        "verdict thomas", "insert x1 x2", "verdict thomas",
        "withdraw x2^2", "verdict thomas", "insert x1^2 x2",
        "verdict thomas", "withdraw x1^2 x2", "verdict thomas")
    yield "thomas-shortfall-by-variable-number", log(
        3, "terms", "insert x3^2", "insert x2^2", "insert x1^2 x2",
        "weigh thomas 3 2 1", "weigh thomas 1 2 3", "withdraw x1^2 x2",
        "weigh thomas 3 2 1", "insert x2^2 x3", "insert x2^2 x3^2",
        "weigh thomas 3 2 1", "insert x2 x3^2", "weigh thomas 3 1 2",
        "settle thomas", "locate x1^7 x2 x3^2")
    yield "thomas-exponent-4095", log(
        2, "terms", "insert x1^4094", "insert x1^4095", "verdict thomas",
        "settle thomas", "locate x1^4094", "locate x1^65535",
        "locate x1^4094 x2^65535", "locate x1^4093", "reopen",
        "insert x2^4095", "verdict thomas", "insert x1^4095 x2^4095",
        "verdict thomas", "insert x1^4094 x2^4095", "verdict thomas",
        "withdraw x1^4094", "verdict thomas", "settle thomas")
    yield "thomas-exponents-above-a-byte", log(
        2, "terms", "insert x1^255", "insert x1^256", "verdict thomas",
        "settle thomas", "locate x1^255 x2^7", "locate x1^256",
        "locate x1^511", "reopen", "insert x1^512", "verdict thomas",
        "withdraw x1^256", "verdict thomas", "withdraw x1^255",
        "insert x1^511", "verdict thomas")
    yield "thomas-wide-gaps", log(
        2, "terms", "insert 1", "insert x1^4095", "insert x2^4095",
        "insert x1^4095 x2^4095", "verdict thomas", "settle thomas",
        "settle janet-like", "locate x1^4094 x2^4094")
    yield "thomas-starts-anew", log(
        3, "terms", *inserts(["x1 x2", "x1 x3", "x1 x2 x3"]),
        "arrange 3 1 2", "verdict thomas", "settle thomas",
        "locate x1^2 x2^2", "reopen", "verdict thomas", "arrange 2 3 1",
        "settle thomas", "reopen", "verdict janet")
    yield "thomas-refused-keeps-the-ordering", log(
        2, "terms", *inserts(SETS["set-b"][1]), "arrange 2 1",
        "verdict janet", "settle thomas", "verdict janet", "settle janet",
        "reopen", "settle thomas", "verdict janet")
    yield "thomas-after-another-division", log(
        2, "terms", "insert x1 x2^3", "insert x1^2 x2^3", "insert x1^2 x2^2",
        "settle janet-like", "locate x1^9 x2^2", "locate x1 x2^9",
        "locate x1^9 x2^9", "reopen", "settle thomas", "locate x1^9 x2^2",
        "locate x1 x2^9", "locate x1^9 x2^9", "locate x1 x2^2", "reopen",
        "settle janet", "locate x1^9 x2^2", "locate x1 x2^9", "reopen",
        "withdraw x1^2 x2^3", "settle thomas", "settle janet-like")
    yield "thomas-sixteen-families", log(
        2, "derivatives", *(f"insert d{f} x{1 + f % 2}^{f}"
                            for f in range(1, 17)),
        "verdict thomas", "settle thomas", "locate d16 x1^16",
        "locate d16 x1^15", "locate d15 x2^99", "locate d1 x1^9 x2^9",
        "reopen", "insert d16 x2^2", "settle thomas", "verdict thomas")
    grid = ["1" if not a + b else makelog.write_element(
        makelog.element_bytes(0, (a, b)), False)
            for b in range(8) for a in range(8)]
    yield "thomas-full-table", log(
        2, "terms", *inserts(grid), "verdict thomas", "settle thomas",
        "locate x1^7 x2^7", "locate x1^3 x2^9", "locate x1^9 x2^3",
        "locate x1^65535 x2^65535", "reopen", "withdraw x1^7 x2^7",
        "verdict thomas", "insert x1^8 x2^7", "verdict thomas",
        "settle thomas")
    yield "thomas-eight-variables", log(
        8, "terms", "insert x1 x8", "insert x1^2 x8", "insert x1^2 x8^3",
        "verdict thomas", "insert x1 x8^2", "insert x1 x8^3",
        "insert x1^2 x8^2", "verdict thomas",
        "weigh thomas 8 7 6 5 4 3 2 1", "settle thomas",
        "locate x1 x2^9 x5^65535 x8^2", "locate x1^9 x8",
        "locate x1^65535 x8^65535", "locate x1 x7^4", "reopen",
        "insert x7^2", "settle thomas")
    yield "thomas-eight-variables-full-table", log(
        8, "terms", *("insert " + (" ".join(
            f"x{v}" for v in (1, 2, 4, 5, 7, 8)
            if bits >> (1, 2, 4, 5, 7, 8).index(v) & 1) or "1")
            for bits in range(64)),
        "verdict thomas", "settle thomas", "locate x1^9 x5^9 x8^9",
        "locate x3^9 x6^9", "reopen", "withdraw x1 x8", "verdict thomas")


def edge_cases():
    yield "exponent-4095", log(1, "terms", "insert x1^4095", "verdict janet",
                               "settle janet", "locate x1^4095",
                               "locate x1^65535", "locate x1^4094")
    yield "exponent-4096", log(1, "terms", "insert x1^4096", "verdict janet")
    fill = inserts(powers(1, range(64)))
    yield "row-65", log(1, "terms", *fill, "insert x1^64", "verdict janet")
    yield "row-65-after-withdraw", log(
        1, "terms", *fill, "insert x1^64", "withdraw 1", "insert x1^64",
        "insert 1", "verdict janet", "settle janet-like", "locate x1",
        "locate x1^64", "locate x1^900", "locate 1")
    yield "row-again-in-full-table", log(1, "terms", *fill, "insert x1^7",
                                         "insert x1^64")
    yield "term-one-is-a-row", log(
        3, "terms", "withdraw 1", "insert 1", "insert 1", "verdict janet",
        "settle janet", "locate 1", "locate x1 x2 x3", "reopen",
        "withdraw 1", "verdict janet", "insert 1", "insert x3",
        "verdict janet", "verdict janet-like", "settle janet", "locate x3^2",
        "locate x1^5")
    yield "term-one-last-of-three", log(
        2, "terms", "insert x1", "insert x2", "insert 1", "withdraw x1",
        "insert x2", "insert 1", "settle janet", "locate x1", "locate x2",
        "locate 1")
    yield "ordering-after-settle-and-reopen", log(
        2, "terms", *inserts(SETS["set-b"][1]), "verdict janet",
        "settle janet", "reopen", "verdict janet", "arrange 1 2",
        "verdict janet", "settle janet", "reopen", "verdict janet")
    yield "refused-settle-keeps-the-ordering", log(
        2, "terms", "insert x1", "insert x1^2 x2", "insert x2^3",
        "verdict janet", "arrange 2 1", "verdict janet", "settle janet",
        "verdict janet", "weigh janet 1 2", "verdict janet")
    yield "settle-starts-anew", log(
        3, "terms", *inserts(SETS["set-a"][1]), "arrange 2 3 1",
        "verdict janet", "settle janet", "reopen", "settle janet")
    yield "settle-by-one-then-the-other", log(
        2, "terms", *inserts(SETS["set-b"][1]), "settle janet",
        "locate x1^4 x2", "reopen", "settle janet-like", "locate x1^4 x2",
        "locate x1^2 x2^2", "reopen", "settle janet", "locate x1^2 x2^2")
    yield "wide-gaps", log(
        2, "terms", "insert 1", "insert x1^4095", "insert x2^4095",
        "insert x1^4095 x2^4095", "verdict janet", "verdict janet-like",
        "settle janet", "settle janet-like", "locate x1^4094 x2^4094",
        "locate x1^4095 x2^4094", "locate x1^4094 x2^65535",
        "locate x1^65535 x2^65535")
    yield "shortfall-by-variable-number", log(
        3, "terms", "insert x1", "insert x1^4", "insert x3^2",
        "weigh janet 3 2 1", "weigh janet-like 3 2 1", "weigh janet 1 2 3",
        "withdraw x1", "withdraw x1^4", "withdraw x3^2", "insert x3",
        "insert x3^4", "insert x1^2", "weigh janet 1 2 3",
        "weigh janet 3 2 1")
    yield "sixteen-families", log(
        2, "derivatives", *(f"insert d{f} x{1 + f % 2}^2"
                            for f in range(1, 17)),
        "verdict janet", "settle janet", "locate d16 x1^2", "locate d15 x2^9",
        "locate d15 x1^9", "reopen", "insert d16 x2^2", "settle janet",
        "settle janet-like")
    yield "families-do-not-mix", log(
        3, "derivatives", "insert d1 x1", "insert d2 x1^2", "insert d1 x2",
        "insert d2 x1 x2", "verdict janet", "settle janet",
        "locate d1 x1^2", "locate d2 x1^2", "locate d2 x1 x2 x3",
        "locate d2 x2", "locate d3 x1")
    yield "eight-variables", log(
        8, "terms", *(f"insert x{v}" for v in range(1, 9)),
        "weigh janet 8 7 6 5 4 3 2 1", "verdict janet", "settle janet",
        *(f"locate x{v} x{9 - v}^2" for v in range(1, 9)), "locate 1")
    yield "eight-variables-dead-end", log(
        8, "terms", "insert x1 x2", "insert x3 x4", "insert x5 x6^2",
        "insert x7 x8", "settle janet", "settle janet-like")
    yield "eight-variables-full-table", log(
        8, "terms", *("insert " + (" ".join(
            f"x{v + 1}" for v in range(8) if bits >> v & 1) or "1")
            for bits in range(64)),
        "verdict janet", "settle janet", "locate x1^9 x6^9 x8^9")
    yield "one-variable", log(
        1, "terms", "insert x1^2", "insert x1^5", "insert x1^6",
        "verdict janet", "verdict janet-like", "settle janet",
        "settle janet-like", "locate x1^4", "locate x1^5", "locate x1",
        "reopen", "insert x1^3", "insert x1^4", "settle janet",
        "locate x1^4")


# Long searches: sets for which many prefixes have to be tested.

LONG_SEARCHES = [
    (3, ["1", "x3^2", "x2^2", "x2^2 x3^2", "x2^4", "x2^4 x3^2", "x2", "x3",
         "x2 x3^2", "x2^3"]),
    (3, ["x2 x3^2", "x2", "x1 x2^2", "x2^2 x3^2", "x1^2 x3^2", "x1 x2 x3",
         "x1^2 x2", "x1 x2", "x2^2", "x2 x3"]),
    (3, ["x1^2", "x1 x2^2 x3", "x1 x3^2", "x3^3", "x1^2 x3",
         "x1^2 x2 x3^2", "x1 x2^2 x3^2", "x1 x2 x3^2", "x1^2 x2 x3"]),
    (4, ["x3", "x2^4", "x2^3 x3", "x2 x3^3", "x2^2", "x3^4", "x2^2 x3^2",
         "x3^3", "x2 x3", "x3^2", "x2^3", "x2^2 x3"]),
    (4, ["1", "x4^3", "x4^6", "x1", "x1 x4^3", "x1 x4^6", "x4", "x4^4",
         "x4^2", "x4^5"]),
    (4, ["x1 x2 x3", "x4", "x2 x3 x4", "x2", "x1", "x1 x4", "x4^2", "x1 x2",
         "x2^2", "x1 x2 x4", "x2^2 x4", "x3 x4"]),
    (4, ["x3", "x2", "1", "x1 x4", "x1 x2 x4", "x4"]),
    (5, ["1", "x3^2", "x1^2", "x1^2 x3^2", "x1", "x3", "x1 x3^2"]),
    (5, ["x1 x2 x3 x5", "x2 x5", "x1 x3 x4", "x3 x5", "x1 x2 x5",
         "x2 x4 x5", "x1 x3 x4 x5", "x3 x4 x5"]),
    (6, ["1", "x5", "x5^2", "x4", "x4 x5", "x4 x5^2", "x1", "x1 x5^2",
         "x1 x4"]),
    (6, ["x1 x2 x3 x6", "x2 x3 x6^2", "x6^3", "x1 x2 x3 x6^2", "x1^2",
         "x1 x3 x6", "x1 x3", "x1 x6^3", "x3 x6^2"]),
    (7, ["x2^3", "1"]),
    (7, ["x1 x5 x7", "x1", "x5"]),
    (8, ["x3 x7 x8", "x3 x4 x5 x6 x7 x8", "x1 x3 x4 x5 x6 x7 x8",
         "x1 x2 x4 x6 x8", "x1 x3 x7 x8", "x3 x4 x7 x8",
         "x1 x2 x4 x6 x7 x8", "x1 x3 x4 x7 x8", "x3 x4 x6 x7 x8"]),
]


# By Thomas a prefix is live or dead by which variables it lists.  With the
# products of all variables but one only all variables together are dead, so
# all prefixes are tested.
LONG_SEARCHES_BY_THOMAS = [
    (4, ["x2 x3 x4", "x1 x3 x4", "x1 x2 x4", "x1 x2 x3"]),
    (6, ["x2 x3 x4 x5 x6", "x1 x3 x4 x5 x6", "x1 x2 x4 x5 x6",
         "x1 x2 x3 x5 x6", "x1 x2 x3 x4 x6", "x1 x2 x3 x4 x5"]),
    (5, ["x1^2 x2^3", "x1 x2^3 x3", "x1^2 x2^2 x3"]),
    (7, ["x1", "x2 x3"]),
    (8, ["x1 x2", "x7 x8"]),
]


def long_searches():
    for at, (n, rows) in enumerate(LONG_SEARCHES, 1):
        # Refused or settled, then reopened (3 where it stayed open).
        yield f"long-search-{at}", log(
            n, "terms", *inserts(rows), "settle janet", "reopen",
            "verdict janet", "settle janet-like", "verdict janet-like")
    for at, (n, rows) in enumerate(LONG_SEARCHES_BY_THOMAS, 1):
        yield f"long-search-by-thomas-{at}", log(
            n, "terms", *inserts(rows), "settle thomas", "verdict thomas",
            "settle janet", "reopen")


# Refusals

def all_codes_cut():
    """Each command without its last byte, and the code alone."""
    whole = {"insert": "insert x1", "withdraw": "withdraw x1",
             "arrange": "arrange 2 1", "verdict": "verdict janet",
             "weigh": "weigh janet 2 1", "settle": "settle janet",
             "locate": "locate x1"}
    for name, command in whole.items():
        data = log(2, "terms", "insert x1", command)
        yield f"cut-{name}", data[:-1]
    for name in ("insert", "weigh", "locate"):
        yield f"cut-{name}-after-its-code", \
            log(2, "terms", "insert x1", whole[name])[:21]
    yield "cut-settle-in-settled-session", log(
        2, "terms", "insert x1", "settle janet", "bytes 06")
    yield "cut-insert-in-settled-session", log(
        2, "terms", "insert x1", "settle janet", "bytes 01 00 00")
    yield "cut-weigh-by-thomas", log(2, "terms", "insert x1", "bytes 05 03")
    yield "cut-weigh-by-no-division", log(
        2, "terms", "insert x1", "settle thomas", "bytes 05 04 02 01")


def bad_starts():
    yield "empty-input", b""
    yield "one-byte", b"\x02"
    yield "one-bad-byte", b"\x09"
    yield "kind-2", b"\x02\x02"
    yield "kind-255", b"\x02\xFF\x04\x01"
    yield "kind-before-variable-count", b"\x09\x07"
    yield "no-variables", b"\x00\x00"
    yield "nine-variables", b"\x09\x01\x08"
    yield "no-commands", b"\x02\x00"
    yield "no-commands-derivatives", b"\x08\x01"


def refusals():
    yield "code-ff", log(2, "terms", "bytes FF 08")
    yield "code-0", log(2, "terms", "insert x1", "bytes 00", "verdict janet")
    yield "code-9-in-settled-session", log(2, "terms", "insert x1",
                                           "settle janet", "bytes 09")
    yield "code-81-at-the-end", log(2, "terms", "verdict janet", "bytes 81")
    yield "reopen-then-cut", b"\x02\x00\x08\x01\x00"
    yield "verdict-of-nothing", b"\x02\x00\x04\x01"
    yield "open-session-takes-no-locate", log(
        2, "terms", "locate x1", "reopen", "insert x1", "locate x1",
        "locate x3", "reopen", "settle janet", "locate x1")
    yield "settled-session-takes-no-edit", log(
        2, "terms", "insert x1", "settle janet", "insert x2", "withdraw x1",
        "arrange 2 1", "verdict janet", "weigh janet 2 1", "settle janet",
        "insert x1^4096", "arrange 9", "verdict 4", "weigh 0 9", "settle 4",
        "locate x1", "reopen", "reopen", "insert x2")
    yield "session-settled-by-thomas-takes-no-edit", log(
        2, "terms", "insert x1", "settle thomas", "insert x2",
        "withdraw x1", "verdict thomas", "verdict 4", "weigh thomas 9",
        "weigh 4 2 1", "settle thomas", "settle 4", "settle 0",
        "settle 255", "locate x1", "reopen", "settle 4", "verdict thomas")
    yield "bad-division-bytes", log(
        2, "terms", "verdict 0", "verdict 4", "verdict 255", "weigh 0 1 2",
        "weigh 4 9 9", "weigh 4 2 1", "settle 0", "settle 255", "insert x1",
        "verdict 4", "weigh 5 2 1", "settle 128", "settle janet")
    yield "division-bytes-around-those-of-divisions", log(
        2, "terms", "insert x1", *(
            command for byte in (0, 1, 2, 3, 4, 5, 7, 127, 128, 129, 130,
                                 131, 132, 253, 254, 255)
            for command in (f"verdict {byte}", f"weigh {byte} 2 1",
                            f"weigh {byte} 1 1")),
        *(f"settle {byte}" for byte in (0, 4, 128, 131, 255, 3)),
        "locate x1^2 x2")
    yield "elements-not-admitted", log(
        2, "terms", "insert d1 x1", "insert d255 1", "insert x1^4096",
        "insert x2^65535", "insert x3", "insert x8^65535", "insert x3^256",
        "withdraw d1 x1", "withdraw x1^4096", "withdraw x3",
        "insert x1^4095 x2^4095", "withdraw x1^4095 x2^4095")
    yield "derivatives-not-admitted", log(
        3, "derivatives", "insert x1", "insert d0 1", "insert d17 x1",
        "insert d255 x1", "insert d1 x4", "insert d16 x3^4095",
        "insert d16 x3^4096", "withdraw d17 x1", "withdraw 1", "settle janet",
        "locate x1", "locate d17 x3^4095", "locate d16 x3^65535",
        "locate d16 x4", "locate d15 x3^4095")
    yield "locate-not-admitted", log(
        2, "terms", "insert x1", "settle janet", "locate d1 x1", "locate x3",
        "locate x1 x8^65535", "locate x1^65535 x2^65535", "locate x2^65535")
    yield "not-admitted-in-full-table", log(
        1, "terms", *inserts(powers(1, range(64))), "insert x1^4096",
        "insert d1 x1", "insert x2", "insert x1^63", "insert x1^64")
    bad = ["1 1 2", "1 2", "1 2 3 4", "0 1 2 3", "1 0 2 3", "3 2 1 0 0 0 0 1",
           "4 2 1", "0", "255 1 2", "1 2 3 0 1", "1 2 3 3"]
    yield "lists-that-are-no-ordering", log(
        3, "terms", "insert x1", *(f"arrange {b}" for b in bad),
        *(f"weigh janet {b}" for b in bad), "arrange 3 1 2",
        "weigh janet 2 3 1")
    yield "no-ordering-of-no-rows", log(
        2, "terms", "weigh janet 1 1", "weigh janet 1 2", "weigh 4 1 1",
        "arrange 1", "arrange 2 1")
    yield "lists-of-eight", log(
        8, "terms", "arrange 8 7 6 5 4 3 2 1", "arrange 8 7 6 5 4 3 2 2",
        "arrange 8 7 6 5 4 3 2", "arrange 9 8 7 6 5 4 3 2",
        "arrange 1 2 3 4 5 6 7 8", "insert x8", "verdict janet")
    yield "no-rows", log(
        4, "derivatives", "verdict janet", "verdict janet-like",
        "weigh janet 4 3 2 1", "settle janet", "settle janet-like",
        "insert d3 x1", "withdraw d3 x1", "verdict janet",
        "weigh janet-like 1 2 3 4", "settle janet")
    yield "no-rows-by-thomas", log(
        4, "derivatives", "verdict thomas", "weigh thomas 4 3 2 1",
        "weigh thomas 4 3 2", "settle thomas", "insert d3 x1",
        "withdraw d3 x1", "verdict thomas", "weigh thomas 1 2 3 4",
        "settle thomas")
    yield "no-ordering-by-thomas", log(
        3, "terms", "insert x1 x2^3", "insert x1^3 x2", "settle thomas",
        "insert x1^3 x2^3", "settle thomas", "insert x1^2 x2^3",
        "insert x1^3 x2^2", "settle thomas", "locate x1^2 x2^9 x3",
        "locate x1^2 x2^2", "reopen", "withdraw x1^3 x2^3", "settle thomas")
    yield "no-cone-by-thomas", log(
        2, "derivatives", "insert d1 x1^2", "insert d1 x1^2 x2",
        "insert d3 x2", "settle thomas", "locate d1 x1", "locate d1 x2^9",
        "locate d2 x1^2", "locate d3 x1^9", "locate d3 x1^9 x2",
        "locate d1 x1^9 x2^9", "locate d1 x1^3")
    yield "already-a-row", log(
        2, "terms", "insert x1 x2", "insert x2 x1", "insert x1", "insert 1",
        "insert x1", "insert 1", "withdraw x1", "insert x1", "insert x1")
    yield "already-a-row-by-family", log(
        2, "derivatives", "insert d1 x1", "insert d2 x1", "insert d1 x1",
        "insert d2 x1")
    yield "not-a-row", log(
        2, "terms", "withdraw 1", "withdraw x1", "insert x1", "withdraw x2",
        "withdraw x1^2", "withdraw 1", "withdraw x1", "withdraw x1")
    yield "not-a-row-by-family", log(
        2, "derivatives", "insert d1 x1", "withdraw d2 x1", "withdraw d1 x2",
        "withdraw d1 x1", "withdraw d1 x1")
    yield "no-ordering-mirror", log(
        2, "terms", "insert x1 x2^3", "insert x1^3 x2", "settle janet",
        "settle janet-like", "verdict janet")
    yield "no-ordering-one-variable", log(
        1, "terms", "insert x1", "insert x1^3", "settle janet",
        "insert x1^2", "settle janet")
    yield "no-ordering-until-a-third-row", log(
        4, "terms", "insert x1 x2", "insert x3 x4", "settle janet",
        "settle janet-like", "insert x1 x2 x3", "settle janet",
        "locate x1 x2 x3 x4", "locate x1 x2 x4", "reopen",
        "withdraw x1 x2 x3", "settle janet")
    yield "no-ordering-one-family-of-two", log(
        2, "derivatives", "insert d1 x1", "insert d2 x1^2", "insert d2 x2^2",
        "settle janet", "withdraw d2 x2^2", "settle janet")
    yield "no-cone", log(
        3, "terms", "insert x1^2 x2", "insert x1^2 x2^2", "settle janet",
        "locate 1", "locate x1^2", "locate x1 x2^9 x3^9",
        "locate x1^2 x2 x3^65535", "locate x2^65535", "reopen",
        "withdraw x1^2 x2", "settle janet-like", "locate x1^2 x2",
        "locate x1^2 x2^2")
    yield "no-cone-in-that-family", log(
        2, "derivatives", "insert d1 x1", "insert d3 x2", "settle janet",
        "locate d2 x1", "locate d1 x2", "locate d3 x1", "locate d3 x2",
        "locate d1 x1")


def longest_inputs():
    """65,536 bytes, read to the last, and one byte more."""
    changes = b"".join(log(2, "terms", command)[2:] for command in
                       ("insert x1", "insert x1", "withdraw x1",
                        "withdraw x1"))
    rest = sheetlog.LONGEST_INPUT - 2
    data = b"\x02\x00" + changes * (rest // len(changes))
    missing = sheetlog.LONGEST_INPUT - len(data)
    data += b"\x04\x01" * (missing // 2)
    yield "65536-bytes", data
    yield "65537-bytes", data + b"\x04"


# Known sets, shipped examples, logs by seed

def known_sets():
    """Known sets of the field, under their ordering and, for few variables,
    under all; settled by each division."""
    for example in known.KNOWN:
        n, rows = example.n, example.rows
        own = " ".join(map(str, example.ordering))
        weighed = [own] + (orderings(n) if n <= 3 else [])
        locates = [f"locate {row}" for row in rows]
        locates += [f"locate {times(row, v, 1)}" for row in rows
                    for v in range(1, n + 1)]
        locates += [f"locate {times(rows[0], n, 65000)}", "locate 1",
                    f"locate {times('1', n, 1)}"]
        commands = inserts(rows)
        for division in makelog.DIVISIONS:
            commands += [f"weigh {division} {o}" for o in weighed]
        commands += [f"arrange {own}"]
        commands += [f"verdict {division}" for division in makelog.DIVISIONS]
        for division in makelog.DIVISIONS:
            # Where no ordering serves, the session stays open and takes
            # no locate; asking once is enough then.
            granted = sheetlog.Rows(
                [sheetlog.element_of(makelog.read_element(row.split()))
                 for row in rows], n).search(
                     makelog.DIVISIONS[division])[0] is not None
            commands += [f"settle {division}"]
            commands += locates if granted else locates[:1]
            commands += ["reopen", f"verdict {division}"]
        yield f"known-{example.name}", log(n, "terms", *commands)


def shipped():
    for name in SHIPPED:
        with open(os.path.join(EXAMPLES, name + ".txt"),
                  encoding="utf-8") as file:
            yield ("example-" + name.replace("_", "-"),
                   makelog.assemble(file.read()))


def longest_search(output):
    """The greatest count in an output."""
    words = [line.split() for line in output.splitlines()]
    return max([int(w[3 if w[2] == "ok" else 4]) for w in words
                if w[1:2] == ["06"] and (w[2] == "ok" or w[3] == "16")],
               default=0)


def seeded():
    """Small logs of randomlogs with short searches."""
    taken = 0
    for index in itertools.count():
        data = randomlogs.log("stored", index)
        if 20 <= len(data) <= 700 \
                and longest_search(sheetlog.output(data)) <= 300:
            yield f"seeded-{index}", data
            taken += 1
            if taken == SEEDED:
                return


def all_logs():
    return list(itertools.chain(
        worked_sets(), set_c(), near_misses(), thomas(), edge_cases(),
        long_searches(), bad_starts(), all_codes_cut(), refusals(),
        longest_inputs(), known_sets(), shipped(), seeded()))


def main():
    if len(sys.argv) != 2:
        print("usage: python3 reference/store.py DIR", file=sys.stderr)
        return 2
    directory = sys.argv[1]
    logs = all_logs()
    assert len({name for name, _ in logs}) == len(logs)
    os.makedirs(os.path.join(directory, "data"), exist_ok=True)
    with open(os.path.join(directory, "data", "logs"), "wb") as file:
        for _, data in logs:
            file.write(len(data).to_bytes(4, "big") + data)
    with open(os.path.join(directory, "stdout"), "w", encoding="ascii",
              newline="\n") as file:
        for number, (name, data) in enumerate(logs):
            file.write(f"log {number}\n{sheetlog.output(data)}")
    with open(os.path.join(directory, "names.txt"), "w", encoding="ascii",
              newline="\n") as file:
        for number, (name, _) in enumerate(logs):
            file.write(f"{number} {name}\n")
    size = sum(4 + len(data) for _, data in logs)
    print(f"{len(logs)} logs, {size} bytes")
    return 0


if __name__ == "__main__":
    sys.exit(main())
