#!/usr/bin/env python3
"""Checks the reference against the plain definitions.

    python3 reference/selfcheck.py

Small random sheets are judged twice: by sheetlog.py, and here by what the
rules say word for word, with no thought for speed.  Then come the worked
sets and examples of the rules page, known sets of the field, makelog and the
shipped examples.  One line is printed for each check; the last line is
`N checks, 0 failed`.  The exit code is 1 if one failed.
"""

import itertools
import os
import random
import sys

import bars
import known
import makelog
import randomlogs
import sheetlog

DIVISIONS = JANET, LIKE, THOMAS = (sheetlog.JANET, sheetlog.JANET_LIKE,
                                   sheetlog.THOMAS)
HERE = os.path.dirname(os.path.abspath(__file__))
EXAMPLES = os.path.join(os.path.dirname(HERE), "examples")


# The definitions, word for word.  Exponents are read by variable number.

def exponent(element, v):
    return element[1][v - 1]


def agree_above(u, w, ordering, v):
    """Whether two rows of one family agree in every variable greater than
    v."""
    greater = ordering[:ordering.index(v)]
    return u[0] == w[0] and all(exponent(u, g) == exponent(w, g)
                                for g in greater)


def star(rows, ordering, u, v):
    """Whether a star follows the bar of v under u."""
    return not any(agree_above(u, w, ordering, v)
                   and exponent(w, v) > exponent(u, v) for w in rows)


def gap(rows, ordering, u, v):
    """The smallest positive difference in v to a row that agrees above."""
    return min(exponent(w, v) - exponent(u, v) for w in rows
               if agree_above(u, w, ordering, v)
               and exponent(w, v) > exponent(u, v))


def thomas(rows, u, v):
    """The limit of v for u by Thomas, or None: 1 where some row of the same
    family has a greater exponent in v.  No ordering is asked for."""
    if any(w[0] == u[0] and exponent(w, v) > exponent(u, v) for w in rows):
        return 1
    return None


def limit(rows, ordering, division, u, v):
    """The limit of v for u, or None."""
    if division == THOMAS:
        return thomas(rows, u, v)
    if star(rows, ordering, u, v):
        return None
    return 1 if division == JANET else gap(rows, ordering, u, v)


def bar_of(ordering, u, v):
    """A bar of v: the family and the exponents from the greatest variable
    down to v, so that bars compare as the definition of lower says."""
    down = ordering[:ordering.index(v) + 1]
    return (u[0],) + tuple(exponent(u, g) for g in down)


def bar_number(rows, ordering, u, v):
    """1 plus the number of different lower bars of v in the family."""
    bars = {bar_of(ordering, w, v) for w in rows if w[0] == u[0]}
    return 1 + sum(bar < bar_of(ordering, u, v) for bar in bars)


def in_cone(rows, ordering, division, u, w):
    """Whether w is the product of u with a multiplier of u."""
    if u[0] != w[0]:
        return False
    for v in range(1, 9):
        rest = exponent(w, v) - exponent(u, v)
        if rest < 0:
            return False
        if v in ordering:
            m = limit(rows, ordering, division, u, v)
            if m is not None and rest >= m:
                return False
    return True


def plainly_divides(u, w):
    return u[0] == w[0] and all(exponent(u, v) <= exponent(w, v)
                                for v in range(1, 9))


def box_of_multiples(rows, n):
    """Every multiple of a row with exponents up to the largest exponent plus
    the largest possible limit plus 1."""
    largest = max(max(u[1]) for u in rows)
    top = 2 * largest + 2
    for family in sorted({u[0] for u in rows}):
        for exponents in itertools.product(range(top + 1), repeat=n):
            w = family, exponents + (0,) * (8 - n)
            if any(plainly_divides(u, w) for u in rows):
                yield w


def plainly_dead(rows, prefix, division):
    """Whether a prefix is dead, by the definition."""
    for u in rows:
        for v in prefix:
            m = limit(rows, prefix, division, u, v)
            if m is None:
                continue
            w = sheetlog.times_power(u, v, m)
            for s in rows:
                limits = [(z, limit(rows, prefix, division, s, z))
                          for z in prefix]
                if plainly_divides(s, w) and all(
                        most is None or exponent(w, z) - exponent(s, z) < most
                        for z, most in limits):
                    break
            else:
                return True
    return False


def whole_listing(n):
    """All prefixes of n variables in listing order: by the first entry in
    which they differ, a prefix before its extensions."""
    return sorted(p for k in range(1, n + 1)
                  for p in itertools.permutations(range(1, n + 1), k))


def plain_search(rows, n, division):
    """Answer and count, from the whole listing."""
    listing = whole_listing(n)
    live = {p: not plainly_dead(rows, p, division) for p in listing}
    full = [p for p in listing if len(p) == n and live[p]]
    answer = full[0] if full else None
    tested = [p for p in listing
              if all(live[p[:k]] for k in range(1, len(p)))
              and (answer is None or p <= answer)]
    return answer, len(tested), live


# Sheets to check on

def some_ordering(n, rows):
    """An ordering of n variables that the rows pick."""
    return tuple(random.Random(str(rows)).sample(range(1, n + 1), n))


def small_sheets(seed, count, n_most, exponent_most, rows_most,
                 divisions=DIVISIONS):
    """Pairs (n, rows), some of them with two families, some completed by one
    of the divisions."""
    rng = random.Random(seed)
    for _ in range(count):
        n = rng.randint(1, n_most)
        families = rng.choice([[0], [0], [1, 2]])
        if rng.random() < 0.5:
            terms = randomlogs.some_set(rng, n)
        else:
            terms = [[rng.randint(0, exponent_most) for _ in range(n)]
                     for _ in range(rng.randint(1, rows_most))]
        rows = []
        for term in terms:
            term = [min(e, exponent_most) for e in term] + [0] * (8 - n)
            row = rng.choice(families), tuple(term)
            if row not in rows and len(rows) < rows_most:
                rows.append(row)
        if rng.random() < 0.4:
            complete(rng, rows, n, exponent_most, rows_most, divisions)
        yield n, rows


def complete(rng, rows, n, exponent_most, rows_most, divisions):
    """Fill shortfalls while the rows stay small."""
    division = rng.choice(divisions)
    ordering = tuple(rng.sample(range(1, n + 1), n))
    while len(rows) < rows_most:
        short = sheetlog.Rows(rows, n).first_shortfall(division, ordering)
        if short is None:
            return
        product = sheetlog.times_power(rows[short[0]], *short[1:])
        if max(product[1]) > exponent_most:
            return
        rows.append(product)


def element(text):
    """An element from the text form of makelog."""
    return sheetlog.element_of(makelog.read_element(text.split()))


# Checks: each gives a line of facts, or raises AssertionError.

def check_limits():
    looked = 0
    for n, rows in small_sheets("limits", 300, 5, 4, 10):
        sheet = sheetlog.Rows(rows, n)
        for ordering in itertools.islice(
                itertools.permutations(range(1, n + 1)), 24):
            for division in DIVISIONS:
                for v, limits in sheet.limits_from_the_top(division, ordering):
                    for u, found in zip(rows, limits):
                        plain = limit(rows, ordering, division, u, v)
                        assert found == (sheetlog.NO_LIMIT if plain is None
                                         else plain)
                        looked += 1
    return f"{looked} limits as stars, gaps and families say"


def check_thomas_knows_no_ordering():
    looked = yes = no = 0
    for n, rows in small_sheets("thomas", 150, 4, 3, 8):
        orderings = list(itertools.permutations(range(1, n + 1)))
        first = orderings[0]
        told = sheetlog.Rows(rows, n)
        limits_of = dict(told.limits_from_the_top(THOMAS, first))
        short = told.first_shortfall(THOMAS, first)
        for ordering in orderings:
            # Rows of their own, so that nothing kept is told again.
            sheet = sheetlog.Rows(rows, n)
            tops = sheet.limits_from_the_top(THOMAS, ordering)
            assert dict(tops) == limits_of
            assert sheet.first_shortfall(THOMAS, ordering) == short
            looked += 1
        for k in range(1, n + 1):
            for some in itertools.combinations(range(1, n + 1), k):
                dead = plainly_dead(rows, some, THOMAS)
                for prefix in itertools.permutations(some):
                    assert sheet.live(THOMAS, prefix) != dead
                assert short is not None or not dead
        answer, count = sheet.search(THOMAS)
        if short is None:
            assert (answer, count) == (first, n)
        else:
            assert answer is None and n <= count <= len(whole_listing(n))
        yes, no = yes + (short is None), no + (short is not None)
    assert yes > 40 and no > 40
    return (f"the same under {looked} orderings, {yes} settled by 1 to n "
            f"with count n and {no} by none")


def check_completeness():
    yes = no = 0
    for n, rows in small_sheets("complete", 60, 3, 2, 7):
        sheet = sheetlog.Rows(rows, n)
        multiples = list(box_of_multiples(rows, n))
        for ordering in itertools.permutations(range(1, n + 1)):
            for division in DIVISIONS:
                by_box = True
                tops = sheet.limits_from_the_top(division, ordering)
                for w in multiples:
                    holding = list(sheet.fitting(w, tops))
                    assert len(holding) <= 1, "two cones meet"
                    by_box = by_box and len(holding) == 1
                short = sheet.first_shortfall(division, ordering)
                assert by_box == (short is None)
                yes, no = yes + by_box, no + (not by_box)
    assert yes > 40 and no > 40
    return f"{yes} complete and {no} not complete, by all small multiples"


def check_cones():
    looked = 0
    for n, rows in small_sheets("cones", 60, 3, 2, 6):
        sheet = sheetlog.Rows(rows, n)
        rng = random.Random(f"cones {rows}")
        elements = list(box_of_multiples(rows, n))
        elements = rng.sample(elements, min(25, len(elements)))
        elements += [(rows[0][0], tuple(rng.randint(0, 2) if v < n else 0
                                        for v in range(8)))
                     for _ in range(5)]
        ordering = tuple(rng.sample(range(1, n + 1), n))
        for division in DIVISIONS:
            for w in elements:
                holding = [place for place, u in enumerate(rows)
                           if in_cone(rows, ordering, division, u, w)]
                assert len(holding) <= 1, "two cones meet"
                found = sheet.cone(division, ordering, w)
                assert holding == ([] if found is None else [found])
                if found is not None:
                    dividing = [u for u in rows if plainly_divides(u, w)]
                    greatest = max(dividing, key=lambda u: [
                        exponent(u, v) for v in ordering])
                    assert rows[found] == greatest
                looked += 1
    return f"{looked} elements located as by the definition of a cone"


def check_first_shortfall():
    found = 0
    for n, rows in small_sheets("first", 150, 4, 3, 7):
        ordering = some_ordering(n, rows)
        for division in DIVISIONS:
            expected = None
            for place, v in itertools.product(range(len(rows)),
                                              range(1, n + 1)):
                m = limit(rows, ordering, division, rows[place], v)
                if m is not None and expected is None:
                    w = sheetlog.times_power(rows[place], v, m)
                    if not any(in_cone(rows, ordering, division, u, w)
                               for u in rows):
                        expected = place, v, m
            got = sheetlog.Rows(rows, n).first_shortfall(division, ordering)
            assert got == expected
            found += expected is not None
    return f"{found} first shortfalls by place and then by variable number"


def check_search():
    answers = none = 0
    sheets = itertools.chain(small_sheets("search", 150, 3, 3, 8),
                             small_sheets("search 4", 25, 4, 2, 8))
    for n, rows in sheets:
        sheet = sheetlog.Rows(rows, n)
        for division in DIVISIONS:
            answer, count, live = plain_search(rows, n, division)
            assert sheet.search(division) == (answer, count)
            first = None
            for ordering in itertools.permutations(range(1, n + 1)):
                complete_so = sheet.first_shortfall(division, ordering) is None
                assert complete_so == live[ordering]
                if first is None and complete_so:
                    first = ordering
            assert answer == first
            for prefix, is_live in live.items():
                assert len(prefix) == 1 or live[prefix[:-1]] or not is_live
            answers, none = answers + (answer is not None), \
                none + (answer is None)
    assert answers > 40 and none > 40
    # By Thomas only the last prefix of each ordering is dead here.
    for n in (2, 3, 4):
        rows = [element(" ".join(f"x{v}" for v in range(1, n + 1) if v != w))
                for w in range(1, n + 1)]
        answer, count, _ = plain_search(rows, n, THOMAS)
        assert sheetlog.Rows(rows, n).search(THOMAS) == (answer, count)
        assert (answer, count) == (None, len(whole_listing(n)))
    return (f"{answers} answers and {none} dead ends, with counts, by the "
            "whole listing and by all orderings")


def check_janet_like_completes_more():
    """Thomas limits every variable that Janet limits, so what Thomas
    completes Janet completes too; and Janet-like completes what any does."""
    every = two = one = 0
    for n, rows in small_sheets("more", 300, 4, 4, 9):
        sheet = sheetlog.Rows(rows, n)
        for ordering in itertools.permutations(range(1, n + 1)):
            janet, janet_like, thomas_too = (
                sheet.first_shortfall(division, ordering) is None
                for division in DIVISIONS)
            assert janet or not thomas_too
            assert janet_like or not (janet or thomas_too)
            every += thomas_too
            two += janet and not thomas_too
            one += janet_like and not janet
    assert min(every, two, one) > 100
    return (f"{every} completed by all three, {two} by Janet and Janet-like, "
            f"{one} by Janet-like alone")


def check_laws():
    looked = 0
    for n, rows in small_sheets("laws", 200, 4, 4, 9):
        ordering = some_ordering(n, rows)
        for u, w in itertools.permutations(rows, 2):
            if u[0] != w[0]:
                continue
            v = next(v for v in ordering if exponent(u, v) != exponent(w, v))
            less = exponent(w, v) - exponent(u, v)
            if less > 0:
                for division in DIVISIONS:
                    m = limit(rows, ordering, division, u, v)
                    assert m is not None and 1 <= m <= less
                    looked += 1
    return f"separation in {looked} pairs"


SETS = {"A": (3, ["x1", "x1^2", "x2", "x1 x3"]),
        "B": (2, ["x1^3", "x1 x2", "x2^2"]),
        "C": (2, ["x1", "x2", "x1 x2"]),
        "D": (3, ["x1^5", "x1^2 x2", "x1 x2^4", "x1^2 x3^2",
                  "x1 x2^2 x3^2", "x3^5"]),
        "E": (2, ["x1^2", "x2^2"]),
        "E as derivatives": (2, ["d1 x1^2", "d2 x2^2"])}


def worked(name):
    n, texts = SETS[name]
    return sheetlog.Rows(map(element, texts), n)


def check_worked_sets():
    assert worked("A").search(JANET) == ((1, 2, 3), 3)
    assert not worked("A").live(JANET, (3,))
    assert worked("B").search(JANET) == ((2, 1), 3)
    assert worked("B").search(LIKE) == ((1, 2), 2)
    assert worked("E").search(JANET) == (None, 2)
    assert worked("E").search(LIKE) == ((1, 2), 2)
    assert worked("E as derivatives").search(JANET) == ((1, 2), 2)
    assert worked("D").first_shortfall(LIKE, (3, 2, 1)) is None
    assert worked("D").first_shortfall(JANET, (3, 2, 1)) == (0, 3, 1)
    for ordering in ((1, 2), (2, 1)):
        assert worked("C").first_shortfall(THOMAS, ordering) is None
    # Not among the ten: what settling C, and the others by Thomas, gives.
    for division in DIVISIONS:
        assert worked("C").search(division) == ((1, 2), 2)
    assert worked("E").search(THOMAS) == (None, 2)
    assert worked("E as derivatives").search(THOMAS) == ((1, 2), 2)
    for name in "ABD":
        assert worked(name).search(THOMAS)[0] is None
    for name, (n, texts) in SETS.items():
        rows = list(map(element, texts))
        for division in DIVISIONS:
            assert plain_search(rows, n, division)[:2] \
                == worked(name).search(division)
    return "the ten results of the rules page"


def check_table_of_d():
    # Bar number, star or not, Janet-like limit; variables 3, 2, 1.
    table = ["1 2, 1 1, 1* -", "1 2, 2 3, 2* -", "1 2, 3* -, 3* -",
             "2 3, 4 2, 4* -", "2 3, 5* -, 5* -", "3* -, 6* -, 6* -"]
    n, texts = SETS["D"]
    rows = list(map(element, texts))
    ordering = (3, 2, 1)
    for u, line in zip(rows, table):
        cells = []
        for v in ordering:
            follows = "*" if star(rows, ordering, u, v) else ""
            m = limit(rows, ordering, LIKE, u, v)
            cells.append(f"{bar_number(rows, ordering, u, v)}{follows} "
                         f"{m or '-'}")
        assert ", ".join(cells) == line, (u, cells)
    a = list(map(element, SETS["A"][1]))
    assert bar_number(a, ordering, element("x1 x3"), 3) == 2
    return "bars, stars and limits of D under 3,2,1"


def parts_of(n, rows, ordering):
    """The parts of a sheet as bars.py keeps them."""
    parts = bars.Parts(bars.TERMS if rows[0][0] == 0 else bars.DERIVATIVES,
                       n, len(rows) + 1, 8)
    parts.open()
    for row in rows:
        parts.insert(row)
    parts.arrange(list(ordering) + [0] * (8 - n))
    return parts


def check_bars_told():
    looked = 0
    for n, rows in small_sheets("bars", 120, 4, 3, 8):
        for ordering in itertools.permutations(range(1, n + 1)):
            parts = parts_of(n, rows, ordering)
            for (place, u), v in itertools.product(enumerate(rows), ordering):
                assert parts.bar(place, v) == (
                    bar_number(rows, ordering, u, v),
                    star(rows, ordering, u, v))
                for division in DIVISIONS:
                    assert parts.limit(division, place, v) \
                        == limit(rows, ordering, division, u, v)
                looked += 1
    n, texts = SETS["D"]
    told = bars.Stored("d", bars.TERMS, n, 6).insert(
        *map(element, texts)).tell_under([(3, 2, 1)]).lines[-6:]
    assert told == [
        "0 | x1 1* - - - | x2 1 1 1 1 | x3 1 1 2 1",
        "1 | x1 2* - - 1 | x2 2 1 3 1 | x3 1 1 2 1",
        "2 | x1 3* - - 1 | x2 3* - - - | x3 1 1 2 1",
        "3 | x1 4* - - 1 | x2 4 1 2 1 | x3 2 1 3 1",
        "4 | x1 5* - - 1 | x2 5* - - 1 | x3 2 1 3 1",
        "5 | x1 6* - - 1 | x2 6* - - 1 | x3 3* - - -"]
    return f"{looked} bars with their limits, and D as it is told"


def plainly_a_sheet(kind, n, table, order, row_count):
    """Whether parts make a sheet, condition by condition."""
    if n not in range(1, 9):
        return False
    if len(table) not in range(1, 65):
        return False
    if row_count > len(table):
        return False
    if not any(order == list(p) + [0] * (8 - n)
               for p in itertools.permutations(range(1, n + 1))):
        return False
    for place in range(row_count):
        family, exponents = table[place]
        if family not in ([0] if kind == bars.TERMS else range(1, 17)):
            return False
        if any(e > (4095 if v <= n else 0)
               for v, e in enumerate(exponents, 1)):
            return False
        if any(table[before] == table[place] for before in range(place)):
            return False
    return all(family == 0 and exponents == (0,) * 8
               for family, exponents in table[row_count:])


def refusal_of(call, *handed):
    """The number of the refusal of a call, or None."""
    try:
        call(*handed)
        return None
    except sheetlog.Refused as refusal:
        return refusal.values[0]


def check_parts():
    judged = {True: 0, False: 0}
    for index, (n, rows) in enumerate(small_sheets("parts", 1500, 4, 2, 6)):
        rng = random.Random(index)
        parts = parts_of(n, rows, some_ordering(n, rows))
        for _ in range(rng.randint(0, 2)):
            place = rng.randrange(len(parts.table))
            family, exponents = parts.table[place]
            which = rng.randrange(9)
            if which == 0:
                parts.n = rng.choice([0, 1, n - 1, n + 1, 9])
            elif which == 1:
                parts.row_count = rng.choice([0, len(rows) - 1,
                                              len(rows) + 1, len(rows) + 2])
            elif which == 2:
                parts.order[rng.randrange(8)] = rng.randint(0, n + 1)
            elif which == 3:
                parts.order = rng.choice([parts.order[:7], parts.order + [0]])
            elif which == 4:
                parts.table[place] = rng.choice(parts.table)
            elif which == 5:
                parts.table[place] = rng.choice([0, 1, 2, 16, 17]), exponents
            elif which == 6:
                v = rng.randint(1, n)
                parts.table[place] = sheetlog.times_power(
                    (family, exponents), v, rng.choice([1, 4090, 4096]))
            elif which == 7:
                parts.table[place] = sheetlog.times_power(
                    (family, exponents), rng.randint(1, 8), 1)
            else:
                parts.table += [bars.BLANK] * rng.choice([1, 60])
        made = plainly_a_sheet(parts.kind, parts.n, parts.table, parts.order,
                               parts.row_count)
        assert parts.make_a_sheet() == made
        for place, v in itertools.product((0, len(rows), len(rows) + 1),
                                          (0, 1, parts.n, parts.n + 1)):
            if not made:
                refused = 8
            elif place >= parts.row_count or v not in range(1, parts.n + 1):
                refused = 10
            else:
                refused = None
            assert refusal_of(parts.bar, place, v) == refused
            for division in DIVISIONS:
                assert refusal_of(parts.limit, division, place, v) == refused
        judged[made] += 1
    assert min(judged.values()) > 200
    return f"{judged[True]} parts make a sheet and {judged[False]} none"


# Four wrong readings of Thomas, each a way to give the limit of v for u.

def of_every_family(rows, ordering, u, v):
    """Rows of other families count too."""
    return 1 if any(exponent(w, v) > exponent(u, v) for w in rows) else None


def of_rows_that_agree(rows, ordering, u, v):
    """Only rows that agree in the greater variables count."""
    return limit(rows, ordering, JANET, u, v)


def of_equal_exponents(rows, ordering, u, v):
    """An equal exponent of another row counts as greater."""
    return 1 if any(w != u and w[0] == u[0]
                    and exponent(w, v) >= exponent(u, v)
                    for w in rows) else None


def of_the_difference(rows, ordering, u, v):
    """The limit is the smallest difference to a greater exponent."""
    return min((exponent(w, v) - exponent(u, v) for w in rows
                if w[0] == u[0] and exponent(w, v) > exponent(u, v)),
               default=None)


# The reading, n, the ordering, a set, a row, a variable, the limit that the
# reading gives there, the one by Thomas, and whether the rows are complete by
# the reading and by Thomas.
READINGS = [
    (of_every_family, 2, (1, 2), ["d1 x1", "d2 x1^2"], "d1 x1", 1,
     1, None, False, True),
    (of_rows_that_agree, 2, (1, 2), ["x1", "x2"], "x1", 2,
     None, 1, True, False),
    (of_equal_exponents, 2, (1, 2), ["x1", "x1 x2"], "x1", 1,
     1, None, False, True),
    (of_the_difference, 1, (1,), ["x1", "x1^3"], "x1", 1,
     2, 1, True, False),
]


def complete_by(rows, ordering, limit_of):
    """Whether every multiple of a row up to small exponents is the product
    of a row with a term below the limits that a reading gives for it."""
    def holds(u, w):
        limits = [(v, limit_of(rows, ordering, u, v)) for v in ordering]
        return plainly_divides(u, w) and all(
            most is None or exponent(w, v) - exponent(u, v) < most
            for v, most in limits)
    return all(any(holds(u, w) for u in rows)
               for w in box_of_multiples(rows, len(ordering)))


def check_near_misses():
    rows = list(map(element, SETS["D"][1]))
    assert gap(rows, (3, 2, 1), element("x1^2 x2"), 2) == 3
    w = element("x1^5 x3")
    assert [u for u in rows if plainly_divides(u, w)] == [element("x1^5")]
    assert worked("D").cone(JANET, (3, 2, 1), w) is None
    assert not worked("B").live(JANET, (1,)) and worked("B").live(JANET, (2,))
    for reading, n, ordering, texts, text, v, wrong, right, *complete_so \
            in READINGS:
        rows, u = list(map(element, texts)), element(text)
        sheet = sheetlog.Rows(rows, n)
        assert reading(rows, ordering, u, v) == wrong
        assert thomas(rows, u, v) == right
        assert sheet.limits(THOMAS, (), v)[rows.index(u)] \
            == (right or sheetlog.NO_LIMIT)
        assert complete_so == [
            complete_by(rows, ordering, reading),
            sheet.first_shortfall(THOMAS, ordering) is None]
    return (f"three wrong readings are told apart, and {len(READINGS)} of "
            "Thomas")


def output_of(text):
    return sheetlog.output(makelog.assemble(text))


SAMPLE_HEX = """02 00
01  00  00 03 00 00 00 00 00 00 00 00 00 00 00 00 00 00
01  00  00 01 00 01 00 00 00 00 00 00 00 00 00 00 00 00
01  00  00 00 00 02 00 00 00 00 00 00 00 00 00 00 00 00
06  01
07  00  00 02 00 02 00 00 00 00 00 00 00 00 00 00 00 00
07  00  00 02 00 00 00 00 00 00 00 00 00 00 00 00 00 00"""

SAMPLE_OUTPUT = """sheet 2 0
2 01 ok 0
20 01 ok 1
38 01 ok 2
56 06 ok 3 2 1
58 07 ok 2
76 07 no 17
end 94
"""

SMALL_INPUTS = [
    ("02 00", "sheet 2 0/end 2"),
    ("02 00 FF 08", "sheet 2 0/2 FF no 1/end 2"),
    ("02 00 08 01 00", "sheet 2 0/2 08 no 3/3 01 no 2/end 3"),
    ("02 00 04 01", "sheet 2 0/2 04 no 12/end 4"),
    ("09 07", "no 4"), ("09", "no 2"), ("", "no 2"), ("00 00", "no 5"),
    ("09 01", "no 5"), ("08 01", "sheet 8 1/end 2"), ("01 02", "no 4"),
]


def check_sample_log():
    sample = bytes.fromhex(SAMPLE_HEX)
    assert len(sample) == 94
    assert sheetlog.output(sample) == SAMPLE_OUTPUT
    for text, lines in SMALL_INPUTS:
        assert sheetlog.output(bytes.fromhex(text)) == \
            lines.replace("/", "\n") + "\n"
    head = "variables 2\nkind terms\ninsert x1^2\ninsert x2^2\n"
    assert "\n38 04 ok 1 1 1\n" in output_of(head + "verdict janet")
    assert "\n38 06 no 16 2\n" in output_of(head + "settle janet")
    assert sheetlog.output(bytes([2]) + bytes(65536)) == "too long\n"
    assert sheetlog.output(bytes([2]) + bytes(65535)) == \
        "sheet 2 0\n2 00 no 1\nend 2\n"
    return "the sample log, the small inputs and the longest ones"


def check_edge_cases():
    head = "variables 1\nkind terms\n"
    assert "\n2 01 ok 0\n" in output_of(head + "insert x1^4095")
    assert "\n2 01 no 9\n" in output_of(head + "insert x1^4096")
    full = head + "".join(f"insert x1^{e}\n" for e in range(64))
    place = 2 + 64 * 18
    assert f"\n{place} 01 no 14\n" in output_of(full + "insert x1^64")
    assert f"\n{place} 01 no 13\n" in output_of(full + "insert x1^63")
    assert f"\n{place + 18} 01 ok 63\n" in output_of(
        full + "withdraw x1^5\ninsert x1^64")
    assert "\n2 02 no 9\n" in output_of(head + "withdraw x1^4096")
    assert "\n2 05 no 11\n" in output_of(head + "weigh janet 2")
    for byte in range(256):
        answer = "no 12" if byte in (1, 2, 3) else "no 4"
        assert f"\n2 04 {answer}\n" in output_of(head + f"verdict {byte}")
        assert f"\n2 05 {'no 11' if answer == 'no 12' else answer}\n" \
            in output_of(head + f"weigh {byte} 2")
        assert f"\n2 06 {answer}\n" in output_of(head + f"settle {byte}")
    settled = head + "insert x1\nsettle janet\n"
    assert "\n22 06 no 3\n" in output_of(settled + "settle 4")
    assert "\n22 06 no 3\n" in output_of(settled + "settle thomas")
    assert "\n22 06 no 2\n" in output_of(settled + "bytes 06")
    assert "\n22 07 ok 0\n" in output_of(settled + "locate x1^65535")
    return "edge cases and the order of refusals"


def check_known(example):
    """What the literature says of one set."""
    rows = list(map(element, example.rows))
    sheet = sheetlog.Rows(rows, example.n)
    for what, *said in example.says:
        if what == "verdict":
            ordering, division, answer = said
            got = sheet.first_shortfall(division, ordering)
            if answer == "no":
                assert got is not None, said
            else:
                assert got == (None if answer == "yes" else answer), said
        elif what == "free":
            ordering, free, division = (*said, JANET)[:3]
            for text, variables in free.items():
                assert {v for v in ordering if limit(
                    rows, ordering, division, element(text), v) is None} \
                    == variables, said
        elif what == "limits":
            ordering, limits, division = (*said, LIKE)[:3]
            for text, powers in limits.items():
                got = {v: limit(rows, ordering, division, element(text), v)
                       for v in ordering}
                assert {v: m for v, m in got.items() if m is not None} \
                    == powers, (text, got)
        elif what == "in cone":
            ordering, division, pairs = said
            for w, u in pairs:
                place = sheet.cone(division, ordering, element(w))
                assert place is not None and rows[place] == element(u), (w, u)
        elif what == "in no cone":
            ordering, division, elements = said
            for w in elements:
                assert sheet.cone(division, ordering, element(w)) is None, w
        elif what == "live":
            division, prefix, live = said
            assert sheet.live(division, prefix) == live, said
            assert plainly_dead(rows, prefix, division) != live, said
        elif what == "settles":
            division, found = said
            assert (sheet.search(division)[0] is not None) == found, said
        elif what in ("bars", "stars"):
            ordering, numbers = said
            for v, number in numbers.items():
                bars = {bar_of(ordering, u, v) for u in rows
                        if what == "bars" or star(rows, ordering, u, v)}
                assert len(bars) == number, (said, v, bars)
        else:
            raise AssertionError(f"nothing is known of {what}")


def check_known_sets():
    facts = 0
    for example in known.KNOWN:
        try:
            check_known(example)
        except AssertionError as wrong:
            raise AssertionError(f"{example.name}: {wrong}") from None
        facts += len(example.says)
    return f"{len(known.KNOWN)} known sets, {facts} facts"


def check_makelog():
    logs = 0
    rng = random.Random("bytes")
    for index in range(300):
        data = randomlogs.log("selfcheck", index)
        assert makelog.assemble(makelog.disassemble(data)) == data
        data = bytes(rng.choice([0, 1, 3, 4, 5, 8, rng.randrange(256)])
                     for _ in range(rng.randrange(80)))
        assert makelog.assemble(makelog.disassemble(data)) == data
        logs += 2
    for wrong in ("insert x1", "variables 256", "variables 2\nkind 1\nfly",
                  "variables 2\nkind 1\ninsert x9",
                  "variables 2\nkind 1\ninsert x1^65536",
                  "variables 2\nkind 1\narrange 1 2 3 4 5 6 7 8 9"):
        try:
            makelog.assemble(wrong)
        except makelog.BadLine as bad:
            assert f"line {wrong.count(chr(10)) + 1}:" in str(bad)
        else:
            raise AssertionError(f"taken: {wrong}")
    return f"{logs} logs to text and back"


def read(name):
    with open(os.path.join(EXAMPLES, name), "rb") as file:
        return file.read()


def check_examples():
    names = sorted(f[:-4] for f in os.listdir(EXAMPLES) if f.endswith(".txt"))
    for name in names:
        data = read(name + ".log")
        assert makelog.assemble(read(name + ".txt").decode()) == data, name
        assert sheetlog.output(data).encode() == read(name + ".out"), name
    assert read("set_b.log") == bytes.fromhex(SAMPLE_HEX)
    return f"{len(names)} shipped examples: text, log and output agree"


CHECKS = [check_limits, check_thomas_knows_no_ordering, check_laws,
          check_completeness, check_cones, check_first_shortfall,
          check_search, check_janet_like_completes_more, check_worked_sets,
          check_table_of_d, check_bars_told, check_parts, check_near_misses,
          check_sample_log, check_edge_cases, check_known_sets, check_makelog,
          check_examples]


def main():
    failed = 0
    for check in CHECKS:
        name = check.__name__[len("check_"):].replace("_", " ")
        try:
            print(f"ok    {name}: {check()}")
        except AssertionError as wrong:
            failed += 1
            line = wrong.__traceback__
            while line.tb_next:
                line = line.tb_next
            print(f"WRONG {name}: {wrong} (line {line.tb_lineno})")
    print(f"{len(CHECKS)} checks, {failed} failed")
    return 1 if failed else 0


if __name__ == "__main__":
    sys.exit(main())
