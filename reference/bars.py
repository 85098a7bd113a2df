#!/usr/bin/env python3
"""Writes the sheets whose bars and limits the gate tells, with the expected
output.

    python3 reference/bars.py DIR [COUNT]

writes DIR/data/sheets, in the form that README.md describes; DIR/stdout, what
the calls made on these sheets are answered by the rules; and DIR/names.txt,
the name of each sheet.  With a COUNT these are only so many sheets, the first
of all: the tables of 64 rows stand last, and are slow where a program is
tried with no proof.  Limits are those of sheetlog.py, numbers of bars are
counted here.
"""

import itertools
import os
import random
import sys

import known
import makelog
import randomlogs
import sheetlog
import store

TERMS, DERIVATIVES = sheetlog.TERMS, sheetlog.DERIVATIVES
JANET = sheetlog.JANET
LARGEST = sheetlog.LARGEST_EXPONENT
BLANK = (0, (0,) * 8)
OPERAND = 17


# The parts of a sheet, and the calls on it

def refuse(number, if_so):
    """A refusal, where its condition holds."""
    if if_so:
        raise sheetlog.Refused(number)


class Parts:
    """The parts of a sheet, which may hold anything, and the calls on them."""

    def __init__(self, kind, n, places, order_bytes):
        self.kind = kind
        self.n = n
        self.row_count = 0
        self.table = [BLANK] * places
        self.order = [0] * order_bytes

    def rows(self):
        return self.table[:self.row_count]

    def fits(self, element):
        """Whether an element can be a row."""
        family, exponents = element
        return sheetlog.admits(self.kind, family) \
            and max(exponents) <= LARGEST and not any(exponents[self.n:])

    def make_a_sheet(self):
        """Whether the parts make a sheet."""
        rows = self.rows()
        return (1 <= self.n <= 8
                and 1 <= len(self.table) <= 64
                and self.row_count <= len(self.table)
                and sheetlog.ordering_of(self.order, self.n) is not None
                and all(map(self.fits, rows))
                and len(set(rows)) == len(rows)
                and all(e == BLANK for e in self.table[self.row_count:]))

    def open(self):
        refuse(5, not 1 <= self.n <= 8)
        refuse(6, not 1 <= len(self.table) <= 64)
        refuse(7, len(self.order) != 8)
        self.table = [BLANK] * len(self.table)
        self.row_count = 0
        self.order = [*range(1, self.n + 1)] + [0] * (8 - self.n)

    def insert(self, element):
        refuse(8, not self.make_a_sheet())
        refuse(9, not self.fits(element))
        refuse(13, element in self.rows())
        refuse(14, self.row_count == len(self.table))
        self.table[self.row_count] = element
        self.row_count += 1
        return self.row_count - 1

    def withdraw(self, element):
        refuse(8, not self.make_a_sheet())
        refuse(9, not self.fits(element))
        refuse(15, element not in self.rows())
        self.table.remove(element)
        self.table.append(BLANK)
        self.row_count -= 1

    def arrange(self, numbers):
        refuse(8, not self.make_a_sheet())
        refuse(11, sheetlog.ordering_of(numbers, self.n) is None)
        self.order = list(numbers)

    def check_bar(self, place, v):
        """The refusals of bar and limit."""
        refuse(8, not self.make_a_sheet())
        refuse(10, place >= self.row_count or not 1 <= v <= self.n)

    def bar(self, place, v):
        """The number of the bar of v under a row, and whether a star
        follows it."""
        self.check_bar(place, v)
        number = bar_number(self.rows(), self.order, place, v)
        return number, self.limit_at(JANET, place, v) is None

    def limit(self, division, place, v):
        """The limit of v at a row, or None."""
        self.check_bar(place, v)
        return self.limit_at(division, place, v)

    def limit_at(self, division, place, v):
        greater = self.order[:self.order.index(v)]
        limits = sheetlog.Rows(self.rows(), self.n).limits(
            division, greater, v)
        return None if limits[place] == sheetlog.NO_LIMIT else limits[place]


def bar_number(rows, order, place, v):
    """1 plus the number of different lower bars of v in the row's family.  A
    bar is told by the exponents from the greatest variable down to v, and of
    two bars that is lower which has the smaller exponent first."""
    down = order[:order.index(v) + 1]
    bars = [[exponents[g - 1] for g in down] for _, exponents in rows]
    lower = {tuple(bar) for bar, (family, _) in zip(bars, rows)
             if family == rows[place][0] and bar < bars[place]}
    return 1 + len(lower)


# Stored sheets: what is asked, and what is answered

def answer(words, call, *handed):
    """The answer of a call in words, or its refusal."""
    try:
        return words(call(*handed))
    except sheetlog.Refused as refusal:
        return f"no {refusal.values[0]}"


def bar_words(bar):
    number, star = bar
    return f"{number}*" if star else f"{number}"


def limit_words(limit):
    return "-" if limit is None else f"{limit}"


def edit_words(place):
    """Of a call that writes; an insert gives a place."""
    return "ok" if place is None else f"ok {place}"


class Stored:
    """One sheet with its requests, and the lines that they print."""

    def __init__(self, name, kind, n, places, order_bytes=8):
        self.name = name
        self.parts = Parts(kind, n, places, order_bytes)
        self.head = bytes([kind, n, places, order_bytes])
        self.requests = []
        self.lines = [f"kind {kind}, n {n}, places {places}, "
                      f"order bytes {order_bytes} "
                      + answer(edit_words, self.parts.open)]

    def data(self):
        return self.head + len(self.requests).to_bytes(2, "big") \
            + b"".join(self.requests)

    def ask(self, letter, number=0, operand=b""):
        """A request: a letter, a number and 17 bytes."""
        operand = bytes(operand)
        self.requests.append(letter.encode() + bytes([number]) + operand
                             + bytes(OPERAND - len(operand)))

    def say(self, line):
        self.lines.append(line)

    # The calls

    def insert(self, *elements):
        for element in elements:
            self.ask("i", 0, makelog.element_bytes(*element))
            self.say("insert " + answer(edit_words, self.parts.insert,
                                        element))
        return self

    def withdraw(self, *elements):
        for element in elements:
            self.ask("w", 0, makelog.element_bytes(*element))
            self.say("withdraw " + answer(edit_words, self.parts.withdraw,
                                          element))
        return self

    def arrange(self, numbers):
        numbers = list(numbers)
        self.ask("a", len(numbers), numbers)
        self.say(f"arrange {numbers} "
                 + answer(edit_words, self.parts.arrange, numbers))
        return self

    def cells(self, place, variables):
        """The bar and the limits of each of these variables at a place."""
        for v in variables:
            bar = answer(bar_words, self.parts.bar, place, v)
            limits = " ".join(
                answer(limit_words, self.parts.limit, division, place, v)
                for division in sheetlog.DIVISIONS)
            yield f" | x{v} {bar} {limits}"

    def say_row(self, place, variables):
        self.say(f"{place}" + "".join(self.cells(place, variables)))

    def tell_bar(self, place, v):
        self.ask("b", place, [v])
        self.say_row(place, [v])
        return self

    def tell_rows(self):
        self.ask("t")
        for place in range(self.parts.row_count):
            self.say_row(place, range(1, self.parts.n + 1))
        return self

    # Alterations outside the calls

    def write_place(self, place, element):
        self.ask("p", place, makelog.element_bytes(*element))
        if place < len(self.parts.table):
            self.parts.table[place] = element
        self.say(f"place {place} written")
        return self

    def write_order(self, numbers):
        numbers = list(numbers)
        self.ask("o", len(numbers), numbers)
        self.parts.order = numbers
        self.say(f"order bytes {numbers} written")
        return self

    def write_header(self, n, row_count):
        self.ask("h", n, [row_count])
        self.parts.n, self.parts.row_count = n, row_count
        self.say(f"n {n}, row count {row_count} written")
        return self

    # Several requests

    def tell_under(self, orderings):
        """Every row under each of these orderings."""
        for ordering in orderings:
            self.arrange(padded(ordering)).tell_rows()
        return self

    def tell_bars(self, places, variables):
        for place, v in itertools.product(places, variables):
            self.tell_bar(place, v)
        return self


def padded(ordering):
    """An ordering as eight bytes."""
    return list(ordering) + [0] * (8 - len(ordering))


def element(text):
    """An element from the text form of makelog."""
    return sheetlog.element_of(makelog.read_element(text.split()))


def elements(*texts):
    return [element(text) for text in texts]


# Orderings

def all_orderings(n):
    return itertools.permutations(range(1, n + 1))


def some_orderings(rng, n, count):
    """All orderings where there are no more than so many, else the ordering
    1 to n, its reverse and others, all different."""
    every = list(all_orderings(n)) if n <= 4 else []
    if 0 < len(every) <= count:
        return every
    chosen = [tuple(range(1, n + 1)), tuple(range(n, 0, -1))]
    while len(chosen) < count:
        ordering = tuple(rng.sample(range(1, n + 1), n))
        if ordering not in chosen:
            chosen.append(ordering)
    return chosen


# The sheets

def worked_sets():
    for name, (n, texts) in store.SETS.items():
        yield Stored(name, TERMS, n, len(texts)).insert(
            *elements(*texts)).tell_under(all_orderings(n))
    yield Stored("set-e-as-derivatives", DERIVATIVES, 2, 4).insert(
        *elements("d1 x1^2", "d2 x2^2")).tell_under(all_orderings(2))
    n, texts = store.SETS["set-d"]
    yield Stored("set-d-in-two-families", DERIVATIVES, n, 64).insert(
        *(element(f"d{family} {text}") for text in texts
          for family in (1, 2))).tell_under([(3, 2, 1), (1, 3, 2)])


def thomas_sets():
    """Thomas looks at every row of the family and at no other, and what is
    equal is not greater."""
    families = elements("d1 x1", "d2 x1^2", "d1 x2", "d2 x1 x2^3",
                        "d16 x1^4095", "d16 x2^4095", "d3 x1^4 x2^4 x3^4",
                        "d2 x3", "d4 x1^255 x2^256", "d4 x1^256 x2^255")
    yield Stored("thomas-in-families", DERIVATIVES, 3, 11).insert(
        *families).tell_under(all_orderings(3))
    equal = elements("x1 x2", "x1 x3", "x1", "x1 x2^2", "x1 x2^2 x3",
                     "x2^2 x3")
    yield Stored("thomas-at-equal-exponents", TERMS, 3, 9).insert(
        *equal).tell_under(all_orderings(3))
    # The greatest exponent comes and goes.
    stored = Stored("thomas-after-edits", TERMS, 2, 5).insert(
        *elements("x1^4094", "x1^4094 x2")).tell_rows()
    for greater in elements("x1^4095 x2^2", "x1^4093 x2^4095"):
        stored.insert(greater).tell_under(all_orderings(2))
        stored.withdraw(greater).tell_rows()
    yield stored


def known_sets():
    for example in known.KNOWN:
        n, texts = example.n, example.rows
        yield Stored(f"known-{example.name}", TERMS, n, len(texts) + 1).insert(
            *elements(*texts)).tell_under(all_orderings(n))


def with_family(rng, kind, terms, n):
    """Terms of n variables as different elements of a kind, in few
    families."""
    families = [0] if kind == TERMS else rng.sample(range(1, 17),
                                                    rng.randint(1, 3))
    found = {}
    for term in terms:
        found[rng.choice(families), tuple(term) + (0,) * (8 - n)] = True
    return list(found)


def seeded():
    """Small sets of both kinds, for each n."""
    for index in range(48):
        rng = random.Random(f"bars {index}")
        n, kind = 1 + index % 8, index // 8 % 2
        terms = [term for _ in range(rng.randint(1, 3))
                 for term in randomlogs.some_set(rng, n)]
        rows = with_family(rng, kind, terms, n)[:rng.randint(4, 16)]
        places = len(rows) + rng.randint(0, 3)
        yield Stored(f"seeded-{index}", kind, n, places).insert(
            *rows).tell_under(some_orderings(rng, n, 6 if n < 4 else 4))


def full_tables():
    """64 rows, for each n: close together, or with wide gaps."""
    for n in range(1, 9):
        rng = random.Random(f"full {n}")
        if n < 3:
            choices = range(70)
        elif n in (3, 6):
            choices = [0, 1, 2, LARGEST - 2, LARGEST - 1, LARGEST]
        else:
            choices = range(4)
        terms = rng.sample(list(itertools.product(choices, repeat=min(n, 5))),
                           64)
        terms = [term + tuple(rng.choice(choices) for _ in range(n - 5))
                 for term in terms]
        kind = n % 2
        yield Stored(f"full-{n}", kind, n, 64).insert(
            *with_family(rng, kind, terms, n)).tell_under(
                some_orderings(rng, n, 3)[-2:])


def edits():
    """Bars and limits after each edit."""
    for kind in (TERMS, DERIVATIVES):
        for n in (2, 3, 5):
            rng = random.Random(f"edits {kind} {n}")
            terms = {tuple(rng.randint(0, 3) for _ in range(n))
                     for _ in range(20)}
            rows = with_family(rng, kind, sorted(terms), n)[:8]
            rng.shuffle(rows)
            stored = Stored(f"edits-{kind}-{n}", kind, n, 7).tell_rows()
            for row in rows:
                stored.insert(row).tell_rows()
            for row in rng.sample(rows, 3):
                stored.withdraw(row).tell_rows()
            stored.insert(*rows).tell_rows()
            yield stored.tell_under([tuple(range(n, 0, -1))])


# Refusals

SET = elements("x1^2", "x1 x2", "x3^4095")


def three_rows(name, places=6):
    return Stored(name, TERMS, 3, places).insert(*SET).arrange(
        padded((3, 1, 2)))


def three_derivatives(name, places=6):
    return Stored(name, DERIVATIVES, 3, places).insert(
        *elements("d1 x1^2", "d16 x1", "d1 x1^3 x2"))


def no_such_bar():
    for n in (1, 3, 8):
        rows = [BLANK, element(f"x{n}"), element(f"x1^4 x{n}") if n > 1
                else element("x1^4")]
        yield Stored(f"no-such-bar-{n}", TERMS, n, 5).insert(*rows).tell_bars(
            [0, 2, 3, 4, 5, 64, 255],
            sorted({0, 1, n, n + 1, 8, 9, 255}))
    for kind in (TERMS, DERIVATIVES):
        yield Stored(f"no-rows-{kind}", kind, 2, 3).tell_rows().tell_bars(
            range(4), range(4))
    stored = three_rows("last-row-withdrawn").tell_bar(2, 1)
    yield stored.withdraw(SET[2]).tell_bar(2, 1).tell_bar(1, 1)


def no_sheet():
    """One way after another in which parts make no sheet, each mended
    again."""
    def asked(stored):
        return stored.tell_bars([0, 2, 3, 255], [0, 1, 3, 4])

    stored = three_rows("row-twice")
    asked(stored.write_place(1, SET[0]))
    asked(stored.write_place(1, SET[1]))
    yield asked(stored.write_place(2, SET[0]))

    stored = three_rows("blank-that-is-none")
    for place in (3, 5):
        asked(stored.write_place(place, element("x2")))
        asked(stored.write_place(place, BLANK))
    for text in ("x1^4096", "x8", "d1 1"):
        asked(stored.write_place(4, element(text)))
    yield stored

    stored = three_rows("order-bytes")
    for numbers in ([1, 1, 2], [3, 2], [2, 1], [3, 2, 1, 4], [0, 1, 2, 3],
                    [1, 2, 4], [], [3, 2, 1, 0, 0, 0, 0, 1],
                    [255, 2, 1], [1, 2, 3, 4, 5, 6, 7, 8]):
        asked(stored.write_order(padded(numbers)))
    for numbers in ([], [3, 2, 1], [3, 2, 1, 0, 0, 0, 0],
                    [3, 2, 1, 0, 0, 0, 0, 0, 0]):
        asked(stored.write_order(numbers))
    yield asked(stored.write_order(padded([2, 3, 1])))

    stored = three_rows("row-count", places=4)
    for row_count in (5, 255, 2, 0):
        asked(stored.write_header(3, row_count))
    # The blank of place 3 is the term 1 then, and a row.
    yield asked(stored.write_header(3, 4)).tell_rows()

    stored = three_derivatives("row-count-of-derivatives")
    asked(stored.write_header(3, 4))
    yield asked(stored.write_header(3, 3)).tell_rows()

    stored = three_rows("variable-count")
    for n in (0, 9, 255, 2, 4, 8):
        asked(stored.write_header(n, 3))
    asked(stored.write_order(range(1, 9)))
    yield asked(stored.write_header(9, 3))

    stored = Stored("fewer-variables", TERMS, 3, 2).insert(
        *elements("x1", "x1 x2"))
    asked(stored.write_header(2, 2).write_order(padded([2, 1])))
    yield asked(stored.write_header(1, 2).write_order(padded([1])))

    stored = three_rows("rows-that-do-not-fit")
    for text in ("d1 x1", "d255 x1", "x1^4096", "x3^65535", "x4", "x8^4095",
                 "x2^4095"):
        asked(stored.write_place(1, element(text)))
    yield stored

    stored = three_derivatives("derivatives-that-do-not-fit")
    for text in ("x1", "1", "d17 x1", "d2 x2^4096", "d2 x4", "d2 x2^4095",
                 "d16 1"):
        asked(stored.write_place(0, element(text)))
    yield stored


def never_opened():
    """Open is refused, and then every call."""
    for n, places, order_bytes in [(0, 4, 8), (9, 4, 8), (255, 4, 8),
                                   (2, 0, 8), (2, 65, 8), (2, 255, 8),
                                   (2, 4, 0), (2, 4, 7), (2, 4, 9),
                                   (0, 0, 7), (9, 65, 9), (2, 0, 7),
                                   (2, 65, 255), (8, 64, 8), (1, 1, 8)]:
        yield Stored(f"open-{n}-{places}-{order_bytes}", TERMS, n, places,
                     order_bytes).tell_rows().tell_bars([0, 255], [0, 1, 9]) \
            .insert(element("x1")).withdraw(element("x1")) \
            .arrange(padded([1])).write_order(padded([1])).tell_bar(0, 1)


def refused_edits():
    """The refusals of the calls that write, and bars as they were."""
    for kind, family in ((TERMS, ""), (DERIVATIVES, "d3 ")):
        wrong = "d1 x1" if kind == TERMS else "x1"
        stored = Stored(f"refused-edits-{kind}", kind, 2, 3)
        u, v, w, z = elements(*(family + text for text in
                                ("x1^3", "x1 x2", "x2^2", "x2^3")))
        unfit = elements(wrong, family + "x1^4096", family + "x3")
        stored.insert(u, v, u, *unfit).withdraw(w, *unfit).tell_rows()
        stored.insert(w, z, u).insert(*unfit).tell_rows()
        for numbers in ([1, 2], [1], [1, 1], [1, 2, 3], [0, 1, 2]):
            stored.arrange(padded(numbers)).tell_rows()
        for numbers in ([], [2, 1], [2, 1, 0, 0, 0, 0, 0],
                        [2, 1, 0, 0, 0, 0, 0, 0, 0]):
            stored.arrange(numbers)
        stored.arrange(padded([2, 1])).tell_rows()
        stored.write_place(1, u).insert(w).withdraw(w).insert(unfit[0])
        stored.withdraw(z).arrange(padded([1, 2])).arrange([]).tell_rows()
        yield stored.write_place(1, v).arrange(padded([1, 2])).tell_rows()


def all_sheets():
    return list(itertools.chain(
        worked_sets(), thomas_sets(), known_sets(), no_such_bar(),
        no_sheet(), never_opened(), refused_edits(), edits(), seeded(),
        full_tables()))


def main():
    if len(sys.argv) not in (2, 3):
        print("usage: python3 reference/bars.py DIR [COUNT]", file=sys.stderr)
        return 2
    directory = sys.argv[1]
    sheets = all_sheets()
    if len(sys.argv) == 3:
        sheets = sheets[:int(sys.argv[2])]
    assert len({stored.name for stored in sheets}) == len(sheets)
    os.makedirs(os.path.join(directory, "data"), exist_ok=True)
    data = b"".join(stored.data() for stored in sheets)
    with open(os.path.join(directory, "data", "sheets"), "wb") as file:
        file.write(data)
    lines = 0
    with open(os.path.join(directory, "stdout"), "w", encoding="ascii",
              newline="\n") as file:
        for number, stored in enumerate(sheets):
            file.write(f"sheet {number}: " + "\n".join(stored.lines) + "\n")
            lines += len(stored.lines)
    with open(os.path.join(directory, "names.txt"), "w", encoding="ascii",
              newline="\n") as file:
        for number, stored in enumerate(sheets):
            file.write(f"{number} {stored.name}\n")
    print(f"{len(sheets)} sheets, {len(data)} bytes, {lines} lines")
    return 0


if __name__ == "__main__":
    sys.exit(main())
