#!/usr/bin/env python3
"""Makes logs by seed, good ones and bad ones, for comparing two sheetlogs.

randomlogs.log(seed, index) is always the same log for the same pair.
A log is written by a Session, which carries the commands out on a sheet of
the reference as it goes, so that it can pick rows to withdraw, multiples to
locate and shortfalls to fill.
"""

import itertools
import random

import makelog
import sheetlog

LONGEST = sheetlog.LONGEST_INPUT


# Sets of terms, as lists of exponent lists of length n

def all_of_degree(rng, n):
    """All terms of one degree in some of the variables."""
    some = rng.sample(range(n), min(n, rng.randint(1, 3)))
    degree = rng.randint(1, 3)
    terms = []
    for exponents in itertools.product(range(degree + 1), repeat=len(some)):
        if sum(exponents) == degree:
            term = [0] * n
            for v, e in zip(some, exponents):
                term[v] = e
            terms.append(term)
    return terms


def staircase(rng, n):
    """Exponents of one variable fall while those of another rise."""
    steps = rng.randint(2, 5)
    width = rng.choice([1, 1, 2, 5])
    rising = sorted(rng.sample(range(steps * width + 1), steps))
    falling = sorted(rng.sample(range(steps * width + 1), steps), reverse=True)
    a, b = rng.randrange(n), rng.randrange(n)
    terms = []
    for up, down in zip(rising, falling):
        term = [0] * n
        term[a] = up
        term[b] = down
        terms.append(term)
    return terms


def powers(rng, n):
    """Powers of single variables."""
    largest = rng.choice([1, 2, 4, 4095])
    terms = []
    for _ in range(rng.randint(1, n + 2)):
        term = [0] * n
        term[rng.randrange(n)] = rng.randint(1, largest)
        terms.append(term)
    return terms


def box(rng, n):
    """All terms with exponents from one short list for each variable."""
    choices = [[0]] * n
    for v in rng.sample(range(n), min(n, rng.randint(1, 3))):
        step = rng.choice([1, 1, 1, 2, 3])
        choices[v] = [step * i for i in range(rng.randint(1, 3))]
    return [list(term) for term in itertools.product(*choices)]


def squarefree(rng, n):
    """Products of different variables."""
    return [[rng.randint(0, 1) for _ in range(n)]
            for _ in range(rng.randint(1, 6))]


def scattered(rng, n):
    """Any terms with small exponents."""
    largest = rng.choice([1, 2, 2, 3, 5])
    return [[rng.randint(0, largest) if rng.random() < 0.6 else 0
             for _ in range(n)]
            for _ in range(rng.randint(1, 7))]


def large(rng, n):
    """Terms with exponents near 0 and near 4,095, so that gaps are wide."""
    near = [0, 0, 1, 2, 4093, 4094, 4095]
    return [[rng.choice(near) if rng.random() < 0.5 else 0 for _ in range(n)]
            for _ in range(rng.randint(1, 5))]


def border(rng, n):
    """The least terms outside of a small set closed under division, taken by
    one variable more: complete by Janet under some ordering."""
    some = rng.sample(range(n), min(n, rng.randint(1, 4)))
    rank = {v: i for i, v in enumerate(rng.sample(some, len(some)))}
    inner = {(0,) * n}
    for _ in range(rng.randint(0, 7)):
        term = list(rng.choice(sorted(inner)))
        term[rng.choice(some)] += 1
        inner.update(itertools.product(*(range(e + 1) for e in term)))
    terms = []
    for term in sorted(inner):
        for v in some:
            outer = list(term)
            outer[v] += 1
            least = min((w for w in some if outer[w]), key=rank.get)
            if tuple(outer) not in inner and least == v:
                terms.append(outer)
    return terms


SETS = [(all_of_degree, 3), (staircase, 4), (powers, 3), (box, 3),
        (squarefree, 2), (scattered, 5), (large, 1), (border, 5)]


def some_set(rng, n):
    """One set of terms, or two together, in any order, sometimes one short."""
    makers, weights = zip(*SETS)
    terms = rng.choices(makers, weights)[0](rng, n)
    if rng.random() < 0.15:
        terms = terms + rng.choices(makers, weights)[0](rng, n)
    if rng.random() < 0.5:
        rng.shuffle(terms)
    if len(terms) > 1 and rng.random() < 0.2:
        terms.pop(rng.randrange(len(terms)))
    return terms


# Sessions

class Session:
    """Writes a log and keeps a sheet that stands as the log leaves it."""

    def __init__(self, rng, n, kind):
        self.rng = rng
        self.n = n
        self.kind = kind
        self.sheet = sheetlog.Sheet(n, kind)
        self.data = bytearray([n, kind])
        self.filled_by = None
        if kind == sheetlog.TERMS:
            self.families = [0]
        else:
            self.families = rng.sample([1, 2, 3, 15, 16],
                                       rng.choice([1, 1, 2, 2, 3]))
        # No more rows than this, so that a search by the reference is quick.
        self.most = {1: 20, 2: 24, 3: 20, 4: 14}.get(n, 9)

    @property
    def rows(self):
        return self.sheet.rows.elements

    @property
    def settled(self):
        return self.sheet.settled_by is not None

    def write(self, code, operands=b""):
        """Write a command and carry it out; whether it was granted."""
        self.data += bytes([code]) + operands
        try:
            sheetlog.carry_out(self.sheet, code, operands)
        except sheetlog.Refused:
            return False
        return True

    def element(self, code, element):
        return self.write(code, makelog.element_bytes(*element))

    # Operands

    def division(self):
        if self.rng.random() < 0.04:
            return bytes([self.rng.choice([0, 4, 255])])
        return bytes([self.rng.choice(sheetlog.DIVISIONS)])

    def ordering(self):
        """Order bytes: mostly an ordering."""
        numbers = self.rng.sample(range(1, self.n + 1), self.n)
        listed = bytearray(makelog.order_bytes(numbers))
        if self.rng.random() < 0.12:
            wrong = self.rng.randrange(4)
            if wrong == 0:      # any byte anywhere
                listed[self.rng.randrange(8)] = \
                    self.rng.choice([0, 1, self.n, self.n + 1, 9, 255])
            elif wrong == 1:    # one of another length
                numbers = list(range(1, self.rng.randint(1, 8) + 1))
                listed = makelog.order_bytes(numbers)
            elif wrong == 2:    # the zeros in front
                listed.reverse()
            else:
                listed = bytearray(8)
        return bytes(listed)

    def family(self):
        return self.rng.choice(self.families)

    def any_element(self):
        """An element with small exponents that may well be a row."""
        if self.rows and self.rng.random() < 0.4:
            return self.rng.choice(self.rows)
        exponents = [self.rng.randint(0, 2) if self.rng.random() < 0.6 else 0
                     for _ in range(self.n)]
        return self.family(), exponents

    def bad_element(self):
        """An element that refusal 9 is for, or near to it."""
        family, exponents = self.any_element()
        exponents = list(exponents) + [0] * (8 - len(exponents))
        wrong = self.rng.randrange(4)
        if wrong == 0:
            family = self.rng.choice([0, 1, 16, 17, 255])
        elif wrong == 1:
            exponents[self.rng.randrange(self.n)] = \
                self.rng.choice([4095, 4096, 4096, 8191, 65535])
        elif self.n < 8:
            exponents[self.rng.randrange(self.n, 8)] = \
                self.rng.choice([1, 1, 256, 65535])
        else:
            exponents[7] = 65535
        return family, exponents

    def multiple(self):
        """A multiple of a row; products with a limit's power among them."""
        if not self.rows:
            return self.any_element()
        family, exponents = self.rng.choice(self.rows)
        exponents = list(exponents)
        for v in range(self.n):
            if self.rng.random() < 0.5:
                exponents[v] += self.rng.choice([1, 1, 1, 2, 3, 4, 7])
        if self.rng.random() < 0.1:
            exponents[self.rng.randrange(self.n)] = 65535
        return family, exponents

    # Stretches of commands

    def insert_set(self):
        """Insert a set of terms, in one family or in several."""
        for exponents in some_set(self.rng, self.n):
            if len(self.rows) >= self.most:
                break
            self.element(1, (self.family(), exponents))

    def complete_by_hand(self):
        """Fill shortfalls by a division under one ordering, until there is
        none.  Remember the division, which is then likely to settle."""
        ordering = tuple(self.rng.sample(range(1, self.n + 1), self.n))
        division = self.rng.choice([1, 1, 2, 3, 3])
        self.filled_by = division
        if self.rng.random() < 0.5:
            self.write(3, makelog.order_bytes(ordering))
        asked = self.rng.random() < 0.3
        for _ in range(16):
            if asked:
                self.write(5, bytes([division])
                           + makelog.order_bytes(ordering))
            short = self.sheet.rows.first_shortfall(division, ordering)
            if short is None or len(self.rows) >= self.most:
                break
            place, v, m = short
            product = sheetlog.times_power(self.rows[place], v, m)
            if not self.element(1, product):
                break

    def settle(self):
        """Settle, often by the division that shortfalls were filled by."""
        division = self.rng.choice(sheetlog.DIVISIONS)
        if self.filled_by and self.rng.random() < 0.7:
            division = self.filled_by
        self.write(6, bytes([division]))

    def fill(self):
        """Fill the table, and a little over."""
        # One variable, or few rows for each prefix: searches stay short.
        wide = 70 if self.n == 1 else self.rng.choice([4, 8, 16, 35])
        grid = [(family,) + exponents for family in self.families
                for exponents in itertools.islice(itertools.product(
                    range(wide), repeat=min(self.n, 3)), 200)]
        if self.rng.random() < 0.5:
            self.rng.shuffle(grid)
        for family, *exponents in grid[:64 + self.rng.randint(-1, 3)]:
            self.element(1, (family, exponents))
        for _ in range(self.rng.randint(0, 6)):
            code = self.rng.choice([1, 1, 2])
            if self.rng.random() < 0.5:
                self.element(code, self.rng.choice(self.rows))
            else:
                family, *exponents = self.rng.choice(grid)
                self.element(code, (family, exponents))

    def fill_complete(self):
        """Fill the table with the 64 products of six variables, which are
        complete, so that the search is short."""
        some = self.rng.sample(range(self.n), 6)
        family = self.family()
        terms = list(itertools.product(range(2), repeat=6))
        self.rng.shuffle(terms)
        for term in terms:
            exponents = [0] * self.n
            for v, e in zip(some, term):
                exponents[v] = e
            self.element(1, (family, exponents))
        self.settle()
        self.locate_some()

    def step(self):
        """One command, mostly one that the state takes."""
        rng = self.rng
        taken = rng.random() > 0.06
        if self.settled == taken:
            code = rng.choices([7, 8], [6, 1])[0]
        else:
            code = rng.choices([1, 2, 3, 4, 5, 6], [5, 4, 2, 3, 3, 5])[0]
        if code == 6 and self.n > 4 and len(self.rows) > 16:
            code = 4            # a long search for the reference
        if code in (1, 2, 7):
            self.element(code, self.operand_of(code))
        elif code == 3:
            self.write(code, self.ordering())
        elif code in (4, 6):
            self.write(code, self.division())
        elif code == 5:
            self.write(code, self.division() + self.ordering())
        else:
            self.write(code)

    def operand_of(self, code):
        """An element for insert, withdraw or locate."""
        rng = self.rng
        if rng.random() < 0.1:
            return self.bad_element()
        if code == 7 and rng.random() < 0.7:
            return self.multiple()
        if code == 2 and self.rows and rng.random() < 0.6:
            return rng.choice(self.rows)
        if code == 1 and rng.random() < 0.3:
            return self.multiple()
        return self.any_element()

    def locate_some(self):
        for _ in range(self.rng.randint(0, 4)):
            self.element(7, self.multiple())


# Whole logs

def new_session(rng, counts=(3, 8, 8, 5, 2, 1, 1, 1)):
    n = rng.choices(range(1, 9), counts)[0]
    return Session(rng, n, rng.choice([0, 0, 1]))


def ordinary(rng):
    """Rows, some completed by hand, then settle, locate, reopen and edits."""
    session = new_session(rng)
    for _ in range(rng.choice([0, 1, 1, 1, 2])):
        session.insert_set()
    if session.rows and rng.random() < 0.4:
        session.complete_by_hand()
    for _ in range(rng.choice([1, 1, 2])):
        if rng.random() < 0.6:
            session.settle()
            if session.settled:
                session.locate_some()
        for _ in range(rng.randint(0, 7)):
            session.step()
        if session.settled and rng.random() < 0.5:
            session.write(8)
    return session.data


def full_table(rng):
    """A table filled to 64 rows and over."""
    session = new_session(rng, (4, 4, 4, 1, 0, 0, 0, 1))
    if session.n == 8:
        session.fill_complete()
    else:
        session.fill()
    for _ in range(rng.randint(0, 4)):
        session.step()
    return session.data


def wide(rng):
    """Many variables: long searches and dead ends."""
    session = new_session(rng, (0, 0, 0, 0, 2, 2, 2, 3))
    session.most = 12
    session.insert_set()
    if session.rows and rng.random() < 0.5:
        session.complete_by_hand()
    session.settle()
    session.locate_some()
    return session.data


def bad_start(rng):
    """Wrong first two bytes, or too few of them."""
    start = rng.choice([b"", bytes([rng.randrange(256)]),
                        bytes([rng.choice([0, 9, 255]), rng.choice([0, 1])]),
                        bytes([rng.randint(1, 8), rng.choice([2, 3, 255])]),
                        bytes([rng.choice([0, 9, 255]), rng.choice([2, 7])])])
    if len(start) < 2:
        return start
    return start + ordinary(rng)[2:]


def noise(rng):
    """Any bytes after a good start, known codes more often."""
    data = bytearray([rng.randint(1, 8), rng.choice([0, 1])])
    for _ in range(rng.randint(0, 60)):
        if rng.random() < 0.7:
            data.append(rng.choice([0, 0, 0, 1, 2, 3, 4, 6, 8]))
        else:
            data.append(rng.randrange(256))
    return data


def longest(rng):
    """An input of about the greatest length."""
    length = LONGEST + rng.choice([-1, 0, 0, 1])
    session = new_session(rng, (3, 3, 1, 0, 0, 0, 0, 0))
    session.insert_set()
    while len(session.data) < length and rng.random() < 0.995:
        session.step()
    often = rng.choice([b"\x04\x01", b"\x04\x03",
                        b"\x05\x02" + bytes([2, 1] + [0] * 6),
                        b"\x01" + makelog.element_bytes(0, [1, 1]), b"\x08"])
    missing = length - len(session.data)
    session.data += often * (missing // len(often) + 1)
    return session.data[:length]


SHAPES = [(ordinary, 800), (full_table, 25), (wide, 60), (bad_start, 40),
          (noise, 60), (longest, 2)]


def spoil(rng, data):
    """Cut a log, or change or add a byte."""
    data = bytearray(data)
    how = rng.randrange(4)
    at = rng.randrange(len(data)) if data else 0
    if how <= 1:
        return data[:at]
    if how == 2 and data:
        data[at] = rng.choice([0, 1, 4, 8, 9, 255])
        return data
    return data + bytes([rng.choice([0, 9, 0x10, 0x7F, 0x80, 0xFF])]) \
        + data[2:20]


def log(seed, index):
    """Log number index of a seed."""
    rng = random.Random(f"{seed}/{index}")
    shapes, weights = zip(*SHAPES)
    shape = rng.choices(shapes, weights)[0]
    data = shape(rng)
    if shape is not longest and rng.random() < 0.12:
        data = spoil(rng, data)
    return bytes(data)
