#!/usr/bin/env python3
"""A second sheetlog, written from the rules page alone.

    python3 reference/sheetlog.py < LOG

reads a log on standard input and prints what sheetlog prints for it.
From another program: sheetlog.output(data) gives the same text.

An element is a pair (family, exponents), the exponents a tuple of eight.
An ordering is a tuple of the n variables, the greatest first, without the
zeros that pad it to eight bytes.  "No limit" is kept as infinity, so that
"below the limit" is one comparison in either case.
"""

import sys

VARIABLES = 8
PLACES = 64
LONGEST_INPUT = 65536
LARGEST_EXPONENT = 4095
TERMS, DERIVATIVES = 0, 1
DIVISIONS = JANET, JANET_LIKE, THOMAS = 1, 2, 3
NO_LIMIT = float("inf")


# Elements

def admits(kind, family):
    """Whether the kind admits the family."""
    return family == 0 if kind == TERMS else 1 <= family <= 16


def divides(u, w):
    """Whether u divides w: one family, and no exponent of u is greater."""
    return u[0] == w[0] and all(a <= b for a, b in zip(u[1], w[1]))


def quotient(w, u):
    """The term w/u, as eight exponents; u must divide w."""
    return tuple(b - a for a, b in zip(u[1], w[1]))


def times_power(u, v, m):
    """The product of u with variable v to the power m."""
    family, exponents = u
    return family, exponents[:v - 1] + (exponents[v - 1] + m,) + exponents[v:]


# Orderings

def ordering_of(list_of_bytes, n):
    """The ordering of n variables that eight bytes write, or None."""
    head, tail = tuple(list_of_bytes[:n]), list_of_bytes[n:]
    if len(list_of_bytes) != VARIABLES or any(tail):
        return None
    return head if sorted(head) == list(range(1, n + 1)) else None


# Rows with their limits, cones and prefixes

class Rows:
    """The rows of a sheet of n variables, by place.

    Rows never change: an edit of the sheet makes new Rows.  So what has been
    worked out for them once can be kept.
    """

    def __init__(self, elements, n):
        self.elements = tuple(elements)
        self.n = n
        self._limits = {}
        self._divisors = {}
        self._verdicts = {}

    def limits(self, division, greater, v):
        """The limits of variable v for all rows, by place.

        Stars and gaps look at the rows of the same family that agree in every
        variable greater than v, so the set of those variables is all that
        matters of an ordering.  For Thomas nothing of it matters, and none
        is asked for.
        """
        if division == THOMAS:
            greater = ()
        key = division, frozenset(greater), v
        if key not in self._limits:
            if division == THOMAS:
                self._limits[key] = self._find_limits_by_thomas(v)
            else:
                self._limits[key] = self._find_limits(*key)
        return self._limits[key]

    def _find_limits_by_thomas(self, v):
        greatest = {}           # exponent in v of each family
        for family, exponents in self.elements:
            greatest[family] = max(exponents[v - 1], greatest.get(family, 0))
        return [1 if exponents[v - 1] < greatest[family] else NO_LIMIT
                for family, exponents in self.elements]

    def _find_limits(self, division, greater, v):
        companions = {}         # exponents in v of the rows that agree
        agreement = []
        for family, exponents in self.elements:
            agree = family, tuple(exponents[g - 1] for g in sorted(greater))
            agreement.append(agree)
            companions.setdefault(agree, set()).add(exponents[v - 1])
        found = []
        for (_, exponents), agree in zip(self.elements, agreement):
            own = exponents[v - 1]
            gap = min((other - own for other in companions[agree]
                       if other > own), default=None)
            if gap is None:     # a star
                found.append(NO_LIMIT)
            else:
                found.append(1 if division == JANET else gap)
        return found

    def limits_from_the_top(self, division, prefix):
        """Pairs (v, limits of v) for the variables of a prefix."""
        return [(v, self.limits(division, prefix[:i], v))
                for i, v in enumerate(prefix)]

    def divisors(self, w):
        """Pairs (place, quotient) for all rows that divide w."""
        if w not in self._divisors:
            self._divisors[w] = [(place, quotient(w, s))
                                 for place, s in enumerate(self.elements)
                                 if divides(s, w)]
        return self._divisors[w]

    def fitting(self, w, tops):
        """The places of the rows that divide w with a quotient below every
        limit in tops, pairs as limits_from_the_top gives them."""
        for place, q in self.divisors(w):
            for v, limits in tops:
                if q[v - 1] >= limits[place]:
                    break
            else:
                yield place

    def cone(self, division, ordering, w):
        """The place of the row whose cone holds w, or None."""
        tops = self.limits_from_the_top(division, ordering)
        return next(self.fitting(w, tops), None)

    def first_shortfall(self, division, ordering):
        """(place, variable, power) of the first shortfall; None if the rows
        are complete."""
        key = division, ordering
        if key not in self._verdicts:
            self._verdicts[key] = next(self.shortfalls(*key), None)
        return self._verdicts[key]

    def shortfalls(self, division, ordering):
        """All shortfalls, by place and then by variable number."""
        tops = self.limits_from_the_top(division, ordering)
        limits_of = dict(tops)
        for place, u in enumerate(self.elements):
            for v in range(1, self.n + 1):
                m = limits_of[v][place]
                if m == NO_LIMIT:
                    continue
                product = times_power(u, v, m)
                if next(self.fitting(product, tops), None) is None:
                    yield place, v, m

    def live(self, division, prefix):
        """Whether the prefix is live: every product of a row u with v to the
        power of its limit, v in the prefix, has a row that divides it with a
        quotient below that row's limits in the prefix."""
        tops = self.limits_from_the_top(division, prefix)
        for v, limits in reversed(tops):
            for u, m in zip(self.elements, limits):
                if m == NO_LIMIT:
                    continue
                product = times_power(u, v, m)
                if next(self.fitting(product, tops), None) is None:
                    return False
        return True

    def open_prefixes(self, division, prefix=()):
        """Pairs (prefix, whether it is live) in the order of the listing, for
        the prefixes of which every shorter prefix is live.

        A prefix under a dead one has that dead one among its shorter
        prefixes, so it is none of these, and neither is anything under it.
        Leaving out all that stands under a dead prefix is thus the same as
        going through the whole listing and keeping those whose every shorter
        prefix is live.
        """
        for v in range(1, self.n + 1):
            if v not in prefix:
                longer = prefix + (v,)
                live = self.live(division, longer)
                yield longer, live
                if live:
                    yield from self.open_prefixes(division, longer)

    def search(self, division):
        """The answer of the search, or None, and the count of the tested
        prefixes: those not after the answer, of which every shorter one is
        live."""
        count = 0
        for prefix, live in self.open_prefixes(division):
            count += 1
            if live and len(prefix) == self.n:
                return prefix, count
        return None, count


# The sheet and its calls

class Refused(Exception):
    """A refusal: its number and the values that follow it."""

    def __init__(self, *values):
        super().__init__(*values)
        self.values = values


class Sheet:
    """One sheet of 64 places, open, or settled by a division."""

    def __init__(self, n, kind):
        self.n = n
        self.kind = kind
        self.rows = Rows((), n)
        self.ordering = tuple(range(1, n + 1))
        self.settled_by = None

    def check_element(self, element, largest):
        """Refusal 9."""
        family, exponents = element
        if not admits(self.kind, family) or max(exponents) > largest \
                or any(exponents[self.n:]):
            raise Refused(9)

    def check_ordering(self, order_bytes):
        """Refusal 11, or the ordering."""
        ordering = ordering_of(order_bytes, self.n)
        if ordering is None:
            raise Refused(11)
        return ordering

    def check_rows(self):
        """Refusal 12."""
        if not self.rows.elements:
            raise Refused(12)

    def insert(self, element):
        self.check_element(element, LARGEST_EXPONENT)
        elements = self.rows.elements
        if element in elements:
            raise Refused(13)
        if len(elements) == PLACES:
            raise Refused(14)
        self.rows = Rows(elements + (element,), self.n)
        return [len(elements)]

    def withdraw(self, element):
        self.check_element(element, LARGEST_EXPONENT)
        elements = self.rows.elements
        if element not in elements:
            raise Refused(15)
        self.rows = Rows((e for e in elements if e != element), self.n)
        return []

    def arrange(self, order_bytes):
        self.ordering = self.check_ordering(order_bytes)
        return []

    def verdict(self, division):
        self.check_rows()
        return self.rows.first_shortfall(division, self.ordering) or ["yes"]

    def weigh(self, division, order_bytes):
        ordering = self.check_ordering(order_bytes)
        self.check_rows()
        return self.rows.first_shortfall(division, ordering) or ["yes"]

    def settle(self, division):
        self.check_rows()
        answer, count = self.rows.search(division)
        if answer is None:
            raise Refused(16, count)
        self.ordering = answer
        self.settled_by = division
        return [count, *answer]

    def locate(self, element):
        self.check_element(element, 65535)
        place = self.rows.cone(self.settled_by, self.ordering, element)
        if place is None:
            raise Refused(17)
        return [place]

    def reopen(self):
        self.settled_by = None
        return []


# The log

# Code: the call, the operands ("e" element, "o" order bytes, "d" division
# byte) and whether it is a settled sheet that takes it.
COMMANDS = {
    0x01: (Sheet.insert, "e", False),
    0x02: (Sheet.withdraw, "e", False),
    0x03: (Sheet.arrange, "o", False),
    0x04: (Sheet.verdict, "d", False),
    0x05: (Sheet.weigh, "do", False),
    0x06: (Sheet.settle, "d", False),
    0x07: (Sheet.locate, "e", True),
    0x08: (Sheet.reopen, "", True),
}
WIDTH = {"e": 17, "o": 8, "d": 1}


def width(code):
    """The number of operand bytes of a command."""
    return sum(WIDTH[operand] for operand in COMMANDS[code][1])


def element_of(seventeen):
    """The element that 17 bytes write: family, then exponents high byte
    first."""
    exponents = tuple(seventeen[i] * 256 + seventeen[i + 1]
                      for i in range(1, 17, 2))
    return seventeen[0], exponents


def operands_of(code, operand_bytes):
    """The operands of a command, one by one."""
    for operand in COMMANDS[code][1]:
        part = operand_bytes[:WIDTH[operand]]
        operand_bytes = operand_bytes[WIDTH[operand]:]
        if operand == "e":
            yield element_of(part)
        elif operand == "o":
            yield part
        else:
            yield part[0]


def carry_out(sheet, code, operand_bytes):
    """Carry out a whole command; its values, or Refused."""
    call, shape, on_settled = COMMANDS[code]
    if (sheet.settled_by is not None) != on_settled:
        raise Refused(3)
    if shape.startswith("d") and operand_bytes[0] not in DIVISIONS:
        raise Refused(4)
    return call(sheet, *operands_of(code, operand_bytes))


def lines(data):
    """The lines of output for an input."""
    if len(data) > LONGEST_INPUT:
        yield "too long"
        return
    if len(data) < 2:
        yield "no 2"
        return
    n, kind = data[0], data[1]
    if kind not in (TERMS, DERIVATIVES):
        yield "no 4"
        return
    if not 1 <= n <= VARIABLES:
        yield "no 5"
        return
    yield f"sheet {n} {kind}"
    sheet = Sheet(n, kind)
    place = 2
    while place < len(data):
        code = data[place]
        front = f"{place} {code:02X}"
        if code not in COMMANDS:
            yield f"{front} no 1"
            break
        after = place + 1 + width(code)
        if after > len(data):
            yield f"{front} no 2"
            break
        try:
            word, values = "ok", carry_out(sheet, code, data[place + 1:after])
        except Refused as refusal:
            word, values = "no", refusal.values
        yield " ".join([front, word, *map(str, values)])
        place = after
    yield f"end {place}"


def output(data):
    """The whole output for an input, as text."""
    return "".join(line + "\n" for line in lines(data))


def main():
    sys.stdout.write(output(sys.stdin.buffer.read(LONGEST_INPUT + 1)))


if __name__ == "__main__":
    main()
