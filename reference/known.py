"""Known example sets of the field, and what is known of them.

Rows are in the text form of makelog, orderings have the greatest variable
first.  `says` lists what the literature says of the set, and what the
definition of Thomas says of it in so many words, in these forms:

    ("verdict", ordering, division, answer)   "yes", or the first shortfall as
                                              place, variable, power; or "no"
    ("free", ordering, {row: variables}, division)
                                              the variables without a limit;
                                              by Janet if none is named
    ("limits", ordering, {row: {v: limit}}, division)
                                              the limits, all of them; by
                                              Janet-like if none is named
    ("in cone", ordering, division, [(element, row), ...])
    ("in no cone", ordering, division, [element, ...])
    ("live", division, prefix, True or False)
    ("settles", division, True or False)      whether any ordering serves
    ("bars", ordering, {v: number of bars})
    ("stars", ordering, {v: number of stars})
"""

JANET, LIKE, THOMAS = 1, 2, 3


class Known:
    """One example set."""

    def __init__(self, name, n, ordering, rows, says=()):
        self.name = name
        self.n = n
        self.ordering = ordering
        self.rows = rows
        self.says = says


KNOWN = [
    # Two variables alone, under both orderings; written x1 < x2 and x2 < x1
    # in the source, which is 2,1 and 1,2 here.
    Known("two-variables", 2, (2, 1), ["x1", "x2"], [
        ("free", (2, 1), {"x1": {1}, "x2": {1, 2}}),
        ("free", (1, 2), {"x1": {1, 2}, "x2": {2}}),
        ("free", (2, 1), {"x1": {1}, "x2": {2}}, THOMAS),
        ("free", (1, 2), {"x1": {1}, "x2": {2}}, THOMAS),
        ("in no cone", (1, 2), THOMAS, ["x1 x2"]),
        ("in no cone", (2, 1), THOMAS, ["x1 x2"]),
    ]),

    # Set C, the same two and their product: complete by Thomas, whose limits
    # are the same under both orderings.
    Known("two-variables-and-their-product", 2, (2, 1),
          ["x1", "x2", "x1 x2"], [
              ("free", (1, 2), {"x1": {1}, "x2": {2}, "x1 x2": {1, 2}},
               THOMAS),
              ("free", (2, 1), {"x1": {1}, "x2": {2}, "x1 x2": {1, 2}},
               THOMAS),
              ("limits", (1, 2), {"x1": {2: 1}, "x2": {1: 1}, "x1 x2": {}},
               THOMAS),
              ("limits", (2, 1), {"x1": {2: 1}, "x2": {1: 1}, "x1 x2": {}},
               THOMAS),
              ("verdict", (1, 2), THOMAS, "yes"),
              ("verdict", (2, 1), THOMAS, "yes"),
              ("in cone", (1, 2), THOMAS, [
                  ("x1^9", "x1"), ("x2^9", "x2"), ("x1 x2", "x1 x2"),
                  ("x1^5 x2", "x1 x2"), ("x1^2 x2^7", "x1 x2")]),
              ("in no cone", (1, 2), THOMAS, ["1"]),
              ("settles", THOMAS, True),
          ]),

    # A single term is complete; the source names no term, this one is ours.
    Known("single-term", 3, (3, 2, 1), ["x1^2 x3"], [
        ("free", (3, 2, 1), {"x1^2 x3": {1, 2, 3}}),
        ("free", (3, 2, 1), {"x1^2 x3": {1, 2, 3}}, THOMAS),
        ("verdict", (3, 2, 1), JANET, "yes"),
        ("settles", JANET, True),
    ]),

    # Four terms with x1 < x2 < x3, which is 3,2,1: the first has no cone for
    # its product with x2.
    Known("four-terms-not-complete", 3, (3, 2, 1),
          ["x1^3", "x2^3", "x1^4 x2 x3", "x3^2"], [
              ("free", (3, 2, 1), {"x1^3": {1}, "x2^3": {1, 2},
                                   "x1^4 x2 x3": {1, 2}, "x3^2": {1, 2, 3}}),
              ("stars", (3, 2, 1), {1: 4, 2: 3, 3: 1}),
              ("in no cone", (3, 2, 1), JANET, ["x1^3 x2"]),
              ("in cone", (3, 2, 1), JANET, [("x1^7", "x1^3")]),
              ("verdict", (3, 2, 1), JANET, (0, 2, 1)),
          ]),

    # x^2 and xy with x < y: x is x1, y is x2, the ordering 2,1.
    Known("square-and-product", 2, (2, 1), ["x1^2", "x1 x2"], [
        ("free", (2, 1), {"x1^2": {1}, "x1 x2": {1, 2}}),
        ("in cone", (2, 1), JANET, [("x1^2 x2", "x1 x2")]),
        ("verdict", (2, 1), JANET, "yes"),
    ]),

    # Two terms that mirror each other: complete by Janet under no ordering.
    Known("mirror-pair", 2, (2, 1), ["x1 x2^3", "x1^3 x2"], [
        ("free", (2, 1), {"x1^3 x2": {1}, "x1 x2^3": {1, 2}}),
        ("free", (1, 2), {"x1 x2^3": {2}, "x1^3 x2": {1, 2}}),
        ("in no cone", (2, 1), JANET, ["x1^3 x2^2"]),
        ("in no cone", (1, 2), JANET, ["x1^2 x2^3"]),
        ("live", JANET, (1,), False),
        ("live", JANET, (2,), False),
        ("settles", JANET, False),
    ]),

    # Set A.  The source picks x3 as greatest, drops it, takes x1, then x2,
    # then x3: the ordering 1,2,3; and says that x1 < x3 < x2, which is 2,3,1,
    # serves as well.
    Known("set-a", 3, (1, 2, 3), ["x1", "x1^2", "x2", "x1 x3"], [
        ("live", JANET, (3,), False),
        ("live", JANET, (1,), True),
        ("live", JANET, (1, 2), True),
        ("verdict", (1, 2, 3), JANET, "yes"),
        ("verdict", (2, 3, 1), JANET, "yes"),
        ("verdict", (3, 2, 1), JANET, "no"),
        ("stars", (1, 2, 3), {1: 1, 2: 3, 3: 3}),
        ("stars", (2, 3, 1), {1: 3, 3: 2, 2: 1}),
        ("free", (2, 3, 1), {"x1": set(), "x1^2": {1}, "x1 x3": {1, 3},
                             "x2": {1, 2, 3}}),
        ("in cone", (2, 3, 1), JANET, [
            ("x1^2", "x1^2"), ("x1 x2", "x2"), ("x1 x3", "x1 x3"),
            ("x1^2 x2", "x2"), ("x1^2 x3", "x1 x3"), ("x1 x2 x3", "x2")]),
    ]),

    # Set B: x^3, xy, y^2 with x as x1 and y as x2; only y can be the greatest
    # by Janet.
    Known("set-b", 2, (2, 1), ["x1^3", "x1 x2", "x2^2"], [
        ("live", JANET, (1,), False),
        ("live", JANET, (2,), True),
        ("verdict", (2, 1), JANET, "yes"),
        ("verdict", (1, 2), JANET, "no"),
        ("in cone", (2, 1), JANET, [("x1^3 x2", "x1 x2"),
                                    ("x1 x2^2", "x2^2")]),
        ("stars", (2, 1), {1: 3, 2: 1}),
    ]),

    # Ten terms in four variables, in the order of the source, which finds
    # x1 < x2 < x4 < x3: the ordering 3,4,2,1.
    Known("ten-terms-in-four-variables", 4, (3, 4, 2, 1),
          ["x2 x3", "x1^2", "x3^2", "x2^2", "x1 x2", "x1 x2 x4", "x1^2 x4",
           "x3 x4", "x2^2 x4", "x1^2 x3"], [
               ("live", JANET, (3,), True),
               ("live", JANET, (3, 4), True),
               ("live", JANET, (3, 4, 2), True),
               ("verdict", (3, 4, 2, 1), JANET, "yes"),
               ("bars", (3, 4, 2, 1), {3: 3, 4: 5, 2: 10, 1: 10}),
               ("stars", (3, 4, 2, 1), {3: 1, 4: 3, 2: 5, 1: 10}),
               ("in cone", (3, 4, 2, 1), JANET, [
                   ("x1^2 x3", "x1^2 x3"), ("x1 x2 x3", "x2 x3"),
                   ("x2^2 x3", "x2 x3"), ("x1^2 x3 x4", "x3 x4"),
                   ("x1 x2 x3 x4", "x3 x4"), ("x2^2 x3 x4", "x3 x4"),
                   ("x1^2 x3^2", "x3^2"), ("x2 x3^2", "x3^2"),
                   ("x3^2 x4", "x3^2"), ("x1^2 x4", "x1^2 x4"),
                   ("x1 x2 x4", "x1 x2 x4"), ("x2^2 x4", "x2^2 x4"),
                   ("x2 x3 x4", "x3 x4")]),
           ]),

    # A Bar Code drawn without terms; these are the terms that its labels
    # give, with x1 < x2 < x3.
    Known("terms-of-a-bare-bar-code", 3, (3, 2, 1),
          ["1", "x1", "x3", "x2 x3", "x2^2 x3"], [
              ("bars", (3, 2, 1), {1: 5, 2: 4, 3: 2}),
          ]),

    # Five terms whose Bar Code is drawn with x1 < x2 < x3.
    Known("five-terms-of-a-bar-code", 3, (3, 2, 1),
          ["x1", "x1^2", "x2 x3", "x1 x2^2 x3", "x2^3 x3"], [
              ("bars", (3, 2, 1), {1: 5, 2: 4, 3: 2}),
          ]),

    # The four terms of degree at most 1 in three variables ...
    Known("degree-at-most-one", 3, (3, 2, 1), ["1", "x1", "x2", "x3"], [
        ("bars", (3, 2, 1), {1: 4, 2: 3, 3: 2}),
    ]),

    # ... and the six terms just outside of them.
    Known("all-of-degree-two", 3, (3, 2, 1),
          ["x1^2", "x1 x2", "x2^2", "x1 x3", "x2 x3", "x3^2"], [
              ("verdict", (3, 2, 1), JANET, "yes"),
          ]),

    # Set D with x1 < x2 < x3, which is 3,2,1: complete by Janet-like.
    Known("set-d", 3, (3, 2, 1),
          ["x1^5", "x1^2 x2", "x1 x2^4", "x1^2 x3^2", "x1 x2^2 x3^2",
           "x3^5"], [
               ("limits", (3, 2, 1), {
                   "x1^5": {2: 1, 3: 2}, "x1^2 x2": {2: 3, 3: 2},
                   "x1 x2^4": {3: 2}, "x1^2 x3^2": {2: 2, 3: 3},
                   "x1 x2^2 x3^2": {3: 3}, "x3^5": {}}),
               ("in cone", (3, 2, 1), LIKE, [
                   ("x1^5 x2", "x1^2 x2"), ("x1^5 x3^2", "x1^2 x3^2"),
                   ("x1^2 x2^4", "x1 x2^4"),
                   ("x1^2 x2 x3^2", "x1^2 x3^2"),
                   ("x1 x2^4 x3^2", "x1 x2^2 x3^2"),
                   ("x1^2 x2^2 x3^2", "x1 x2^2 x3^2"),
                   ("x1^2 x3^5", "x3^5"), ("x1 x2^2 x3^5", "x3^5")]),
               ("verdict", (3, 2, 1), LIKE, "yes"),
           ]),

    # Set D as it was first published, x1 and x3 in each other's place:
    # x3 < x2 < x1, which is 1,2,3.
    Known("set-d-first-form", 3, (1, 2, 3),
          ["x3^5", "x2 x3^2", "x2^4 x3", "x1^2 x3^2", "x1^2 x2^2 x3",
           "x1^5"], [
               ("verdict", (1, 2, 3), LIKE, "yes"),
           ]),

    # Two terms that are not complete by Janet-like under x1 < x2 < x3 ...
    Known("two-terms-to-complete", 3, (3, 2, 1),
          ["x1^3 x2 x3", "x1^5 x2^2 x3"], [
              ("limits", (3, 2, 1), {"x1^3 x2 x3": {2: 1},
                                     "x1^5 x2^2 x3": {}}),
              ("in no cone", (3, 2, 1), LIKE, ["x1^3 x2^2 x3"]),
              ("verdict", (3, 2, 1), LIKE, (0, 2, 1)),
          ]),

    # ... and the same with the missing product added.
    Known("two-terms-completed", 3, (3, 2, 1),
          ["x1^3 x2 x3", "x1^3 x2^2 x3", "x1^5 x2^2 x3"], [
              ("limits", (3, 2, 1), {"x1^3 x2 x3": {2: 1},
                                     "x1^3 x2^2 x3": {1: 2},
                                     "x1^5 x2^2 x3": {}}),
              ("in cone", (3, 2, 1), LIKE, [
                  ("x1^3 x2^2 x3", "x1^3 x2^2 x3"),
                  ("x1^5 x2^2 x3", "x1^5 x2^2 x3")]),
              ("verdict", (3, 2, 1), LIKE, "yes"),
          ]),

    # y^3, xy, x^2 with x as x1 and y as x2, y the greater: 2,1.
    Known("corner-in-two-variables", 2, (2, 1),
          ["x2^3", "x1 x2", "x1^2"], [
              ("limits", (2, 1), {"x2^3": {}, "x1 x2": {2: 2},
                                  "x1^2": {2: 1}}),
          ]),
]
