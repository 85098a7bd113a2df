#!/usr/bin/env python3
"""Writes what the reference says of small sheets made by seed, for the prover to compute from the definitions.

    python3 reference/seeded.py

writes crates/worked/specs/Seeded.antt, the sheets with their bars, gaps,
limits by Thomas, verdicts, answers and counts, and
crates/worked/proofs/Seeded.antt, where the prover finds the same by
computing.
"""

import os

import selfcheck
import sheetlog

SEED, COUNT, WIDTH = "definitions", 12, 100
JANET, LIKE, THOMAS = sheetlog.DIVISIONS
CRATE = os.path.join(os.path.dirname(os.path.abspath(__file__)), "..", "crates", "worked")


def listed(items):
    return " ∷ ".join(list(items) + ["[]"])


def breakable(items):
    """A list with a tab wherever a line may be broken."""
    return " ∷\t".join(items) + " ∷ []"


def table(rows):
    return breakable("(" + listed(row) + ")" for row in rows)


def option(value):
    return "None" if value is None else f"Some {value}"


def finite(limit):
    return None if limit == sheetlog.NO_LIMIT else limit


def laid_out(start, parts, indent):
    """The first part after the start, each other on a line of its own, and a line that is too long broken."""
    lines = [start]
    for number, part in enumerate(parts):
        for place, piece in enumerate(part.split("\t")):
            if number + place > 0 and (place == 0 or len(lines[-1]) + 1 + len(piece) > WIDTH):
                lines.append(indent + piece)
            else:
                lines[-1] += " " + piece
    return "\n".join(lines)


class Sheet:
    """A sheet with what the reference says of it."""

    def __init__(self, number, n, rows):
        self.number = number
        self.n = n
        self.rows = rows
        self.families = "of_plain" if rows[0][0] == 0 else "of_derivatives"
        self.ordering = selfcheck.some_ordering(n, rows)
        self.reference = sheetlog.Rows(rows, n)

    def elements(self):
        return breakable("element " + " ".join(map(str, (f,) + e[:3])) for f, e in self.rows)

    def eight(self):
        return listed(map(str, self.ordering + (0,) * (8 - self.n)))

    def bars(self):
        variables = range(1, self.n + 1)
        return table([str(selfcheck.bar_number(self.rows, self.ordering, u, v)) for v in variables]
                     for u in self.rows)

    def limits(self, division):
        """The limits by a division; those by Janet-like are the gaps."""
        tops = dict(self.reference.limits_from_the_top(division, self.ordering))
        columns = [tops[v] for v in range(1, self.n + 1)]
        return table([option(finite(column[p])) for column in columns] for p in range(len(self.rows)))

    def complete(self, division):
        return str(self.reference.first_shortfall(division, self.ordering) is None).lower()

    def settles(self, division, name):
        answer, count = self.reference.search(division)
        answer = "None" if answer is None else f"(Some ({listed(map(str, answer))}))"
        return [f"SearchAnswers {name} {self.n} sheet_{self.number} {answer} {count}"]

    def evaluates(self):
        return [f"Evaluates {self.n} sheet_{self.number} ({self.eight()})", f"({self.bars()})",
                f"({self.limits(LIKE)})", f"({self.limits(THOMAS)})",
                " ".join(map(self.complete, sheetlog.DIVISIONS))]


def sheets():
    """As many that Janet division settles as others."""
    kept = {True: [], False: []}
    for n, rows in selfcheck.small_sheets(SEED, 10000, 3, 3, 5, (JANET, LIKE)):
        answered = sheetlog.Rows(rows, n).search(JANET)[0] is not None
        if n > 1 and len(rows) > 2 and len(kept[answered]) < COUNT // 2:
            kept[answered].append((n, rows))
    return [Sheet(number, *made) for number, made in enumerate(kept[True] + kept[False], 1)]


FIELDS = ["bars_are", "gaps_are", "thomas_limits_are", "janet_says", "janet_like_says", "thomas_says"]

SPECS = """-- Small sheets made by seed, with what the second implementation says of them. Written by
-- reference/seeded.py. Assumes nothing.
use Rattle.std.specs.Prelude.{◌≡◌, ℕ, Bool, true, false, List, [], ◌∷◌, map, length, take, Some, None, Option}
use Rattle.std.specs.List.{range_with_len}
use Rattle.elements.specs.Element.{Shown}
use Rattle.orderings.specs.Rows.{row}
use Rattle.barcode.specs.Bars.{bar_number}
use Rattle.barcode.specs.Gap.{gap}
use Rattle.divisions.specs.Janet.{janet, janet_like}
use Rattle.divisions.specs.Thomas.{thomas}
use Rattle.search.specs.Liveness.{live}
use Rattle.worked.specs.Sets.{element, SearchAnswers}

-- a list for each place, with an entry for each variable
abbrev pub table : {A : Type 0} → ℕ → List Shown → (ℕ → ℕ → A) → List (List A)
table n rows f = map (λ p. map (f p) (range_with_len 1 n)) (range_with_len 0 (length rows))

-- the numbers of bars, the gaps and the limits by Thomas division under an ordering, and whether it
-- makes the rows complete by Janet, by Janet-like and by Thomas division
pub record Evaluates (n : ℕ) (rows : List Shown) (order : List ℕ)
    (bars : List (List ℕ)) (gaps : List (List (Option ℕ)))
    (thomas_limits : List (List (Option ℕ)))
    (by_janet by_janet_like by_thomas : Bool) : Type 0 where
  pub bars_are : table n rows (λ p v. bar_number rows order (row rows p) v) ≡ bars
  pub gaps_are : table n rows (gap rows order) ≡ gaps
  pub thomas_limits_are : table n rows (thomas rows order) ≡ thomas_limits
  pub janet_says : live janet n rows (take n order) ≡ by_janet
  pub janet_like_says : live janet_like n rows (take n order) ≡ by_janet_like
  pub thomas_says : live thomas n rows (take n order) ≡ by_thomas
"""

PROOFS = """-- What the second implementation says of the seeded sheets, by computing the definitions. Written by
-- reference/seeded.py. Assumes nothing.
use Rattle.std.proofs.Common.{true, false, [], ◌∷◌, Some, None, refl}
use Rattle.divisions.specs.Janet.{janet, janet_like}
use Rattle.divisions.specs.Thomas.{thomas}
use Rattle.search.specs.Prefixes.{prefixes}
use Rattle.search.specs.Walks.{first_live, tested_to}
use Rattle.worked.specs.Sets.{SearchAnswers}
use Rattle.worked.specs.Seeded.{SHEETS, Evaluates, TheSeededSheetsAreAsTheReferenceSays}
use Rattle.worked.proofs.Fitting.{rows_from}
use Rattle.worked.proofs.Results.{of_plain, of_derivatives}
"""


def main():
    all_sheets = sheets()
    specs = [SPECS]
    for sheet in all_sheets:
        name = f"sheet_{sheet.number}"
        specs.append(f"abbrev pub {name} : List Shown\n" + laid_out(f"{name} =", [sheet.elements()], " " * 4) + "\n")
    fields, parts = [], []
    proofs = [PROOFS.replace("SHEETS", ", ".join(f"sheet_{sheet.number}" for sheet in all_sheets))]
    for sheet in all_sheets:
        for name, says in ((f"told_{sheet.number}", sheet.evaluates()),
                           (f"janet_{sheet.number}", sheet.settles(JANET, "janet")),
                           (f"janet_like_{sheet.number}", sheet.settles(LIKE, "janet_like")),
                           (f"thomas_{sheet.number}", sheet.settles(THOMAS, "thomas"))):
            fields.append(laid_out(f"  pub {name} :", says, " " * 6))
            parts.append(f"  {name} = {name};")
            if len(says) > 1:
                body = "record {\n" + "".join(f"  {field} = refl;\n" for field in FIELDS) + "}"
            else:
                body = f"record {{ sheet = rows_from {sheet.families} {sheet.n} sheet_{sheet.number} refl; answers = refl; counts = refl }}"
            statement = laid_out(f"{name} :", says, " " * 4)
            proofs.append(f"{statement}\nunfolding first_live tested_to prefixes\n{name} = {body}\n")
    specs.append("-- on each of the sheets the definitions give what the reference says\npub record TheSeededSheetsAreAsTheReferenceSays : Type 0 where\n" + "\n".join(fields) + "\n")
    proofs.append("pub seeded : TheSeededSheetsAreAsTheReferenceSays\nseeded = record {\n" + "\n".join(parts) + "\n}\n")
    for folder, texts in (("specs", specs), ("proofs", proofs)):
        with open(os.path.join(CRATE, folder, "Seeded.antt"), "w", encoding="utf-8") as file:
            file.write("\n".join(texts))


if __name__ == "__main__":
    main()
