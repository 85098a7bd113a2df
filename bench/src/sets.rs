//! The sets of rows that are compared.

use std::collections::BTreeMap;

use crate::plain::{Division, Row, Sheet, Test, VARIABLES};

/// A 64-bit xorshift generator.
pub struct Random(u64);

impl Random {
    pub fn new(seed: u64) -> Random {
        let mut random = Random(seed.wrapping_mul(0x9E37_79B9_7F4A_7C15) | 1);
        for _ in 0..16 {
            random.next();
        }
        random
    }

    fn next(&mut self) -> u64 {
        self.0 ^= self.0 << 13;
        self.0 ^= self.0 >> 7;
        self.0 ^= self.0 << 17;
        self.0
    }

    pub fn below(&mut self, bound: usize) -> usize {
        ((self.next() >> 16) % bound as u64) as usize
    }

    pub fn term(&mut self, n: usize, largest: u16) -> Row {
        let mut exponents = [0; VARIABLES];
        for exponent in &mut exponents[..n] {
            *exponent = self.below(largest as usize + 1) as u16;
        }
        Row {
            family: 0,
            exponents,
        }
    }

    pub fn shuffle<T>(&mut self, list: &mut [T]) {
        for k in (1..list.len()).rev() {
            list.swap(k, self.below(k + 1));
        }
    }
}

#[derive(Clone, Copy, Debug, PartialEq, Eq)]
pub enum Kind {
    /// Seeded terms with exponents up to 3, or up to 5 where there are few variables.
    Seeded,
    /// Seeded rows that an ordering makes complete.
    Served,
    /// Dead ends deep in the search, and then an answer.
    Late,
    /// Dead ends as deep in the search as they can be, and no answer.
    Refused,
}

impl Kind {
    pub const ALL: [Kind; 4] = [Kind::Seeded, Kind::Served, Kind::Late, Kind::Refused];

    pub fn name(self) -> &'static str {
        match self {
            Kind::Seeded => "seeded",
            Kind::Served => "served",
            Kind::Late => "late",
            Kind::Refused => "refused",
        }
    }

    /// By Thomas the ordering plays no part: the first ordering serves or none does, so that no answer comes late.
    pub fn is_for(self, division: Division) -> bool {
        self != Kind::Late || division != Division::Thomas
    }

    pub fn rows(self, division: Division, rows: usize, n: usize) -> Vec<Row> {
        match self {
            Kind::Seeded => {
                let largest = if n == 3 { 5 } else { 3 };
                seeded(&mut Random::new(rows as u64 * 100 + n as u64), rows, n, largest)
            }
            Kind::Served if division == Division::Thomas => served(division, rows, n),
            // Janet-like completes what Janet completes
            Kind::Served => served(Division::Janet, rows, n),
            Kind::Late => deep(division, rows, n, true),
            Kind::Refused if division == Division::Thomas => refused_by_thomas(rows, n),
            Kind::Refused => deep(division, rows, n, false),
        }
    }
}

/// So many different terms.
pub fn seeded(random: &mut Random, rows: usize, n: usize, largest: u16) -> Vec<Row> {
    let mut list: Vec<Row> = Vec::with_capacity(rows);
    while list.len() < rows {
        let row = random.term(n, largest);
        if !list.contains(&row) {
            list.push(row);
        }
    }
    list
}

/// The rows with the missing products added until a division makes them complete under the ordering, if that needs at most so many rows.
pub fn completed(
    division: Division,
    rows: Vec<Row>,
    n: usize,
    order: &[usize],
    most: usize,
) -> Option<Vec<Row>> {
    let mut sheet = Sheet {
        n,
        rows,
        order: order.to_vec(),
    };
    while let Some(short) = sheet.verdict(division) {
        if sheet.rows.len() == most {
            return None;
        }
        let mut row = sheet.rows[short.place];
        row.exponents[short.variable] += short.power;
        sheet.rows.push(row);
    }
    Some(sheet.rows)
}

/// Exactly so many rows that are complete by a division under a seeded ordering.
fn served(division: Division, rows: usize, n: usize) -> Vec<Row> {
    for seed in 1.. {
        let mut random = Random::new(seed);
        let mut order: Vec<usize> = (0..n).collect();
        random.shuffle(&mut order);
        let start = 2 + random.below(rows.min(16) - 2);
        let largest = 1 + random.below(if n == 3 { 6 } else { 2 }) as u16;
        if (largest as usize + 1).pow(n as u32) < 2 * start {
            continue;
        }
        let list = seeded(&mut random, start, n, largest);
        if let Some(mut list) = completed(division, list, n, &order, rows) {
            if list.len() == rows {
                random.shuffle(&mut list);
                return list;
            }
        }
    }
    unreachable!()
}

/// The terms of a degree in m variables.
fn terms(m: usize, degree: u16) -> Vec<Vec<u16>> {
    if m == 1 {
        return vec![vec![degree]];
    }
    (0..=degree)
        .flat_map(|first| {
            terms(m - 1, degree - first).into_iter().map(move |mut rest| {
                rest.insert(0, first);
                rest
            })
        })
        .collect()
}

/// The row W/t for a term t in the last of n variables, W being their product to the power 12.
fn over(t: &[u16], n: usize) -> Row {
    let mut exponents = [0; VARIABLES];
    for (exponent, less) in exponents[n - t.len()..n].iter_mut().zip(t) {
        *exponent = 12 - less;
    }
    Row {
        family: 0,
        exponents,
    }
}

/// Terms in batches to be added together: those that differ in the order of their exponents alone,
/// then those of them with the same greatest exponent, then each alone.
fn batches(list: Vec<Vec<u16>>) -> Vec<Vec<Vec<u16>>> {
    let mut groups: BTreeMap<Vec<u16>, Vec<Vec<u16>>> = BTreeMap::new();
    for t in list {
        let mut key = t.clone();
        key.sort_by(|a, b| b.cmp(a));
        groups.entry(key).or_default().push(t);
    }
    let mut batches = Vec::new();
    for group in groups.into_values() {
        let greatest = |t: &Vec<u16>| t.iter().copied().enumerate().max_by_key(|&(_, e)| e);
        batches.push(group.clone());
        for v in 0..group[0].len() {
            let some: Vec<_> =
                group.iter().filter(|t| greatest(t).is_some_and(|(k, _)| k == v)).cloned().collect();
            batches.push(some);
        }
        batches.extend(group.into_iter().map(|t| vec![t]));
    }
    batches
}

/// Rows that Thomas refuses once all prefixes are tested: W/t for a term W with large exponents and terms t.
///
/// Some terms are left out: 1, the variables, the first variable times each, and so on by degree, as many as the number of rows allows.
/// The terms t are those around them: a left-out term times a variable, where that is not left out. More follow by degree if there is room.
/// The product of a row with a limit is W/s, where s is a t or left out. Where it is left out no cone holds W/s under all variables.
/// But s times a power of any variable is a t, and under a prefix without that variable the cone of W/t holds W/s: every shorter prefix is live.
///
/// The rows stand in a seeded order; by degree they take the engine less time.
fn refused_by_thomas(rows: usize, n: usize) -> Vec<Row> {
    let by_degree = || (0..).flat_map(|degree| terms(n, degree).into_iter().rev());
    let mut left_out: Vec<Vec<u16>> = Vec::new();
    let mut chosen = Vec::new();
    for t in by_degree() {
        left_out.push(t);
        let around = terms_around(&left_out);
        if around.len() > rows {
            left_out.pop();
            break;
        }
        chosen = around;
    }
    for t in by_degree() {
        if chosen.len() == rows {
            break;
        }
        if !left_out.contains(&t) && !chosen.contains(&t) {
            chosen.push(t);
        }
    }
    let mut list: Vec<Row> = chosen.iter().map(|t| over(t, n)).collect();
    Random::new(1).shuffle(&mut list);
    list
}

/// The terms that a variable times one of these gives, but for these.
fn terms_around(list: &[Vec<u16>]) -> Vec<Vec<u16>> {
    let mut around = Vec::new();
    for t in list {
        for v in 0..t.len() {
            let mut t = t.clone();
            t[v] += 1;
            if !list.contains(&t) && !around.contains(&t) {
                around.push(t);
            }
        }
    }
    around
}

/// Rows W/t for a term W with large exponents and terms t of small degree in the last m variables, where m is as large as so many rows allow.
///
/// By Janet: t is 1 or of degree 2, and then of degree 3 and more as far as there is room. In the line of the least variable x
/// the rows W/x² and W leave out W/x, and nothing falls short before: every prefix that leaves out one of the m variables is live.
/// By Janet-like: t is 1 or a product of two variables, and then more. In the plane of the two least variables x and y
/// only W/xy and W lie, and nothing falls short before: every prefix that leaves out two of the m variables is live.
///
/// For `late` the first of the m variables is a further t, and the orderings that end in it serve.
/// The rows stand so that those that hold the products come last, and those that fall short too.
fn deep(division: Division, rows: usize, n: usize, late: bool) -> Vec<Row> {
    if division == Division::JanetLike && rows == 8 && n == 3 && !late {
        // no 8 rows of that form: these were found by trial
        return [[0, 0, 1], [0, 0, 2], [0, 2, 0], [0, 3, 0], [1, 0, 0], [3, 0, 0], [3, 2, 2], [3, 3, 1]]
            .map(|[a, b, c]| Row {
                family: 0,
                exponents: [a, b, c, 0, 0, 0, 0, 0],
            })
            .to_vec();
    }
    let is_squarefree = |t: &Vec<u16>| t.iter().all(|&e| e <= 1);
    let base = |m: usize| {
        let mut chosen = vec![vec![0; m]];
        if late {
            chosen.extend(terms(m, 1).pop());
        }
        let mut pairs = terms(m, 2);
        pairs.sort_by_key(is_squarefree);
        chosen.extend(pairs.into_iter().filter(|t| division == Division::Janet || is_squarefree(t)));
        chosen
    };
    let mut chosen =
        (2..=n).rev().map(base).find(|chosen| chosen.len() <= rows).expect("8 rows are enough for 2 variables");
    let m = chosen[0].len();
    let row = |t: &Vec<u16>| over(t, n);
    let search = |chosen: &[Vec<u16>]| {
        let rows: Vec<Row> = chosen.iter().map(row).collect();
        Sheet::new(&rows, n).settle(division, Test::Newest)
    };
    let goal = search(&chosen);
    assert_eq!(goal.ordering.is_some(), late);
    for degree in 3..12 {
        for more in batches(terms(m, degree)) {
            let first = chosen.len();
            if first + more.len() > rows || more.iter().any(|t| chosen.contains(t)) {
                continue;
            }
            // by Janet, and for products of different variables, nothing falls short that did not before
            let known = m > 5 && more.iter().all(|t| division == Division::Janet || is_squarefree(t));
            chosen.extend(more);
            if !known && search(&chosen) != goal {
                chosen.truncate(first);
            }
        }
    }
    chosen.iter().rev().map(row).collect()
}
