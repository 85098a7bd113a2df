//! The rules in plain Rust, without proofs: verdict, locate and the search, and the search's two rivals.
//!
//! A variable is its index here, 0 to n - 1; the answers count from 1 as the engine's do.

pub const VARIABLES: usize = 8;

/// A term with its family.
#[derive(Clone, Copy, Debug, PartialEq, Eq)]
pub struct Row {
    pub family: u8,
    pub exponents: [u16; VARIABLES],
}

impl Row {
    pub fn divides(&self, other: &Row) -> bool {
        self.family == other.family
            && self.exponents.iter().zip(&other.exponents).all(|(a, b)| a <= b)
    }

    fn times(mut self, variable: usize, power: u16) -> Row {
        self.exponents[variable] += power;
        self
    }
}

#[derive(Clone, Copy, Debug, PartialEq, Eq)]
pub enum Division {
    Janet,
    JanetLike,
    Thomas,
}

impl Division {
    pub fn number(self) -> u8 {
        match self {
            Division::Janet => 1,
            Division::JanetLike => 2,
            Division::Thomas => 3,
        }
    }

    /// The limit of a variable at a row, `greater` being the variables above it in the ordering.
    fn limit(self, rows: &[Row], greater: &[usize], row: &Row, variable: usize) -> Option<u16> {
        let exceeds = |other: &Row| {
            other.family == row.family && other.exponents[variable] > row.exponents[variable]
        };
        let above = rows
            .iter()
            .filter(|other| {
                exceeds(other) && greater.iter().all(|&g| other.exponents[g] == row.exponents[g])
            })
            .map(|other| other.exponents[variable] - row.exponents[variable]);
        match self {
            Division::Janet => above.map(|_| 1).next(),
            Division::JanetLike => above.min(),
            Division::Thomas => rows.iter().any(exceeds).then_some(1),
        }
    }
}

/// For each row the limits of the variables; none where a variable is not limited, or not in the prefix.
type Limits = [Option<u16>; VARIABLES];

fn holds(row: &Row, limits: &Limits, element: &Row) -> bool {
    row.divides(element)
        && limits
            .iter()
            .zip(row.exponents.iter().zip(&element.exponents))
            .all(|(limit, (low, high))| limit.is_none_or(|limit| high - low < limit))
}

fn cone_of(rows: &[Row], limits: &[Limits], element: &Row) -> Option<usize> {
    rows.iter()
        .zip(limits)
        .position(|(row, limits)| holds(row, limits, element))
}

/// A row, a variable and a power whose product lies in no cone.
#[derive(Clone, Copy, Debug, PartialEq, Eq)]
pub struct Shortfall {
    pub place: usize,
    pub variable: usize,
    pub power: u16,
}

fn first_shortfall(rows: &[Row], limits: &[Limits]) -> Option<Shortfall> {
    for (place, row) in rows.iter().enumerate() {
        for (variable, limit) in limits[place].iter().enumerate() {
            if let Some(power) = *limit {
                if cone_of(rows, limits, &row.times(variable, power)).is_none() {
                    return Some(Shortfall {
                        place,
                        variable,
                        power,
                    });
                }
            }
        }
    }
    None
}

/// Whether a product of one variable lies in no cone.
fn falls_short_in(rows: &[Row], limits: &[Limits], variable: usize) -> bool {
    rows.iter().zip(limits).any(|(row, limited)| {
        limited[variable]
            .is_some_and(|power| cone_of(rows, limits, &row.times(variable, power)).is_none())
    })
}

fn fill_column(
    limits: &mut [Limits],
    division: Division,
    rows: &[Row],
    greater: &[usize],
    variable: usize,
) {
    for (row, limits) in rows.iter().zip(limits) {
        limits[variable] = division.limit(rows, greater, row, variable);
    }
}

fn limits_by(division: Division, rows: &[Row], order: &[usize]) -> Vec<Limits> {
    let mut limits = vec![[None; VARIABLES]; rows.len()];
    for (k, &variable) in order.iter().enumerate() {
        fill_column(&mut limits, division, rows, &order[..k], variable);
    }
    limits
}

/// What the search found, and how many prefixes it tested.
#[derive(Clone, Debug, PartialEq, Eq)]
pub struct Found {
    pub tested: u32,
    pub ordering: Option<Vec<usize>>,
}

/// How a prefix is seen to be dead.
#[derive(Clone, Copy, Debug, PartialEq, Eq)]
pub enum Test {
    /// By the products of all its variables.
    Every,
    /// By those of its last variable, since the shorter prefix is known to be live.
    Newest,
}

struct Walk<'a> {
    rows: &'a [Row],
    n: usize,
    division: Division,
    test: Test,
    limits: Vec<Limits>,
    prefix: Vec<usize>,
    tested: u32,
}

impl Walk<'_> {
    fn is_live(&self, variable: usize) -> bool {
        match self.test {
            Test::Every => first_shortfall(self.rows, &self.limits).is_none(),
            Test::Newest => !falls_short_in(self.rows, &self.limits, variable),
        }
    }

    /// Whether the prefix has an extension that serves; the prefix is then that ordering.
    fn extend(&mut self) -> bool {
        if self.prefix.len() == self.n {
            return true;
        }
        for variable in 0..self.n {
            if self.prefix.contains(&variable) {
                continue;
            }
            self.tested += 1;
            fill_column(
                &mut self.limits,
                self.division,
                self.rows,
                &self.prefix,
                variable,
            );
            if self.is_live(variable) {
                self.prefix.push(variable);
                if self.extend() {
                    return true;
                }
                self.prefix.pop();
            }
            for limits in &mut self.limits {
                limits[variable] = None;
            }
        }
        false
    }
}

/// Rows in n variables, under an ordering.
#[derive(Clone, Debug)]
pub struct Sheet {
    pub n: usize,
    pub rows: Vec<Row>,
    pub order: Vec<usize>,
}

impl Sheet {
    pub fn new(rows: &[Row], n: usize) -> Sheet {
        Sheet {
            n,
            rows: rows.to_vec(),
            order: (0..n).collect(),
        }
    }

    /// What every call of the engine judges first: that the parts make a sheet.
    pub fn is_sound(&self) -> bool {
        let fits = |row: &Row| {
            row.exponents.iter().all(|&e| e <= 4095)
                && row.exponents[self.n..].iter().all(|&e| e == 0)
        };
        let mut seen = [false; VARIABLES];
        self.n >= 1
            && self.n <= VARIABLES
            && self.rows.len() <= 64
            && self.order.len() == self.n
            && self.order.iter().all(|&v| v < self.n && !std::mem::replace(&mut seen[v], true))
            && self
                .rows
                .iter()
                .enumerate()
                .all(|(p, row)| fits(row) && !self.rows[..p].contains(row))
    }

    pub fn verdict(&self, division: Division) -> Option<Shortfall> {
        assert!(self.is_sound());
        let limits = limits_by(division, &self.rows, &self.order);
        first_shortfall(&self.rows, &limits)
    }

    pub fn locate(&self, division: Division, element: &Row) -> Option<usize> {
        assert!(self.is_sound());
        let limits = limits_by(division, &self.rows, &self.order);
        cone_of(&self.rows, &limits, element)
    }

    pub fn settle(&mut self, division: Division, test: Test) -> Found {
        assert!(self.is_sound());
        let mut walk = Walk {
            rows: &self.rows,
            n: self.n,
            division,
            test,
            limits: vec![[None; VARIABLES]; self.rows.len()],
            prefix: Vec::with_capacity(self.n),
            tested: 0,
        };
        let ordering = walk.extend().then_some(walk.prefix);
        let tested = walk.tested;
        if let Some(ordering) = &ordering {
            self.order.clone_from(ordering);
        }
        Found { tested, ordering }
    }

    /// The first ordering of all n! that the verdict finds complete.
    pub fn settle_by_trying_all(&mut self, division: Division) -> Option<Vec<usize>> {
        assert!(self.is_sound());
        let mut order: Vec<usize> = (0..self.n).collect();
        loop {
            let limits = limits_by(division, &self.rows, &order);
            if first_shortfall(&self.rows, &limits).is_none() {
                self.order.clone_from(&order);
                return Some(order);
            }
            if !next_ordering(&mut order) {
                return None;
            }
        }
    }
}

/// The next ordering in lexicographic order, if there is one.
pub fn next_ordering(order: &mut [usize]) -> bool {
    let Some(k) = order.windows(2).rposition(|pair| pair[0] < pair[1]) else {
        return false;
    };
    let after = order.iter().rposition(|&v| v > order[k]).expect("the next entry is greater");
    order.swap(k, after);
    order[k + 1..].reverse();
    true
}
