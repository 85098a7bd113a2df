//! Compares the proved engine with plain Rust, call by call. Started by `bench/run`.

mod clock;
mod engine;
mod plain;
mod sets;

use std::hint::black_box;
use std::time::Duration;

use clock::Start;
use engine::Handed;
use plain::{Division, Found, Row, Sheet, Test};
use sets::{Kind, Random};

const DIVISIONS: [Division; 3] = [Division::Janet, Division::JanetLike, Division::Thomas];

/// How long one call of each takes: the shortest of seven measurements of some milliseconds each, taken in turn; of two of a call that takes long.
fn time<const N: usize>(mut calls: [&mut dyn FnMut(); N]) -> [Duration; N] {
    let once = calls.each_mut().map(|call| {
        let start = Start::now();
        call();
        start.elapsed()
    });
    let times = once.map(|once| {
        (Duration::from_millis(5).as_nanos() / once.as_nanos().max(50)).clamp(1, 100_000) as u32
    });
    let mut best = once;
    for round in 0..7 {
        for (k, (call, best)) in calls.iter_mut().zip(&mut best).enumerate() {
            if round > 0 && once[k] > Duration::from_millis(300) {
                continue;
            }
            let times = times[k];
            let start = Start::now();
            for _ in 0..times {
                call();
            }
            *best = (*best).min(start.elapsed() / times);
        }
    }
    best
}

fn shown(time: Duration) -> String {
    let ns = time.as_secs_f64() * 1e9;
    match ns {
        ns if ns < 1e3 => format!("{ns:.0} ns"),
        ns if ns < 1e6 => format!("{:.1} µs", ns / 1e3),
        ns if ns < 1e9 => format!("{:.1} ms", ns / 1e6),
        ns => format!("{:.2} s", ns / 1e9),
    }
}

fn ratio(a: Duration, b: Duration) -> f64 {
    a.as_secs_f64() / b.as_secs_f64()
}

/// Elements to be located: multiples of rows, and any terms.
fn targets(random: &mut Random, rows: &[Row], n: usize, count: usize) -> Vec<Row> {
    (0..count)
        .map(|k| {
            let mut target = random.term(n, 3);
            if k % 4 > 0 {
                let row = rows[random.below(rows.len())];
                for (exponent, more) in target.exponents.iter_mut().zip(row.exponents) {
                    *exponent += more;
                }
            }
            target
        })
        .collect()
}

/// Fails unless all ways give the same answers to settle, verdict and locate. Gives settle's.
fn agree(rows: &[Row], n: usize, division: Division, targets: &[Row]) -> Found {
    let mut sheet = Sheet::new(rows, n);
    let by_engine = Handed::new(&sheet).settles(division, 2);
    let by_all = sheet.clone().settle_by_trying_all(division);
    let by_newest = sheet.clone().settle(division, Test::Newest);
    let found = sheet.settle(division, Test::Every);
    assert_eq!(by_engine, found, "settle of the engine and of plain Rust");
    assert_eq!(by_newest, found, "settle with the shortcut");
    assert_eq!(by_all, found.ordering, "settle by trying all orderings");
    let handed = Handed::new(&sheet);
    let short = sheet.verdict(division);
    assert_eq!(handed.verdicts(division, 2), short, "verdict");
    assert!(found.ordering.is_none() || short.is_none());
    let places: Vec<Option<usize>> =
        targets.iter().map(|target| sheet.locate(division, target)).collect();
    assert_eq!(
        handed.locate(division, &engine::exponents_of(targets)),
        places,
        "locate"
    );
    found
}

/// The times of settle, verdict and locate in one case.
struct Case {
    found: Found,
    /// By the engine, plain Rust, plain Rust with the shortcut, and trying all orderings.
    settle: [Duration; 4],
    /// By the engine and plain Rust.
    verdict: [Duration; 2],
    locate: [Duration; 2],
}

fn measure(rows: &[Row], n: usize, division: Division) -> Case {
    let mut random = Random::new(7);
    let targets = targets(&mut random, rows, n, 64);
    let found = agree(rows, n, division, &targets);
    let open = Sheet::new(rows, n);
    let handed = Handed::new(&open);
    // many at a time, so that the making of the engine's sheet weighs little
    let settles = (20_000 / (found.tested as usize * rows.len())).clamp(1, 64);
    let plain = |test| {
        let mut sheet = black_box(&open).clone();
        for _ in 0..settles {
            black_box(black_box(&mut sheet).settle(division, test));
        }
    };
    let [engine, every, newest, all] = time([
        &mut || {
            black_box(black_box(&handed).settles(division, settles));
        },
        &mut || plain(Test::Every),
        &mut || plain(Test::Newest),
        &mut || {
            let mut sheet = black_box(&open).clone();
            black_box(sheet.settle_by_trying_all(division));
        },
    ]);
    let [engine, every, newest] = [engine, every, newest].map(|time| time / settles as u32);
    let settle = [engine, every, newest, all];
    let mut sheet = open.clone();
    if let Some(ordering) = &found.ordering {
        sheet.order.clone_from(ordering);
    }
    let handed = Handed::new(&sheet);
    const TIMES: usize = 64;
    let verdict = time([
        &mut || {
            black_box(black_box(&handed).verdicts(division, TIMES));
        },
        &mut || {
            for _ in 0..TIMES {
                black_box(black_box(&sheet).verdict(division));
            }
        },
    ])
    .map(|time| time / TIMES as u32);
    let exponents = engine::exponents_of(&targets);
    let locate = time([
        &mut || {
            black_box(black_box(&handed).locate(division, &exponents));
        },
        &mut || {
            for target in &targets {
                black_box(black_box(&sheet).locate(division, target));
            }
        },
    ])
    .map(|time| time / targets.len() as u32);
    Case {
        found,
        settle,
        verdict,
        locate,
    }
}

/// Compares the answers on so many small seeded sets, by each division: half of them completed by Janet under an ordering, a quarter by Thomas.
fn compare_answers(sets: u64) {
    let (mut answered, mut deeper) = ([0; DIVISIONS.len()], [0; DIVISIONS.len()]);
    for seed in 1..=sets {
        let mut random = Random::new(seed);
        let n = 1 + random.below(5);
        let largest = 1 + random.below(4) as u16;
        let room = (largest as usize + 1).pow(n as u32);
        let start = 1 + random.below(room.min(if n == 5 { 8 } else { 12 }));
        let mut rows = sets::seeded(&mut random, start, n, largest);
        let completing = match random.below(4) {
            0 | 2 => Some(Division::Janet),
            1 => Some(Division::Thomas),
            _ => None,
        };
        if let Some(completing) = completing {
            let mut order: Vec<usize> = (0..n).collect();
            random.shuffle(&mut order);
            if let Some(completed) = sets::completed(completing, rows.clone(), n, &order, 40) {
                rows = completed;
                // sometimes one row fewer, so that what is missing lies deep
                if random.below(2) == 0 && rows.len() > 1 {
                    rows.remove(random.below(rows.len()));
                }
            }
        }
        for (k, division) in DIVISIONS.into_iter().enumerate() {
            let targets = targets(&mut random, &rows, n, 8);
            let found = agree(&rows, n, division, &targets);
            answered[k] += found.ordering.is_some() as u32;
            deeper[k] += (found.tested > n as u32) as u32;
        }
    }
    println!("All ways gave the same answers on {sets} seeded sets, searched by each division.");
    for (k, division) in DIVISIONS.iter().enumerate() {
        println!(
            "By {division:?}: {} with an ordering, {} that tested more than n prefixes.",
            answered[k], deeper[k]
        );
    }
}

fn main() {
    compare_answers(5_000);
    let blank = Handed::new(&Sheet::new(&Kind::Seeded.rows(Division::Janet, 64, 8), 8));
    let [making] = time([&mut || {
        black_box(black_box(&blank).make());
    }]);
    println!(
        "Making the engine's sheet of 64 places takes {}. It is made once for many calls.\n",
        shown(making)
    );
    println!(
        "{:8} {:10} {:>4} {:>4} {:>7} {:>6} | {:>9} {:>9} {:>5} {:>9} {:>5} {:>9} {:>6} | {:>9} {:>9} {:>5} | {:>9} {:>9} {:>5}",
        "set", "division", "rows", "vars", "tested", "served", "settle:0", "1", "0/1", "1b", "1b/1", "2", "2/1",
        "verdict:0", "1", "0/1", "locate:0", "1", "0/1"
    );
    let mut worst: [(f64, String); 3] = Default::default();
    let mut longest = (Duration::ZERO, String::new());
    for kind in Kind::ALL {
        for division in DIVISIONS.into_iter().filter(|&division| kind.is_for(division)) {
            for row_count in [8, 32, 64] {
                for n in [3, 5, 8] {
                    let rows = kind.rows(division, row_count, n);
                    assert_eq!(rows.len(), row_count);
                    let case = measure(&rows, n, division);
                    let name = format!(
                        "{:8} {:10} {:4} {:4}",
                        kind.name(),
                        format!("{division:?}"),
                        row_count,
                        n
                    );
                    let [s0, s1, s1b, s2] = case.settle;
                    let [v0, v1] = case.verdict;
                    let [l0, l1] = case.locate;
                    println!(
                        "{name} {:7} {:>6} | {:>9} {:>9} {:5.2} {:>9} {:5.2} {:>9} {:6.1} | {:>9} {:>9} {:5.2} | {:>9} {:>9} {:5.2}",
                        case.found.tested,
                        if case.found.ordering.is_some() { "yes" } else { "no" },
                        shown(s0),
                        shown(s1),
                        ratio(s0, s1),
                        shown(s1b),
                        ratio(s1b, s1),
                        shown(s2),
                        ratio(s2, s1),
                        shown(v0),
                        shown(v1),
                        ratio(v0, v1),
                        shown(l0),
                        shown(l1),
                        ratio(l0, l1),
                    );
                    for (worst, found) in
                        worst.iter_mut().zip([ratio(s0, s1), ratio(v0, v1), ratio(l0, l1)])
                    {
                        if found > worst.0 {
                            *worst = (found, name.clone());
                        }
                    }
                    if s0 > longest.0 {
                        longest = (s0, format!("{name}, {} prefixes", case.found.tested));
                    }
                }
            }
        }
    }
    println!();
    for (call, (ratio, name)) in ["settle", "verdict", "locate"].iter().zip(&worst) {
        println!("{call}: the engine takes at most {ratio:.2} times as long as plain Rust ({name})");
    }
    println!("The engine's longest settle: {} ({})", shown(longest.0), longest.1);
}
