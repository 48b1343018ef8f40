//! What every comparison is run by: fixed cases, random cases, and the search for a small failing one.
//! A case is a short list of whole numbers. A comparison says what they mean.

use crate::generator::Draw;
use std::panic::{catch_unwind, AssertUnwindSafe};
use std::time::Instant;

pub struct Comparison {
    pub name: &'static str,
    /// The names of a case's numbers, for the report.
    pub numbers: &'static str,
    /// Random cases are the number asked for, divided by this.
    pub cost: u64,
    /// Hands over each case of a fixed list.
    pub fixed: fn(&mut dyn FnMut(&[i64])),
    /// Draws one random case into an empty list.
    pub draw: fn(&mut Draw, &mut Vec<i64>),
    /// Whether a case lies in the comparison's domain. A search for a small case stays in it.
    pub allowed: fn(&[i64]) -> bool,
    /// Nothing where both sides agree; else both answers.
    pub differs: fn(&[i64]) -> Option<(String, String)>,
}

/// Two answers, or nothing where they are equal.
pub fn unequal<T: PartialEq + std::fmt::Debug>(one: T, other: T) -> Option<(String, String)> {
    if one == other { None } else { Some((format!("{one:?}"), format!("{other:?}"))) }
}

pub fn no_fixed(_: &mut dyn FnMut(&[i64])) {}

pub fn any_case(_: &[i64]) -> bool {
    true
}

#[derive(Clone, Copy)]
pub enum Amount {
    Cases(u64),
    Seconds(f64),
}

/// A panic, of the oracle's overflow checks for instance, is a difference too.
fn tried(c: &Comparison, case: &[i64]) -> Option<(String, String)> {
    match catch_unwind(AssertUnwindSafe(|| (c.differs)(case))) {
        Ok(answer) => answer,
        Err(_) => Some(("a panic".into(), "no panic".into())),
    }
}

/// Numbers nearer to 0 than x, the nearest first.
fn smaller(x: i64) -> Vec<i64> {
    let mut list = vec![0, 1];
    let mut part = x;
    let mut halves = Vec::new();
    while part != 0 {
        part /= 2;
        halves.push(x - part);
    }
    list.extend(halves.iter().map(|h| x - h));
    list.extend(halves);
    list.push(x.wrapping_neg());
    list.retain(|y| y.unsigned_abs() < x.unsigned_abs() || (x < 0 && y.unsigned_abs() == x.unsigned_abs() && *y > 0));
    list
}

/// A case that still differs and in which no one number can be made smaller.
fn shrunk(c: &Comparison, case: &[i64]) -> Vec<i64> {
    let mut best = case.to_vec();
    let mut tries = 0;
    'again: loop {
        for i in 0..best.len() {
            for y in smaller(best[i]) {
                tries += 1;
                if tries > 20_000 {
                    return best;
                }
                let mut next = best.clone();
                next[i] = y;
                if (c.allowed)(&next) && tried(c, &next).is_some() {
                    best = next;
                    continue 'again;
                }
            }
        }
        return best;
    }
}

fn shown(c: &Comparison, case: &[i64]) -> String {
    let names: Vec<&str> = c.numbers.split_whitespace().collect();
    case.iter()
        .enumerate()
        .map(|(i, x)| match names.get(i) {
            Some(n) => format!("{n}={x}"),
            None => format!("{x}"),
        })
        .collect::<Vec<_>>()
        .join(" ")
}

fn grouped(n: u64) -> String {
    let text = n.to_string();
    let mut out = String::new();
    for (i, b) in text.chars().enumerate() {
        if i > 0 && (text.len() - i) % 3 == 0 {
            out.push(',');
        }
        out.push(b);
    }
    out
}

/// Every how many of a fixed list's cases are run: each one from a million cases on. In a shorter run a long list is thinned, evenly, to
/// about a tenth as many cases as were asked for. An odd step, so that it does not fall in with lists that go by powers of two.
fn step(c: &Comparison, amount: Amount) -> u64 {
    let most = match amount {
        Amount::Cases(n) if n >= 1_000_000 => return 1,
        Amount::Cases(n) => (n / 10).max(100),
        Amount::Seconds(_) => 2_000,
    };
    let mut all = 0u64;
    (c.fixed)(&mut |_| all += 1);
    if all <= most { 1 } else { (all / most) | 1 }
}

/// Runs one comparison and prints its line. Answers whether it passed.
fn ran(build: &str, c: &Comparison, amount: Amount, seed: u64) -> bool {
    let start = Instant::now();
    let mut differences = 0u64;
    let mut first: Option<Vec<i64>> = None;
    let mut outside = 0u64;
    let mut fixed = 0u64;
    let mut see = |case: &[i64]| {
        if !(c.allowed)(case) {
            outside += 1;
        } else if tried(c, case).is_some() {
            differences += 1;
            if first.is_none() {
                first = Some(case.to_vec());
            }
        }
    };
    let every = step(c, amount);
    let mut place = 0u64;
    (c.fixed)(&mut |case| {
        if place % every == 0 {
            fixed += 1;
            see(case);
        }
        place += 1;
    });
    let mut draw = Draw::named(seed, c.name);
    let mut case = Vec::new();
    let mut random = 0u64;
    let limit = match amount {
        Amount::Cases(n) => (n / c.cost).max(1),
        Amount::Seconds(_) => u64::MAX,
    };
    while random < limit {
        case.clear();
        (c.draw)(&mut draw, &mut case);
        random += 1;
        see(&case);
        if random % 64 == 0 {
            if let Amount::Seconds(s) = amount {
                if start.elapsed().as_secs_f64() > s {
                    break;
                }
            }
        }
    }
    let passed = differences == 0 && outside == 0;
    println!(
        "{} {build:7} {:42} {:>9} fixed + {:>11} random cases, {} differences, {:.1} s",
        if passed { "ok    " } else { "FAILED" },
        c.name,
        grouped(fixed),
        grouped(random),
        grouped(differences),
        start.elapsed().as_secs_f64()
    );
    if outside > 0 {
        println!("       {} cases lie outside the comparison's own domain", grouped(outside));
    }
    if let Some(case) = first {
        let small = shrunk(c, &case);
        let (one, other) = tried(c, &small).unwrap();
        println!("       first:    {}", shown(c, &case));
        println!("       smallest: {}", shown(c, &small));
        println!("       one side:  {one}");
        println!("       the other: {other}");
    }
    passed
}

/// The program: BUILD cases|seconds NUMBER SEED [NAME-PART]. The last line has the two counts.
pub fn main(all: Vec<Comparison>) {
    let args: Vec<String> = std::env::args().skip(1).collect();
    let build = args[0].as_str();
    let seed: u64 = args[3].parse().expect("a seed");
    let part = args.get(4).map(String::as_str).unwrap_or("");
    let wanted: Vec<Comparison> = all.into_iter().filter(|c| c.name.contains(part)).collect();
    let amount = match args[1].as_str() {
        "cases" => Amount::Cases(args[2].parse().expect("a number of cases")),
        _ => Amount::Seconds(args[2].parse::<f64>().expect("seconds") / wanted.len().max(1) as f64),
    };
    std::panic::set_hook(Box::new(|_| {}));
    let passed = wanted.iter().filter(|c| ran(build, c, amount, seed)).count();
    println!("{} {}", passed, wanted.len() - passed);
}
