//! Prints the oracle's answers, for the lists that `rt ci` replays without Rust.
//! usage: answers NAME, with NAME a list below. One line a case:
//!
//!     FUNCTION ARGUMENT .. = ANSWER ..
//!
//! Words are parted by one space. A whole number stands in decimal, with '-' before a negative one.
//! The bits of a float stand in hexadecimal: x and 8 capital digits for an f32, 16 for an f64.
//! The cases are fixed lists, then draws from the generator with the seed below.

#![allow(dead_code)]

mod cases {
    pub mod whole;
}
mod generator;
#[path = "../rust/compare/pictures.rs"]
mod pictures;
#[path = "../rust/compare/shapes.rs"]
mod shapes;

use cases::whole;
use generator::Draw;
use oracle::shape::integral::probe;
use std::io::Write;

const SEED: u64 = 1;

fn whole_answers(out: &mut impl Write) -> std::io::Result<()> {
    let exponents = [15, 31, 32, 53, 62];
    let mut d = Draw::named(SEED, "whole");
    let mut numbers = whole::roots(130, &exponents);
    numbers.extend((0..600).map(|_| d.any_i64().min(whole::ROOT_END)));
    for n in numbers {
        writeln!(out, "isqrt_i64 {n} = {}", probe::isqrt_i64(n))?;
    }
    let mut pairs = whole::divisions(&exponents);
    pairs.extend((0..600).map(|_| (d.any_i64(), d.any_i64())).filter(|p| whole::divides(p.0, p.1)));
    for (a, b) in pairs {
        writeln!(out, "div_floor_i64 {a} {b} = {}", probe::div_floor_i64(a, b))?;
        writeln!(out, "div_ceil_i64 {a} {b} = {}", probe::div_ceil_i64(a, b))?;
    }
    Ok(())
}

/// One line for a shape and a row: how many pixels the Rust's spans count, and the first and the last pixel
/// of the row that its painting changes, -9 twice where it changes none.
///
///     circle W H CX CY R Y = COUNT LEFT RIGHT
fn cover_answers(out: &mut impl Write) -> std::io::Result<()> {
    let mut d = Draw::named(SEED, "cover");
    let mut cases: Vec<Vec<i64>> = Vec::new();
    // Document 01's figures.
    for figure in [
        &[16, 16, 1, 8, 8, 5][..],
        &[16, 16, 1, 0, 0, 1],
        &[16, 16, 1, 8, 8, 0],
        &[16, 16, 1, 8, 8, -3],
        &[16, 16, 2, 0, 0, 4, 0, 0, 4],
        &[16, 16, 2, 0, 4, 4, 0, 0, 0],
        &[3, 3, 2, 0, 0, 4, 0, 0, 4],
        &[16, 16, 2, 0, 0, 2, 2, 5, 5],
        &[16, 16, 3, 1, 1, 3, 1, 3, 2, 1, 2],
        &[16, 16, 3, 0, 0, 2, 0, 4, 0, 0, 4],
        &[16, 16, 3, 0, 0, 2, 0, 0, 2, 2, 2],
    ] {
        cases.push(figure.to_vec());
    }
    let values: Vec<i64> = (-2..=5).collect();
    shapes::every(1, &values, &[(4, 3)], &mut |c| cases.push(c.to_vec()));
    shapes::every_radius(&mut |c| {
        if d.below(4) == 0 {
            cases.push(c.to_vec())
        }
    });
    for kind in 1..=3 {
        for most in [4, 16, 256] {
            for _ in 0..300 {
                let mut case = Vec::new();
                shapes::draw_case(&mut d, kind, most, &mut case);
                cases.push(case);
            }
        }
    }
    for case in cases {
        let (w, h) = (case[0] as usize, case[1]);
        let painted = pictures::painted(&case);
        // A covered row, where there is one; now and then any row.
        let rows: Vec<i64> = (0..h).filter(|y| painted[*y as usize * w..][..w].contains(&true)).collect();
        let y = if rows.is_empty() || d.below(4) == 0 { d.between(-1, h) } else { d.one_of(&rows) };
        let row: Vec<usize> = if (0..h).contains(&y) { (0..w).filter(|x| painted[y as usize * w + x]).collect() } else { Vec::new() };
        let end = |x: Option<&usize>| x.map_or(-9, |x| *x as i64);
        let numbers: Vec<String> = case[..2].iter().chain(&case[3..]).chain([&y]).map(|n| n.to_string()).collect();
        writeln!(
            out,
            "{} {} = {} {} {}",
            ["", "circle", "triangle", "quad"][case[2] as usize],
            numbers.join(" "),
            pictures::span_count(&case),
            end(row.first()),
            end(row.last())
        )?;
    }
    Ok(())
}

fn main() -> std::io::Result<()> {
    let name = std::env::args().nth(1).unwrap_or_default();
    let mut out = std::io::BufWriter::new(std::io::stdout());
    match name.as_str() {
        "cover" => cover_answers(&mut out)?,
        "whole" => whole_answers(&mut out)?,
        _ => {
            eprintln!("answers: no list '{name}'; there are: cover whole");
            std::process::exit(2);
        }
    }
    out.flush()
}
