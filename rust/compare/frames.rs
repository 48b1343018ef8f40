//! The program `fit` and the same program over the Rust, on sessions of frames, sound and damaged.
//! Needs: program.fit

use crate::frames_reference::output;
use crate::harness::{unequal, Comparison};
use crate::generator::Draw;
use crate::sessions::{counted, EXAMPLE, EXAMPLE_OUTPUT};
use std::io::Write;
use std::process::{Command, Stdio};
use std::sync::atomic::{AtomicU64, Ordering};

/// How many damaged lines were answered so far; every million is told.
static HARMED: AtomicU64 = AtomicU64::new(0);

/// Long sessions: a process for each, and state that lives through thousands of frames.
fn draw(d: &mut Draw, case: &mut Vec<i64>) {
    let seed = d.below(1 << 40) as i64;
    let most = d.one_of(&[10, 400, 4000]);
    let damage = d.one_of(&[0, 10, 50, 90]);
    case.extend([seed, d.between(0, most), damage, d.between(0, 1)]);
}

/// What `fit` writes. FIT names what runs it, a word a line.
fn fit(input: &[u8]) -> Vec<String> {
    let words = std::env::var("FIT").expect("FIT names the program");
    let words: Vec<&str> = words.split('\n').collect();
    let mut running = Command::new(words[0])
        .args(&words[1..])
        .stdin(Stdio::piped())
        .stdout(Stdio::piped())
        .spawn()
        .expect("fit starts");
    let mut stdin = running.stdin.take().unwrap();
    let all = input.to_vec();
    let feeding = std::thread::spawn(move || stdin.write_all(&all));
    let done = running.wait_with_output().expect("fit ends");
    let _ = feeding.join();
    String::from_utf8_lossy(&done.stdout).lines().map(String::from).collect()
}

/// The first line that differs, with its number, and both answers.
fn differs(case: &[i64]) -> Option<(String, String)> {
    let (input, harmed) = counted(case);
    let before = HARMED.fetch_add(harmed, Ordering::Relaxed);
    if (before + harmed) / 1_000_000 > before / 1_000_000 {
        eprintln!("frames: {} damaged lines", before + harmed);
    }
    let (ours, theirs) = (fit(&input), output(&input));
    let at = (0..ours.len().max(theirs.len())).find(|&i| ours.get(i) != theirs.get(i))?;
    let line = input.split(|b| *b == b'\n').nth(at).unwrap_or_default();
    let shown = format!("line {} {:?}", at + 1, String::from_utf8_lossy(line));
    unequal((shown.clone(), ours.get(at)), (shown, theirs.get(at)))
}

pub fn comparisons() -> Vec<Comparison> {
    vec![
        Comparison {
            name: "frames: the example of document 01",
            numbers: "",
            cost: u64::MAX,
            fixed: |see| see(&[]),
            draw: |_, _| (),
            allowed: |c| c.is_empty(),
            differs: |_| unequal(fit(EXAMPLE.as_bytes()).join("\n"), EXAMPLE_OUTPUT.trim_end().to_string()),
        },
        Comparison {
            name: "frames: fit and the Rust",
            numbers: "seed lines damage end",
            cost: 5000,
            fixed: crate::harness::no_fixed,
            draw,
            allowed: |c| c[1] >= 0 && (0..=100).contains(&c[2]) && (0..=1).contains(&c[3]),
            differs,
        },
    ]
}
