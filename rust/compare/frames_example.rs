//! The program over the Rust, on document 01's example. None of our code is in it.

use crate::frames_reference::output;
use crate::harness::{unequal, Comparison};
use crate::sessions::{draw, session, EXAMPLE, EXAMPLE_OUTPUT};

pub fn comparisons() -> Vec<Comparison> {
    vec![
        Comparison {
            name: "frames: the Rust and the example",
            numbers: "",
            cost: u64::MAX,
            fixed: |see| see(&[]),
            draw: |_, _| (),
            allowed: |c| c.is_empty(),
            differs: |_| unequal(output(EXAMPLE.as_bytes()).join("\n"), EXAMPLE_OUTPUT.trim_end().to_string()),
        },
        // Every line has an answer, nothing panics, and a line's answer does not wait for later lines.
        Comparison {
            name: "frames: the Rust, answers by the line",
            numbers: "seed lines damage end",
            cost: 1000,
            fixed: crate::harness::no_fixed,
            draw,
            allowed: |c| c[1] >= 0 && (0..=100).contains(&c[2]) && (0..=1).contains(&c[3]),
            differs: |c| {
                let all = output(&session(c));
                let half = output(&session(&[c[0], c[1] / 2, c[2], 1]));
                unequal(all[..half.len().min(all.len())].to_vec(), half)
            },
        },
    ]
}
