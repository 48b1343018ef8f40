//! What one operation costs on this machine at best: the limits that docs/PERFORMANCE.md holds our loops to.

use std::hint::black_box;
use std::time::Instant;

/// The least time of many runs, for one of `units`, in nanoseconds.
fn least(units: usize, mut run: impl FnMut()) -> f64 {
    let mut best = f64::INFINITY;
    for _ in 0..40 {
        let start = Instant::now();
        run();
        best = best.min(start.elapsed().as_nanos() as f64 / units as f64);
    }
    best
}

fn line(name: &str, nanos: f64) {
    println!("{name:52} {nanos:8.3} ns");
}

/// Numbers in no order that a predictor learns.
fn drawn(n: usize) -> Vec<u32> {
    let mut s = 0x9E37_79B9_7F4A_7C15u64;
    (0..n)
        .map(|_| {
            s ^= s << 13;
            s ^= s >> 7;
            s ^= s << 17;
            (s >> 32) as u32
        })
        .collect()
}

fn main() {
    const N: usize = 1 << 16;
    let words = drawn(N);
    let values: Vec<f64> = words.iter().map(|w| *w as f64).collect();

    line("f64 addition that waits for the one before", least(N, || {
        let mut sum = 0.0;
        for v in &values {
            sum += *v;
        }
        black_box(sum);
    }));
    line("u32 division that waits for the one before", least(N, || {
        let mut q = 1u32;
        for w in &words {
            q = (*w | 1) / (q | 3);
        }
        black_box(q);
    }));
    line("u32 division, others beside it", least(N, || {
        let mut q = 0u32;
        for w in &words {
            q ^= 0x7FFF_FFFF / (*w >> 18 | 1);
        }
        black_box(q);
    }));
    line("i64 division, others beside it", least(N, || {
        let mut q = 0i64;
        for w in &words {
            q ^= black_box(0x7FFF_FFFF_FFFFi64) / (*w as i64 >> 18 | 1);
        }
        black_box(q);
    }));
    line("a branch that was foreseen wrongly", {
        let mut sorted = words.clone();
        sorted.sort_by_key(|w| w & 0x8000);
        let way = |list: &[u32]| {
            let mut n = 0u32;
            for w in list {
                if *w & 0x8000 != 0 {
                    n = black_box(n + 1);
                }
            }
            black_box(n);
        };
        // of the random ones half are foreseen
        2.0 * (least(N, || way(&words)) - least(N, || way(&sorted)))
    });

    // a table of 256 by 256: 257 * 256 * 15 numbers
    let mut table = vec![0f64; 257 * 256 * 15];
    line("an f64 written, table of 256 by 256", least(table.len(), || {
        for t in black_box(&mut table[..]) {
            *t = 1.5;
        }
    }));
    let mut picture = vec![0.5f32; 256 * 256 * 3];
    line("an f32 read and written, picture of 256 by 256", least(picture.len(), || {
        for p in black_box(&mut picture[..]) {
            *p = *p * 0.5 + 0.25;
        }
    }));
    let mut small = vec![0.5f32; 32 * 24 * 3];
    line("an f32 read and written, picture of 32 by 24", least(small.len(), || {
        for p in black_box(&mut small[..]) {
            *p = *p * 0.5 + 0.25;
        }
    }));
    line("an f32 read, picture of 256 by 256", least(picture.len(), || {
        let mut most = [0u32; 16];
        for p in black_box(&picture[..]).chunks_exact(16) {
            for i in 0..16 {
                most[i] |= p[i].to_bits();
            }
        }
        black_box(most);
    }));
}
