//! Times two sides of an entry in turns and prints both medians and the median of the rounds' ratios.
//! Every run answers a checksum of all its answers, and both sides' must be equal. Times are of the
//! thread's own clock, so what else the machine does counts little.

#[repr(C)]
struct Timespec {
    seconds: i64,
    nanos: i64,
}

unsafe extern "C" {
    fn clock_gettime(clock: i32, time: *mut Timespec) -> i32;
    fn getppid() -> i32;
}

/// The time that this thread has run, in nanoseconds (CLOCK_THREAD_CPUTIME_ID of Linux).
fn now() -> f64 {
    let mut t = Timespec { seconds: 0, nanos: 0 };
    assert_eq!(unsafe { clock_gettime(3, &mut t) }, 0);
    t.seconds as f64 * 1e9 + t.nanos as f64
}

pub struct Entry {
    pub name: &'static str,
    /// How many calls or pixels one run works through; times are printed for one.
    pub units: u64,
    pub ours: Box<dyn FnMut() -> u64>,
    pub rust: Box<dyn FnMut() -> u64>,
}

/// Takes one more answer into a checksum.
#[inline]
pub fn taken(sum: u64, answer: u64) -> u64 {
    (sum.rotate_left(5) ^ answer).wrapping_mul(0x9E37_79B9_7F4A_7C15)
}

/// Nanoseconds for so many runs, and the last checksum.
fn timed(side: &mut dyn FnMut() -> u64, runs: u32) -> (f64, u64) {
    let start = now();
    let mut sum = 0;
    for _ in 0..runs {
        sum = std::hint::black_box(side());
    }
    (now() - start, sum)
}

fn median(mut times: Vec<f64>) -> f64 {
    times.sort_by(f64::total_cmp);
    times[times.len() / 2]
}

fn shown(nanos: f64) -> String {
    match nanos {
        n if n < 1e3 => format!("{n:.2} ns"),
        n if n < 1e6 => format!("{:.2} us", n / 1e3),
        n => format!("{:.2} ms", n / 1e6),
    }
}

/// For `bench/run --instructions`: a mark before and after one run of each side, at which the emulator prints how far it has counted.
fn counted(entries: impl Iterator<Item = Entry>) -> bool {
    let mark = || unsafe {
        getppid();
    };
    let mut equal = true;
    for mut e in entries {
        // once before, for what is set up at the first call
        let warm = (e.ours)() == (e.rust)();
        mark();
        let a = (e.ours)();
        mark();
        let b = (e.rust)();
        mark();
        println!("{}\t{}", e.units, e.name);
        equal &= warm && a == b;
    }
    equal
}

/// The program: ROUNDS [NAME-PART]. No rounds: instructions are counted, and nothing is timed.
pub fn main(entries: Vec<Entry>) {
    let args: Vec<String> = std::env::args().skip(1).collect();
    let rounds: usize = args[0].parse().expect("a number of rounds");
    let part = args.get(1).map(String::as_str).unwrap_or("");
    if rounds == 0 {
        let equal = counted(entries.into_iter().filter(|e| e.name.contains(part)));
        std::process::exit(if equal { 0 } else { 1 });
    }
    println!("{:44} {:>12} {:>12} {:>7}", "medians, for one call or pixel", "ours", "Rust", "ratio");
    let mut different = 0;
    let mut sized: Vec<(String, String, f64, f64)> = Vec::new();
    for mut e in entries.into_iter().filter(|e| e.name.contains(part)) {
        // So many runs at a time that the clock's grain does not matter; this warms both up, too.
        let mut runs = 1;
        while timed(&mut e.ours, runs).0.min(timed(&mut e.rust, runs).0) < 2e6 {
            runs *= 2;
        }
        let (mut ours, mut rust) = (Vec::new(), Vec::new());
        let mut equal = true;
        for round in 0..rounds {
            let (a, b) = if round % 2 == 0 {
                let a = timed(&mut e.ours, runs);
                (a, timed(&mut e.rust, runs))
            } else {
                let b = timed(&mut e.rust, runs);
                (timed(&mut e.ours, runs), b)
            };
            equal &= a.1 == b.1;
            ours.push(a.0);
            rust.push(b.0);
        }
        let each = runs as f64 * e.units as f64;
        let ratio = median(ours.iter().zip(&rust).map(|(a, b)| a / b).collect());
        let (a, b) = (median(ours) / each, median(rust) / each);
        // the size stands between commas; the rest of the name is what several sizes share
        if let Some(size) = e.name.split(", ").find(|part| part.contains(" by ")) {
            let stem = e.name.split(", ").filter(|part| *part != size).collect::<Vec<_>>().join(", ");
            let units = e.units as f64;
            sized.push((stem, size.to_string(), a * units, b * units));
        }
        println!(
            "{:44} {:>12} {:>12} {:>7.2}{}",
            e.name,
            shown(a),
            shown(b),
            ratio,
            if equal { "" } else { "  ANSWERS DIFFER" }
        );
        different += !equal as i32;
    }
    // What is there in several sizes: the whole call's cost, and by how much it grew from the size before.
    let mut stems: Vec<String> = sized.iter().map(|s| s.0.clone()).collect();
    stems.dedup();
    stems.sort();
    stems.dedup();
    let mut printed = false;
    for stem in stems {
        let mine: Vec<_> = sized.iter().filter(|s| s.0 == stem).collect();
        if mine.len() < 2 {
            continue;
        }
        if !printed {
            println!("\nhow a whole call's cost grows with the picture: ours (times the size before), Rust (the same)");
            printed = true;
        }
        let mut line = format!("{stem}:");
        for (i, s) in mine.iter().enumerate() {
            let grown = |now: f64, before: f64| if i == 0 { String::new() } else { format!(" (x{:.1})", now / before) };
            let before = if i == 0 { s } else { &mine[i - 1] };
            line += &format!("  {}: {}{}, {}{}", s.1, shown(s.2), grown(s.2, before.2), shown(s.3), grown(s.3, before.3));
        }
        println!("{line}");
    }
    std::process::exit(if different > 0 { 1 } else { 0 });
}
