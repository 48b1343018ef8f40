//! Sessions of frames. A case is a seed, a number of lines, how many in a hundred lines are damaged,
//! and whether the last line has its end.

use crate::generator::Draw;
use crate::shapes::draw_shape;

pub const EXAMPLE: &str = "\
010101000000
0200FFFFFF
03013F000000000000000001
04013F000000000000000001
";

pub const EXAMPLE_OUTPUT: &str = "\
81
82
8300000001C01000003F8000003F8000003F800000
8400000001C01000003F8000003F8000003F8000003FE8000000000000
";

pub fn draw(d: &mut Draw, case: &mut Vec<i64>) {
    let seed = d.below(1 << 40) as i64;
    let lines = d.between(0, 120);
    let damage = d.one_of(&[0, 0, 10, 50]);
    case.extend([seed, lines, damage, d.between(0, 1)]);
}

fn hex(bytes: &[u8]) -> Vec<u8> {
    bytes.iter().flat_map(|b| format!("{b:02X}").into_bytes()).collect()
}

/// One sound frame for a picture of w by h; a 01 changes them.
fn frame(d: &mut Draw, w: &mut i64, h: &mut i64) -> Vec<u8> {
    let byte = |d: &mut Draw| match d.below(4) {
        0 => d.one_of(&[0u8, 1, 127, 128, 254, 255]),
        _ => d.word() as u8,
    };
    let mut out = Vec::new();
    match d.below(24) {
        0 => {
            (*w, *h) = (d.between(1, 16), d.between(1, 16));
            out.extend([1, *w as u8, *h as u8]);
            out.extend((0..3).map(|_| byte(d)));
        }
        1..=6 => {
            out.extend([2, d.between(0, *h - 1) as u8]);
            out.extend((0..3 * *w).map(|_| byte(d)));
        }
        k => {
            let kind = d.between(1, 3);
            let opacity = match d.below(8) {
                0 => d.one_of(&[0.0f32, -0.0, 1.0, f32::MIN_POSITIVE, 1e-45, 0.999_999_94]),
                1 => d.one_of(&[0.2, 0.9, 0.5]),
                _ => d.unit(),
            };
            let mut c = Vec::new();
            draw_shape(d, kind, *w, *h, &mut c);
            out.extend([if k < 16 { 3 } else { 4 }, kind as u8]);
            out.extend(opacity.to_bits().to_be_bytes());
            c.iter().for_each(|z| out.extend((*z as i16).to_be_bytes()));
        }
    }
    out
}

/// Something wrong with a frame, or with its line.
fn damaged(d: &mut Draw, frame: &[u8]) -> Vec<u8> {
    let mut frame = frame.to_vec();
    let mut line = match d.below(4) {
        0 => {
            let i = d.below(frame.len() as u64) as usize;
            frame[i] = d.word() as u8;
            hex(&frame)
        }
        1 => {
            // an opacity or a coordinate out of range, or a size
            let bad = d.one_of(&[[0x7F, 0xC0], [0xBF, 0x80], [0x20, 0x00], [0x1F, 0xFF], [0xE0, 0x00], [0xE0, 0x01], [0x00, 0x11], [0x3F, 0x81]]);
            let i = d.below(frame.len() as u64 - 1) as usize;
            frame[i..i + 2].copy_from_slice(&bad);
            hex(&frame)
        }
        2 => {
            let n = d.below(2 * frame.len() as u64 + 1) as usize;
            let mut line = hex(&frame);
            line.truncate(n);
            line
        }
        _ => hex(&frame),
    };
    match d.below(8) {
        0 => line.push(d.one_of(b"0aFgG \r\t-/:@`\x00\xFF")),
        1 => line.extend(hex(&[0; 60][..d.below(60) as usize])),
        2 if !line.is_empty() => {
            let i = d.below(line.len() as u64) as usize;
            line[i] = d.word() as u8;
        }
        3 => line.insert(0, d.one_of(b"0 xX")),
        _ => (),
    }
    // A line feed in the middle makes two lines: that is input, too.
    line
}

pub fn session(case: &[i64]) -> Vec<u8> {
    counted(case).0
}

/// The input of a case, and how many of its lines were damaged.
pub fn counted(case: &[i64]) -> (Vec<u8>, u64) {
    let (seed, lines, damage, ended) = (case[0] as u64, case[1], case[2] as u64, case[3] == 1);
    let mut d = Draw::new(seed);
    let (mut w, mut h) = (4, 3);
    let mut out = Vec::new();
    let mut harmed = 0;
    for i in 0..lines {
        let mut line = frame(&mut d, &mut w, &mut h);
        if i == 0 && d.below(8) != 0 {
            line = vec![1, w as u8, h as u8, d.word() as u8, d.word() as u8, d.word() as u8];
        }
        let mut text = if d.below(100) < damage {
            harmed += 1;
            damaged(&mut d, &line)
        } else {
            hex(&line)
        };
        if d.below(4) == 0 {
            text.make_ascii_lowercase();
        }
        out.extend(text);
        out.push(b'\n');
    }
    if !ended {
        out.pop();
    }
    (out, harmed)
}

/// A long script of its own kind: the edges of each frame, then sessions from sound to badly damaged.
pub fn script() -> Vec<u8> {
    let mut out = edges();
    for (seed, lines, damage) in [(11, 500, 0), (12, 700, 10), (13, 700, 50), (14, 300, 90)] {
        out.extend(session(&[seed, lines, damage, 1]));
    }
    out.pop();
    out
}

/// A 03 or 04, from its opacity's bits and its coordinates.
fn shape(first: u8, kind: u8, opacity: u32, c: &[i16]) -> Vec<u8> {
    let mut out = vec![first, kind];
    out.extend(opacity.to_be_bytes());
    c.iter().for_each(|z| out.extend(z.to_be_bytes()));
    out
}

fn edges() -> Vec<u8> {
    const HALF: u32 = 0x3F00_0000;
    let mut frames: Vec<Vec<u8>> = Vec::new();
    let one = || shape(3, 1, HALF, &[0, 0, 1]);
    let paint = || shape(4, 1, HALF, &[0, 0, 1]);
    // Before the first 81, and a refused 01 does not count as one.
    frames.extend([vec![2, 0, 1, 2, 3], one(), paint(), vec![1, 0, 1, 0, 0, 0], vec![1, 17, 16, 0, 0, 0], vec![1, 1, 255, 9, 9, 9], one()]);
    // Sizes at their ends.
    for (w, h) in [(1, 1), (16, 16), (16, 1), (1, 16), (17, 1), (1, 17), (0, 5), (5, 0)] {
        frames.extend([vec![1, w, h, 255, 0, 128], one()]);
    }
    // Every byte as a channel, in the target and on the canvas.
    for y in 0..16u8 {
        frames.push(vec![1, 16, 16, y * 16, y * 16 + 7, y * 16 + 15]);
        for z in 0..16u8 {
            let mut row = vec![2, z];
            row.extend((0..48u32).map(|x| (x * 16 + z as u32 + y as u32 * 11) as u8));
            frames.push(row);
        }
        frames.extend([shape(3, 2, HALF, &[0, 0, 15, 0, 0, 15]), shape(4, 3, 0x3E4C_CCCD, &[0, 0, 15, 0, 15, 15, 0, 15]), shape(3, 1, 0x3F80_0000, &[8, 8, 5])]);
    }
    // A row: one byte short, one long, the last row, past it; refused 04s leave it open, an 84 closes it, so does one that covers nothing.
    frames.push(vec![1, 2, 2, 10, 20, 30]);
    let row = |y: u8, n: u8| [vec![2, y], (0..n).collect()].concat();
    frames.extend([row(0, 5), row(0, 7), row(0, 0), row(1, 6), row(2, 6), row(255, 6)]);
    frames.extend([shape(4, 1, 0x3F80_0001, &[0, 0, 1]), row(0, 6), shape(4, 1, HALF, &[0, 8192, 1]), row(1, 6), one(), row(0, 6)]);
    frames.extend([shape(4, 1, HALF, &[0, 0, 0]), row(0, 6), one(), vec![1, 17, 1, 0, 0, 0], row(0, 6), vec![1, 2, 2, 10, 20, 30], row(0, 6), paint(), row(0, 6)]);
    // Opacities and places at their ends, and both out of range.
    for opacity in [0, 1, 0x8000_0000, 0x8000_0001, 0x3F80_0000, 0x3F80_0001, 0x7F80_0000, 0xFF80_0000, 0x7FC0_0000, 0xFFFF_FFFF, 0x0080_0000, 0x3F7F_FFFF] {
        frames.extend([shape(3, 1, opacity, &[1, 1, 1]), shape(4, 2, opacity, &[0, 0, 1, 0, 0, 1]), shape(3, 1, opacity, &[0, 8192, 1])]);
    }
    for place in [8191, 8192, -8191, -8192, 32767, -32768] {
        for i in 0..8 {
            let mut c = [0, 0, 1, 0, 1, 1, 0, 1];
            c[i] = place;
            frames.extend([shape(3, 3, HALF, &c), shape(3, 2, HALF, &c[..6]), shape(3, 1, HALF, &c[..3])]);
        }
    }
    // Degenerate shapes.
    for c in [[0, 0, 0, 0, 0, 0, 0, 0], [0, 0, 1, 1, 2, 2, 0, 1], [0, 0, 1, 0, 0, 1, 1, 1], [0, 1, 1, 1, 1, 0, 0, 0]] {
        frames.extend([shape(4, 3, HALF, &c), shape(4, 2, HALF, &c[..6]), shape(4, 1, HALF, &c[..3])]);
    }
    let mut out = Vec::new();
    for f in &frames {
        out.extend(hex(f));
        out.push(b'\n');
    }
    // Lines that are no frames: between them the state stays.
    let long = |n: usize| "0".repeat(n);
    let lines = ["", "0", "00", "05", "FF", "0301", "03013F00", "03043F000000000000000001", "03003F000000000000000001", "03013F00000000000000000G",
        "03013F000000000000000001\r", " 03013F000000000000000001", "03013f000000000000000001", "01010100000", "0101010000", "01010100000000", "02", "0200"];
    for line in lines {
        out.extend(format!("{line}\n03013F000000000000000001\n").bytes());
    }
    for n in [98, 99, 100, 101, 102, 200, 4095, 4096, 4097, 20000] {
        out.extend(format!("{}\n02{}\n03013F000000000000000001\n", long(n), long(n)).bytes());
    }
    out
}
