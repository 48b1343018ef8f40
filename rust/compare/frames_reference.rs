//! The program of document 01, "one hexadecimal frame a line", over the published Rust: what `fit` must
//! write, line by line. Only reading, refusing and writing are ours here; scores, paint and totals are
//! the Rust's.

use crate::pictures::apply;
use oracle::shape::common::probe::{filled_canvas, sse_total};
use oracle::shape::integral::{
    collect_circle_sums_integral, collect_quad_sums_integral, collect_triangle_sums_integral, Integral,
};

const FRAME: u8 = 8;

struct Picture {
    w: u32,
    h: u32,
    target: Vec<f32>,
    canvas: Vec<f32>,
    table: Integral,
    painted: bool,
}

#[derive(Default)]
pub struct Session {
    picture: Option<Picture>,
}

/// The bytes of a line of hexadecimal digits, an even number of them and at least two.
fn bytes(line: &[u8]) -> Option<Vec<u8>> {
    let digit = |b: u8| (b as char).to_digit(16).map(|d| d as u8);
    if line.is_empty() || line.len() % 2 != 0 {
        return None;
    }
    line.chunks(2).map(|p| Some(digit(p[0])? * 16 + digit(p[1])?)).collect()
}

fn channel(byte: u8) -> f32 {
    byte as f32 / 255.0
}

/// The kind, opacity and coordinates of a 03 or 04, with a refusal that is due to them.
fn shape(body: &[u8]) -> Result<(i64, f32, Vec<i64>), u8> {
    let kind = *body.first().ok_or(FRAME)? as i64;
    let places = match kind {
        1 => 3,
        2 => 6,
        3 => 8,
        _ => return Err(FRAME),
    };
    if body.len() != 5 + 2 * places {
        return Err(FRAME);
    }
    let opacity = f32::from_bits(u32::from_be_bytes(body[1..5].try_into().unwrap()));
    let c: Vec<i64> = body[5..].chunks(2).map(|p| i16::from_be_bytes([p[0], p[1]]) as i64).collect();
    if c.iter().any(|z| z.abs() > 8191) {
        return Err(4);
    }
    if !(0.0..=1.0).contains(&opacity) {
        return Err(5);
    }
    Ok((kind, opacity, c))
}

impl Session {
    /// The answer to a line, without its end.
    pub fn answer(&mut self, line: &[u8]) -> String {
        match self.answered(line) {
            Ok(bytes) => bytes.iter().map(|b| format!("{b:02X}")).collect(),
            Err(number) => format!("FF{number:02X}"),
        }
    }

    fn answered(&mut self, line: &[u8]) -> Result<Vec<u8>, u8> {
        let frame = bytes(line).ok_or(FRAME)?;
        if frame[0] == 1 {
            return self.new_picture(&frame[1..]);
        }
        let picture = self.picture.as_mut().ok_or(FRAME)?;
        match frame[0] {
            2 => picture.row(&frame[1..]),
            3 => picture.scored(&frame[1..], false),
            4 => picture.scored(&frame[1..], true),
            _ => Err(FRAME),
        }
    }

    fn new_picture(&mut self, body: &[u8]) -> Result<Vec<u8>, u8> {
        if body.len() != 5 {
            return Err(FRAME);
        }
        let (w, h) = (body[0] as u32, body[1] as u32);
        if !(1..=16).contains(&w) || !(1..=16).contains(&h) {
            return Err(1);
        }
        let canvas = filled_canvas([channel(body[2]), channel(body[3]), channel(body[4])], h, w);
        let target = vec![0.0; canvas.len()];
        let table = Integral::build(&target, &canvas, h, w);
        self.picture = Some(Picture { w, h, target, canvas, table, painted: false });
        Ok(vec![0x81])
    }
}

impl Picture {
    fn row(&mut self, body: &[u8]) -> Result<Vec<u8>, u8> {
        let n = 3 * self.w as usize;
        if body.len() != 1 + n || body[0] as u32 >= self.h || self.painted {
            return Err(FRAME);
        }
        let start = body[0] as usize * n;
        for (place, byte) in self.target[start..start + n].iter_mut().zip(&body[1..]) {
            *place = channel(*byte);
        }
        self.table = Integral::build(&self.target, &self.canvas, self.h, self.w);
        Ok(vec![0x82])
    }

    fn scored(&mut self, body: &[u8], paint: bool) -> Result<Vec<u8>, u8> {
        let (kind, opacity, c) = shape(body)?;
        let z: Vec<i32> = c.iter().map(|x| *x as i32).collect();
        let sums = match kind {
            1 => collect_circle_sums_integral(&self.table, self.h, self.w, z[0], z[1], z[2]),
            2 => collect_triangle_sums_integral(&self.table, self.h, self.w, z[0], z[1], z[2], z[3], z[4], z[5]),
            _ => collect_quad_sums_integral(&self.table, self.h, self.w, [(z[0], z[1]), (z[2], z[3]), (z[4], z[5]), (z[6], z[7])]),
        };
        let score = sums.finalize(opacity, None);
        let mut out = vec![if paint { 0x84 } else { 0x83 }];
        out.extend(sums.count.to_be_bytes());
        out.extend(score.delta_sse.to_bits().to_be_bytes());
        for x in score.color {
            out.extend(x.to_bits().to_be_bytes());
        }
        if paint {
            let mut case = vec![self.w as i64, self.h as i64, kind];
            case.extend(&c);
            apply(&mut self.canvas, &case, opacity, &score.color);
            let (first, last) = crate::pictures::row_range(&case);
            self.table.update_canvas_rows(&self.target, &self.canvas, first as i32, last as i32);
            self.painted = true;
            out.extend(sse_total(&self.target, &self.canvas).to_bits().to_be_bytes());
        }
        Ok(out)
    }
}

/// What the program writes for an input: an answer for each line; the last may lack its end.
pub fn output(input: &[u8]) -> Vec<String> {
    let mut session = Session::default();
    let mut lines: Vec<&[u8]> = input.split(|b| *b == b'\n').collect();
    if lines.last().is_some_and(|l| l.is_empty()) {
        lines.pop();
    }
    lines.into_iter().map(|l| session.answer(l)).collect()
}
