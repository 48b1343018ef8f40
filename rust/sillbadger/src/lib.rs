//! Shapes that are scored against a picture, painted and refined, by proved code.
//!
//! Every function here calls one C function of the crate `capi`, whose promise is proved for all input: what it answers, and every
//! lent number after it. No input makes one panic. A refused call gives the [`Refusal`], and nothing that was lent has changed.
//! Nothing is allocated: pictures, tables and work pictures are lent by the caller.
//!
//! A picture of w by h has [`picture_len`] `f32`, rows top down, red, green and blue together, each within 0..1. A table has
//! [`table_len`] `f64`. Widths and heights are 1 to 256, coordinates and radii -8191 to 8191.
//!
//! ```
//! use sillbadger::*;
//!
//! // A white target of one pixel over a black canvas.
//! let (w, h) = (1, 1);
//! let target = [1.0f32; 3];
//! let mut canvas = [0.0f32; 3];
//! let mut table = [0.0f64; 30];
//! build(w, h, &target, &canvas, &mut table)?;
//!
//! let shape = Shape::Circle { cx: 0, cy: 0, r: 1 };
//! let score = span_score(w, h, shape, 0.5, &table)?;
//! assert_eq!((score.count, score.change, score.colour), (1, -2.25, [1.0; 3]));
//!
//! paint(w, h, shape, 0.5, score.colour, &target, &mut canvas, &mut table)?;
//! assert_eq!(total(w, h, &target, &canvas)?, 0.75);
//! # Ok::<(), Refusal>(())
//! ```

pub mod face;

/// Why a call was refused: document 01's numbers. If several hold, the lowest is given.
#[derive(Clone, Copy, Debug, PartialEq, Eq, PartialOrd, Ord, Hash)]
pub enum Refusal {
    /// Width or height outside 1..256.
    Size = 1,
    /// A lent slice has another length than stated; a point score was asked of a quad.
    Length = 2,
    /// A list, level, pass or candidate count is out of range; level bits above 6.
    Count = 3,
    /// A coordinate or radius is out of range.
    Place = 4,
    /// An opacity or level is not within 0..1; a NaN isn't.
    Opacity = 5,
    /// A given colour channel is not within 0..1.
    Colour = 6,
    /// A pixel that build, mean or total meets is not within 0..1; of refinement one of its target.
    Pixel = 7,
}

impl Refusal {
    /// The number, 1 to 7.
    pub fn number(self) -> u8 {
        self as u8
    }

    /// The refusal of a number; 0 and what is above 7 are none.
    ///
    /// ```
    /// assert_eq!(sillbadger::Refusal::of(4), Some(sillbadger::Refusal::Place));
    /// assert_eq!(sillbadger::Refusal::of(0), None);
    /// ```
    pub fn of(number: u32) -> Option<Refusal> {
        use Refusal::*;
        [Size, Length, Count, Place, Opacity, Colour, Pixel].into_iter().find(|r| *r as u32 == number)
    }
}

impl std::fmt::Display for Refusal {
    fn fmt(&self, f: &mut std::fmt::Formatter<'_>) -> std::fmt::Result {
        f.write_str(match self {
            Refusal::Size => "width or height outside 1..256",
            Refusal::Length => "a lent slice has another length than stated",
            Refusal::Count => "a count is out of range",
            Refusal::Place => "a coordinate or radius is out of range",
            Refusal::Opacity => "an opacity is not within 0..1",
            Refusal::Colour => "a colour is not within 0..1",
            Refusal::Pixel => "a pixel is not within 0..1",
        })
    }
}

impl std::error::Error for Refusal {}

/// A shape by its coordinates, each from -8191 to 8191. A radius of 0 or less covers nothing, and so do corners in line.
#[derive(Clone, Copy, Debug, PartialEq, Eq, Hash)]
pub enum Shape {
    Circle { cx: i32, cy: i32, r: i32 },
    /// Three corners, x and y of each.
    Triangle([(i32, i32); 3]),
    /// Four corners.
    Quad([(i32, i32); 4]),
}

impl Shape {
    /// The coordinates as they cross, and how many they are: 3, 6 or 8. The rest is 0.
    fn coordinates(self) -> ([i32; 8], usize) {
        match self {
            Shape::Circle { cx, cy, r } => ([cx, cy, r, 0, 0, 0, 0, 0], 3),
            Shape::Triangle([a, b, c]) => ([a.0, a.1, b.0, b.1, c.0, c.1, 0, 0], 6),
            Shape::Quad([a, b, c, d]) => ([a.0, a.1, b.0, b.1, c.0, c.1, d.0, d.1], 8),
        }
    }

    /// The shape of so many coordinates.
    fn read(size: u8, z: &[i32]) -> Shape {
        match size {
            3 => Shape::Circle { cx: z[0], cy: z[1], r: z[2] },
            6 => Shape::Triangle([(z[0], z[1]), (z[2], z[3]), (z[4], z[5])]),
            _ => Shape::Quad([(z[0], z[1]), (z[2], z[3]), (z[4], z[5]), (z[6], z[7])]),
        }
    }
}

/// A shape with its opacity and colour, as lists hold it.
#[derive(Clone, Copy, Debug, PartialEq)]
pub struct Stroke {
    pub shape: Shape,
    pub opacity: f32,
    /// Red, green, blue.
    pub colour: [f32; 3],
}

/// What painting a shape would change.
#[derive(Clone, Copy, Debug, PartialEq)]
pub struct Score {
    /// How many pixels it covers.
    pub count: u32,
    /// The opacity it was scored at.
    pub opacity: f32,
    /// The change of the squared error; below 0 is better.
    pub change: f32,
    /// The best colour: red, green, blue.
    pub colour: [f32; 3],
}

/// What a refinement did.
#[derive(Clone, Copy, Debug, PartialEq, Eq)]
pub struct Refined {
    /// Passes begun, the last one too.
    pub passes: u64,
    pub trials: u64,
    pub acceptances: u64,
}

/// How many `f32` a picture of w by h has.
pub const fn picture_len(w: u32, h: u32) -> usize {
    h as usize * w as usize * 3
}

/// How many `f64` the table of a picture of w by h has.
pub const fn table_len(w: u32, h: u32) -> usize {
    h as usize * (w as usize + 1) * 15
}

/// A row without a covered pixel.
const NO_PIXEL: i64 = -9;

/// An answer on numbers: the value, or -n for refusal n.
fn value(answer: i64) -> Result<u32, Refusal> {
    match Refusal::of((-answer).clamp(0, 8) as u32) {
        Some(r) => Err(r),
        None => Ok(answer as u32),
    }
}

/// A number that a call answers.
fn done(number: u8) -> Result<(), Refusal> {
    match Refusal::of(number as u32) {
        Some(r) => Err(r),
        None => Ok(()),
    }
}

fn told(a: face::SillbadgerAnswer) -> Result<face::SillbadgerAnswer, Refusal> {
    match Refusal::of(a.refusal) {
        Some(r) => Err(r),
        None => Ok(a),
    }
}

fn score(a: face::SillbadgerAnswer) -> Result<Score, Refusal> {
    told(a).map(|a| Score { count: a.count, opacity: a.opacity, change: a.change, colour: [a.red, a.green, a.blue] })
}

/// How many pixels of a picture of w by h a shape covers.
///
/// ```
/// use sillbadger::{count, Shape};
/// assert_eq!(count(16, 16, Shape::Circle { cx: 8, cy: 8, r: 5 }), Ok(81));
/// ```
pub fn count(w: u32, h: u32, shape: Shape) -> Result<u32, Refusal> {
    value(match shape {
        Shape::Circle { cx, cy, r } => face::sillbadger_count_circle(w, h, cx, cy, r),
        Shape::Triangle([a, b, c]) => face::sillbadger_count_triangle(w, h, a.0, a.1, b.0, b.1, c.0, c.1),
        Shape::Quad([a, b, c, d]) => face::sillbadger_count_quad(w, h, a.0, a.1, b.0, b.1, c.0, c.1, d.0, d.1),
    })
}

/// The first and the last column of row y that a shape covers, both included; nothing where it covers none.
///
/// ```
/// use sillbadger::{row_ends, Refusal, Shape};
/// let circle = Shape::Circle { cx: 8, cy: 8, r: 5 };
/// assert_eq!(row_ends(16, 16, circle, 8), Ok(Some((3, 13))));
/// assert_eq!(row_ends(16, 16, circle, 0), Ok(None));
/// assert_eq!(row_ends(0, 16, circle, 8), Err(Refusal::Size));
/// ```
pub fn row_ends(w: u32, h: u32, shape: Shape, y: i32) -> Result<Option<(u32, u32)>, Refusal> {
    let (left, right) = match shape {
        Shape::Circle { cx, cy, r } => {
            (face::sillbadger_left_circle(w, h, cx, cy, r, y), face::sillbadger_right_circle(w, h, cx, cy, r, y))
        }
        Shape::Triangle([a, b, c]) => (
            face::sillbadger_left_triangle(w, h, a.0, a.1, b.0, b.1, c.0, c.1, y),
            face::sillbadger_right_triangle(w, h, a.0, a.1, b.0, b.1, c.0, c.1, y),
        ),
        Shape::Quad([a, b, c, d]) => (
            face::sillbadger_left_quad(w, h, a.0, a.1, b.0, b.1, c.0, c.1, d.0, d.1, y),
            face::sillbadger_right_quad(w, h, a.0, a.1, b.0, b.1, c.0, c.1, d.0, d.1, y),
        ),
    };
    if left == NO_PIXEL {
        return Ok(None);
    }
    Ok(Some((value(left)?, value(right)?)))
}

/// The pattern of the f32 nearest to an f64, ties to even, from its pattern; a NaN gives 7FC00000.
pub fn narrow_bits(bits: u64) -> u32 {
    face::sillbadger_narrow_bits(bits) as u32
}

/// An f64 narrowed to an f32.
pub fn narrow(x: f64) -> f32 {
    f32::from_bits(narrow_bits(x.to_bits()))
}

/// The opacity levels of a number of level bits, 0 to 6; the unused places are 0.
///
/// ```
/// let mut levels = [0.0; 64];
/// sillbadger::levels(1, &mut levels)?;
/// assert_eq!(levels[..3], [0.2, 0.9, 0.0]);
/// # Ok::<(), sillbadger::Refusal>(())
/// ```
pub fn levels(bits: u32, levels: &mut [f32; 64]) -> Result<(), Refusal> {
    done(face::sillbadger_levels(bits, levels))
}

/// Every pixel has the colour.
///
/// ```
/// let mut canvas = [0.0; 6];
/// sillbadger::fill(2, 1, [0.25, 0.5, 1.0], &mut canvas)?;
/// assert_eq!(canvas, [0.25, 0.5, 1.0, 0.25, 0.5, 1.0]);
/// assert_eq!(sillbadger::fill(2, 2, [0.0; 3], &mut canvas), Err(sillbadger::Refusal::Length));
/// # Ok::<(), sillbadger::Refusal>(())
/// ```
pub fn fill(w: u32, h: u32, colour: [f32; 3], canvas: &mut [f32]) -> Result<(), Refusal> {
    done(face::sillbadger_fill(w, h, colour[0], colour[1], colour[2], canvas))
}

/// The mean colour of a picture.
///
/// ```
/// assert_eq!(sillbadger::mean(2, 1, &[0.0, 0.5, 1.0, 1.0, 0.5, 1.0]), Ok([0.5, 0.5, 1.0]));
/// ```
pub fn mean(w: u32, h: u32, target: &[f32]) -> Result<[f32; 3], Refusal> {
    told(face::sillbadger_mean(w, h, target)).map(|a| [a.red, a.green, a.blue])
}

/// The total squared difference of two pictures.
///
/// ```
/// assert_eq!(sillbadger::total(1, 1, &[1.0, 1.0, 1.0], &[0.5, 1.0, 0.0]), Ok(1.25));
/// ```
pub fn total(w: u32, h: u32, target: &[f32], canvas: &[f32]) -> Result<f64, Refusal> {
    told(face::sillbadger_total(w, h, target, canvas)).map(|a| a.total)
}

/// Writes the table of a target and a canvas, every number of it.
///
/// ```
/// use sillbadger::{build, table_len};
/// let mut table = vec![f64::NAN; table_len(2, 1)];
/// build(2, 1, &[1.0; 6], &[0.5; 6], &mut table)?;
/// assert_eq!(table[30..33], [2.0; 3]);
/// # Ok::<(), sillbadger::Refusal>(())
/// ```
pub fn build(w: u32, h: u32, target: &[f32], canvas: &[f32], table: &mut [f64]) -> Result<(), Refusal> {
    done(face::sillbadger_build(w, h, target, canvas, table))
}

/// Works out anew the canvas's sums in rows ymin to ymax, whatever the two are. As in the published Rust a negative ymax redoes every
/// row from ymin on.
pub fn update(w: u32, h: u32, target: &[f32], canvas: &[f32], ymin: i32, ymax: i32, table: &mut [f64]) -> Result<(), Refusal> {
    done(face::sillbadger_update(w, h, target, canvas, ymin, ymax, table))
}

/// The score of a shape at one opacity, from a table.
pub fn span_score(w: u32, h: u32, shape: Shape, opacity: f32, table: &[f64]) -> Result<Score, Refusal> {
    let (z, n) = shape.coordinates();
    score(face::sillbadger_span_score(w, h, &z[..n], opacity, table))
}

/// The score at the best of the first `count` levels, 1 to 64, from a table.
///
/// ```
/// use sillbadger::*;
/// let (w, h, target, canvas) = (1, 1, [1.0; 3], [0.0; 3]);
/// let mut table = vec![0.0; table_len(w, h)];
/// build(w, h, &target, &canvas, &mut table)?;
/// let mut list = [0.0; 64];
/// levels(2, &mut list)?;
/// let best = span_sweep(w, h, Shape::Circle { cx: 0, cy: 0, r: 1 }, &list, 4, &table)?;
/// assert_eq!(best.opacity, list[3]);
/// # Ok::<(), Refusal>(())
/// ```
pub fn span_sweep(w: u32, h: u32, shape: Shape, levels: &[f32; 64], count: u32, table: &[f64]) -> Result<Score, Refusal> {
    let (z, n) = shape.coordinates();
    score(face::sillbadger_span_sweep(w, h, &z[..n], levels, count, table))
}

/// The score of a circle or a triangle at one opacity, pixel by pixel from the pictures. Its float bits need not be those of
/// [`span_score`]. A quad is refused by [`Refusal::Length`].
///
/// ```
/// use sillbadger::*;
/// let one = point_score(1, 1, Shape::Circle { cx: 0, cy: 0, r: 1 }, 0.5, &[1.0; 3], &[0.0; 3])?;
/// assert_eq!((one.count, one.change), (1, -2.25));
/// let quad = Shape::Quad([(0, 0), (1, 0), (1, 1), (0, 1)]);
/// assert_eq!(point_score(1, 1, quad, 0.5, &[1.0; 3], &[0.0; 3]), Err(Refusal::Length));
/// # Ok::<(), Refusal>(())
/// ```
pub fn point_score(w: u32, h: u32, shape: Shape, opacity: f32, target: &[f32], canvas: &[f32]) -> Result<Score, Refusal> {
    let (z, n) = shape.coordinates();
    score(face::sillbadger_point_score(w, h, &z[..n], opacity, target, canvas))
}

/// The score of a circle or a triangle at the best of the first `count` levels, pixel by pixel from the pictures.
#[allow(clippy::too_many_arguments)]
pub fn point_sweep(w: u32, h: u32, shape: Shape, levels: &[f32; 64], count: u32, target: &[f32], canvas: &[f32]) -> Result<Score, Refusal> {
    let (z, n) = shape.coordinates();
    score(face::sillbadger_point_sweep(w, h, &z[..n], levels, count, target, canvas))
}

/// Blends a shape into the canvas and updates the table over the shape's rows, so that it stays the table of both pictures.
#[allow(clippy::too_many_arguments)]
pub fn paint(
    w: u32,
    h: u32,
    shape: Shape,
    opacity: f32,
    colour: [f32; 3],
    target: &[f32],
    canvas: &mut [f32],
    table: &mut [f64],
) -> Result<(), Refusal> {
    let (z, n) = shape.coordinates();
    done(face::sillbadger_paint(w, h, &z[..n], opacity, colour[0], colour[1], colour[2], target, canvas, table))
}

/// One more than a list may have: a longer one is refused all the same.
const SHAPES: usize = 65;
const OFFERS: usize = 1025;

/// A list as it crosses.
struct Crossing<const N: usize> {
    sizes: [u8; N],
    places: [[i32; 8]; N],
    paints: [[f32; 4]; N],
}

impl<const N: usize> Crossing<N> {
    fn new() -> Self {
        Crossing { sizes: [0; N], places: [[0; 8]; N], paints: [[0.0; 4]; N] }
    }

    fn put(&mut self, i: usize, s: &Stroke) {
        let (z, n) = s.shape.coordinates();
        self.sizes[i] = n as u8;
        self.places[i] = z;
        self.paints[i] = [s.opacity, s.colour[0], s.colour[1], s.colour[2]];
    }

    fn get(&self, i: usize) -> Stroke {
        let [opacity, red, green, blue] = self.paints[i];
        Stroke { shape: Shape::read(self.sizes[i], &self.places[i]), opacity, colour: [red, green, blue] }
    }
}

/// Refines a list of at most 64 shapes over a background: in each of at most 16 passes every shape is tried against the next of at
/// most 1024 candidates, and leaves for it if that lowers the total. Both work pictures end holding the final list drawn.
///
/// ```
/// use sillbadger::*;
/// let grey = |r| Stroke { shape: Shape::Circle { cx: 0, cy: 0, r }, opacity: 0.5, colour: [0.5; 3] };
/// let white = Stroke { shape: Shape::Circle { cx: 0, cy: 0, r: 1 }, opacity: 1.0, colour: [1.0; 3] };
/// let mut list = [grey(1), grey(2)];
/// let (mut first, mut second) = ([0.0; 3], [0.0; 3]);
/// let done = refine(1, 1, [0.0; 3], &mut list, &[Some(white)], 1, &[1.0; 3], &mut first, &mut second)?;
/// assert_eq!((done.passes, done.trials, done.acceptances), (1, 2, 1));
/// assert_eq!(list, [grey(2), white]);
/// assert_eq!((first, second), ([1.0; 3], [1.0; 3]));
/// # Ok::<(), Refusal>(())
/// ```
#[allow(clippy::too_many_arguments)]
pub fn refine(
    w: u32,
    h: u32,
    background: [f32; 3],
    list: &mut [Stroke],
    candidates: &[Option<Stroke>],
    passes: u32,
    target: &[f32],
    first: &mut [f32],
    second: &mut [f32],
) -> Result<Refined, Refusal> {
    let mut shapes = Crossing::<SHAPES>::new();
    let n = list.len().min(SHAPES);
    for (i, s) in list.iter().take(n).enumerate() {
        shapes.put(i, s);
    }
    let mut offers = Crossing::<OFFERS>::new();
    let m = candidates.len().min(OFFERS);
    for (i, s) in candidates.iter().take(m).enumerate() {
        if let Some(s) = s {
            offers.put(i, s);
        }
    }
    let done = told(face::sillbadger_refine(
        w,
        h,
        background[0],
        background[1],
        background[2],
        &mut shapes.sizes[..n],
        shapes.places[..n].as_flattened_mut(),
        shapes.paints[..n].as_flattened_mut(),
        &offers.sizes[..m],
        offers.places[..m].as_flattened(),
        offers.paints[..m].as_flattened(),
        passes,
        target,
        first,
        second,
    ))?;
    for (i, s) in list.iter_mut().take(n).enumerate() {
        *s = shapes.get(i);
    }
    Ok(Refined { passes: done.passes, trials: done.trials, acceptances: done.acceptances })
}
