//! Bad input in bulk, through the C functions themselves: wrong lengths, slices of no elements, NaNs, the ends of i32 and u32.
//! Each call must answer the number that document 01's table gives, worked out here apart from the code; a refused one must have
//! changed nothing and answer zeros.

use sillbadger::face::*;

/// Fewer without optimisation, where they take long.
const CASES: u32 = if cfg!(debug_assertions) { 6_000 } else { 60_000 };

struct Draw(u64);

impl Draw {
    fn next(&mut self) -> u64 {
        self.0 ^= self.0 << 13;
        self.0 ^= self.0 >> 7;
        self.0 ^= self.0 << 17;
        self.0.wrapping_mul(0x2545_F491_4F6C_DD1D) >> 11
    }

    fn below(&mut self, n: u64) -> u64 {
        self.next() % n
    }

    /// Rarely true, so that calls with several faults and calls with none both come.
    fn seldom(&mut self) -> bool {
        self.below(8) == 0
    }

    fn pick<T: Copy>(&mut self, list: &[T]) -> T {
        list[self.below(list.len() as u64) as usize]
    }

    fn size(&mut self) -> u32 {
        if self.seldom() { self.pick(&[0, 257, 65_536, 0x8000_0000, u32::MAX]) } else { 1 + self.below(6) as u32 }
    }

    fn place(&mut self) -> i32 {
        if self.below(40) == 0 {
            self.pick(&[i32::MIN, i32::MAX, -8192, 8192, i32::MIN + 1])
        } else if self.seldom() {
            self.pick(&[-8191, 8191, 0, -1])
        } else {
            self.below(10) as i32 - 2
        }
    }

    fn unit(&mut self) -> f32 {
        if self.below(60) == 0 {
            self.pick(&[f32::NAN, -f32::NAN, f32::INFINITY, f32::NEG_INFINITY, -1e-45, 1.0000001, 2.0, f32::MAX])
        } else {
            self.pick(&[0.0, -0.0, 1.0, 0.5, 1e-45, 0.25])
        }
    }

    fn units(&mut self, n: usize) -> Vec<f32> {
        let bad = self.seldom();
        (0..n).map(|_| if bad { self.unit() } else { self.pick(&[0.0, 0.5, 1.0, 0.125]) }).collect()
    }

    /// A length that is mostly the right one.
    fn length(&mut self, right: usize) -> usize {
        let right = right.min(4096);
        if self.below(12) == 0 { self.pick(&[0, 1, right.saturating_sub(1), right + 1, 3 * right]) } else { right }
    }

    fn picture(&mut self, w: u32, h: u32) -> Vec<f32> {
        let n = self.length((w as usize).wrapping_mul(h as usize).wrapping_mul(3));
        self.units(n)
    }

    fn table(&mut self, w: u32, h: u32) -> Vec<f64> {
        let n = self.length((w as usize + 1).wrapping_mul(h as usize).wrapping_mul(15));
        (0..n).map(|i| if self.seldom() { f64::NAN } else { i as f64 }).collect()
    }

    fn shape(&mut self) -> Vec<i32> {
        let n = if self.below(10) == 0 { self.pick(&[0, 1, 2, 4, 5, 7, 9, 16]) } else { self.pick(&[3, 6, 8]) };
        (0..n).map(|_| self.place()).collect()
    }
}

// ---- document 01's table

fn bad_size(w: u32, h: u32) -> bool {
    !(1..=256).contains(&w) || !(1..=256).contains(&h)
}

fn bad_picture(w: u32, h: u32, p: &[f32]) -> bool {
    p.len() as u128 != w as u128 * h as u128 * 3
}

fn bad_table(w: u32, h: u32, t: &[f64]) -> bool {
    t.len() as u128 != h as u128 * (w as u128 + 1) * 15
}

fn within(x: f32) -> bool {
    (0.0..=1.0).contains(&x)
}

fn bad_pixels(p: &[f32]) -> bool {
    !p.iter().all(|x| within(*x))
}

fn bad_places(z: &[i32]) -> bool {
    !z.iter().all(|x| (-8191..=8191).contains(x))
}

/// The lowest number whose test holds.
fn lowest(tests: &[(u8, bool)]) -> u8 {
    tests.iter().filter(|t| t.1).map(|t| t.0).min().unwrap_or(0)
}

/// Places count only where the coordinates are a shape's; else 2 holds, which is lower.
fn shape_tests(kinds: &[usize], z: &[i32]) -> [(u8, bool); 2] {
    [(2, !kinds.contains(&z.len())), (4, bad_places(z))]
}

const NOTHING: SillbadgerAnswer =
    SillbadgerAnswer { refusal: 0, count: 0, opacity: 0.0, change: 0.0, red: 0.0, green: 0.0, blue: 0.0, passes: 0, trials: 0, acceptances: 0, total: 0.0 };

fn answers(a: SillbadgerAnswer, number: u8) {
    assert_eq!(a.refusal, number as u32);
    if number != 0 {
        assert_eq!(a, SillbadgerAnswer { refusal: number as u32, ..NOTHING });
    }
}

fn bits(p: &[f32]) -> Vec<u32> {
    p.iter().map(|x| x.to_bits()).collect()
}

fn wide(p: &[f64]) -> Vec<u64> {
    p.iter().map(|x| x.to_bits()).collect()
}

/// Runs a call many times, and sees every number that it can give.
fn bulk(seed: u64, numbers: &[u8], mut call: impl FnMut(&mut Draw) -> u8) {
    let mut d = Draw(seed);
    let mut seen = [0u32; 8];
    for _ in 0..CASES {
        seen[call(&mut d) as usize] += 1;
    }
    for (n, times) in seen.iter().enumerate() {
        assert_eq!(*times > 0, n == 0 || numbers.contains(&(n as u8)), "number {n} was given {times} times");
    }
}

#[test]
fn levels() {
    bulk(1, &[2, 3], |d| {
        let n = d.length(64);
        let before = d.units(n);
        let mut after = before.clone();
        let b = if d.seldom() { d.pick(&[7, 8, 32, u32::MAX]) } else { d.below(7) as u32 };
        let number = lowest(&[(2, n != 64), (3, b > 6)]);
        assert_eq!(sillbadger_levels(b, &mut after), number);
        assert!(number == 0 || bits(&after) == bits(&before));
        number
    });
}

#[test]
fn pictures() {
    bulk(2, &[1, 2, 6], |d| {
        let (w, h, r, g, b) = (d.size(), d.size(), d.unit(), d.unit(), d.unit());
        let before = d.picture(w, h);
        let mut after = before.clone();
        let number = lowest(&[(1, bad_size(w, h)), (2, bad_picture(w, h, &before)), (6, !(within(r) && within(g) && within(b)))]);
        assert_eq!(sillbadger_fill(w, h, r, g, b, &mut after), number);
        assert!(number == 0 || bits(&after) == bits(&before));
        number
    });
    bulk(3, &[1, 2, 7], |d| {
        let (w, h) = (d.size(), d.size());
        let p = d.picture(w, h);
        let number = lowest(&[(1, bad_size(w, h)), (2, bad_picture(w, h, &p)), (7, bad_pixels(&p))]);
        answers(sillbadger_mean(w, h, &p), number);
        number
    });
    bulk(4, &[1, 2, 7], |d| {
        let (w, h) = (d.size(), d.size());
        let (p, q) = (d.picture(w, h), d.picture(w, h));
        let number = lowest(&[
            (1, bad_size(w, h)),
            (2, bad_picture(w, h, &p) || bad_picture(w, h, &q)),
            (7, bad_pixels(&p) || bad_pixels(&q)),
        ]);
        answers(sillbadger_total(w, h, &p, &q), number);
        number
    });
}

#[test]
fn tables() {
    bulk(5, &[1, 2, 7], |d| {
        let (w, h) = (d.size(), d.size());
        let (p, q, before) = (d.picture(w, h), d.picture(w, h), d.table(w, h));
        let mut after = before.clone();
        let number = lowest(&[
            (1, bad_size(w, h)),
            (2, bad_picture(w, h, &p) || bad_picture(w, h, &q) || bad_table(w, h, &before)),
            (7, bad_pixels(&p) || bad_pixels(&q)),
        ]);
        assert_eq!(sillbadger_build(w, h, &p, &q, &mut after), number);
        assert!(number == 0 || wide(&after) == wide(&before));
        number
    });
    bulk(6, &[1, 2], |d| {
        let (w, h, a, b) = (d.size(), d.size(), d.place(), d.place());
        let (p, q, before) = (d.picture(w, h), d.picture(w, h), d.table(w, h));
        let mut after = before.clone();
        let number = lowest(&[
            (1, bad_size(w, h)),
            (2, bad_picture(w, h, &p) || bad_picture(w, h, &q) || bad_table(w, h, &before)),
        ]);
        assert_eq!(sillbadger_update(w, h, &p, &q, a, b, &mut after), number);
        assert!(number == 0 || wide(&after) == wide(&before));
        number
    });
}

#[test]
fn scores() {
    bulk(7, &[1, 2, 4, 5], |d| {
        let (w, h, a) = (d.size(), d.size(), d.unit());
        let (z, t) = (d.shape(), d.table(w, h));
        let [kind, place] = shape_tests(&[3, 6, 8], &z);
        let number = lowest(&[(1, bad_size(w, h)), (2, bad_table(w, h, &t)), kind, place, (5, !within(a))]);
        answers(sillbadger_span_score(w, h, &z, a, &t), number);
        number
    });
    bulk(8, &[1, 2, 4, 5], |d| {
        let (w, h, a) = (d.size(), d.size(), d.unit());
        let (z, p, q) = (d.shape(), d.picture(w, h), d.picture(w, h));
        let [kind, place] = shape_tests(&[3, 6], &z);
        let lengths = bad_picture(w, h, &p) || bad_picture(w, h, &q);
        let number = lowest(&[(1, bad_size(w, h)), (2, lengths), kind, place, (5, !within(a))]);
        answers(sillbadger_point_score(w, h, &z, a, &p, &q), number);
        number
    });
}

#[test]
fn sweeps() {
    fn count(d: &mut Draw) -> u32 {
        if d.seldom() { d.pick(&[0, 65, 66, u32::MAX]) } else { 1 + d.below(64) as u32 }
    }
    bulk(9, &[1, 2, 3, 4, 5], |d| {
        let (w, h, n, l) = (d.size(), d.size(), count(d), d.length(64));
        let (z, t, list) = (d.shape(), d.table(w, h), d.units(l));
        let [kind, place] = shape_tests(&[3, 6, 8], &z);
        let number = lowest(&[
            (1, bad_size(w, h)),
            (2, list.len() != 64 || bad_table(w, h, &t)),
            kind,
            (3, !(1..=64).contains(&n)),
            place,
            (5, bad_pixels(&list[..list.len().min(n as usize)])),
        ]);
        answers(sillbadger_span_sweep(w, h, &z, &list, n, &t), number);
        number
    });
    bulk(10, &[1, 2, 3, 4, 5], |d| {
        let (w, h, n, l) = (d.size(), d.size(), count(d), d.length(64));
        let (z, p, q, list) = (d.shape(), d.picture(w, h), d.picture(w, h), d.units(l));
        let [kind, place] = shape_tests(&[3, 6], &z);
        let number = lowest(&[
            (1, bad_size(w, h)),
            (2, list.len() != 64 || bad_picture(w, h, &p) || bad_picture(w, h, &q)),
            kind,
            (3, !(1..=64).contains(&n)),
            place,
            (5, bad_pixels(&list[..list.len().min(n as usize)])),
        ]);
        answers(sillbadger_point_sweep(w, h, &z, &list, n, &p, &q), number);
        number
    });
}

#[test]
fn painting() {
    bulk(11, &[1, 2, 4, 5, 6], |d| {
        let (w, h, a, r, g, b) = (d.size(), d.size(), d.unit(), d.unit(), d.unit(), d.unit());
        let (z, target, canvas, table) = (d.shape(), d.picture(w, h), d.picture(w, h), d.table(w, h));
        let (mut c, mut t) = (canvas.clone(), table.clone());
        let [kind, place] = shape_tests(&[3, 6, 8], &z);
        let lengths = bad_picture(w, h, &target) || bad_picture(w, h, &canvas) || bad_table(w, h, &table);
        let number = lowest(&[
            (1, bad_size(w, h)),
            (2, lengths),
            kind,
            place,
            (5, !within(a)),
            (6, !(within(r) && within(g) && within(b))),
        ]);
        assert_eq!(sillbadger_paint(w, h, &z, a, r, g, b, &target, &mut c, &mut t), number);
        assert!(number == 0 || (bits(&c) == bits(&canvas) && wide(&t) == wide(&table)));
        number
    });
}

/// A list as it crosses.
#[derive(Clone, PartialEq, Debug)]
struct List {
    sizes: Vec<u8>,
    places: Vec<i32>,
    paints: Vec<f32>,
}

impl List {
    fn draw(d: &mut Draw, n: usize, gaps: bool) -> List {
        let faulty = d.seldom();
        let sizes: Vec<u8> = (0..n)
            .map(|_| {
                if faulty && d.seldom() {
                    d.pick(&[0, 1, 2, 4, 5, 7, 9, 128, 255])
                } else if gaps && d.seldom() {
                    0
                } else {
                    d.pick(&[3, 6, 8])
                }
            })
            .collect();
        let (p, q) = if d.below(30) == 0 { (d.length(n * 8), d.length(n * 4)) } else { (n * 8, n * 4) };
        let extreme = d.below(6) == 0;
        let places = (0..p).map(|_| if extreme { d.place() } else { d.below(12) as i32 - 3 }).collect();
        let paints = d.units(q);
        List { sizes, places, paints }
    }

    fn is_none(&self, gaps: bool) -> bool {
        let n = self.sizes.len();
        self.places.len() != n * 8
            || self.paints.len() != n * 4
            || !self.sizes.iter().all(|s| [3, 6, 8].contains(s) || (gaps && *s == 0))
    }

    /// The places, opacities and colours of the shapes that are looked at; of no list nothing is, for 2 is lower.
    fn looked_at(&self, gaps: bool) -> (bool, bool, bool) {
        if self.is_none(gaps) {
            return (false, false, false);
        }
        let (mut place, mut opacity, mut colour) = (false, false, false);
        for (i, s) in self.sizes.iter().enumerate().filter(|(_, s)| **s != 0) {
            place |= bad_places(&self.places[i * 8..i * 8 + *s as usize]);
            opacity |= !within(self.paints[i * 4]);
            colour |= bad_pixels(&self.paints[i * 4 + 1..i * 4 + 4]);
        }
        (place, opacity, colour)
    }
}

#[test]
fn refinement() {
    bulk(12, &[1, 2, 3, 4, 5, 6, 7], |d| {
        let (w, h) = (d.size(), d.size());
        let n = if d.below(20) == 0 { 64 + d.below(3) as usize } else { d.below(5) as usize };
        let m = if d.below(40) == 0 { 1023 + d.below(4) as usize } else { d.below(6) as usize };
        let list = List::draw(d, n, false);
        let offers = List::draw(d, m, true);
        let passes = if d.seldom() { d.pick(&[16, 17, 18, u32::MAX]) } else { d.below(3) as u32 };
        let passes = if n > 8 && passes <= 16 { passes.min(1) } else { passes };
        let (r, g, b) = (d.pick(&[0.0, 1.0]), 0.5, if d.seldom() { d.unit() } else { 0.0 });
        let (target, first, second) = (d.picture(w, h), d.picture(w, h), d.picture(w, h));
        let (l, o) = (list.looked_at(false), offers.looked_at(true));
        let number = lowest(&[
            (1, bad_size(w, h)),
            (2, list.is_none(false) || offers.is_none(true)),
            (2, bad_picture(w, h, &target) || bad_picture(w, h, &first) || bad_picture(w, h, &second)),
            (3, n > 64 || m > 1024 || passes > 16),
            (4, l.0 || o.0),
            (5, l.1 || o.1),
            (6, l.2 || o.2 || !(within(r) && within(g) && within(b))),
            (7, bad_pixels(&target)),
        ]);
        let (mut after, mut one, mut two) = (list.clone(), first.clone(), second.clone());
        let a = sillbadger_refine(
            w,
            h,
            r,
            g,
            b,
            &mut after.sizes,
            &mut after.places,
            &mut after.paints,
            &offers.sizes,
            &offers.places,
            &offers.paints,
            passes,
            &target,
            &mut one,
            &mut two,
        );
        answers(a, number);
        if number == 0 {
            assert!(a.passes <= passes as u64 && a.acceptances <= a.trials && a.trials <= n as u64 * a.passes);
            assert_eq!(bits(&one), bits(&two));
            assert!(!after.is_none(false));
        } else {
            assert_eq!((after.sizes, after.places, bits(&after.paints)), (list.sizes, list.places, bits(&list.paints)));
            assert_eq!((bits(&one), bits(&two)), (bits(&first), bits(&second)));
        }
        number
    });
}

#[test]
fn numbers() {
    let mut d = Draw(13);
    for _ in 0..CASES {
        let (w, h, y) = (d.size(), d.size(), d.place());
        let z: Vec<i32> = (0..8).map(|_| d.place()).collect();
        let number = |n: usize| -(lowest(&[(1, bad_size(w, h)), (4, bad_places(&z[..n]))]) as i64);
        for (a, n) in [
            (sillbadger_count_circle(w, h, z[0], z[1], z[2]), number(3)),
            (sillbadger_count_triangle(w, h, z[0], z[1], z[2], z[3], z[4], z[5]), number(6)),
            (sillbadger_count_quad(w, h, z[0], z[1], z[2], z[3], z[4], z[5], z[6], z[7]), number(8)),
        ] {
            assert!(a == n || (n == 0 && a > 0));
        }
        for (a, n) in [
            (sillbadger_left_circle(w, h, z[0], z[1], z[2], y), number(3)),
            (sillbadger_right_triangle(w, h, z[0], z[1], z[2], z[3], z[4], z[5], y), number(6)),
            (sillbadger_left_quad(w, h, z[0], z[1], z[2], z[3], z[4], z[5], z[6], z[7], y), number(8)),
        ] {
            assert!(a == n || (n == 0 && (a == -9 || a > 0)));
        }
    }
}

/// Lists too long for the safe call are refused by it too.
#[test]
fn long_lists() {
    use sillbadger::{refine, Refusal, Shape, Stroke};
    let s = Stroke { shape: Shape::Circle { cx: 0, cy: 0, r: 1 }, opacity: f32::NAN, colour: [f32::NAN; 3] };
    let picture = [0.0f32; 3];
    let (mut one, mut two) = ([0.5f32; 3], [0.5f32; 3]);
    for (n, m, w, number) in [(65, 0, 1, Refusal::Count), (1000, 5000, 1, Refusal::Count), (0, 1025, 1, Refusal::Count), (65, 0, 2, Refusal::Length), (65, 0, 0, Refusal::Size), (64, 1024, 1, Refusal::Opacity)] {
        let mut list = vec![s; n];
        let offers = vec![Some(s); m];
        assert_eq!(refine(w, 1, [0.0; 3], &mut list, &offers, 0, &picture, &mut one, &mut two), Err(number));
    }
    assert_eq!((one, two), ([0.5; 3], [0.5; 3]));
}
