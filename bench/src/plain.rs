//! The same conversions as a plain program would do them, with f64, powf and log: the same records in and out, the same checks of settings
//! and codes. It is not exact, and its way back gives the nearest codes, where the exact one refuses what no pixel has.
use crate::library::top_code;
use std::convert::TryInto;

pub const UNIT: f64 = 16777216.0; // units in 1

// The bytes of a setting, of a code, of a number and of a half, and of a pixel record, an ACES record and a half record.
const SETTING: usize = 4;
const CODE: usize = 2;
const NUMBER: usize = 8;
const HALF: usize = 2;
pub const PIXEL: usize = SETTING + 3 * CODE;
pub const ACES: usize = SETTING + 3 * NUMBER;
pub const HALVES: usize = SETTING + 3 * HALF;

struct Curve {
    a: f64,
    b: f64,
    c: f64,
    d: f64,
    e: f64,
    f: f64,
    border: f64, // the signal above which the power part is
    base: f64,
    matrix: [[f64; 3]; 3],
}

/// A setting's constants.
pub struct Plain {
    setting: [u8; 4],
    curve: Curve,
    inverse: [[f64; 3]; 3],
    codes: Codes,
}

/// The codes of a curve's width: the first, for the signal 0, how far apart they are, and how many come after the first, of which the last is
/// for the signal 1.
#[derive(Clone, Copy)]
pub struct Codes {
    first: u16,
    apart: u16,
    last: u16,
}

impl Codes {
    pub fn of(curve: u8, width: u8) -> Codes {
        match (curve, width) {
            (4, 16) => Codes { first: 0, apart: 16, last: top_code(12) },
            (4, 140) => Codes { first: 256, apart: 1, last: 3504 },
            _ => Codes { first: 0, apart: 1, last: top_code(width) },
        }
    }

    /// One of the codes, for any number.
    pub fn any(&self, number: u64) -> u16 {
        self.first + (number % (u64::from(self.last) + 1)) as u16 * self.apart
    }

    /// How many further the top code is than the first.
    fn span(&self) -> u16 {
        self.last * self.apart
    }

    /// (The distance of codes is a power of two.)
    fn holds(&self, code: u16) -> bool {
        code & (self.apart - 1) == 0 && code >= self.first && code - self.first <= self.span()
    }

    pub fn signal(&self, code: u16) -> f64 {
        f64::from(code - self.first) / f64::from(self.span())
    }

    /// The nearest code of a signal, clipped to the first and the top code.
    pub fn nearest(&self, signal: f64) -> u16 {
        let last = f64::from(self.last);
        self.first + (signal * last).round().max(0.0).min(last) as u16 * self.apart
    }
}

fn log_c3(ei: u16) -> Curve {
    assert_eq!(ei, 800, "the only EI of this benchmark");
    let (cut, e, f) = (0.010591, 5.367655, 0.092809);
    let matrix = [[0.680205, 0.236137, 0.083658], [0.085415, 1.017471, -0.102886], [0.002057, -0.062563, 1.060506]];
    Curve { a: 5.555556, b: 0.052272, c: 0.247190, d: 0.385537, e, f, border: e * cut + f, base: 10.0, matrix }
}

/// LogC4 in the same form: c log2(a x + b) + d.
fn log_c4() -> Curve {
    let c = 928.0 / 1023.0 / 14.0;
    let matrix = [
        [0.750957362824734131, 0.144422786709757084, 0.104619850465508965],
        [0.000821837079380207, 1.007397584885003194, -0.008219421964383583],
        [-0.000499952143533471, -0.000854177231436971, 1.001354129374970370],
    ];
    Curve { a: 262128.0 / 117.45, b: 64.0, c, d: 95.0 / 1023.0 - 6.0 * c, e: 1.0, f: 0.0, border: -1.0, base: 2.0, matrix }
}

impl Plain {
    /// None for a setting that this benchmark does not try. (Curve 2 has no ACES matrix.)
    fn new(setting: [u8; 4]) -> Option<Plain> {
        let ei = u16::from_le_bytes([setting[2], setting[3]]);
        let curve = match (setting[0], setting[1], ei) {
            (3, 10, 800) | (3, 12, 800) | (3, 16, 800) => log_c3(ei),
            (4, 12, 0) | (4, 16, 0) | (4, 140, 0) => log_c4(),
            _ => return None,
        };
        let inverse = inverse(&curve.matrix);
        Some(Plain { setting, curve, inverse, codes: Codes::of(setting[0], setting[1]) })
    }

    fn decode(&self, code: u16) -> f64 {
        let (c, t) = (&self.curve, self.codes.signal(code));
        let value = if t > c.border { (c.base.powf((t - c.d) / c.c) - c.b) / c.a } else { (t - c.f) / c.e };
        (value * UNIT + 0.5).floor()
    }

    fn encode(&self, value: f64) -> u16 {
        let c = &self.curve;
        let t = if c.e * value + c.f > c.border { c.c * log(c.base, c.a * value + c.b) + c.d } else { c.e * value + c.f };
        self.codes.nearest(t)
    }

    fn aces(&self, scene: [f64; 3]) -> [i64; 3] {
        product(&self.curve.matrix, scene).map(|x| (x + 0.5).floor() as i64)
    }

    /// The codes of ACES values.
    pub fn codes(&self, aces: [f64; 3]) -> [u16; 3] {
        product(&self.inverse, aces).map(|value| self.encode(value))
    }
}

fn log(base: f64, x: f64) -> f64 {
    let x = x.max(1e-300);
    if base == 2.0 {
        x.log2()
    } else {
        x.log10()
    }
}

fn product(matrix: &[[f64; 3]; 3], x: [f64; 3]) -> [f64; 3] {
    matrix.map(|row| row[0] * x[0] + row[1] * x[1] + row[2] * x[2])
}

fn inverse(m: &[[f64; 3]; 3]) -> [[f64; 3]; 3] {
    let cofactor = |i: usize, j: usize| {
        let at = |k: usize, l: usize| m[(i + k) % 3][(j + l) % 3];
        at(1, 1) * at(2, 2) - at(1, 2) * at(2, 1)
    };
    let over = (0..3).map(|j| m[0][j] * cofactor(0, j)).sum::<f64>();
    [0, 1, 2].map(|i| [0, 1, 2].map(|j| cofactor(j, i) / over))
}

/// The constants for a record's setting, kept while the setting is the same.
fn constants<'a>(kept: &'a mut Option<Plain>, record: &[u8]) -> Option<&'a Plain> {
    let setting: [u8; 4] = record[..4].try_into().unwrap();
    if kept.as_ref().map_or(true, |plain| plain.setting != setting) {
        *kept = Plain::new(setting);
    }
    kept.as_ref()
}

/// The codes of a pixel record.
pub fn codes_of(pixel: &[u8]) -> [u16; 3] {
    [0, 1, 2].map(|i| SETTING + i * CODE).map(|at| u16::from_le_bytes([pixel[at], pixel[at + 1]]))
}

fn write_numbers(numbers: [i64; 3], record: &mut [u8]) {
    numbers.iter().zip(record[SETTING..].chunks_exact_mut(NUMBER)).for_each(|(number, bytes)| bytes.copy_from_slice(&number.to_le_bytes()));
}

/// The numbers of an ACES record, in units.
pub fn numbers_of(aces: &[u8]) -> [f64; 3] {
    [0, 1, 2].map(|i| SETTING + i * NUMBER).map(|at| i64::from_le_bytes(aces[at..at + NUMBER].try_into().unwrap()) as f64)
}

/// ACES records as a colourist may leave them: an eighth more red, an eighth less blue.
pub fn warmer(aces: &[u8]) -> Vec<u8> {
    let mut graded = aces.to_vec();
    for record in graded.chunks_exact_mut(ACES) {
        let [red, green, blue] = numbers_of(record).map(|number| number as i64);
        write_numbers([red * 9 / 8, green, blue * 7 / 8], record);
    }
    graded
}

/// ACES records as another package may save them: each number moved by 5 units or less.
pub fn moved(aces: &[u8]) -> Vec<u8> {
    let mut moved = aces.to_vec();
    for (k, record) in moved.chunks_exact_mut(ACES).enumerate() {
        let [red, green, blue] = numbers_of(record).map(|number| number as i64);
        let by = |turn: usize| (k / turn % 11) as i64 - 5;
        write_numbers([red + by(1), green + by(11), blue + by(121)], record);
    }
    moved
}

/// Pixel records to ACES records; false if refused.
pub fn to_aces(input: &[u8], output: &mut [u8]) -> bool {
    let mut kept = None;
    for (pixel, aces) in input.chunks_exact(PIXEL).zip(output.chunks_exact_mut(ACES)) {
        let plain = match constants(&mut kept, pixel) {
            Some(plain) => plain,
            None => return false,
        };
        let codes = codes_of(pixel);
        if codes.iter().any(|code| !plain.codes.holds(*code)) {
            return false;
        }
        aces[..SETTING].copy_from_slice(&pixel[..SETTING]);
        write_numbers(plain.aces(codes.map(|code| plain.decode(code))), aces);
    }
    true
}

/// The scene numbers of a pixel record, in units; none if refused.
fn scenes_of(kept: &mut Option<Plain>, pixel: &[u8]) -> Option<[f64; 3]> {
    let plain = constants(kept, pixel)?;
    let codes = codes_of(pixel);
    if codes.iter().all(|code| plain.codes.holds(*code)) {
        Some(codes.map(|code| plain.decode(code)))
    } else {
        None
    }
}

pub fn add(sums: &mut [f64; 3], more: [f64; 3]) {
    sums.iter_mut().zip(more).for_each(|(sum, more)| *sum += more);
}

/// The sums of the scene numbers of pixel records; none if refused.
pub fn sums(strip: &[u8]) -> Option<[f64; 3]> {
    let (mut kept, mut sums) = (None, [0.0; 3]);
    for pixel in strip.chunks_exact(PIXEL) {
        add(&mut sums, scenes_of(&mut kept, pixel)?);
    }
    Some(sums)
}

/// A reel whose sums are kept while records are replaced.
pub struct PlainReel {
    strip: Vec<u8>,
    sums: [f64; 3],
    kept: Option<Plain>,
}

impl PlainReel {
    /// None if a record is refused.
    pub fn of(strip: &[u8]) -> Option<PlainReel> {
        Some(PlainReel { strip: strip.to_vec(), sums: sums(strip)?, kept: None })
    }

    /// False if refused.
    pub fn replace(&mut self, index: usize, pixel: &[u8]) -> bool {
        let place = &mut self.strip[index * PIXEL..(index + 1) * PIXEL];
        match (scenes_of(&mut self.kept, place), scenes_of(&mut self.kept, pixel)) {
            (Some(old), Some(new)) => {
                add(&mut self.sums, [0, 1, 2].map(|i| new[i] - old[i]));
                place.copy_from_slice(pixel);
                true
            }
            _ => false,
        }
    }
}

/// ACES records to pixel records; false if refused.
pub fn to_camera(input: &[u8], output: &mut [u8]) -> bool {
    to_camera_of(input, output, |value| value)
}

/// The same, of each ACES value after some change.
pub fn to_camera_of(input: &[u8], output: &mut [u8], change: impl Fn(f64) -> f64) -> bool {
    let mut kept = None;
    for (aces, pixel) in input.chunks_exact(ACES).zip(output.chunks_exact_mut(PIXEL)) {
        let plain = match constants(&mut kept, aces) {
            Some(plain) => plain,
            None => return false,
        };
        pixel[..SETTING].copy_from_slice(&aces[..SETTING]);
        let codes = plain.codes(numbers_of(aces).map(|number| change(number / UNIT)));
        codes.iter().zip(pixel[SETTING..].chunks_exact_mut(CODE)).for_each(|(code, bytes)| bytes.copy_from_slice(&code.to_le_bytes()));
    }
    true
}
