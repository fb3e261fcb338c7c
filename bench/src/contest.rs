//! The contest of one setting: the contestants' times, the shares of pixels that come back a code off, and how far ACES numbers are off.
use crate::clock::least;
use crate::imath::Imath;
use crate::library::{
    convert, ropeinstant_aces_to_half, ropeinstant_aces_to_pixel, ropeinstant_aces_to_pixel_tolerant, ropeinstant_graded_to_pixel,
    ropeinstant_half_to_aces, ropeinstant_pixel_to_aces, Function,
};
use crate::ocio::Ocio;
use crate::plain::{self, Codes, ACES, HALVES, PIXEL, UNIT};

pub const LINE: usize = 1024; // pixels

#[derive(Clone, Copy)]
pub struct Setting {
    pub curve: u8,
    pub width: u8,
    pub ei: u16,
}

/// Nanoseconds a pixel, of Ropeinstant line by line and in one strip, plain f64, another library and a copy. Of the tolerant way back the exact
/// one, of the unmoved strip, stands in the place of the other library.
pub type Times = [Option<f64>; 5];

/// The times of each conversion.
#[derive(Default)]
pub struct AllTimes {
    pub to_aces: Times,
    pub to_camera: Times,
    pub tolerant: Times,
    pub tolerant_of_moved: Times,
    pub graded_to_camera: Times,
    pub to_half: Times,
    pub from_half: Times,
}

/// A strip of random pixels of a setting, its ACES strip, the same moved and graded, its half strip, and the least times seen.
pub struct Contest {
    pub setting: Setting,
    strip: Vec<u8>,
    aces: Vec<u8>,
    moved: Vec<u8>,
    graded: Vec<u8>,
    halves: Vec<u8>,
    ocio: Option<Ocio>,
    imath: Option<Imath>,
    signals: Vec<f32>,
    rgb: Vec<f32>,
    values: Vec<f32>,
    bits: Vec<u16>,
    pub times: AllTimes,
}

/// What the converted pixels of a strip are beside Ropeinstant's.
pub struct Comparison {
    /// The share of pixels a code off: Ropeinstant; plain f64 from its records and through half; OpenColorIO from float32 and through half.
    pub off: [Option<f64>; 5],
    /// The share of pixels whose ACES numbers by plain f64 are not Ropeinstant's.
    pub differing: f64,
    /// Of ACES numbers by plain f64, and of OpenColorIO's in float32 and through half.
    pub distances: [Option<Distance>; 3],
    /// The share of halves by Imath, of ACES numbers in float32, that are not Ropeinstant's.
    pub halves_off: Option<f64>,
    /// The shares of graded pixels whose codes by plain f64, and by OpenColorIO from float32, are not Ropeinstant's.
    pub graded_off: [Option<f64>; 2],
}

/// How far ACES numbers are from Ropeinstant's, in units.
pub struct Distance {
    pub mean: f64,
    pub largest: f64,
}

impl Contest {
    pub fn new(setting: Setting, pixels: usize) -> Contest {
        let strip = random_strip(&setting, pixels);
        let aces = converted(ropeinstant_pixel_to_aces, &strip, ACES * pixels);
        let ocio = Ocio::new(&setting);
        let signals = signals(&setting, &strip);
        let rgb = signals.clone();
        let (moved, graded) = (plain::moved(&aces), plain::warmer(&aces));
        let halves = converted(ropeinstant_aces_to_half, &aces, HALVES * pixels);
        let (values, bits) = (in_float32(&aces), vec![0; 3 * pixels]);
        let (imath, times) = (Imath::installed(), AllTimes::default());
        Contest { setting, strip, aces, moved, graded, halves, ocio, imath, signals, rgb, values, bits, times }
    }

    /// Times each contestant once, on the first pixels of the strip.
    pub fn round(&mut self, pixels: usize) {
        let (strip, aces) = (&self.strip[..PIXEL * pixels], &self.aces[..ACES * pixels]);
        let (mut made, mut returned) = (aces.to_vec(), strip.to_vec());
        let (to, back) = (&mut self.times.to_aces, &mut self.times.to_camera);
        least(&mut to[0], pixels, || convert_lines(ropeinstant_pixel_to_aces, strip, PIXEL, &mut made, ACES));
        least(&mut to[1], pixels, || convert(ropeinstant_pixel_to_aces, strip, &mut made));
        assert!(made == aces);
        least(&mut to[2], pixels, || assert!(plain::to_aces(strip, &mut made)));
        least(&mut to[4], pixels, || made.copy_from_slice(aces));
        least(&mut back[0], pixels, || convert_lines(ropeinstant_aces_to_pixel, aces, ACES, &mut returned, PIXEL));
        least(&mut back[1], pixels, || convert(ropeinstant_aces_to_pixel, aces, &mut returned));
        assert!(returned == strip);
        least(&mut back[2], pixels, || assert!(plain::to_camera(aces, &mut returned)));
        least(&mut back[4], pixels, || made.copy_from_slice(aces));
        if let Some(ocio) = &self.ocio {
            let (signals, rgb) = (&self.signals[..3 * pixels], &mut self.rgb[..3 * pixels]);
            rgb.copy_from_slice(signals);
            least(&mut to[3], pixels, || ocio.to_aces(rgb));
            least(&mut back[3], pixels, || ocio.to_camera(rgb));
        }
        self.round_of_tolerant(pixels);
        self.round_of_halves(pixels);
        self.round_of_graded(pixels);
    }

    fn round_of_tolerant(&mut self, pixels: usize) {
        let strip = &self.strip[..PIXEL * pixels];
        let (mut returned, mut copied) = (strip.to_vec(), self.aces[..ACES * pixels].to_vec());
        for (times, aces) in [(&mut self.times.tolerant, &self.aces), (&mut self.times.tolerant_of_moved, &self.moved)] {
            let aces = &aces[..ACES * pixels];
            least(&mut times[0], pixels, || convert_lines(ropeinstant_aces_to_pixel_tolerant, aces, ACES, &mut returned, PIXEL));
            least(&mut times[1], pixels, || convert(ropeinstant_aces_to_pixel_tolerant, aces, &mut returned));
            assert!(returned == strip);
            least(&mut times[2], pixels, || assert!(plain::to_camera(aces, &mut returned)));
            times[3] = self.times.to_camera[0];
            least(&mut times[4], pixels, || copied.copy_from_slice(aces));
        }
    }

    fn round_of_halves(&mut self, pixels: usize) {
        let (aces, halves) = (&self.aces[..ACES * pixels], &self.halves[..HALVES * pixels]);
        let (mut made, mut read) = (halves.to_vec(), aces.to_vec());
        let (to, from) = (&mut self.times.to_half, &mut self.times.from_half);
        least(&mut to[0], pixels, || convert_lines(ropeinstant_aces_to_half, aces, ACES, &mut made, HALVES));
        least(&mut to[1], pixels, || convert(ropeinstant_aces_to_half, aces, &mut made));
        least(&mut from[0], pixels, || convert_lines(ropeinstant_half_to_aces, &made, HALVES, &mut read, ACES));
        least(&mut from[1], pixels, || convert(ropeinstant_half_to_aces, &made, &mut read));
        assert!(made == halves);
        least(&mut to[4], pixels, || read.copy_from_slice(aces));
        least(&mut from[4], pixels, || read.copy_from_slice(aces));
        if let Some(imath) = &self.imath {
            let (values, bits) = (&mut self.values[..3 * pixels], &mut self.bits[..3 * pixels]);
            least(&mut to[3], pixels, || imath.to_half(values, bits));
            let mut again = values.to_vec();
            least(&mut from[3], pixels, || imath.from_half(bits, &mut again));
        }
    }

    fn round_of_graded(&mut self, pixels: usize) {
        let (strip, graded) = (&self.strip[..PIXEL * pixels], &self.graded[..ACES * pixels]);
        let (mut made, mut whole, mut copied) = (strip.to_vec(), strip.to_vec(), graded.to_vec());
        let times = &mut self.times.graded_to_camera;
        least(&mut times[0], pixels, || convert_lines(ropeinstant_graded_to_pixel, graded, ACES, &mut made, PIXEL));
        least(&mut times[1], pixels, || convert(ropeinstant_graded_to_pixel, graded, &mut whole));
        assert!(made == whole);
        least(&mut times[2], pixels, || assert!(plain::to_camera(graded, &mut made)));
        least(&mut times[4], pixels, || copied.copy_from_slice(graded));
        if let Some(ocio) = &self.ocio {
            let mut rgb = in_float32(graded);
            least(&mut times[3], pixels, || ocio.to_camera(&mut rgb));
        }
    }

    /// The shares of graded pixels whose codes by others are not Ropeinstant's.
    fn graded_off(&self) -> [Option<f64>; 2] {
        let own = converted(ropeinstant_graded_to_pixel, &self.graded, self.strip.len());
        let mut made = own.clone();
        assert!(plain::to_camera(&self.graded, &mut made));
        let ocio = self.ocio.as_ref().map(|ocio| codes_off(&self.setting, &own, ocio, in_float32(&self.graded)));
        [Some(differing(&own, &made, PIXEL)), ocio]
    }

    pub fn compared(&self) -> Comparison {
        let (strip, aces) = (&self.strip, &self.aces);
        let (mut off, mut distances) = ([None; 5], [None, None, None]);
        let (mut made, mut returned) = (vec![0; aces.len()], vec![0; strip.len()]);
        convert(ropeinstant_aces_to_pixel, aces, &mut returned);
        off[0] = Some(differing(strip, &returned, PIXEL));
        assert!(converted(ropeinstant_graded_to_pixel, aces, strip.len()) == *strip);
        assert!(plain::to_aces(strip, &mut made) && plain::to_camera(&made, &mut returned));
        off[1] = Some(differing(strip, &returned, PIXEL));
        assert!(plain::to_camera_of(&made, &mut returned, half));
        off[2] = Some(differing(strip, &returned, PIXEL));
        distances[0] = Some(distance(aces, &numbers(&made)));
        if let Some(ocio) = &self.ocio {
            let mut values = signals(&self.setting, strip);
            ocio.to_aces(&mut values);
            let halves: Vec<f32> = values.iter().map(|value| half(f64::from(*value)) as f32).collect();
            distances[1] = Some(distance(aces, &in_units(&values)));
            distances[2] = Some(distance(aces, &in_units(&halves)));
            off[3] = Some(codes_off(&self.setting, strip, ocio, values));
            off[4] = Some(codes_off(&self.setting, strip, ocio, halves));
        }
        let halves_off = self.imath.as_ref().map(|imath| {
            let mut bits = vec![0; self.values.len()];
            imath.to_half(&self.values, &mut bits);
            let own = self.halves.chunks_exact(HALVES).flat_map(plain::codes_of);
            own.zip(&bits).filter(|(own, other)| own != *other).count() as f64 / bits.len() as f64
        });
        Comparison { off, differing: differing(aces, &made, ACES), distances, halves_off, graded_off: self.graded_off() }
    }
}

/// Pixel records with random codes.
pub fn random_strip(setting: &Setting, pixels: usize) -> Vec<u8> {
    let codes = Codes::of(setting.curve, setting.width);
    let mut state = 88172645463325252_u64;
    let mut strip = Vec::with_capacity(PIXEL * pixels);
    for _ in 0..pixels {
        strip.extend([setting.curve, setting.width]);
        strip.extend(setting.ei.to_le_bytes());
        for _ in 0..3 {
            state ^= state << 13;
            state ^= state >> 7;
            state ^= state << 17;
            strip.extend(codes.any(state >> 20).to_le_bytes());
        }
    }
    strip
}

/// Converts a strip line by line.
fn convert_lines(function: Function, input: &[u8], from: usize, output: &mut [u8], to: usize) {
    input.chunks(LINE * from).zip(output.chunks_mut(LINE * to)).for_each(|(line, made)| convert(function, line, made));
}

fn converted(function: Function, input: &[u8], length: usize) -> Vec<u8> {
    let mut output = vec![0; length];
    convert(function, input, &mut output);
    output
}

/// The signals of a strip's codes, as OpenColorIO takes them.
fn signals(setting: &Setting, strip: &[u8]) -> Vec<f32> {
    let known = Codes::of(setting.curve, setting.width);
    codes(strip).iter().map(|code| known.signal(*code) as f32).collect()
}

fn codes(strip: &[u8]) -> Vec<u16> {
    strip.chunks_exact(PIXEL).flat_map(plain::codes_of).collect()
}

/// The share of records that differ.
fn differing(a: &[u8], b: &[u8], record: usize) -> f64 {
    let count = a.chunks_exact(record).zip(b.chunks_exact(record)).filter(|(x, y)| x != y).count();
    count as f64 / (a.len() / record) as f64
}

/// The numbers of ACES records, in units.
fn numbers(aces: &[u8]) -> Vec<f64> {
    aces.chunks_exact(ACES).flat_map(plain::numbers_of).collect()
}

/// The same as values in float32.
fn in_float32(aces: &[u8]) -> Vec<f32> {
    numbers(aces).iter().map(|number| (number / UNIT) as f32).collect()
}

fn in_units(values: &[f32]) -> Vec<f64> {
    values.iter().map(|value| f64::from(*value) * UNIT).collect()
}

/// How far numbers are from those of ACES records.
fn distance(aces: &[u8], others: &[f64]) -> Distance {
    let off: Vec<f64> = numbers(aces).iter().zip(others).map(|(own, other)| (own - other).abs()).collect();
    Distance { mean: off.iter().sum::<f64>() / off.len() as f64, largest: off.iter().copied().fold(0.0, f64::max) }
}

/// The share of pixels that OpenColorIO gives back a code off.
fn codes_off(setting: &Setting, strip: &[u8], ocio: &Ocio, mut values: Vec<f32>) -> f64 {
    ocio.to_camera(&mut values);
    let known = Codes::of(setting.curve, setting.width);
    let returned: Vec<u16> = values.iter().map(|signal| known.nearest(f64::from(*signal))).collect();
    let count = codes(strip).chunks_exact(3).zip(returned.chunks_exact(3)).filter(|(x, y)| x != y).count();
    count as f64 / (strip.len() / PIXEL) as f64
}

/// The nearest half float (a tie to the even one), of a value below the largest.
fn half(value: f64) -> f64 {
    let exponent = ((value.to_bits() >> 52 & 0x7ff) as i32 - 1023 - 10).max(-24);
    let step = 2_f64.powi(exponent);
    let even = 1.5 * 2_f64.powi(52); // adding it rounds to a whole number
    (value / step + even - even) * step
}
