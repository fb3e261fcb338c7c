//! The refusals: the one table of their numbers and words, and the words for a refused record. The library decides; this only reads the
//! refused record again.
use crate::conversion::{Conversion, FROM_SCENE, TOLERANT_TO_CAMERA, TOTALS, TO_SCENE};
use crate::half::{not_finite, units};
use crate::kinds::{Kind, CHANNELS};
use crate::settings::{listed, Setting, CURVES};

const LIMIT: i64 = 1 << 40; // of a scene number to encode
const GRADED_LIMIT: i64 = 1 << 38; // of a graded ACES number
const TOLERATED: i64 = 5; // units that an ACES number may be from the pixel's on the tolerant way back

pub struct Refusal {
    pub number: u32,
    pub when: &'static str,
    /// The words for a record that it refuses, with the value.
    cause: fn(&Conversion, &Setting, &[u8]) -> String,
}

/// In the order in which they are tried. 2, an output that is too short, is not here: the command makes room for every record. Nor are 15, a reel
/// that is full, and 16, a reel that does not hold a record: the command begins another reel before one is full, and only appends.
pub const REFUSALS: [Refusal; 12] = [
    Refusal { number: 1, when: "the input is not a whole number of records", cause: |_, _, _| String::new() },
    Refusal { number: 3, when: "the curve is not 2, 3 or 4", cause: curve },
    Refusal { number: 4, when: "the width is not one of the curve's", cause: width },
    Refusal { number: 5, when: "the EI is not one of the curve's", cause: ei },
    Refusal { number: 12, when: "the curve has no ACES matrix", cause: no_matrix },
    Refusal { number: 13, when: "a code of curve 4, width 16, is not a multiple of 16", cause: code_not_divisible },
    Refusal { number: 11, when: "a code is below the first code of its width", cause: code_below_first },
    Refusal { number: 6, when: "a code is above the top code of its width", cause: code_above_top },
    Refusal { number: 7, when: "a scene number to encode is outside -2^40 to 2^40", cause: scene_out_of_range },
    Refusal { number: 8, when: "a half float is infinite or not a number", cause: half_not_finite },
    Refusal { number: 14, when: "a graded ACES number is outside -2^38 to 2^38", cause: graded_out_of_range },
    Refusal { number: 10, when: "no pixel of the setting has these ACES numbers (--tolerant: near them)", cause: no_pixel },
];

/// A refusal of an input: its number, its place and the words for it.
#[derive(Clone, Debug, PartialEq)]
pub struct Refused {
    pub number: u32,
    pub record: u64,
    pub byte: u64,
    pub words: String,
}

impl Refused {
    /// Of a record, whose place in the whole input is `index`, by a conversion.
    pub fn record(conversion: &Conversion, number: u32, index: u64, record: &[u8]) -> Refused {
        let byte = index * conversion.from.size() as u64;
        let cause = REFUSALS.iter().find(|refusal| refusal.number == number).map(|refusal| refusal.cause);
        let words = match cause {
            Some(cause) => cause(conversion, &Setting::of(record), record),
            None => "a cause that this command does not know".to_string(),
        };
        Refused { number, record: index, byte, words: format!("record {} (byte {}): {}", index, byte, words) }
    }

    /// Of an input that ends within a record.
    pub fn length(kind: &Kind, length: u64) -> Refused {
        let (size, left) = (kind.size(), length % kind.size() as u64);
        let byte = length - left;
        let words = format!(
            "the input has {} bytes, which is not a whole number of records of {} bytes: the last record (byte {}) has only {}",
            length, size, byte, left
        );
        Refused { number: 1, record: 0, byte, words }
    }
}

fn curve(_: &Conversion, setting: &Setting, _: &[u8]) -> String {
    format!("curve {} is not {}", setting.curve, any_curve())
}

fn any_curve() -> String {
    listed(CURVES.iter().map(|curve| curve.byte.into()), "or")
}

fn width(_: &Conversion, setting: &Setting, _: &[u8]) -> String {
    let widths = setting.curve().map_or(&[][..], |curve| curve.widths);
    not_one_of("width", setting.width.into(), setting, widths.iter().map(|width| width.byte.into()).collect())
}

fn ei(_: &Conversion, setting: &Setting, _: &[u8]) -> String {
    let eis = setting.curve().map_or(&[][..], |curve| curve.eis);
    not_one_of("EI", setting.ei, setting, eis.to_vec())
}

fn not_one_of(what: &str, value: u16, setting: &Setting, known: Vec<u16>) -> String {
    let (verb, end) = if known.len() == 1 { ("is", " only") } else { ("are", "") };
    format!("{} {} is not one of curve {}'s, which {} {}{}", what, value, setting.curve, verb, listed(known, "and"), end)
}

/// With the conversions that take records of such a curve. It has sensor values, and no scene values.
fn no_matrix(conversion: &Conversion, setting: &Setting, _: &[u8]) -> String {
    let (kind, curve, there, back) = (conversion.from, setting.curve, TO_SCENE.name, FROM_SCENE.name);
    if conversion.name == TOTALS.name {
        format!("curve {} gives sensor values, which cannot be added to scene values: {} converts its pixel records", curve, there)
    } else if kind == TO_SCENE.from {
        format!("curve {} has no ACES matrix: {} converts its pixel records, and {} converts them back", curve, there, back)
    } else {
        format!("curve {} has no ACES matrix, and so no {} records: {} converts its scene records", curve, kind.name, back)
    }
}

fn code_not_divisible(conversion: &Conversion, setting: &Setting, record: &[u8]) -> String {
    let step: i64 = setting.width().map_or(1, |width| width.step).into();
    match CHANNELS.iter().zip(conversion.from.numbers(record)).find(|(_, code)| code % step != 0) {
        Some((channel, code)) => format!("{} code {} is not a multiple of {}", channel, code, step),
        None => "a code is not one of its width's".to_string(),
    }
}

fn code_below_first(conversion: &Conversion, setting: &Setting, record: &[u8]) -> String {
    let first = setting.width().map_or(0, |width| width.lowest).into();
    match CHANNELS.iter().zip(conversion.from.numbers(record)).find(|(_, code)| *code < first) {
        Some((channel, code)) => format!("{} code {} is below {}", channel, code, first),
        None => "a code is below its first".to_string(),
    }
}

fn code_above_top(conversion: &Conversion, setting: &Setting, record: &[u8]) -> String {
    let top = setting.width().map_or(u16::MAX, |width| width.highest()).into();
    match CHANNELS.iter().zip(conversion.from.numbers(record)).find(|(_, code)| *code > top) {
        Some((channel, code)) => format!("{} code {} is above {}", channel, code, top),
        None => "a code is above its top".to_string(),
    }
}

fn scene_out_of_range(conversion: &Conversion, _: &Setting, record: &[u8]) -> String {
    outside(LIMIT, "scene number", conversion.from, record)
}

fn graded_out_of_range(conversion: &Conversion, _: &Setting, record: &[u8]) -> String {
    outside(GRADED_LIMIT, "ACES number", conversion.from, record)
}

/// The first number that is beyond a limit, above or below 0.
fn outside(limit: i64, called: &str, kind: &Kind, record: &[u8]) -> String {
    match CHANNELS.iter().zip(kind.numbers(record)).find(|(_, number)| !(-limit..=limit).contains(number)) {
        Some((channel, number)) => format!("{} {} {} is outside {} to {}", channel, called, number, -limit, limit),
        None => "a number is out of range".to_string(),
    }
}

fn half_not_finite(conversion: &Conversion, _: &Setting, record: &[u8]) -> String {
    let bits = conversion.from.numbers(record).map(|bits| bits as u16);
    match CHANNELS.iter().zip(bits).find(|(_, bits)| units(*bits).is_none()) {
        Some((channel, bits)) => format!("{} half {:#06x} is {}", channel, bits, not_finite(bits)),
        None => "a half is infinite or not a number".to_string(),
    }
}

fn no_pixel(conversion: &Conversion, setting: &Setting, record: &[u8]) -> String {
    let triple = conversion.from.numbers(record).map(|number| number.to_string()).join(", ");
    if conversion.name == TOLERANT_TO_CAMERA.name {
        format!("no pixel of {} has ACES numbers within {} units of {} in every channel", setting, TOLERATED, triple)
    } else {
        format!("no pixel of {} has the ACES numbers {}", setting, triple)
    }
}

#[cfg(test)]
mod tests {
    use super::*;
    use crate::conversion::{CONVERSIONS, FROM_HALF, GRADED_TO_CAMERA, TO_ACES, TO_CAMERA};

    fn words(number: u32, index: u64, setting: (u8, u8, u16), codes: [u16; 3]) -> String {
        words_of(&TO_ACES, number, index, setting, codes)
    }

    fn words_of(conversion: &Conversion, number: u32, index: u64, setting: (u8, u8, u16), codes: [u16; 3]) -> String {
        let mut record = Setting { curve: setting.0, width: setting.1, ei: setting.2 }.bytes().to_vec();
        codes.iter().for_each(|code| record.extend(code.to_le_bytes()));
        Refused::record(conversion, number, index, &record).words
    }

    /// The words for three numbers of curve 3, width 12, EI 800.
    fn words_of_numbers(conversion: &Conversion, number: u32, numbers: [i64; 3]) -> String {
        let record = [&[3, 12, 0x20, 3][..], &numbers.map(i64::to_le_bytes).concat()].concat();
        Refused::record(conversion, number, 2, &record).words
    }

    #[test]
    fn the_first_code_above_top() {
        assert_eq!(words(6, 1234, (3, 10, 800), [1023, 1024, 2000]), "record 1234 (byte 12340): green code 1024 is above 1023");
    }

    #[test]
    fn the_first_code_below_the_first_of_its_width() {
        assert_eq!(words(11, 7, (4, 140, 0), [256, 255, 0]), "record 7 (byte 70): green code 255 is below 256");
        assert_eq!(words(11, 0, (4, 140, 0), [100, 5000, 256]), "record 0 (byte 0): red code 100 is below 256");
        assert_eq!(words(6, 0, (4, 140, 0), [5000, 100, 256]), "record 0 (byte 0): red code 5000 is above 3760");
        assert_eq!(words(6, 0, (4, 140, 0), [3760, 256, 3761]), "record 0 (byte 0): blue code 3761 is above 3760");
    }

    #[test]
    fn the_first_code_that_is_no_multiple() {
        assert_eq!(words(13, 2, (4, 16, 0), [16, 17, 65535]), "record 2 (byte 20): green code 17 is not a multiple of 16");
        assert_eq!(words(13, 0, (4, 16, 0), [65535, 1, 0]), "record 0 (byte 0): red code 65535 is not a multiple of 16");
    }

    #[test]
    fn the_first_half_that_is_not_finite() {
        let words = |halves| words_of(&FROM_HALF, 8, 3, (4, 12, 0), halves);
        assert_eq!(words([0x7bff, 0x7c00, 0xffff]), "record 3 (byte 30): green half 0x7c00 is plus infinity");
        assert_eq!(words([0xfc00, 0, 0]), "record 3 (byte 30): red half 0xfc00 is minus infinity");
        assert_eq!(words([0, 0, 0x7c01]), "record 3 (byte 30): blue half 0x7c01 is not a number");
    }

    #[test]
    fn the_first_number_outside_its_limits() {
        let graded = |numbers| words_of_numbers(&GRADED_TO_CAMERA, 14, numbers);
        let limits = "is outside -274877906944 to 274877906944";
        assert_eq!(graded([1 << 38, -(1 << 38) - 1, i64::MAX]), format!("record 2 (byte 56): green ACES number -274877906945 {}", limits));
        assert_eq!(graded([i64::MIN, 1 << 40, 0]), format!("record 2 (byte 56): red ACES number -9223372036854775808 {}", limits));
        assert_eq!(graded([0, -(1 << 38), (1 << 38) + 1]), format!("record 2 (byte 56): blue ACES number 274877906945 {}", limits));
        let limits = "is outside -1099511627776 to 1099511627776";
        assert_eq!(
            words_of_numbers(&FROM_SCENE, 7, [1 << 40, (1 << 40) + 1, 0]),
            format!("record 2 (byte 56): green scene number 1099511627777 {}", limits)
        );
    }

    #[test]
    fn no_pixel_says_how_near_one_was_looked_for() {
        let words = |conversion| words_of_numbers(conversion, 10, [-238167, 0, i64::MIN]);
        let pixel = "record 2 (byte 56): no pixel of curve 3, width 12, EI 800 has";
        assert_eq!(words(&TO_CAMERA), format!("{} the ACES numbers -238167, 0, -9223372036854775808", pixel));
        let near = "ACES numbers within 5 units of -238167, 0, -9223372036854775808 in every channel";
        assert_eq!(words(&TOLERANT_TO_CAMERA), format!("{} {}", pixel, near));
    }

    #[test]
    fn settings() {
        assert_eq!(words(3, 0, (7, 12, 0), [0; 3]), "record 0 (byte 0): curve 7 is not 2, 3 or 4");
        assert!(words(4, 1, (2, 16, 800), [0; 3]).ends_with("width 16 is not one of curve 2's, which are 10 and 12"));
        assert!(words(4, 1, (4, 10, 0), [0; 3]).ends_with("width 10 is not one of curve 4's, which are 12, 16 and 140"));
        assert!(words(4, 1, (3, 140, 800), [0; 3]).ends_with("width 140 is not one of curve 3's, which are 10, 12 and 16"));
        assert!(words(5, 2, (4, 12, 800), [0; 3]).ends_with("EI 800 is not one of curve 4's, which is 0 only"));
    }

    #[test]
    fn the_curves_are_those_of_the_table() {
        let when = REFUSALS.iter().find(|refusal| refusal.number == 3).map(|refusal| refusal.when.to_string());
        assert_eq!(when, Some(format!("the curve is not {}", any_curve())));
    }

    #[test]
    fn no_matrix_says_which_conversions_take_the_records() {
        let words = |conversion: &Conversion| Refused::record(conversion, 12, 5, &vec![2; conversion.from.size()]).words;
        let pixel = "curve 2 has no ACES matrix: to-scene converts its pixel records, and from-scene converts them back";
        assert_eq!(words(&TO_ACES), format!("record 5 (byte 50): {}", pixel));
        let aces = "curve 2 has no ACES matrix, and so no ACES records: from-scene converts its scene records";
        assert_eq!(words(&TO_CAMERA), format!("record 5 (byte 140): {}", aces));
        let half = "curve 2 has no ACES matrix, and so no half records: from-scene converts its scene records";
        assert_eq!(words(&FROM_HALF), format!("record 5 (byte 50): {}", half));
    }

    #[test]
    fn a_byte_beyond_four_gigabytes() {
        assert!(words(3, 1 << 32, (7, 12, 0), [0; 3]).starts_with("record 4294967296 (byte 42949672960)"));
    }

    #[test]
    fn every_number_of_a_conversion_is_in_the_table() {
        let known = |number: &u32| REFUSALS.iter().any(|refusal| refusal.number == *number);
        assert!(CONVERSIONS.iter().all(|conversion| conversion.refusals.iter().all(known)));
    }
}
