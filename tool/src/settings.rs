//! The settings: the one table of the curves with their widths, codes and EI values, and a setting as a record holds it. The library judges
//! records; this table is for words, the help and the demo.
use crate::library;
use std::fmt;

/// A width's byte, and its codes: from the lowest to the highest by a step. The highest is given, or is a step times the top code of some
/// bits.
pub struct Width {
    pub byte: u8,
    pub lowest: u16,
    highest: Highest,
    pub step: u16,
}

enum Highest {
    Code(u16),
    Bits(u8),
}

impl Width {
    pub fn highest(&self) -> u16 {
        match self.highest {
            Highest::Code(code) => code,
            Highest::Bits(bits) => self.step * library::top_code(bits),
        }
    }
}

pub struct Curve {
    pub byte: u8,
    pub name: &'static str,
    pub widths: &'static [Width],
    pub eis: &'static [u16],
    /// Whether ARRI publishes its matrix to ACES.
    pub matrix: bool,
}

/// The full range of a width in bits.
const fn full(bits: u8) -> Width {
    Width { byte: bits, lowest: 0, highest: Highest::Bits(bits), step: 1 }
}

/// The legal range of 12 bits.
const LEGAL: Width = Width { byte: 140, lowest: 256, highest: Highest::Code(3760), step: 1 };

/// 16 bits of LogC4 as recorders write them: the 12-bit code times 16.
const RECORDER: Width = Width { byte: 16, lowest: 0, highest: Highest::Bits(12), step: 16 };

/// Those with a published formula.
const EIS: &[u16] = &[160, 200, 250, 320, 400, 500, 640, 800, 1000, 1280, 1600];

pub const CURVES: [Curve; 3] = [
    Curve { byte: 2, name: "LogC (SUP 2.x, sensor value)", widths: &[full(10), full(12)], eis: EIS, matrix: false },
    Curve { byte: 3, name: "LogC3 (SUP 3.x, scene exposure)", widths: &[full(10), full(12), full(16)], eis: EIS, matrix: true },
    Curve { byte: 4, name: "LogC4", widths: &[full(12), RECORDER, LEGAL], eis: &[0], matrix: true },
];

/// The bytes of a setting, with which every record begins.
pub const BYTES: usize = 4;

#[derive(Clone, Copy, Debug, PartialEq, Eq, PartialOrd, Ord)]
pub struct Setting {
    pub curve: u8,
    pub width: u8,
    pub ei: u16,
}

impl Setting {
    pub fn of(record: &[u8]) -> Setting {
        Setting { curve: record[0], width: record[1], ei: u16::from_le_bytes([record[2], record[3]]) }
    }

    pub fn bytes(&self) -> [u8; BYTES] {
        let ei = self.ei.to_le_bytes();
        [self.curve, self.width, ei[0], ei[1]]
    }

    pub fn curve(&self) -> Option<&'static Curve> {
        CURVES.iter().find(|curve| curve.byte == self.curve)
    }

    pub fn width(&self) -> Option<&'static Width> {
        self.curve()?.widths.iter().find(|width| width.byte == self.width)
    }

    /// Whether its numbers can go to ACES.
    pub fn has_matrix(&self) -> bool {
        self.curve().map_or(false, |curve| curve.matrix)
    }
}

impl fmt::Display for Setting {
    fn fmt(&self, to: &mut fmt::Formatter) -> fmt::Result {
        write!(to, "curve {}, width {}, EI {}", self.curve, self.width, self.ei)
    }
}

/// Every setting, in the table's order.
pub fn all() -> impl Iterator<Item = Setting> {
    CURVES.iter().flat_map(|curve| {
        let widths = curve.widths.iter();
        widths.flat_map(move |width| curve.eis.iter().map(move |&ei| Setting { curve: curve.byte, width: width.byte, ei }))
    })
}

/// Whether the table has a setting.
pub fn known(setting: &Setting) -> bool {
    setting.width().is_some() && setting.curve().map_or(false, |curve| curve.eis.contains(&setting.ei))
}

/// Numbers in words, with a word before the last: "3", "3 and 4", "10, 12 or 16".
pub fn listed(numbers: impl IntoIterator<Item = u16>, word: &str) -> String {
    let words: Vec<String> = numbers.into_iter().map(|number| number.to_string()).collect();
    match words.split_last() {
        Some((end, rest)) if !rest.is_empty() => format!("{} {} {}", rest.join(", "), word, end),
        _ => words.concat(),
    }
}

#[cfg(test)]
mod tests {
    use super::*;

    #[test]
    fn there_are_58_and_each_reads_back() {
        assert_eq!((all().count(), all().filter(Setting::has_matrix).count()), (58, 36));
        assert!(all().all(|setting| Setting::of(&setting.bytes()) == setting && known(&setting)));
    }

    #[test]
    fn codes_of_all_settings() {
        let codes = |width: &Width| (usize::from(width.highest()) - usize::from(width.lowest)) / usize::from(width.step) + 1;
        assert_eq!(all().map(|setting| codes(setting.width().unwrap())).sum::<usize>(), 845_233);
    }

    #[test]
    fn numbers_in_words() {
        assert_eq!([listed([0], "and"), listed([3, 4], "and"), listed([10, 12, 16], "or")], ["0", "3 and 4", "10, 12 or 16"]);
    }
}
