//! The kinds of record: the one table of their names, endings and bytes.
use crate::half::units;
use crate::settings::BYTES;

/// How the bytes of a channel are a number.
#[derive(Debug, PartialEq)]
pub enum Form {
    Unsigned,
    Signed,
    Half,
}

#[derive(Debug, PartialEq)]
pub struct Kind {
    pub name: &'static str,
    /// What the name of a file of such records ends in.
    pub ending: &'static str,
    /// The bytes of each of the three channels, a number that is little endian.
    pub bytes: usize,
    pub form: Form,
    /// What the numbers of a channel are called.
    pub called: &'static str,
}

pub const PIXEL: Kind = Kind { name: "pixel", ending: ".pixels", bytes: 2, form: Form::Unsigned, called: "codes" };
pub const SCENE: Kind = Kind { name: "scene", ending: ".scene", bytes: 8, form: Form::Signed, called: "scene numbers" };
pub const ACES: Kind = Kind { name: "ACES", ending: ".aces", bytes: 8, form: Form::Signed, called: "ACES numbers" };
pub const HALF: Kind = Kind { name: "half", ending: ".half", bytes: 2, form: Form::Half, called: "halves, in units" };
pub const KINDS: [&Kind; 4] = [&PIXEL, &SCENE, &ACES, &HALF];
pub const CHANNELS: [&str; 3] = ["red", "green", "blue"];

impl Kind {
    /// The bytes of a record.
    pub const fn size(&self) -> usize {
        BYTES + CHANNELS.len() * self.bytes
    }

    /// The numbers of a record's channels; of a half its bits.
    pub fn numbers(&self, record: &[u8]) -> [i64; CHANNELS.len()] {
        let mut numbers = [0; CHANNELS.len()];
        for (number, bytes) in numbers.iter_mut().zip(record[BYTES..].chunks_exact(self.bytes)) {
            *number = self.number_of(bytes);
        }
        numbers
    }

    /// The same as values: a half in units, where it is finite.
    pub fn values(&self, record: &[u8]) -> [Option<i64>; CHANNELS.len()] {
        let numbers = self.numbers(record);
        match self.form {
            Form::Unsigned | Form::Signed => numbers.map(Some),
            Form::Half => numbers.map(|bits| units(bits as u16)),
        }
    }

    fn number_of(&self, bytes: &[u8]) -> i64 {
        let negative = self.form == Form::Signed && bytes[bytes.len() - 1] >= 0x80;
        let mut wide = if negative { [0xff; 8] } else { [0; 8] };
        wide[..bytes.len()].copy_from_slice(bytes);
        i64::from_le_bytes(wide)
    }
}

/// The kind of a name, as an option or a manifest writes it.
pub fn named(name: &str) -> Option<&'static Kind> {
    KINDS.iter().copied().find(|kind| kind.name.eq_ignore_ascii_case(name))
}

#[cfg(test)]
mod tests {
    use super::*;

    #[test]
    fn sizes_and_numbers() {
        assert_eq!(KINDS.map(Kind::size), [10, 28, 28, 10]);
        assert_eq!(PIXEL.numbers(&[3, 12, 32, 3, 100, 0, 255, 255, 0, 1]), [100, 65535, 256]);
        let mut record = vec![0; 4];
        [-2_i64, i64::MIN, 7].iter().for_each(|number| record.extend(number.to_le_bytes()));
        assert_eq!(ACES.numbers(&record), [-2, i64::MIN, 7]);
        let halves = [3, 12, 32, 3, 0, 0x3c, 0xff, 0xfb, 0, 0x7c];
        assert_eq!(HALF.numbers(&halves), [0x3c00, 0xfbff, 0x7c00]);
        assert_eq!(HALF.values(&halves), [Some(1 << 24), Some(-(65504 << 24)), None]);
        assert_eq!(
            Kind { bytes: 6, ..ACES }.numbers(&[0, 0, 0, 0, 254, 255, 255, 255, 255, 255, 1, 0, 0, 0, 0, 0, 0, 0, 0, 0, 0, 128])[..2],
            [-2, 1]
        );
    }

    #[test]
    fn names() {
        assert_eq!((named("aces"), named("half")), (Some(&ACES), Some(&HALF)));
        assert_eq!(named("video"), None);
    }
}
