//! How far the ACES numbers of a master were moved, of which the tolerant way back has given the pixels.
use crate::conversion::TO_ACES;
use crate::kinds::{ACES, PIXEL};
use serde_json::{json, Value};

/// The records that are taken to ACES again at once.
const AT_ONCE: usize = 64;

#[derive(Debug, Default, PartialEq)]
pub struct Moved {
    /// Records whose numbers are not those of their pixels.
    records: u64,
    /// The most units that a number of these is off.
    units: u64,
}

impl Moved {
    /// Of a strip of ACES records and the pixels that were found for them.
    pub fn of(aces: &[u8], pixels: &[u8]) -> Moved {
        let (mut moved, mut room) = (Moved::default(), [0; AT_ONCE * ACES.size()]);
        for (given, pixels) in aces.chunks(AT_ONCE * ACES.size()).zip(pixels.chunks(AT_ONCE * PIXEL.size())) {
            let own = &mut room[..given.len()];
            // No pixel that was found is refused.
            if (TO_ACES.convert)(pixels, own).is_ok() {
                given.chunks_exact(ACES.size()).zip(own.chunks_exact(ACES.size())).for_each(|(given, own)| moved.count(given, own));
            }
        }
        moved
    }

    fn count(&mut self, given: &[u8], own: &[u8]) {
        if given != own {
            self.records += 1;
            let off = ACES.numbers(given).into_iter().zip(ACES.numbers(own)).map(|(given, own)| given.abs_diff(own));
            self.units = off.fold(self.units, u64::max);
        }
    }

    pub fn join(&mut self, other: &Moved) {
        self.records += other.records;
        self.units = self.units.max(other.units);
    }

    pub fn words(&self, records: u64) -> String {
        match self.records {
            0 => format!("moved records: 0 of {}", records),
            moved => format!("moved records: {} of {}, the farthest by {}", moved, records, units(self.units)),
        }
    }

    pub fn json(&self) -> Value {
        json!({"records": self.records, "units": self.units})
    }
}

fn units(count: u64) -> String {
    format!("{} unit{}", count, if count == 1 { "" } else { "s" })
}

#[cfg(test)]
mod tests {
    use super::*;

    /// Records of one pixel, each with its red number moved.
    fn of(off: &[i64]) -> Moved {
        let pixel = [3, 12, 0x20, 3, 100, 0, 0, 0, 0, 0];
        let aces = |off: &i64| [&pixel[..4], &[-238167 + off, -283566, -289928].map(i64::to_le_bytes).concat()].concat();
        Moved::of(&off.iter().flat_map(aces).collect::<Vec<u8>>(), &pixel.repeat(off.len()))
    }

    #[test]
    fn how_many_and_how_far() {
        assert_eq!(of(&[]), Moved::default());
        assert_eq!(of(&[0; 3]).words(3), "moved records: 0 of 3");
        assert_eq!(of(&[0, 1, 0]).words(3), "moved records: 1 of 3, the farthest by 1 unit");
        let mut off = vec![0; 200];
        (off[63], off[64], off[199]) = (2, -5, 3);
        assert_eq!(of(&off).words(200), "moved records: 3 of 200, the farthest by 5 units");
    }

    #[test]
    fn parts_joined_are_the_whole() {
        let mut joined = of(&[0, -4]);
        joined.join(&of(&[3, 0, 1]));
        assert_eq!(joined, of(&[0, -4, 3, 0, 1]));
    }
}
