//! What records hold: how many there are of each setting, and the range of each channel.
use crate::kinds::{Kind, CHANNELS};
use crate::settings::{known, Setting, BYTES};
use serde_json::{json, Value};
use std::collections::BTreeMap;

#[derive(Clone, Debug, Default, PartialEq)]
pub struct Summary {
    pub settings: BTreeMap<Setting, u64>,
    /// Records of no setting that there is.
    pub others: u64,
    /// The least and the greatest value of each channel.
    pub ranges: [Option<(i64, i64)>; CHANNELS.len()],
}

impl Summary {
    /// Counts the settings of a strip's records, a run of one setting at once.
    pub fn count(&mut self, kind: &Kind, strip: &[u8]) {
        let mut rest = strip;
        while !rest.is_empty() {
            let setting = &rest[..BYTES];
            let run = rest.chunks_exact(kind.size()).take_while(|record| &record[..BYTES] == setting).count();
            self.add(Setting::of(setting), run as u64);
            rest = &rest[run * kind.size()..];
        }
    }

    fn add(&mut self, setting: Setting, records: u64) {
        if known(&setting) {
            *self.settings.entry(setting).or_insert(0) += records;
        } else {
            self.others += records;
        }
    }

    /// Widens the ranges by a strip's records.
    pub fn range(&mut self, kind: &Kind, strip: &[u8]) {
        for record in strip.chunks_exact(kind.size()) {
            for (range, value) in self.ranges.iter_mut().zip(kind.values(record)) {
                let widened = value.map(|value| range.map_or((value, value), |(least, most)| (least.min(value), most.max(value))));
                *range = widened.or(*range);
            }
        }
    }

    pub fn join(&mut self, other: &Summary) {
        other.settings.iter().for_each(|(setting, records)| self.add(*setting, *records));
        self.others += other.others;
        for (range, more) in self.ranges.iter_mut().zip(&other.ranges) {
            *range = match (*range, *more) {
                (Some((a, b)), Some((c, d))) => Some((a.min(c), b.max(d))),
                (one, two) => one.or(two),
            };
        }
    }

    /// The settings with their counts, as a manifest and `--json` have them.
    pub fn settings_json(&self) -> Value {
        let each = |(setting, records): (&Setting, &u64)| json!({"curve": setting.curve, "width": setting.width, "ei": setting.ei, "records": records});
        self.settings.iter().map(each).collect()
    }
}

#[cfg(test)]
mod tests {
    use super::*;
    use crate::kinds::PIXEL;

    #[test]
    fn parts_joined_are_the_whole() {
        let records: [[u8; 10]; 4] = [
            [3, 12, 32, 3, 100, 0, 0, 0, 7, 0],
            [3, 12, 32, 3, 1, 0, 0, 1, 7, 0],
            [4, 12, 0, 0, 5, 0, 0, 0, 9, 0],
            [9, 12, 0, 0, 5, 0, 0, 0, 9, 0],
        ];
        let of = |records: &[[u8; 10]]| {
            let mut summary = Summary::default();
            summary.count(&PIXEL, &records.concat());
            summary.range(&PIXEL, &records.concat());
            summary
        };
        let mut joined = of(&records[..1]);
        joined.join(&of(&records[1..]));
        assert_eq!(joined, of(&records));
        assert_eq!((joined.settings.len(), joined.others, joined.ranges[0], joined.ranges[1]), (2, 1, Some((1, 100)), Some((0, 256))));
    }
}
