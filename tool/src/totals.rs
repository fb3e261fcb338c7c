//! `totals`: the sums of the scene numbers of pixels, one for each channel, and their means. It writes no file.
//!
//! The library keeps the sums of a reel of at most 4096 records. So the records go into such reels, one after the other, each from empty, and
//! the sums of these are added here.
use crate::conversion::TOTALS;
use crate::convert::refused;
use crate::failure::{Cause, Failure};
use crate::kinds::{CHANNELS, PIXEL};
use crate::library::{reel_append, Refusal, Totals};
use crate::pipeline::room;
use crate::reading::Reading;
use crate::report::Facts;
use crate::session::Session;
use crate::verify::facts;
use serde_json::{json, Value};
use std::path::Path;
use std::sync::Mutex;

/// The most records of a reel.
const MOST: usize = 4096;
/// The units in 1.0.
const UNITS: i128 = 1 << 24;
/// The places of a mean behind the point, and ten to as many.
const PLACES: usize = 9;
const BILLION: i128 = 1_000_000_000;

/// The sum of the scene numbers of each channel, in units.
type Sums = [i128; CHANNELS.len()];

/// Adds up the scene numbers of a file.
pub fn totals(session: &Session, from: &Path) -> Result<Facts, Failure> {
    let mut reading = Reading::open(from, &PIXEL, TOTALS.name, session)?;
    let (most, file) = (session.options.split.chunk.min(MOST), reading.input.name.clone());
    let sums = Mutex::new(Sums::default());
    let records = reading.run(|| {
        let mut strip = room(most * PIXEL.size())?;
        let (file, sums) = (&file, &sums);
        Ok(move |part: &[u8], first: u64| {
            let of_part = added(part, &mut strip).map_err(|refusal| Cause::Refused(refused(&refusal, &TOTALS, part, first)).of(file))?;
            add(&mut sums.lock().unwrap(), of_part);
            Ok(())
        })
    })?;
    let (sums, mut facts) = (sums.into_inner().unwrap(), facts(records, "", reading.manifest.is_some()));
    facts.words += &words(&sums, records);
    facts.json["sums"] = by_channel(sums.map(|sum| sum.to_string().into()));
    facts.json["means"] = by_channel(sums.map(|sum| mean(sum, records).into()));
    Ok(facts)
}

/// The sums of a part, with room for a reel; or its first record that is refused.
fn added(part: &[u8], strip: &mut [u8]) -> Result<Sums, Refusal> {
    let mut sums = Sums::default();
    for (k, records) in part.chunks(strip.len()).enumerate() {
        let before = (k * strip.len() / PIXEL.size()) as u64;
        let reel = filled(records, strip).map_err(|refusal| Refusal { record: before + refusal.record, ..refusal })?;
        add(&mut sums, reel.sums.map(i128::from));
    }
    Ok(sums)
}

/// What a reel has with these records, from empty.
fn filled(records: &[u8], strip: &mut [u8]) -> Result<Totals, Refusal> {
    let mut totals = Totals::default();
    for record in records.chunks_exact(PIXEL.size()) {
        reel_append(strip, &mut totals, record.try_into().expect("a pixel record"))?;
    }
    Ok(totals)
}

fn add(sums: &mut Sums, more: Sums) {
    sums.iter_mut().zip(more).for_each(|(sum, more)| *sum += more);
}

/// The mean of a channel's scene values, where there are records: to nine places the nearest decimal, of two the higher.
fn mean(sum: i128, records: u64) -> Option<String> {
    if records == 0 {
        return None;
    }
    let over = 2 * UNITS * i128::from(records);
    let billionths = (2 * BILLION * sum + over / 2).div_euclid(over);
    let (sign, size) = (if billionths < 0 { "-" } else { "" }, billionths.abs());
    Some(format!("{}{}.{:0places$}", sign, size / BILLION, size % BILLION, places = PLACES))
}

/// A line for each channel.
fn words(sums: &Sums, records: u64) -> String {
    let of = |(channel, sum): (&&str, &i128)| {
        let mean = mean(*sum, records).map_or("no mean, since there is no record".to_string(), |mean| format!("mean scene value {}", mean));
        format!("\n    {:5}  sum {} units, {}", channel, sum, mean)
    };
    CHANNELS.iter().zip(sums).map(of).collect()
}

/// An object with a value for each channel. Sums and means are text there, since a reader of JSON may keep 53 bits of a number.
fn by_channel(values: [Value; CHANNELS.len()]) -> Value {
    let mut object = json!({});
    CHANNELS.iter().zip(values).for_each(|(channel, value)| object[*channel] = value);
    object
}

#[cfg(test)]
mod tests {
    use super::*;
    use crate::kinds::SCENE;
    use crate::library::pixel_to_scene;

    /// Pixels of three settings in turn, with other codes each time.
    fn pixels(records: usize) -> Vec<u8> {
        let settings: [[u8; 4]; 3] = [[3, 12, 0x20, 3], [4, 140, 0, 0], [4, 16, 0, 0]];
        let pixel = |k: usize| {
            let codes = [k % 3000, k * 7 % 3000, 2999 - k % 3000].map(|n| if k % 3 == 2 { 16 * n } else { n + 256 });
            [&settings[k % 3][..], &codes.map(|code| (code as u16).to_le_bytes()).concat()].concat()
        };
        (0..records).flat_map(pixel).collect()
    }

    /// The sums of the scene records that the library writes for pixels.
    fn by_scene(pixels: &[u8]) -> Sums {
        let (mut scene, mut sums) = (vec![0; pixels.len() / PIXEL.size() * SCENE.size()], Sums::default());
        assert!(pixel_to_scene(pixels, &mut scene).is_ok());
        scene.chunks_exact(SCENE.size()).for_each(|record| add(&mut sums, SCENE.numbers(record).map(i128::from)));
        sums
    }

    #[test]
    fn reels_one_after_the_other() {
        let mut strip = vec![0; MOST * PIXEL.size()];
        for records in [0, 1, 2, MOST - 1, MOST, MOST + 1, 3 * MOST + 5] {
            let pixels = pixels(records);
            assert_eq!(added(&pixels, &mut strip), Ok(by_scene(&pixels)), "{}", records);
            assert_eq!(added(&pixels, &mut strip[..7 * PIXEL.size()]), Ok(by_scene(&pixels)), "{}", records);
        }
    }

    #[test]
    fn the_first_refused_record_of_a_part() {
        let (mut strip, mut pixels) = (vec![0; MOST * PIXEL.size()], pixels(3 * MOST));
        for (record, curve, number) in [(3 * MOST - 1, 5, 3), (MOST, 2, 4), (MOST - 1, 9, 3), (0, 0, 3)] {
            pixels[record * PIXEL.size()] = curve;
            assert_eq!(added(&pixels, &mut strip), Err(Refusal { number, record: record as u64 }));
        }
    }

    #[test]
    fn a_refusal_of_the_older_firmware_says_why() {
        let part = [3, 12, 0x20, 3, 0, 0, 0, 0, 0, 0, 2, 12, 0x20, 3, 0, 16, 0, 0, 0, 0];
        let refusal = added(&part, &mut [0; 20]).unwrap_err();
        let words = "curve 2 gives sensor values, which cannot be added to scene values: to-scene converts its pixel records";
        assert_eq!(refused(&refusal, &TOTALS, &part, 7).words, format!("record 8 (byte 80): {}", words));
    }

    #[test]
    fn means_are_rounded_once() {
        for (sum, records, text) in [
            (UNITS, 1, "1.000000000"),
            (-UNITS, 1, "-1.000000000"),
            (1, 3, "0.000000020"),
            (-1, 3, "-0.000000020"),
            (0, 5, "0.000000000"),
            (-1, 1000, "0.000000000"),
            // 2^-10 is 0.0009765625, half way.
            (1 << 14, 1, "0.000976563"),
            (-(1 << 14), 1, "-0.000976562"),
            ((1 << 14) - 1, 1, "0.000976503"),
            (7_881_936_077, 1, "469.800000012"),
            (7_881_936_077 * (1 << 60), 1 << 60, "469.800000012"),
            (-302_946 * (1 << 60), 1 << 60, "-0.018056989"),
        ] {
            assert_eq!(mean(sum, records), Some(text.to_string()), "{} of {}", sum, records);
        }
        assert_eq!(mean(0, 0), None);
    }

    #[test]
    fn what_is_said() {
        let lines = [
            "",
            "    red    sum -3 units, mean scene value -0.000000089",
            "    green  sum 0 units, mean scene value 0.000000000",
            "    blue   sum 33554432 units, mean scene value 1.000000000",
        ];
        assert_eq!(words(&[-3, 0, 2 * UNITS], 2), lines.join("\n"));
        assert!(words(&[0; 3], 0).starts_with("\n    red    sum 0 units, no mean, since there is no record\n"));
        assert_eq!(by_channel([json!("1"), json!(null), json!("-2")]), json!({"red": "1", "green": null, "blue": "-2"}));
    }
}
