//! The meter totals of a reel of one setting: the time of a call on a reel that holds one record and on a full one, and beside a replaced record
//! what it takes to add up the whole reel anew.
use crate::clock::least;
use crate::contest::{random_strip, Setting};
use crate::library::{convert, ropeinstant_pixel_to_scene, Reel};
use crate::plain::{self, PlainReel, ACES, PIXEL};

pub const FULL: usize = 4096; // records of a reel at most
const DISPLAYS: usize = 4; // for which a whole reel is added up, in a round

pub struct Meter {
    pub setting: Setting,
    /// As many as a reel holds, which are appended, and put in the place of others.
    records: Vec<u8>,
    /// Room for the scene records of a whole reel.
    scenes: Vec<u8>,
    pub times: MeterTimes,
}

/// Nanoseconds, the least seen.
#[derive(Default)]
pub struct MeterTimes {
    /// Of one of two calls, which append a record and drop it: where the reel holds one before, and where it has room for one.
    pub append_and_drop: [Option<f64>; 2],
    /// Where the reel holds one, and where it is full.
    pub replace: [Option<f64>; 2],
    /// Of the sums of a full reel after a record was replaced: by plain f64, which keeps them; added up anew from what Ropeinstant decodes; and
    /// added up anew by plain f64.
    pub others: [Option<f64>; 3],
}

impl Meter {
    pub fn new(setting: Setting) -> Meter {
        Meter { records: random_strip(&setting, FULL), setting, scenes: vec![0; FULL * ACES], times: MeterTimes::default() }
    }

    /// Times each once.
    pub fn round(&mut self) {
        let Meter { records, scenes, times, .. } = self;
        for (k, held) in [1, FULL].into_iter().enumerate() {
            let mut reel = filled(records, held.min(FULL - 1));
            let pair = |record: &[u8], _| {
                reel.append(record);
                reel.drop_last();
            };
            least(&mut times.append_and_drop[k], 2 * FULL, || each(records, pair));
            assert_eq!(reel.sums, anew(&reel, scenes));
            let mut reel = filled(records, held);
            least(&mut times.replace[k], FULL, || each(records, |record, place| reel.replace(place % held, record)));
            assert_eq!(reel.sums, anew(&reel, scenes));
        }
        let (reel, mut plain) = (filled(records, FULL), PlainReel::of(records).expect("pixels of a setting"));
        least(&mut times.others[0], FULL, || each(records, |record, place| assert!(plain.replace(place, record))));
        least(&mut times.others[1], DISPLAYS, || (0..DISPLAYS).for_each(|_| assert_eq!(reel.sums, anew(&reel, scenes))));
        least(&mut times.others[2], DISPLAYS, || (0..DISPLAYS).for_each(|_| assert!(plain::sums(records).is_some())));
    }
}

/// A reel of the first records.
fn filled(records: &[u8], held: usize) -> Reel {
    let mut reel = Reel::new(FULL * PIXEL);
    records.chunks_exact(PIXEL).take(held).for_each(|record| reel.append(record));
    reel
}

/// Does something with each record and with a place in a full reel, which goes to and fro.
fn each(records: &[u8], mut work: impl FnMut(&[u8], usize)) {
    records.chunks_exact(PIXEL).enumerate().for_each(|(k, record)| work(record, k * 1597 % FULL));
}

/// The sums of a reel's records, of which all are decoded.
fn anew(reel: &Reel, scenes: &mut [u8]) -> [i64; 3] {
    let (held, mut sums) = (reel.count as usize, [0.0; 3]);
    convert(ropeinstant_pixel_to_scene, &reel.strip[..held * PIXEL], &mut scenes[..held * ACES]);
    scenes[..held * ACES].chunks_exact(ACES).for_each(|scene| plain::add(&mut sums, plain::numbers_of(scene)));
    sums.map(|sum| sum as i64)
}
