//! bench [PIXELS [REPETITIONS]]: Ropeinstant beside a plain f64 program, OpenColorIO, Imath and a copy of the bytes, and the calls on a reel beside
//! adding it up, on one thread, in one run.
mod clock;
mod contest;
mod imath;
mod library;
mod meter;
mod ocio;
mod plain;

use contest::{AllTimes, Comparison, Contest, Distance, Setting, Times, LINE};
use imath::Imath;
use meter::{Meter, FULL};
use ocio::Ocio;

const COUNTED: usize = 1 << 20; // pixels that are compared, once they are converted
const ROUNDS: usize = 8; // of the calls on reels, which are short, for one of the strips
const SETTINGS: [Setting; 5] = [
    Setting { curve: 3, width: 12, ei: 800 },
    Setting { curve: 3, width: 16, ei: 800 },
    Setting { curve: 4, width: 12, ei: 0 },
    Setting { curve: 4, width: 16, ei: 0 },
    Setting { curve: 4, width: 140, ei: 0 },
];

fn main() {
    let mut arguments = std::env::args().skip(1).map(|word| word.parse().expect("bench [PIXELS [REPETITIONS]]"));
    let pixels = arguments.next().unwrap_or(1 << 18).min(COUNTED);
    let repetitions = arguments.next().unwrap_or(25);
    let mut contests = SETTINGS.map(|setting| Contest::new(setting, COUNTED));
    let mut meters = SETTINGS.map(Meter::new);
    for _ in 0..repetitions {
        contests.iter_mut().for_each(|contest| contest.round(pixels));
        (0..ROUNDS).for_each(|_| meters.iter_mut().for_each(Meter::round));
    }
    println!("Nanoseconds a pixel on one thread, and how many times Ropeinstant's time that is (below 1: faster than Ropeinstant).");
    println!(
        "{} random pixels a setting, the least of {} runs that alternate, in lines of {} pixels, and Ropeinstant in one strip too.",
        pixels, repetitions, LINE
    );
    println!("OpenColorIO: {}. Imath: {}.\n", Ocio::version(), Imath::version());
    print_times("pixel to ACES", "OpenColorIO", &contests, |times| &times.to_aces);
    print_times("ACES to pixel", "OpenColorIO", &contests, |times| &times.to_camera);
    print_times("ACES to pixel, tolerant", "exact", &contests, |times| &times.tolerant);
    print_times("tolerant, moved master", "exact", &contests, |times| &times.tolerant_of_moved);
    print_times("graded to pixel", "OpenColorIO", &contests, |times| &times.graded_to_camera);
    print_times("ACES to half", "Imath", &contests, |times| &times.to_half);
    print_times("half to ACES", "Imath", &contests, |times| &times.from_half);
    println!(
        "A reel with its sums, nanoseconds a call; in brackets the ratio to a reel that holds 1 record, and then to Ropeinstant's time.\n"
    );
    print_calls(&meters);
    print_sums(&meters);
    let compared: Vec<Comparison> = contests.iter().map(Contest::compared).collect();
    print_shares(&contests, &compared);
    print_distances(&contests, &compared);
    println!(
        "Plain f64 reads and writes the same records with the same checks, but its way back gives the nearest codes and refuses nothing;"
    );
    println!("OpenColorIO works in place on float32 signals; turning codes to signals and back is not in its time. Imath takes float32 to halves");
    println!("and back; reading and writing records is not in its time. Beside the tolerant way back stands the exact one, of an unmoved master;");
    println!("a moved one has each number moved by 5 units or less.");
}

fn print_times(name: &str, other: &str, contests: &[Contest], of: impl Fn(&AllTimes) -> &Times) {
    println!("| {:<25} | Ropeinstant |    one strip |    plain f64 | {:>12} | copy of 28 bytes |", name, other);
    println!("|---------------------------|------------:|-------------:|-------------:|-------------:|-----------------:|");
    for contest in contests {
        let times = of(&contest.times);
        let own = times[0].unwrap();
        let beside = [1, 2, 3, 4].map(|k| times[k].map_or("-".to_string(), |time| format!("{:.1} ({:.2})", time, time / own)));
        let [strip, plain, other, copy] = beside;
        println!("| {:<25} | {:>11.1} | {:>12} | {:>12} | {:>12} | {:>16} |", title(&contest.setting), own, strip, plain, other, copy);
    }
    println!();
}

/// The time of a call, by how many records the reel holds.
fn print_calls(meters: &[Meter]) {
    println!("| a call on a reel          | append and drop, 1 held |    {} held | replace, 1 held |    {} held |", FULL - 1, FULL);
    println!("|---------------------------|------------------------:|-------------:|----------------:|-------------:|");
    for meter in meters {
        let [ends, replace] = [meter.times.append_and_drop, meter.times.replace].map(|times| times.map(Option::unwrap));
        let [ends_of_many, replace_of_many] = [ends, replace].map(|[few, many]| format!("{:.1} ({:.2})", many, many / few));
        let name = title(&meter.setting);
        println!("| {:<25} | {:>23.1} | {:>12} | {:>15.1} | {:>12} |", name, ends[0], ends_of_many, replace[0], replace_of_many);
    }
    println!();
}

/// The time of the sums of a full reel after a record was replaced.
fn print_sums(meters: &[Meter]) {
    println!("| sums after a replacement  | Ropeinstant | plain f64, kept | Ropeinstant, anew | plain f64, anew |");
    println!("|---------------------------|------------:|----------------:|------------------:|----------------:|");
    for meter in meters {
        let own = meter.times.replace[1].unwrap();
        let [kept, decoded, anew] = meter.times.others.map(Option::unwrap);
        let kept = format!("{:.1} ({:.2})", kept, kept / own);
        let [decoded, anew] = [decoded, anew].map(|time| format!("{:.0} ({:.0})", time, time / own));
        println!("| {:<25} | {:>11.1} | {:>15} | {:>17} | {:>15} |", title(&meter.setting), own, kept, decoded, anew);
    }
    println!();
}

fn print_shares(contests: &[Contest], compared: &[Comparison]) {
    println!("Pixels that come back a code off, of {} a setting:\n", COUNTED);
    println!("| setting                   | Ropeinstant | plain f64 | through half | OpenColorIO, float32 | through half |");
    println!("|---------------------------|------------:|----------:|-------------:|---------------------:|-------------:|");
    for (contest, with) in contests.iter().zip(compared) {
        let off = with.off.map(|share| share.map_or("-".to_string(), percent));
        println!("| {:<25} | {:>11} | {:>9} | {:>12} | {:>20} | {:>12} |", title(&contest.setting), off[0], off[1], off[2], off[3], off[4]);
    }
    let differing = listed(compared, |with| Some(with.differing));
    println!("\nPixels whose ACES numbers by plain f64 are not Ropeinstant's, in the same order: {}.", differing);
    println!("Halves by Imath, of ACES numbers in float32, that are not the nearest: {}.", listed(compared, |with| with.halves_off));
    let [plain, ocio] = [0, 1].map(|k| listed(compared, |with| with.graded_off[k]));
    println!("Graded pixels (an eighth more red, an eighth less blue) whose codes are not Ropeinstant's: by plain f64 {};", plain);
    println!("by OpenColorIO, from float32, {}.\n", ocio);
}

/// A share of each setting.
fn listed(compared: &[Comparison], of: impl Fn(&Comparison) -> Option<f64>) -> String {
    let shares: Vec<String> = compared.iter().map(|with| of(with).map_or("-".to_string(), percent)).collect();
    shares.join(", ")
}

fn print_distances(contests: &[Contest], compared: &[Comparison]) {
    println!("How far ACES numbers are from Ropeinstant's, in units: the mean, and the largest.");
    println!("Ropeinstant's are within 9/8 of a unit of what the exact curve and matrix give.\n");
    println!("| setting                   |       plain f64 |  OpenColorIO, float32 |        through half |");
    println!("|---------------------------|----------------:|----------------------:|--------------------:|");
    for (contest, with) in contests.iter().zip(compared) {
        let [plain, ocio, half] = [0, 1, 2].map(|k| with.distances[k].as_ref().map_or("-".to_string(), units));
        println!("| {:<25} | {:>15} | {:>21} | {:>19} |", title(&contest.setting), plain, ocio, half);
    }
    println!();
}

fn units(distance: &Distance) -> String {
    let digits = match distance.mean {
        mean if mean == 0.0 => 0,
        mean if mean < 1.0 => 7,
        _ => 1,
    };
    format!("{:.*}, {:.0}", digits, distance.mean, distance.largest)
}

fn title(setting: &Setting) -> String {
    format!("curve {}, width {}, EI {}", setting.curve, setting.width, setting.ei)
}

fn percent(share: f64) -> String {
    if share == 0.0 {
        "0".to_string()
    } else if share < 0.0001 {
        format!("{:.4}%", share * 100.0)
    } else {
        format!("{:.2}%", share * 100.0)
    }
}
