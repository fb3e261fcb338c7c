//! The texts of the help that are not the options: what a file is, the tables, and what each subcommand promises. No line is longer than 80.
use crate::conversion::{self, Conversion, GRADED_TO_CAMERA, GRADED_TO_SCENE, TO_ACES, TO_CAMERA};
use crate::kinds::{Form, KINDS};
use crate::refusals::REFUSALS;
use crate::settings::{Curve, Width, CURVES};

pub const ABOUT: &str = "\
Converts the codes of ARRI cameras (LogC4, LogC3, LogC of SUP 2.x) to scene
numbers and ACES numbers, and back, exactly.";
pub const VERIFY: &str = "Looks whether pixels come back from ACES, or from a master";
pub const CHECK: &str = "Looks whether every record of a master comes from a pixel";
pub const INSPECT: &str = "Shows what a file holds";
pub const TOTALS: &str = "Adds up the scene numbers of pixels, and gives their means";
pub const DEMO: &str = "Takes reels to ACES or scene numbers and back; no input";
pub const PAIR: &str = "Hold the first file, pixels, to the second, its master";
pub const BY_SCENE: &str = "Go by scene numbers in place of ACES";
pub const TOLERANT: &str = "Take ACES numbers that are up to 5 units off a pixel's";

const STATUS: &str = "Exit status: 0 done, 1 refused, 2 wrong usage, 3 reading or writing failed.\n";

/// What stands below the general help.
pub fn general() -> String {
    format!(
        "{}\n{}\n{}\n{}\n{}\n{}",
        file(),
        WAYS_TO_CODES,
        curves(),
        refusals(),
        "'ropeinstant SUBCOMMAND --help' says what it reads, writes and refuses.\n",
        STATUS
    )
}

/// How a file is laid out.
fn file() -> String {
    let mut text = "\
A file is records of one size with no header; numbers are little endian. Each
record begins with its setting, 4 bytes: curve (1), width (1), EI (2).
Three numbers follow, for red, green and blue:
"
    .to_string();
    for kind in KINDS {
        let form = match kind.form {
            Form::Unsigned => "codes",
            Form::Signed => "signed numbers",
            Form::Half => "half floats",
        };
        text += &format!(
            "    {:5} {} bytes, each number {}; {:15} (a name ends in {})\n",
            kind.name,
            kind.size(),
            kind.bytes,
            form,
            kind.ending
        );
    }
    text += "\
Signed numbers are in units: one unit is 2^-24, the least positive half float.
Records of several settings may share a file. An ACES file is this project's own
master in whole numbers, and no OpenEXR file. A half file is no master: pixels
that differ may share a half record.
";
    text
}

/// The table of curves, widths and EI values.
fn curves() -> String {
    let mut text = "Curve  Widths       EI\n".to_string();
    for curve in &CURVES {
        let widths: Vec<String> = curve.widths.iter().map(|width| width.byte.to_string()).collect();
        let eis: Vec<String> = curve.eis.iter().map(u16::to_string).collect();
        text += &format!("{:<6} {:<12} {}\n", curve.byte, widths.join(", "), eis.join(", "));
    }
    CURVES.iter().for_each(|curve| text += &format!("Curve {} is {}.\n", curve.byte, curve.name));
    without_matrix().for_each(|curve| text += &no_matrix(curve));
    text += "A width is a count of bits, at full range.\n";
    for curve in &CURVES {
        curve.widths.iter().filter(|width| width.step > 1).for_each(|width| text += &recorder(curve, width));
        curve.widths.iter().filter(|width| width.lowest > 0).for_each(|width| text += &legal(width));
    }
    text + "Any other EI is refused, those above 1600 among them.\n"
}

fn without_matrix() -> impl Iterator<Item = &'static Curve> {
    CURVES.iter().filter(|curve| !curve.matrix)
}

fn no_matrix(curve: &Curve) -> String {
    format!("Curve {} has no ACES matrix. It has scene numbers only, in units of 2^-24 of\nsensor value.\n", curve.byte)
}

/// What a conversion to ACES asks of reels of a curve without an ACES matrix.
fn kept_apart(curve: &Curve) -> String {
    format!("One record of curve {}, which has no ACES matrix, refuses the whole file:\nkeep its reels apart.\n", curve.byte)
}

fn recorder(curve: &Curve, width: &Width) -> String {
    format!(
        "Width {} of curve {} is the 12-bit code times {}, as recorders write it: up to\n{}, and no code that is not a multiple of {}.\n",
        width.byte,
        curve.byte,
        width.step,
        width.highest(),
        width.step
    )
}

fn legal(width: &Width) -> String {
    format!("Width {} is the legal range of 12 bits: the codes {} to {}.\n", width.byte, width.lowest, width.highest())
}

fn refusals() -> String {
    let mut text = "Refusals, in the order in which they are tried for a record:\n".to_string();
    REFUSALS.iter().for_each(|refusal| text += &format!("    {:<3} {}\n", refusal.number, refusal.when));
    text
}

/// What stands below the help of a conversion.
pub fn of_conversion(conversion: &Conversion) -> String {
    let mut text = format!(
        "IN holds {} records of {} bytes, OUT {} records of {} bytes.\n{}\n",
        conversion.from.name,
        conversion.from.size(),
        conversion.to.name,
        conversion.to.size(),
        conversion.promise
    );
    if [TO_CAMERA.name, GRADED_TO_CAMERA.name, GRADED_TO_SCENE.name].contains(&conversion.name) {
        text += &format!("{}\n", WAYS_TO_CODES);
    }
    text += &refused_by(conversion);
    if conversion.name == TO_ACES.name {
        without_matrix().for_each(|curve| text += &kept_apart(curve));
    }
    format!("{}\n{}\n{}\n{}\n{}\n{}", text, INPUT, OUTPUT, REPLACED, MANIFEST, STATUS)
}

fn refused_by(conversion: &Conversion) -> String {
    let mut text = "Refused by\n".to_string();
    for refusal in REFUSALS.iter().filter(|refusal| conversion.refusals.contains(&refusal.number)) {
        text += &format!("    {:<3} {}\n", refusal.number, refusal.when);
    }
    text
}

/// What stands below the help of a subcommand that writes no file.
pub fn of_looking(name: &str) -> String {
    let about = match name {
        "verify" => VERIFY_MORE.to_string(),
        "check" => CHECK_MORE.to_string(),
        "totals" => format!("{}\n{}", TOTALS_MORE, refused_by(&conversion::TOTALS)),
        _ => INSPECT_MORE.to_string(),
    };
    format!("{}\n{}\n{}", about, INPUT, STATUS)
}

/// Which way to take from ACES numbers to codes.
const WAYS_TO_CODES: &str = "\
to-camera is for an untouched master: it refuses a record that no pixel gives.
to-camera --tolerant is for a master whose numbers another package moved by a
few units in saving it: it gives the pixel whose ACES numbers are within 5 units
in every channel, and refuses a record for which there is none.
graded-to-camera and graded-to-scene are for graded numbers: they take any from
-2^38 to 2^38, and never say that something was changed. A damaged master may
come out of them as some pixels or scene numbers without a word.
";

const VERIFY_MORE: &str = "\
It writes no file. Of several files each is verified, and the sum said: status 1
if any is refused. Two names of which the second is that of a master (by its
manifest, by its ending .aces, or since its records can be no pixels) hold the
first to the second: that the way back gives these pixels from this master.
--pair says so where the names do not. A file is held to its manifest.
--scene is for reels of a curve without an ACES matrix: it takes the pixels of
each file to scene numbers, as to-scene does, and back, as from-scene does.
";

const CHECK_MORE: &str = "\
It writes no file. Of several files each is checked, and the sum said: status 1
if any is refused. A file is held to its manifest where there is one, which
alone can tell a flipped bit that gives another pixel's numbers.
";

const INSPECT_MORE: &str = "\
The kind is the one of --kind, of the manifest or of the name's ending (.pixels,
.scene, .aces, .half), else each that the length and the settings of the records
allow. Scene and ACES records look alike, and both are shown; half records look
like pixels, and are shown where one of the three says that it holds them. It
shows the settings with their counts, the range of each channel, and the first
refusal: status 1 if there is one. Pixels are judged as to-scene judges them.
Where some of them have no ACES matrix it says how many, and that to-aces
refuses the file. ACES records are judged as to-camera judges them, without
--tolerant: a graded or moved record that no pixel gives is refused.
";

const TOTALS_MORE: &str = "\
It writes no file. It gives the count of records, and for each channel the sum
of the scene numbers, exactly, in units of 2^-24, and their mean as a scene
value: to nine places the nearest, of two the higher. A file of no records has
no mean. Records of several settings may share a file, but none of a curve
without an ACES matrix: sensor values cannot be added to scene values. Of
several files each is added up by itself. A file is held to its manifest.
";

const INPUT: &str = "\
IN is a file of any size, or '-' for standard input. A message begins with its
name. A refusal names the first refused record and its value. On a pipe it is
said at once, and the verdict comes at the input's end, since a length that is
not a whole number of records is refused before any record is. A pipe that gives
no byte at all is a failure, unless --allow-empty is said; an empty file is an
input of 0 records. A file that is written to while it is read is a failure.
";

const OUTPUT: &str = "\
OUT appears whole or not at all: a new file beside it (.OUT.ropeinstant-0 and so
on) is written, flushed to disk and then renamed to OUT. Room for it is asked
for at the start. A refusal, a full disk, an unreadable input or a signal leaves
OUT as it was, and no new file. So does a kill, but for the new file, which the
next run to the same OUT removes. OUT is a regular file, or a new name in a
folder that is there; a link to a file is followed. OUT is not IN, '-' or a
device, and its name has no ending of another kind of record.
";

const REPLACED: &str = "\
A file that is replaced keeps its mode, and its owner and group where the system
lets them be given; otherwise a word says so. Extended attributes and access
lists are dropped, since they may speak of the old content. Other hard links of
the old file keep the old content.
";

const MANIFEST: &str = "\
Where IN.manifest is there, IN is held to it: its kind, records and SHA-256. A
manifest that OUT has is written anew with it.
";

#[cfg(test)]
mod tests {
    use crate::args::{command, parse, Request};
    use std::ffi::OsString;

    fn help(name: &str) -> String {
        let words = ["ropeinstant", "help", name].iter().filter(|word| !word.is_empty()).map(OsString::from).collect();
        match parse(words) {
            Ok(Request::Say(text)) => text,
            _ => panic!("no help of {}", name),
        }
    }

    #[test]
    fn every_line_fits_a_terminal() {
        let names: Vec<String> = command().get_subcommands().map(|sub| sub.get_name().to_string()).chain([String::new()]).collect();
        for name in names {
            for line in help(&name).lines() {
                assert!(line.chars().count() <= 80, "{}: {}", name, line);
            }
        }
    }

    #[test]
    fn the_tables_are_there() {
        let text = help("");
        for row in ["2      10, 12       160,", "3      10, 12, 16   160,"] {
            assert!(text.contains(&format!("{} 200, 250, 320, 400, 500, 640, 800, 1000, 1280, 1600\n", row)));
        }
        assert!(text.contains("Curve 2 is LogC (SUP 2.x, sensor value).\n") && text.contains("Curve 2 has no ACES matrix. It has scene"));
        assert!(text.contains("4      12, 16, 140  0\n") && text.contains("one unit is 2^-24") && text.contains("    10  no pixel"));
        assert!(text.contains("Width 140 is the legal range of 12 bits: the codes 256 to 3760.\n"));
        assert!(text.contains("Width 16 of curve 4 is the 12-bit code times 16, as recorders write it: up to\n65520, and no code"));
        let places =
            ["5   the EI", "12  the curve has no", "13  a code of curve 4", "11  a code is below", "6   a code is above", "14  a graded"]
                .map(|words| text.find(words));
        assert!(places[0].is_some() && places.windows(2).all(|two| two[0] < two[1]));
    }
}
