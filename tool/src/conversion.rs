//! The conversions: the one table of their names, the kinds that each reads and writes, its function of the library, what it
//! promises and its refusals.
use crate::kinds::{Kind, ACES, HALF, PIXEL, SCENE};
use crate::library::{
    aces_to_half, aces_to_pixel, aces_to_pixel_tolerant, graded_to_pixel, graded_to_scene, half_to_aces, pixel_to_aces, pixel_to_scene,
    scene_to_pixel, Answer,
};

pub struct Conversion {
    /// Its subcommand, with the option that asks for it where there is one.
    pub name: &'static str,
    pub about: &'static str,
    /// What is proved of what it writes, in lines of the help.
    pub promise: &'static str,
    pub from: &'static Kind,
    pub to: &'static Kind,
    pub convert: fn(&[u8], &mut [u8]) -> Answer,
    /// The numbers by which it refuses.
    pub refusals: &'static [u32],
}

pub const TO_ACES: Conversion = Conversion {
    name: "to-aces",
    about: "Converts pixel records to ACES records",
    promise: "\
Each ACES number is the matrix row of the three scene numbers, rounded once. It
is within 9/8 of a unit of what the exact curve and matrix give.
",
    from: &PIXEL,
    to: &ACES,
    convert: pixel_to_aces,
    refusals: &[1, 3, 4, 5, 12, 13, 11, 6],
};

pub const TO_CAMERA: Conversion = Conversion {
    name: "to-camera",
    about: "Converts ACES records back to the pixels that gave them",
    promise: "\
Each pixel is the only one of its setting with exactly these ACES numbers. With
--tolerant it is the only one whose ACES numbers are within 5 units of these in
every channel: two different pixels of a setting differ by at least 12 units in
some channel. Where to-camera converts a file, it gives the same pixels with
--tolerant, which also says how many records were moved, and how far.
",
    from: &ACES,
    to: &PIXEL,
    convert: aces_to_pixel,
    refusals: &[1, 3, 4, 5, 12, 10],
};

/// The same by the tolerant way back.
pub const TOLERANT_TO_CAMERA: Conversion = Conversion { name: "to-camera --tolerant", convert: aces_to_pixel_tolerant, ..TO_CAMERA };

pub const TO_SCENE: Conversion = Conversion {
    name: "to-scene",
    about: "Converts pixel records to scene records",
    promise: "\
Each scene number is within 51/100 of a unit of the exact curve, and is the
nearest whole number of units.
",
    from: &PIXEL,
    to: &SCENE,
    convert: pixel_to_scene,
    refusals: &[1, 3, 4, 5, 13, 11, 6],
};

pub const FROM_SCENE: Conversion = Conversion {
    name: "from-scene",
    about: "Converts scene records to pixels with the nearest codes",
    promise: "\
Each code is the one whose scene number is nearest, of two the lower.
",
    from: &SCENE,
    to: &PIXEL,
    convert: scene_to_pixel,
    refusals: &[1, 3, 4, 5, 7],
};

pub const TO_HALF: Conversion = Conversion {
    name: "to-half",
    about: "Converts ACES records to half floats; not a master",
    promise: "\
Each half is the nearest finite one to the ACES number, of two the one with the
even fraction. A number beyond 65504 or -65504 gives that end.

A HALF FILE IS NO MASTER. Different pixels may share a half record, so nothing
brings the camera's codes back from it. Keep the ACES file.
",
    from: &ACES,
    to: &HALF,
    convert: aces_to_half,
    refusals: &[1, 3, 4, 5, 12],
};

pub const FROM_HALF: Conversion = Conversion {
    name: "from-half",
    about: "Converts half floats to ACES records",
    promise: "\
Each ACES number is exactly the value of the half. to-half gives the same bits
again, save that minus zero becomes plus zero. to-camera refuses a record that
is not exactly what a pixel gives, and so most records that were half floats;
graded-to-camera takes them, if no half is beyond 16384 or -16384.
",
    from: &HALF,
    to: &ACES,
    convert: half_to_aces,
    refusals: &[1, 3, 4, 5, 12, 8],
};

pub const GRADED_TO_CAMERA: Conversion = Conversion {
    name: "graded-to-camera",
    about: "Converts graded ACES records to pixels",
    promise: "\
Each code is the nearest to the scene number that graded-to-scene gives, of two
the lower, as from-scene finds it: a channel out of the camera's range gets the
first or the top code. Where to-camera converts a file, this gives the same
pixels.
",
    from: &ACES,
    to: &PIXEL,
    convert: graded_to_pixel,
    refusals: &[1, 3, 4, 5, 12, 14],
};

pub const GRADED_TO_SCENE: Conversion = Conversion {
    name: "graded-to-scene",
    about: "Converts graded ACES records to scene records",
    promise: "\
The matrix, rounded once, takes the scene numbers of a record to ACES numbers
that differ from those given by at most 1 unit in each channel. from-scene
takes every scene record that this writes.
",
    from: &ACES,
    to: &SCENE,
    convert: graded_to_scene,
    refusals: &[1, 3, 4, 5, 12, 14],
};

/// The checks of pixels whose scene numbers are added up: those of to-aces, in words of their own.
pub const TOTALS: Conversion = Conversion { name: "totals", ..TO_ACES };

/// One for each subcommand that converts.
pub const CONVERSIONS: [&Conversion; 8] =
    [&TO_ACES, &TO_CAMERA, &TO_SCENE, &FROM_SCENE, &TO_HALF, &FROM_HALF, &GRADED_TO_CAMERA, &GRADED_TO_SCENE];

/// The conversion that judges records of a kind. Pixels need no matrix to be sound, and ACES records are judged as an untouched master.
pub fn judging(kind: &Kind) -> &'static Conversion {
    match kind.name {
        "pixel" => &TO_SCENE,
        "scene" => &FROM_SCENE,
        "half" => &FROM_HALF,
        _ => &TO_CAMERA,
    }
}
