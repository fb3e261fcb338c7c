//! The proved library, libropeinstant.a (include/ropeinstant.h), with safe functions over it. This is the only unsafe code of the command.

/// What the library answers: the count of records, or why and where it refuses.
pub type Answer = Result<u64, Refusal>;

#[derive(Debug, PartialEq)]
pub struct Refusal {
    pub number: u32,
    pub record: u64,
}

type Function = unsafe extern "C" fn(*const u8, usize, *mut u8, usize, *mut u64) -> u32;

extern "C" {
    fn ropeinstant_pixel_to_scene(input: *const u8, input_len: usize, output: *mut u8, output_len: usize, at: *mut u64) -> u32;
    fn ropeinstant_scene_to_pixel(input: *const u8, input_len: usize, output: *mut u8, output_len: usize, at: *mut u64) -> u32;
    fn ropeinstant_pixel_to_aces(input: *const u8, input_len: usize, output: *mut u8, output_len: usize, at: *mut u64) -> u32;
    fn ropeinstant_aces_to_pixel(input: *const u8, input_len: usize, output: *mut u8, output_len: usize, at: *mut u64) -> u32;
    fn ropeinstant_aces_to_pixel_tolerant(input: *const u8, input_len: usize, output: *mut u8, output_len: usize, at: *mut u64) -> u32;
    fn ropeinstant_aces_to_half(input: *const u8, input_len: usize, output: *mut u8, output_len: usize, at: *mut u64) -> u32;
    fn ropeinstant_half_to_aces(input: *const u8, input_len: usize, output: *mut u8, output_len: usize, at: *mut u64) -> u32;
    fn ropeinstant_graded_to_pixel(input: *const u8, input_len: usize, output: *mut u8, output_len: usize, at: *mut u64) -> u32;
    fn ropeinstant_graded_to_scene(input: *const u8, input_len: usize, output: *mut u8, output_len: usize, at: *mut u64) -> u32;
    fn ropeinstant_reel_append(reel: *mut u8, reel_len: usize, count: *mut u64, sums: *mut i64, record: *const u8) -> u32;
    fn ropeinstant_top_code(width: u8) -> u16;
}

pub fn pixel_to_scene(input: &[u8], output: &mut [u8]) -> Answer {
    call(ropeinstant_pixel_to_scene, input, output)
}

pub fn scene_to_pixel(input: &[u8], output: &mut [u8]) -> Answer {
    call(ropeinstant_scene_to_pixel, input, output)
}

pub fn pixel_to_aces(input: &[u8], output: &mut [u8]) -> Answer {
    call(ropeinstant_pixel_to_aces, input, output)
}

pub fn aces_to_pixel(input: &[u8], output: &mut [u8]) -> Answer {
    call(ropeinstant_aces_to_pixel, input, output)
}

pub fn aces_to_pixel_tolerant(input: &[u8], output: &mut [u8]) -> Answer {
    call(ropeinstant_aces_to_pixel_tolerant, input, output)
}

pub fn aces_to_half(input: &[u8], output: &mut [u8]) -> Answer {
    call(ropeinstant_aces_to_half, input, output)
}

pub fn half_to_aces(input: &[u8], output: &mut [u8]) -> Answer {
    call(ropeinstant_half_to_aces, input, output)
}

pub fn graded_to_pixel(input: &[u8], output: &mut [u8]) -> Answer {
    call(ropeinstant_graded_to_pixel, input, output)
}

pub fn graded_to_scene(input: &[u8], output: &mut [u8]) -> Answer {
    call(ropeinstant_graded_to_scene, input, output)
}

/// What is kept of a reel beside its strip: how many records it holds, and the sums of their scene numbers, in units.
#[derive(Debug, Default, PartialEq)]
pub struct Totals {
    pub count: u64,
    pub sums: [i64; 3],
}

/// Appends a pixel record to a reel: the count of its records, or why it is refused, with the index that it would have had.
pub fn reel_append(strip: &mut [u8], totals: &mut Totals, record: &[u8; 10]) -> Answer {
    let Totals { count, sums } = totals;
    // What the header asks holds as in `call`: of a slice, and of what is borrowed, which is of the size that its type says.
    let number = unsafe { ropeinstant_reel_append(strip.as_mut_ptr(), strip.len(), count, sums.as_mut_ptr(), record.as_ptr()) };
    if number == 0 {
        Ok(*count)
    } else {
        Err(Refusal { number, record: *count })
    }
}

/// The top code of a width of 1 to 16 bits; 0 for any other number.
pub fn top_code(width: u8) -> u16 {
    // It takes any number, and nothing is lent.
    unsafe { ropeinstant_top_code(width) }
}

fn call(function: Function, input: &[u8], output: &mut [u8]) -> Answer {
    let mut at = 0;
    // What the header asks of its caller holds of slices: a slice's pointer is not null and has as many bytes as its length says,
    // and a shared and two exclusive borrows do not overlap, nor does anything else write them during the call.
    let number = unsafe { function(input.as_ptr(), input.len(), output.as_mut_ptr(), output.len(), &mut at) };
    if number == 0 {
        Ok(at)
    } else {
        Err(Refusal { number, record: at })
    }
}

#[cfg(test)]
mod tests {
    use super::*;
    use crate::kinds;

    // Curve 3, width 12, EI 800, and the pixel 100, 0, 0 with its ACES numbers, as the rules list them.
    const PIXEL: [u8; 10] = [3, 12, 0x20, 3, 100, 0, 0, 0, 0, 0];
    const ACES: [i64; 3] = [-238167, -283566, -289928];

    /// A record of three numbers.
    fn numbers(setting: &[u8], numbers: [i64; 3]) -> Vec<u8> {
        [setting, &numbers.map(i64::to_le_bytes).concat()].concat()
    }

    #[test]
    fn the_listed_pixel_and_back() {
        let mut aces = [0; kinds::ACES.size()];
        assert_eq!(pixel_to_aces(&PIXEL, &mut aces), Ok(1));
        assert_eq!(aces, numbers(&PIXEL[..4], ACES)[..]);
        for back in [aces_to_pixel, aces_to_pixel_tolerant, graded_to_pixel] {
            let mut pixel = [0; kinds::PIXEL.size()];
            assert_eq!(back(&aces, &mut pixel), Ok(1));
            assert_eq!(pixel, PIXEL);
        }
    }

    #[test]
    fn the_tolerant_way_back() {
        let mut pixel = [0; kinds::PIXEL.size()];
        let refused = |number| Err(Refusal { number, record: 0 });
        for (off, answer) in [
            ([5, -5, 5], Ok(1)),
            ([-5, 5, 0], Ok(1)),
            ([6, 0, 0], refused(10)),
            ([0, -6, 0], refused(10)),
            ([5, 5, 6], refused(10)),
            ([i64::MIN - ACES[0], 0, 0], refused(10)),
            ([0, 0, i64::MAX], refused(10)),
        ] {
            let record = numbers(&PIXEL[..4], [0, 1, 2].map(|k| ACES[k] + off[k]));
            assert_eq!(aces_to_pixel(&record, &mut pixel), refused(10));
            assert_eq!(aces_to_pixel_tolerant(&record, &mut pixel), answer);
            assert_eq!(pixel, if answer.is_ok() { PIXEL } else { [0; 10] });
            pixel = [0; 10];
        }
        for (setting, number) in [([2, 12, 0x20, 3], 12), ([2, 12, 0, 0], 5), ([2, 16, 0x20, 3], 4), ([5, 12, 0x20, 3], 3)] {
            assert_eq!(aces_to_pixel_tolerant(&numbers(&setting, [0, i64::MIN, i64::MAX]), &mut pixel), refused(number));
        }
    }

    #[test]
    fn the_graded_road() {
        let (limit, mut scene, mut pixel) = (1_i64 << 38, [0; kinds::SCENE.size()], [0; kinds::PIXEL.size()]);
        // One unit off, which no pixel gives: of the scene numbers one is a unit off, and the codes are the same.
        let off = numbers(&PIXEL[..4], [ACES[0], ACES[1], ACES[2] + 1]);
        assert_eq!((graded_to_scene(&off, &mut scene), graded_to_pixel(&off, &mut pixel)), (Ok(1), Ok(1)));
        assert_eq!((kinds::SCENE.numbers(&scene), pixel), ([-213758, -290085, -290084], PIXEL));
        // The ends pass, and are clipped to the first and the top code.
        let ends = numbers(&[4, 140, 0, 0], [limit, -limit, limit]);
        assert_eq!((graded_to_scene(&ends, &mut scene), graded_to_pixel(&ends, &mut pixel)), (Ok(1), Ok(1)));
        assert_eq!(kinds::SCENE.numbers(&scene), [379904264315, -270929957338, 274464757903]);
        assert_eq!(kinds::PIXEL.numbers(&pixel), [3760, 256, 3760]);
        let refused = |number| Err(Refusal { number, record: 0 });
        for (setting, triple, number) in [
            ([4, 140, 0, 0], [limit, -limit, limit + 1], 14),
            ([3, 12, 0x20, 3], [-limit - 1, 0, 0], 14),
            ([3, 12, 0x20, 3], [0, i64::MIN, i64::MAX], 14),
            ([2, 12, 0x20, 3], [limit + 1, 0, 0], 12),
            ([2, 12, 0, 0], [limit + 1, 0, 0], 5),
            ([2, 16, 0x20, 3], [limit + 1, 0, 0], 4),
            ([5, 12, 0x20, 3], [limit + 1, 0, 0], 3),
        ] {
            let record = numbers(&setting, triple);
            assert_eq!((graded_to_scene(&record, &mut scene), graded_to_pixel(&record, &mut pixel)), (refused(number), refused(number)));
        }
    }

    #[test]
    fn scene_and_back() {
        let (mut scene, mut pixel) = ([0; kinds::SCENE.size()], [0; kinds::PIXEL.size()]);
        assert_eq!(pixel_to_scene(&PIXEL, &mut scene), Ok(1));
        assert_eq!(kinds::SCENE.numbers(&scene)[0], -213758);
        assert_eq!(scene_to_pixel(&scene, &mut pixel), Ok(1));
        assert_eq!(pixel, PIXEL);
    }

    #[test]
    fn a_reel() {
        let (mut strip, mut totals) = ([7; 25], Totals::default());
        let refused = |number, record| Err(Refusal { number, record });
        assert_eq!(reel_append(&mut strip, &mut totals, &PIXEL), Ok(1));
        for (record, number) in [
            ([2, 12, 0x20, 3, 0, 16, 0, 0, 0, 0], 12),
            ([4, 140, 0, 0, 100, 0, 0, 255, 0, 255], 11),
            ([4, 16, 0, 0, 0, 0, 17, 0, 0, 0], 13),
            ([3, 10, 0x20, 3, 0, 4, 0, 0, 0, 0], 6),
            ([2, 12, 0, 0, 0, 16, 0, 0, 0, 0], 5),
        ] {
            assert_eq!(reel_append(&mut strip, &mut totals, &record), refused(number, 1));
            assert_eq!(totals, Totals { count: 1, sums: [-213758, -290085, -290085] });
        }
        let grey = [4, 12, 0, 0, 0xe8, 3, 0xe8, 3, 0xe8, 3];
        assert_eq!(reel_append(&mut strip, &mut totals, &grey), Ok(2));
        // Full, before the record is looked at: there is room for two.
        assert_eq!(reel_append(&mut strip, &mut totals, &[9; 10]), refused(15, 2));
        assert_eq!(totals, Totals { count: 2, sums: [1947321 - 213758, 1947321 - 290085, 1947321 - 290085] });
        assert_eq!(strip[..], [&PIXEL[..], &grey, &[7; 5]].concat());
    }

    #[test]
    fn top_codes() {
        assert_eq!([1, 10, 12, 16].map(top_code), [1, 1023, 4095, 65535]);
        assert_eq!([0, 17, 32, 140, 255].map(top_code), [0; 5]);
    }

    #[test]
    fn the_legal_range() {
        let of = |codes: [u16; 3]| {
            let mut pixel = vec![4, 140, 0, 0];
            codes.iter().for_each(|code| pixel.extend(code.to_le_bytes()));
            pixel
        };
        let (ends, mut scene, mut pixel) = (of([256, 581, 3760]), [0; kinds::SCENE.size()], [0; kinds::PIXEL.size()]);
        assert_eq!(pixel_to_scene(&ends, &mut scene), Ok(1));
        assert_eq!(kinds::SCENE.numbers(&scene), [-302946, -581, 7881936077]);
        assert_eq!(scene_to_pixel(&scene, &mut pixel), Ok(1));
        assert_eq!(pixel, ends[..]);
        assert_eq!(pixel_to_scene(&of([100, 5000, 256]), &mut scene), Err(Refusal { number: 11, record: 0 }));
        assert_eq!(pixel_to_scene(&of([5000, 100, 256]), &mut scene), Err(Refusal { number: 6, record: 0 }));
    }

    #[test]
    fn sixteen_bits_as_recorders_write_them() {
        let of = |width: u8, codes: [u16; 3]| {
            let mut pixel = vec![4, width, 0, 0];
            codes.iter().for_each(|code| pixel.extend(code.to_le_bytes()));
            pixel
        };
        let codes = [0, 1000, 4095];
        let (twelve, sixteen) = (of(12, codes), of(16, codes.map(|code| 16 * code)));
        let (mut scene, mut plain, mut pixel) = ([0; kinds::SCENE.size()], [0; kinds::SCENE.size()], [0; kinds::PIXEL.size()]);
        type Call = fn(&[u8], &mut [u8]) -> Answer;
        for (there, back) in [(pixel_to_scene as Call, scene_to_pixel as Call), (pixel_to_aces, aces_to_pixel)] {
            assert_eq!((there(&sixteen, &mut scene), there(&twelve, &mut plain)), (Ok(1), Ok(1)));
            assert_eq!(scene[4..], plain[4..]);
            assert_eq!(back(&scene, &mut pixel), Ok(1));
            assert_eq!(pixel, sixteen[..]);
        }
        assert_eq!(pixel_to_scene(&of(16, [16, 17, 65535]), &mut scene), Err(Refusal { number: 13, record: 0 }));
        assert_eq!(pixel_to_scene(&[3, 16, 0x20, 3, 17, 0, 255, 255, 1, 0], &mut scene), Ok(1));
    }

    #[test]
    fn the_older_firmware() {
        let of = |width: u8, ei: u16, codes: [u16; 3]| {
            let mut pixel = vec![2, width];
            pixel.extend(ei.to_le_bytes());
            codes.iter().for_each(|code| pixel.extend(code.to_le_bytes()));
            pixel
        };
        let (ends, mut scene, mut pixel) = (of(12, 800, [0, 538, 4095]), [0; kinds::SCENE.size()], [0; kinds::PIXEL.size()]);
        assert_eq!(pixel_to_scene(&ends, &mut scene), Ok(1));
        assert_eq!(kinds::SCENE.numbers(&scene), [53187, 65554, 26839606]);
        assert_eq!(scene_to_pixel(&scene, &mut pixel), Ok(1));
        assert_eq!(pixel, ends[..]);
        let refused = |number| Err(Refusal { number, record: 0 });
        assert_eq!(aces_to_pixel(&scene, &mut pixel), refused(12));
        for (pixel, by_scene, by_aces) in [
            (of(12, 800, [0, 538, 4095]), Ok(1), refused(12)),
            (of(12, 800, [4096, 0, 0]), refused(6), refused(12)),
            (of(12, 0, [4096, 0, 0]), refused(5), refused(5)),
            (of(16, 800, [0; 3]), refused(4), refused(4)),
        ] {
            assert_eq!((pixel_to_scene(&pixel, &mut scene), pixel_to_aces(&pixel, &mut scene)), (by_scene, by_aces));
        }
    }

    #[test]
    fn halves() {
        let record = |setting: [u8; 4], halves: [u16; 3]| [&setting[..], &halves.map(u16::to_le_bytes).concat()].concat();
        let of = |triple: [i64; 3]| numbers(&PIXEL[..4], triple);
        let (mut half, mut aces) = ([0; kinds::HALF.size()], [0; kinds::ACES.size()]);
        for (triple, halves) in [
            ([2049, 2051, 4095], [0x800, 0x802, 0xc00]),
            ([i64::MIN, i64::MAX, 0], [0xfbff, 0x7bff, 0]),
            ([-1, 65504 << 24, -(1 << 24)], [0x8001, 0x7bff, 0xbc00]),
        ] {
            assert_eq!(aces_to_half(&of(triple), &mut half), Ok(1));
            assert_eq!(half, record([3, 12, 0x20, 3], halves)[..]);
        }
        assert_eq!(half_to_aces(&half, &mut aces), Ok(1));
        assert_eq!(aces, of([-1, 65504 << 24, -(1 << 24)])[..]);
        let refused = |number| Err(Refusal { number, record: 0 });
        for (setting, halves, number) in [
            ([3, 12, 0x20, 3], [0x7bff, 0x7c00, 0], 8),
            ([3, 12, 0x20, 3], [0xffff, 0, 0], 8),
            ([2, 12, 0x20, 3], [0x7c00, 0, 0], 12),
            ([2, 16, 0x20, 3], [0x7c00, 0, 0], 4),
            ([2, 12, 0, 0], [0x7c00, 0, 0], 5),
        ] {
            assert_eq!(half_to_aces(&record(setting, halves), &mut aces), refused(number));
        }
        aces[0] = 2;
        assert_eq!(aces_to_half(&aces, &mut half), refused(12));
    }

    #[test]
    fn the_units_of_every_half_are_the_librarys() {
        for bits in 0..=u16::MAX {
            let record = [&PIXEL[..4], &[bits; 3].map(u16::to_le_bytes).concat()].concat();
            let mut aces = [0; kinds::ACES.size()];
            let read = half_to_aces(&record, &mut aces).ok().map(|_| kinds::ACES.numbers(&aces)[2]);
            assert_eq!(read, crate::half::units(bits), "{:#06x}", bits);
        }
    }

    #[test]
    fn empty_and_refused() {
        assert_eq!(pixel_to_aces(&[], &mut []), Ok(0));
        let mut kept = [7; 2 * kinds::ACES.size()];
        let two = [PIXEL, [4, 10, 0, 0, 0, 0, 0, 0, 0, 0]].concat();
        assert_eq!(pixel_to_aces(&two, &mut kept), Err(Refusal { number: 4, record: 1 }));
        assert_eq!(kept, [7; 2 * kinds::ACES.size()]);
    }
}
