//! The proved library, libropeinstant.a (include/ropeinstant.h).

use crate::plain::PIXEL;

pub type Function = unsafe extern "C" fn(*const u8, usize, *mut u8, usize, *mut u64) -> u32;

extern "C" {
    pub fn ropeinstant_pixel_to_scene(input: *const u8, input_len: usize, output: *mut u8, output_len: usize, at: *mut u64) -> u32;
    pub fn ropeinstant_pixel_to_aces(input: *const u8, input_len: usize, output: *mut u8, output_len: usize, at: *mut u64) -> u32;
    pub fn ropeinstant_aces_to_pixel(input: *const u8, input_len: usize, output: *mut u8, output_len: usize, at: *mut u64) -> u32;
    pub fn ropeinstant_aces_to_pixel_tolerant(input: *const u8, input_len: usize, output: *mut u8, output_len: usize, at: *mut u64) -> u32;
    pub fn ropeinstant_aces_to_half(input: *const u8, input_len: usize, output: *mut u8, output_len: usize, at: *mut u64) -> u32;
    pub fn ropeinstant_half_to_aces(input: *const u8, input_len: usize, output: *mut u8, output_len: usize, at: *mut u64) -> u32;
    pub fn ropeinstant_graded_to_pixel(input: *const u8, input_len: usize, output: *mut u8, output_len: usize, at: *mut u64) -> u32;
    fn ropeinstant_reel_append(reel: *mut u8, reel_len: usize, count: *mut u64, sums: *mut i64, record: *const u8) -> u32;
    fn ropeinstant_reel_replace(reel: *mut u8, reel_len: usize, count: u64, sums: *mut i64, index: u64, record: *const u8) -> u32;
    fn ropeinstant_reel_drop(reel: *const u8, reel_len: usize, count: *mut u64, sums: *mut i64) -> u32;
    fn ropeinstant_top_code(width: u8) -> u16;
}

pub fn convert(function: Function, input: &[u8], output: &mut [u8]) {
    let mut at = 0;
    let number = unsafe { function(input.as_ptr(), input.len(), output.as_mut_ptr(), output.len(), &mut at) };
    assert_eq!(number, 0, "refused at record {}", at);
}

/// A reel, which begins empty.
pub struct Reel {
    pub strip: Vec<u8>,
    pub count: u64,
    pub sums: [i64; 3],
}

impl Reel {
    pub fn new(bytes: usize) -> Reel {
        Reel { strip: vec![0; bytes], count: 0, sums: [0; 3] }
    }

    pub fn append(&mut self, record: &[u8]) {
        let Reel { strip, count, sums } = self;
        assert_eq!(record.len(), PIXEL);
        let number = unsafe { ropeinstant_reel_append(strip.as_mut_ptr(), strip.len(), count, sums.as_mut_ptr(), record.as_ptr()) };
        assert_eq!(number, 0, "not appended");
    }

    pub fn replace(&mut self, index: usize, record: &[u8]) {
        let Reel { strip, count, sums } = self;
        assert_eq!(record.len(), PIXEL);
        let number =
            unsafe { ropeinstant_reel_replace(strip.as_mut_ptr(), strip.len(), *count, sums.as_mut_ptr(), index as u64, record.as_ptr()) };
        assert_eq!(number, 0, "not replaced");
    }

    pub fn drop_last(&mut self) {
        let Reel { strip, count, sums } = self;
        let number = unsafe { ropeinstant_reel_drop(strip.as_ptr(), strip.len(), count, sums.as_mut_ptr()) };
        assert_eq!(number, 0, "not dropped");
    }
}

/// The top code of a width in bits.
pub fn top_code(bits: u8) -> u16 {
    unsafe { ropeinstant_top_code(bits) }
}
