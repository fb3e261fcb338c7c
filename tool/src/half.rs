//! The bits of a half float, for words and ranges. The library reads and writes halves.

const FRACTION: u32 = 10; // bits of a half: 1 of the sign, 5 of the exponent, 10 of the fraction
const ONES: u32 = 31;

fn exponent(bits: u16) -> u32 {
    u32::from(bits) >> FRACTION & ONES
}

fn fraction(bits: u16) -> i64 {
    i64::from(bits) & ((1 << FRACTION) - 1)
}

/// The units of a finite half.
pub fn units(bits: u16) -> Option<i64> {
    let size = match exponent(bits) {
        ONES => return None,
        0 => fraction(bits),
        exponent => (fraction(bits) + (1 << FRACTION)) << (exponent - 1),
    };
    Some(if bits >> 15 == 0 { size } else { -size })
}

/// What a half is that is not finite.
pub fn not_finite(bits: u16) -> &'static str {
    match (fraction(bits), bits >> 15) {
        (0, 0) => "plus infinity",
        (0, _) => "minus infinity",
        _ => "not a number",
    }
}

#[cfg(test)]
mod tests {
    use super::*;

    #[test]
    fn values() {
        assert_eq!([0, 0x8000, 1, 0x8001, 0x7bff].map(units), [Some(0), Some(0), Some(1), Some(-1), Some(65504 << 24)]);
        assert_eq!([0x7c00, 0xfc00, 0x7c01, 0xffff].map(units), [None; 4]);
        assert_eq!([0x7c00, 0xfc00, 0x7e00].map(not_finite), ["plus infinity", "minus infinity", "not a number"]);
    }
}
