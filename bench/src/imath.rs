//! Imath's half floats (imath.cpp), over values in float32, where it is installed.

#[cfg(imath)]
mod linked {
    extern "C" {
        pub fn imath_to_half(values: *const f32, halves: *mut u16, count: usize);
        pub fn imath_from_half(halves: *const u16, values: *mut f32, count: usize);
        pub fn imath_version() -> *const i8;
    }
}

pub struct Imath;

#[cfg(imath)]
impl Imath {
    pub fn installed() -> Option<Imath> {
        Some(Imath)
    }

    pub fn to_half(&self, values: &[f32], halves: &mut [u16]) {
        assert_eq!(values.len(), halves.len());
        unsafe { linked::imath_to_half(values.as_ptr(), halves.as_mut_ptr(), values.len()) }
    }

    pub fn from_half(&self, halves: &[u16], values: &mut [f32]) {
        assert_eq!(values.len(), halves.len());
        unsafe { linked::imath_from_half(halves.as_ptr(), values.as_mut_ptr(), values.len()) }
    }

    pub fn version() -> String {
        unsafe { std::ffi::CStr::from_ptr(linked::imath_version()) }.to_string_lossy().into_owned()
    }
}

#[cfg(not(imath))]
impl Imath {
    pub fn installed() -> Option<Imath> {
        None
    }

    pub fn to_half(&self, _: &[f32], _: &mut [u16]) {
        unreachable!()
    }

    pub fn from_half(&self, _: &[u16], _: &mut [f32]) {
        unreachable!()
    }

    pub fn version() -> String {
        "not installed".to_string()
    }
}
