//! OpenColorIO's CPU processor, as it comes by default (ocio.cpp), over signals and ACES values in float32, where it is installed.
use crate::contest::{Setting, LINE};

pub struct Ocio {
    to: *mut u8,
    back: *mut u8,
}

#[cfg(ocio)]
mod linked {
    extern "C" {
        pub fn ocio_new(curve: i32, back: i32) -> *mut u8;
        pub fn ocio_apply(processor: *const u8, rgb: *mut f32, pixels: i64);
        pub fn ocio_version() -> *const i8;
    }
}

#[cfg(ocio)]
impl Ocio {
    pub fn new(setting: &Setting) -> Option<Ocio> {
        let new = |back| unsafe { linked::ocio_new(setting.curve.into(), back) };
        Some(Ocio { to: new(0), back: new(1) })
    }

    pub fn to_aces(&self, rgb: &mut [f32]) {
        apply(self.to, rgb)
    }

    pub fn to_camera(&self, rgb: &mut [f32]) {
        apply(self.back, rgb)
    }

    pub fn version() -> String {
        unsafe { std::ffi::CStr::from_ptr(linked::ocio_version()) }.to_string_lossy().into_owned()
    }
}

#[cfg(ocio)]
fn apply(processor: *const u8, rgb: &mut [f32]) {
    assert_eq!(rgb.len() % (3 * LINE), 0, "whole lines");
    unsafe { linked::ocio_apply(processor, rgb.as_mut_ptr(), rgb.len() as i64 / 3) }
}

#[cfg(not(ocio))]
impl Ocio {
    pub fn new(_: &Setting) -> Option<Ocio> {
        None
    }

    pub fn to_aces(&self, _: &mut [f32]) {
        unreachable!("{:?} {:?}", self.to, self.back)
    }

    pub fn to_camera(&self, _: &mut [f32]) {
        unreachable!()
    }

    pub fn version() -> String {
        "not installed".to_string()
    }
}
