//! The library, called as its header declares it.

use crate::ffi::{self, Descent, Footprint, GreatestMass, GreatestSpeed, HighAngle, Reading, SheetAnswer};

pub fn sheet(dimension: u32, mass: u32, speed: u32) -> SheetAnswer {
    // SAFETY: numbers only.
    unsafe { ffi::nb_sheet(dimension, mass, speed) }
}

pub fn high_angle(dimension: u32, mass: u32, speed: u32) -> HighAngle {
    // SAFETY: numbers only.
    unsafe { ffi::nb_high_angle(dimension, mass, speed) }
}

pub fn descent(dimension: u32, mass: u32, speed: u32, height: u32, budget: u32) -> Descent {
    // SAFETY: numbers only.
    unsafe { ffi::nb_descent(dimension, mass, speed, height, budget) }
}

pub fn greatest_speed(dimension: u32, mass: u32, column: u8) -> GreatestSpeed {
    // SAFETY: numbers only.
    unsafe { ffi::nb_greatest_speed(dimension, mass, column) }
}

pub fn greatest_mass(dimension: u32, speed: u32, column: u8) -> GreatestMass {
    // SAFETY: numbers only.
    unsafe { ffi::nb_greatest_mass(dimension, speed, column) }
}

pub fn footprint(counts: &[u32], marks: &[u64], cell_area: u32) -> Footprint {
    // SAFETY: both slices are valid for their lengths and are only read.
    unsafe { ffi::nb_footprint(counts.as_ptr(), counts.len(), marks.as_ptr(), marks.len(), cell_area) }
}

pub fn read_case(text: &[u8], counts: &mut [u32], marks: &mut [u64]) -> Reading {
    let (c, m) = (counts.as_mut_ptr(), marks.as_mut_ptr());
    // SAFETY: the slices are valid for their lengths and don't overlap.
    unsafe { ffi::nb_read_case(text.as_ptr(), text.len(), c, counts.len(), m, marks.len()) }
}

pub fn case(text: &[u8], counts: &mut [u32], marks: &mut [u64], frame: &mut [u8]) -> u8 {
    let (c, m, f) = (counts.as_mut_ptr(), marks.as_mut_ptr(), frame.as_mut_ptr());
    // SAFETY: the slices are valid for their lengths and don't overlap.
    unsafe { ffi::nb_case(text.as_ptr(), text.len(), c, counts.len(), m, marks.len(), f, frame.len()) }
}
