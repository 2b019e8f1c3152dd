//! The structs and functions of the archive, as `include/nuggetbay.h` declares them. A slice is lent as a pointer and a length in
//! elements. Where `refusal` isn't 0, every other number of an answer is zero.

#[repr(C)]
#[derive(Clone, Copy, Debug, Default, PartialEq, Eq)]
pub struct Bracket {
    pub low: u64,
    pub high: u64,
}

#[repr(C)]
#[derive(Clone, Copy, Debug, Default, PartialEq, Eq)]
pub struct Sheet {
    pub glide: Bracket,
    pub run: Bracket,
    pub saving: Bracket,
    pub slide: Bracket,
    pub total: Bracket,
    pub area: Bracket,
    pub column: u8,
    pub flag: u8,
    pub size_column: u8,
}

#[repr(C)]
#[derive(Clone, Copy, Debug, Default, PartialEq, Eq)]
pub struct SheetAnswer {
    pub refusal: u8,
    pub sheet: Sheet,
}

#[repr(C)]
#[derive(Clone, Copy, Debug, Default, PartialEq, Eq)]
pub struct HighAngle {
    pub refusal: u8,
    pub column: u8,
    pub flag: u8,
    pub frontal_area: u64,
    pub joules: Bracket,
    pub factor: Bracket,
    pub area: Bracket,
}

#[repr(C)]
#[derive(Clone, Copy, Debug, Default, PartialEq)]
pub struct Fall {
    pub horizontal: f64,
    pub downward: f64,
    pub fallen: f64,
}

#[repr(C)]
#[derive(Clone, Copy, Debug, Default, PartialEq)]
pub struct Descent {
    pub refusal: u8,
    pub above_60: u8,
    pub steps: u32,
    pub end: Fall,
}

#[repr(C)]
#[derive(Clone, Copy, Debug, Default, PartialEq, Eq)]
pub struct GreatestSpeed {
    pub refusal: u8,
    pub speed: u32,
}

#[repr(C)]
#[derive(Clone, Copy, Debug, Default, PartialEq, Eq)]
pub struct GreatestMass {
    pub refusal: u8,
    pub mass: u32,
}

#[repr(C)]
#[derive(Clone, Copy, Debug, Default, PartialEq, Eq)]
pub struct Footprint {
    pub refusal: u8,
    pub row: u8,
    pub place: u32,
    pub people: u64,
    pub cells: u32,
}

#[repr(C)]
#[derive(Clone, Copy, Debug, Default, PartialEq, Eq)]
pub struct IntrinsicClass {
    pub refusal: u8,
    pub class: u8,
}

#[repr(C)]
#[derive(Clone, Copy, Debug, Default, PartialEq, Eq)]
pub struct FinalClass {
    pub refusal: u8,
    pub class: i8,
}

#[repr(C)]
#[derive(Clone, Copy, Debug, Default, PartialEq, Eq)]
pub struct Assessment {
    pub refusal: u8,
    pub sheet: Sheet,
    pub footprint: Footprint,
    pub row_used: u8,
    pub intrinsic: u8,
    pub final_class: i8,
}

#[repr(C)]
#[derive(Clone, Copy, Debug, Default, PartialEq, Eq)]
pub struct CaseHead {
    pub dimension: u32,
    pub mass: u32,
    pub speed: u32,
    pub cell_area: u32,
    pub controlled: u8,
    pub word: u16,
}

#[repr(C)]
#[derive(Clone, Copy, Debug, Default, PartialEq, Eq)]
pub struct Reading {
    pub refusal: u8,
    pub head: CaseHead,
}

#[repr(C)]
#[derive(Clone, Copy, Debug, Default, PartialEq, Eq)]
pub struct FrameFields {
    pub low: u64,
    pub high: u64,
    pub column: u8,
    pub flag: u8,
    pub size_column: u8,
    pub row_used: u8,
    pub place: u32,
    pub people: u64,
    pub intrinsic: u8,
    pub final_class: i8,
}

extern "C" {
    pub fn nb_sheet(dimension: u32, mass: u32, speed: u32) -> SheetAnswer;
    pub fn nb_high_angle(dimension: u32, mass: u32, speed: u32) -> HighAngle;
    pub fn nb_descent(dimension: u32, mass: u32, speed: u32, height: u32, budget: u32) -> Descent;
    pub fn nb_greatest_speed(dimension: u32, mass: u32, column: u8) -> GreatestSpeed;
    pub fn nb_greatest_mass(dimension: u32, speed: u32, column: u8) -> GreatestMass;
    pub fn nb_footprint(
        counts: *const u32,
        counts_len: usize,
        marks: *const u64,
        marks_len: usize,
        cell_area: u32,
    ) -> Footprint;
    pub fn nb_intrinsic_class(column: u8, row: u8, controlled: u8) -> IntrinsicClass;
    pub fn nb_final_class(column: u8, class: u8, word: u16) -> FinalClass;
    pub fn nb_assess(
        dimension: u32,
        mass: u32,
        speed: u32,
        counts: *const u32,
        counts_len: usize,
        marks: *const u64,
        marks_len: usize,
        cell_area: u32,
        controlled: u8,
        word: u16,
    ) -> Assessment;
    pub fn nb_read_case(
        text: *const u8,
        text_len: usize,
        counts: *mut u32,
        counts_len: usize,
        marks: *mut u64,
        marks_len: usize,
    ) -> Reading;
    pub fn nb_write_frame(refusal: u8, fields: FrameFields, frame: *mut u8, frame_len: usize) -> u8;
    pub fn nb_case(
        text: *const u8,
        text_len: usize,
        counts: *mut u32,
        counts_len: usize,
        marks: *mut u64,
        marks_len: usize,
        frame: *mut u8,
        frame_len: usize,
    ) -> u8;
}
