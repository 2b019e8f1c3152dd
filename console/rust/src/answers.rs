//! What is asked and what is answered, as a Rust program wants it: answers have no refusal, marks and flags are bool, and a column
//! that there may not be is an Option.

use crate::{ffi, Refusal};

/// An aircraft. [`sheet`](crate::sheet), [`high_angle`](crate::high_angle), [`descent`](crate::descent) and
/// [`assess`](crate::assess) refuse what is out of range.
#[derive(Clone, Copy, Debug, PartialEq, Eq, Hash)]
pub struct Aircraft {
    /// The dimension in mm: 50 to 100,000, else [`Refusal::Dimension`]; for [`high_angle`](crate::high_angle) and
    /// [`descent`](crate::descent) 1,000 to 40,000, else [`Refusal::FrontalDimension`].
    pub dimension: u32,
    /// The mass in g: 50 to 25,000,000, else [`Refusal::Mass`].
    pub mass: u32,
    /// The speed in cm/s: 0 to 40,000, else [`Refusal::Speed`].
    pub speed: u32,
}

/// A figure: a number at most the exact one, and a number at least the exact one.
#[derive(Clone, Copy, Debug, PartialEq, Eq, Hash)]
pub struct Bracket {
    /// At most the exact number.
    pub low: u64,
    /// At least the exact number.
    pub high: u64,
}

/// Lines 1 to 6 of the sheet, the column of the class table, the flag and the size column.
#[derive(Clone, Copy, Debug, PartialEq, Eq, Hash)]
pub struct Sheet {
    /// Line 1, the glide, in micrometres.
    pub glide: Bracket,
    /// Line 2, the run, in micrometres.
    pub run: Bracket,
    /// Line 3, the saving, in micrometres.
    pub saving: Bracket,
    /// Line 4, the slide, in micrometres.
    pub slide: Bracket,
    /// Line 5, the total, in thousandths of a square millimetre.
    pub total: Bracket,
    /// Line 6, the critical area, in square centimetres: the whole total from 8,000 mm up, six tenths of it from 1,000 mm up, and
    /// below 1,000 mm its glide and half its circle, without slide. The high one is at most 650,000,000, else [`Refusal::Area`].
    pub area: Bracket,
    /// The column of the class table, 1 to 5, from the high area.
    pub column: u8,
    /// Whether the low area lies within the column before, so that the exact column may be that one.
    pub flag: bool,
    /// The size column, 1 to 5: the first of five whose dimension and speed are both at least the aircraft's, `None` where none is
    /// large enough. The five are 1,000 mm and 2,500 cm/s; 3,000 and 3,500; 8,000 and 7,500; 20,000 and 12,000; 40,000 and 20,000.
    ///
    /// It is there to be shown, so that crews can see why the area route was taken: where it is higher than the column, or `None`,
    /// dimension and speed alone would give a higher column, or none. Where one of the five is large enough, refusal 4 never comes
    /// and the column is at most the size column, except at exactly 1,000 and 8,000 mm, where it may be one above. The class comes
    /// from [`column`](Sheet::column), never from the size column.
    pub size_column: Option<u8>,
}

/// The high impact angle model: the critical area, the column of the class table and the flag, and what they are made of.
#[derive(Clone, Copy, Debug, PartialEq, Eq, Hash)]
pub struct HighAngle {
    /// The column of the class table, 1 to 5, from the high area, as on the [`Sheet`].
    pub column: u8,
    /// Whether the low area lies within the column before, so that the exact column may be that one.
    pub flag: bool,
    /// The frontal area in square millimetres: in straight lines between 100,000 at 1,000 mm, 500,000 at 3,000, 2,500,000 at 8,000,
    /// 12,500,000 at 20,000 and 25,000,000 at 40,000, rounded down.
    pub frontal_area: u64,
    /// The energy at terminal speed in joules, in air of 1.225 kg per cubic metre with a drag coefficient of 0.8.
    pub joules: Bracket,
    /// The safety factor in thousandths: 2,300 below 12,000 J, 7,000 above 3,125,000 J, between them 1,400 times the fifth root of
    /// the energy in kJ; each by its own joules.
    pub factor: Bracket,
    /// The critical area in square centimetres. The exact area, with the exact energy from this frontal area, lies in it; it is no
    /// wider than one part in 500 of the high area plus 2 square centimetres.
    pub area: Bracket,
}

/// A state of a fall.
#[derive(Clone, Copy, Debug, PartialEq)]
pub struct Fall {
    /// The horizontal speed in m/s.
    pub horizontal: f64,
    /// The downward speed in m/s.
    pub downward: f64,
    /// The distance fallen in m.
    pub fallen: f64,
}

/// The fall of an aircraft from its operating height to the ground.
#[derive(Clone, Copy, Debug, PartialEq)]
pub struct Descent {
    /// Whether the end state's angle is above 60 degrees: downward speed squared exceeds 3 times horizontal speed squared.
    pub above_60: bool,
    /// The number of states made after the first, 1 to the budget: the fall takes that many times 0.01 s.
    pub steps: u32,
    /// The first state whose distance fallen is at least the height.
    pub end: Fall,
}

/// What lies under the marked cells of a map.
#[derive(Clone, Copy, Debug, PartialEq, Eq, Hash)]
pub struct Footprint {
    /// The highest row of the class table of a marked cell, 2 (below 5 people per square kilometre) to 7 (50,000 and more).
    pub row: u8,
    /// The first marked cell with the largest count, [`MAP_COLUMNS`](crate::MAP_COLUMNS) × row + column.
    pub place: u32,
    /// The people in marked cells.
    pub people: u64,
    /// The number of marked cells.
    pub cells: u32,
}

/// What [`assess`](crate::assess) is asked: an aircraft over a map, whose counts and footprint are lent.
#[derive(Clone, Copy, Debug, PartialEq, Eq, Hash)]
pub struct Question<'a> {
    /// The aircraft.
    pub aircraft: Aircraft,
    /// [`MAP_CELLS`](crate::MAP_CELLS) head counts, 0 to 1,000,000 people each, else [`Refusal::BufferLength`] or
    /// [`Refusal::Count`].
    pub counts: &'a [u32],
    /// [`MAP_ROWS`](crate::MAP_ROWS) footprint rows with at least one marked cell, else [`Refusal::BufferLength`] or
    /// [`Refusal::NoCell`].
    pub marks: &'a [u64],
    /// The area of one cell in square metres: 100 to 25,000,000, else [`Refusal::CellArea`].
    pub cell_area: u32,
    /// Whether the ground is controlled, which puts row 1 of the class table in place of the footprint's.
    pub controlled: bool,
    /// The mitigation word, as [`final_class`](crate::final_class) takes it, else [`Refusal::Mitigation`].
    pub word: u16,
}

/// Sheet, footprint and both classes.
#[derive(Clone, Copy, Debug, PartialEq, Eq, Hash)]
pub struct Assessment {
    /// The aircraft's sheet.
    pub sheet: Sheet,
    /// The footprint on the map.
    pub footprint: Footprint,
    /// The row of the class table that was used: 1 on controlled ground, else the footprint's.
    pub row_used: u8,
    /// The intrinsic ground risk class, 1 to 10.
    pub intrinsic: u8,
    /// The final ground risk class after mitigation, -1 to 7.
    pub final_class: i8,
}

/// Line 1 of a case text as it stands there. The reading judges no ranges; [`assess`](CaseHead::assess) does.
#[derive(Clone, Copy, Debug, PartialEq, Eq, Hash)]
pub struct CaseHead {
    /// The aircraft.
    pub aircraft: Aircraft,
    /// The area of one cell in square metres.
    pub cell_area: u32,
    /// The controlled-ground mark: 1 on controlled ground, else 0. A text may have any other number here.
    pub controlled: u8,
    /// The mitigation word.
    pub word: u16,
}

/// The fields of a printed frame after its refusal, in its order; [`layout::FRAME`](crate::layout::FRAME) has their digits. Of a
/// number that has more digits than its field, the last digits are printed; no accepted case has one.
#[derive(Clone, Copy, Debug, PartialEq, Eq, Hash)]
pub struct FrameFields {
    /// The low critical area in square centimetres.
    pub low: u64,
    /// The high critical area in square centimetres.
    pub high: u64,
    /// The column of the class table.
    pub column: u8,
    /// The sheet's flag, printed 01 or 00.
    pub flag: bool,
    /// The sheet's size column; `None` is printed 00, and so is `Some(0)`, which no sheet has.
    pub size_column: Option<u8>,
    /// The row of the class table that was used.
    pub row_used: u8,
    /// The first marked cell with the largest count.
    pub place: u32,
    /// The people in marked cells.
    pub people: u64,
    /// The intrinsic ground risk class.
    pub intrinsic: u8,
    /// The final ground risk class; a negative one is printed ff.
    pub final_class: i8,
}

impl CaseHead {
    /// The controlled-ground mark as [`Question`] has it: 0 is false and 1 is true.
    ///
    /// # Errors
    ///
    /// [`Refusal::ClassInput`] where the mark is neither. [`case`](crate::case) and [`CaseHead::assess`] come to the mark after the
    /// aircraft and the map, so of a text with several faults they may name another one.
    ///
    /// # Examples
    ///
    /// ```
    /// use nuggetbay::{Aircraft, CaseHead, Refusal};
    ///
    /// let aircraft = Aircraft { dimension: 1_000, mass: 10_000, speed: 2_500 };
    /// let head = CaseHead { aircraft, cell_area: 10_000, controlled: 1, word: 0x1000 };
    /// assert_eq!(head.controlled_ground(), Ok(true));
    ///
    /// let head = CaseHead { controlled: 2, ..head };
    /// assert_eq!(head.controlled_ground(), Err(Refusal::ClassInput));
    /// ```
    pub fn controlled_ground(&self) -> Result<bool, Refusal> {
        match self.controlled {
            0 => Ok(false),
            1 => Ok(true),
            _ => Err(Refusal::ClassInput),
        }
    }
}

impl From<ffi::Bracket> for Bracket {
    fn from(bracket: ffi::Bracket) -> Bracket {
        Bracket { low: bracket.low, high: bracket.high }
    }
}

impl From<ffi::Sheet> for Sheet {
    fn from(sheet: ffi::Sheet) -> Sheet {
        Sheet {
            glide: sheet.glide.into(),
            run: sheet.run.into(),
            saving: sheet.saving.into(),
            slide: sheet.slide.into(),
            total: sheet.total.into(),
            area: sheet.area.into(),
            column: sheet.column,
            flag: sheet.flag != 0,
            size_column: Some(sheet.size_column).filter(|&column| column != 0),
        }
    }
}

impl From<ffi::HighAngle> for HighAngle {
    fn from(answer: ffi::HighAngle) -> HighAngle {
        let ffi::HighAngle { refusal: _, column, flag, frontal_area, joules, factor, area } = answer;
        HighAngle {
            column,
            flag: flag != 0,
            frontal_area,
            joules: joules.into(),
            factor: factor.into(),
            area: area.into(),
        }
    }
}

impl From<ffi::Fall> for Fall {
    fn from(fall: ffi::Fall) -> Fall {
        let ffi::Fall { horizontal, downward, fallen } = fall;
        Fall { horizontal, downward, fallen }
    }
}

impl From<ffi::Descent> for Descent {
    fn from(answer: ffi::Descent) -> Descent {
        let ffi::Descent { refusal: _, above_60, steps, end } = answer;
        Descent { above_60: above_60 != 0, steps, end: end.into() }
    }
}

impl From<ffi::Footprint> for Footprint {
    fn from(footprint: ffi::Footprint) -> Footprint {
        let ffi::Footprint { refusal: _, row, place, people, cells } = footprint;
        Footprint { row, place, people, cells }
    }
}

impl From<ffi::Assessment> for Assessment {
    fn from(assessment: ffi::Assessment) -> Assessment {
        Assessment {
            sheet: assessment.sheet.into(),
            footprint: assessment.footprint.into(),
            row_used: assessment.row_used,
            intrinsic: assessment.intrinsic,
            final_class: assessment.final_class,
        }
    }
}

impl From<ffi::CaseHead> for CaseHead {
    fn from(head: ffi::CaseHead) -> CaseHead {
        let ffi::CaseHead { dimension, mass, speed, cell_area, controlled, word } = head;
        CaseHead { aircraft: Aircraft { dimension, mass, speed }, cell_area, controlled, word }
    }
}

/// What is printed of an accepted case:
/// `write_frame(assess(question).map(|assessment| FrameFields::from(&assessment)), &mut frame)` prints a case, accepted or refused.
impl From<&Assessment> for FrameFields {
    fn from(assessment: &Assessment) -> FrameFields {
        let Assessment { sheet, footprint, row_used, intrinsic, final_class } = *assessment;
        FrameFields {
            low: sheet.area.low,
            high: sheet.area.high,
            column: sheet.column,
            flag: sheet.flag,
            size_column: sheet.size_column,
            row_used,
            place: footprint.place,
            people: footprint.people,
            intrinsic,
            final_class,
        }
    }
}

impl From<FrameFields> for ffi::FrameFields {
    fn from(fields: FrameFields) -> ffi::FrameFields {
        let FrameFields { low, high, column, flag, size_column, row_used, place, people, intrinsic, final_class } =
            fields;
        let (flag, size_column) = (u8::from(flag), size_column.unwrap_or(0));
        ffi::FrameFields { low, high, column, flag, size_column, row_used, place, people, intrinsic, final_class }
    }
}
