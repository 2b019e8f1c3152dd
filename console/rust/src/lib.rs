//! Safe calls of the proved ground risk sheet (SORA 2.5): from an aircraft, a map of head counts and the flight's footprint
//! to the critical area, the intrinsic and the final ground risk class.
//!
//! ```
//! use nuggetbay::{sheet, Aircraft};
//!
//! fn main() {
//!     let aircraft = Aircraft { dimension: 1_000, mass: 10_000, speed: 2_500 }; // mm, g, cm/s
//!     match sheet(aircraft) {
//!         Ok(sheet) => println!("column {}{}", sheet.column, if sheet.flag { ", flagged" } else { "" }),
//!         Err(refusal) => println!("{refusal}"),
//!     }
//! }
//! ```
//!
//! Units: dimension in mm, mass in g, speed in cm/s, height in cm, cell area in square metres. A map is [`MAP_CELLS`] head counts,
//! 64 rows of 64 cells, row 0 north, column 0 west. A footprint is one number for each map row, [`MAP_ROWS`] of them; the highest
//! bit is the westernmost cell, and a set bit marks a cell as flown over.
//!
//! For every function here:
//!
//! - Every call is answered: what is out of range is refused ([`Refusal`]), no input makes a call panic, and slices of any length
//!   may be lent. Refusals are tested in the order in which they are listed at the function.
//! - Nothing is allocated, kept, locked or called back. Any number of threads may call at once. The stack must have room for the
//!   call: `include/nuggetbay.h` says how much each function needs, less than a thousand bytes.
//!
//! [`assess`] answers numbers for a map in memory. [`case`] reads a case text and prints a frame; [`read_case`] and [`write_frame`]
//! are its two ends. [`sheet`], [`footprint`], [`intrinsic_class`] and [`final_class`] are the steps of an assessment.
//! [`high_angle`] is the critical area by the EASA guideline's other model, for rotorcraft and multirotors that strike at
//! more than 60 degrees, which [`descent`] judges; no assessment takes either by itself. [`greatest_speed`] and [`greatest_mass`] are
//! the sheet asked the other way round: how fast or how heavy an aircraft may be for a column. `include/nuggetbay.h` says the same for
//! C, function by function.

#![deny(missing_docs)]
#![warn(clippy::missing_errors_doc, clippy::undocumented_unsafe_blocks)]

mod answers;
mod ffi;
pub mod layout;
mod refusal;

pub use answers::{
    Aircraft, Assessment, Bracket, CaseHead, Descent, Fall, Footprint, FrameFields, HighAngle, Question, Sheet,
};
pub use layout::{FRAME_LENGTH, MAP_CELLS, MAP_COLUMNS, MAP_ROWS, REFUSAL_LENGTH, TEXT_LENGTH};
pub use refusal::{NoSuchRefusal, Refusal};

/// Whether the library accepted, by the number that it gave.
fn accepted(number: u8) -> Result<(), Refusal> {
    match number {
        0 => Ok(()),
        _ => Err(Refusal::try_from(number).expect("the library gives no other number, which is proved")),
    }
}

/// The sheet of an aircraft.
///
/// # Errors
///
/// [`Refusal::Dimension`], [`Refusal::Mass`], [`Refusal::Speed`] where the aircraft is out of range, [`Refusal::Area`] where the
/// high critical area is above 650,000,000 square centimetres.
///
/// # Examples
///
/// ```
/// use nuggetbay::{sheet, Aircraft, Bracket, Refusal};
///
/// let aircraft = Aircraft { dimension: 1_000, mass: 10_000, speed: 2_500 };
/// let answer = sheet(aircraft)?;
/// assert_eq!(answer.area, Bracket { low: 114_494, high: 114_495 });
/// assert_eq!((answer.column, answer.flag, answer.size_column), (2, false, Some(1)));
///
/// assert_eq!(sheet(Aircraft { mass: 49, ..aircraft }), Err(Refusal::Mass));
/// # Ok::<(), Refusal>(())
/// ```
pub fn sheet(aircraft: Aircraft) -> Result<Sheet, Refusal> {
    let Aircraft { dimension, mass, speed } = aircraft;
    // SAFETY: numbers only.
    let answer = unsafe { ffi::nb_sheet(dimension, mass, speed) };
    accepted(answer.refusal)?;
    Ok(answer.sheet.into())
}

/// The critical area of an aircraft by the high impact angle model, chapter 5 of the EASA guideline: a circle of radius
/// D = 0.3 m + half the dimension, 3.14 × D², times a safety factor that comes from the energy of a fall at terminal speed.
///
/// The guideline has this model for rotorcraft and multirotors only, not for hybrids with wings, and only where the aircraft strikes
/// the ground at an angle above 60 degrees, falling from the lowest operating height at the greatest speed. [`descent`] judges the
/// angle; no function judges what kind of aircraft it is. Where one of them doesn't hold, the area is that of [`sheet`]. The speed is
/// judged for its range only: no figure depends on it.
///
/// # Errors
///
/// [`Refusal::Dimension`], [`Refusal::Mass`], [`Refusal::Speed`] where the aircraft is out of range, as [`sheet`];
/// [`Refusal::FrontalDimension`] where the dimension is outside 1,000 to 40,000 mm. [`Refusal::Area`] never occurs: no area of this
/// model is above the last limit.
///
/// # Examples
///
/// ```
/// use nuggetbay::{high_angle, sheet, Aircraft, Bracket, Refusal};
///
/// let aircraft = Aircraft { dimension: 1_100, mass: 15_000, speed: 2_500 };
/// let answer = high_angle(aircraft)?;
/// assert_eq!(answer.area, Bracket { low: 57_079, high: 57_102 });
/// assert_eq!((answer.column, answer.flag), (1, false));
/// assert_eq!(sheet(aircraft)?.column, 2);
///
/// assert_eq!(high_angle(Aircraft { dimension: 999, ..aircraft }), Err(Refusal::FrontalDimension));
/// # Ok::<(), Refusal>(())
/// ```
pub fn high_angle(aircraft: Aircraft) -> Result<HighAngle, Refusal> {
    let Aircraft { dimension, mass, speed } = aircraft;
    // SAFETY: numbers only.
    let answer = unsafe { ffi::nb_high_angle(dimension, mass, speed) };
    accepted(answer.refusal)?;
    Ok(answer.into())
}

/// The greatest height of a [`descent`] in cm.
pub const HEIGHT_MOST: u32 = 50_000;
/// The largest step budget of a [`descent`].
pub const BUDGET_MOST: u32 = 20_000;

/// The fall of an aircraft from its operating height to the ground, annex 1 of the EASA guideline, in steps of 0.01 s: gravity of
/// 9.81 m/s², and drag in air of 1.225 kg per cubic metre with a drag coefficient of 0.8 on the frontal area of [`high_angle`]. The
/// first state has the aircraft's speed, all of it horizontal.
///
/// The verdict, [`above_60`](Descent::above_60), is the guideline's condition for the high impact angle model where the height is the
/// lowest operating height and the speed the greatest one. That height is then a limitation in the operator's manual.
///
/// The height is in cm (1 to [`HEIGHT_MOST`]). The step budget is the most steps that may be made (1 to [`BUDGET_MOST`]). It bounds
/// the time of the call and changes no answer that is given: who has none in mind passes [`BUDGET_MOST`], which is a fall of 200 s.
///
/// Each operation is one of IEEE binary64, rounded to nearest, in the order that document 02 says and none fused with another, so
/// that an answer is the same bits on every machine that computes so.
///
/// # Errors
///
/// [`Refusal::Dimension`], [`Refusal::Mass`], [`Refusal::Speed`], [`Refusal::FrontalDimension`] as [`high_angle`];
/// [`Refusal::HeightOrBudget`] where the height or the budget is out of range; then at each new state [`Refusal::NegativeSpeed`],
/// where a speed is negative, before it is held to the height; [`Refusal::BudgetSpent`] where the state after the whole budget is
/// still short of the height.
///
/// # Examples
///
/// ```
/// use nuggetbay::{descent, Aircraft, Refusal, BUDGET_MOST};
///
/// let aircraft = Aircraft { dimension: 1_100, mass: 15_000, speed: 2_500 };
/// let answer = descent(aircraft, 5_740, BUDGET_MOST)?; // from 57.40 m
/// assert_eq!((answer.above_60, answer.steps), (true, 365));
/// assert!(answer.end.fallen >= 57.40);
///
/// assert!(!descent(aircraft, 5_739, BUDGET_MOST)?.above_60);
/// assert_eq!(descent(aircraft, 5_740, 364), Err(Refusal::BudgetSpent));
/// # Ok::<(), Refusal>(())
/// ```
pub fn descent(aircraft: Aircraft, height: u32, budget: u32) -> Result<Descent, Refusal> {
    let Aircraft { dimension, mass, speed } = aircraft;
    // SAFETY: numbers only.
    let answer = unsafe { ffi::nb_descent(dimension, mass, speed, height, budget) };
    accepted(answer.refusal)?;
    Ok(answer.into())
}

/// The greatest speed in cm/s (0 to 40,000) with which the [`sheet`] of an aircraft of this dimension and mass is accepted with a
/// column at most the wanted one (1 to 5): the trade-off that Annex F, section 1.7.4, makes by tables, made for one aircraft.
///
/// Every lower speed passes too, and no higher one does: an upper limit for the operator's manual. The column is that of the sheet's
/// glide model, from the high area; the model of [`high_angle`] has no part in it. Where the area has no slide, below 1,000 mm, it
/// depends on neither speed nor mass, and for every column the answer is 40,000, the greatest in range.
///
/// # Errors
///
/// [`Refusal::Dimension`], [`Refusal::Mass`] as [`sheet`]; [`Refusal::WantedColumn`] where the column is outside 1 to 5;
/// [`Refusal::NoneForColumn`] exactly where no speed in range passes, which is where 0 doesn't.
///
/// # Examples
///
/// ```
/// use nuggetbay::{greatest_speed, sheet, Aircraft, Refusal};
///
/// let (dimension, mass) = (3_000, 25_000);
/// let speed = greatest_speed(dimension, mass, 2)?;
/// assert_eq!(speed, 3_692);
/// assert_eq!(sheet(Aircraft { dimension, mass, speed })?.column, 2);
/// assert_eq!(sheet(Aircraft { dimension, mass, speed: speed + 1 })?.column, 3);
///
/// assert_eq!(greatest_speed(dimension, mass, 1), Err(Refusal::NoneForColumn));
/// # Ok::<(), Refusal>(())
/// ```
pub fn greatest_speed(dimension: u32, mass: u32, column: u8) -> Result<u32, Refusal> {
    // SAFETY: numbers only.
    let answer = unsafe { ffi::nb_greatest_speed(dimension, mass, column) };
    accepted(answer.refusal)?;
    Ok(answer.speed)
}

/// The greatest mass in g (50 to 25,000,000) with which the [`sheet`] of an aircraft of this dimension and speed is accepted with a
/// column at most the wanted one (1 to 5). All else is as with [`greatest_speed`]: every lower mass in range passes too, and where the
/// area has no slide, below 1,000 mm, the answer is 25,000,000, the greatest in range.
///
/// # Errors
///
/// [`Refusal::Dimension`], [`Refusal::Speed`] as [`sheet`]; [`Refusal::WantedColumn`] where the column is outside 1 to 5;
/// [`Refusal::NoneForColumn`] exactly where no mass in range passes, which is where 50 g don't.
///
/// # Examples
///
/// ```
/// use nuggetbay::{greatest_mass, sheet, Aircraft, Refusal};
///
/// let (dimension, speed) = (3_000, 5_000);
/// let mass = greatest_mass(dimension, speed, 2)?;
/// assert_eq!(mass, 1_679);
/// assert_eq!(sheet(Aircraft { dimension, mass, speed })?.column, 2);
/// assert_eq!(sheet(Aircraft { dimension, mass: mass + 1, speed })?.column, 3);
///
/// assert_eq!(greatest_mass(dimension, speed, 6), Err(Refusal::WantedColumn));
/// # Ok::<(), Refusal>(())
/// ```
pub fn greatest_mass(dimension: u32, speed: u32, column: u8) -> Result<u32, Refusal> {
    // SAFETY: numbers only.
    let answer = unsafe { ffi::nb_greatest_mass(dimension, speed, column) };
    accepted(answer.refusal)?;
    Ok(answer.mass)
}

/// The footprint on a map: [`MAP_CELLS`] counts (0 to 1,000,000 people each), [`MAP_ROWS`] footprint rows, and the area of one
/// cell in square metres (100 to 25,000,000).
///
/// # Errors
///
/// [`Refusal::BufferLength`] where a slice has another length, [`Refusal::CellArea`], [`Refusal::Count`] where a count, also of a
/// cell without a mark, is out of range, [`Refusal::NoCell`] where no cell is marked.
///
/// # Examples
///
/// ```
/// use nuggetbay::{footprint, Footprint, Refusal, MAP_CELLS, MAP_ROWS};
///
/// let (mut counts, mut marks) = ([0; MAP_CELLS], [0; MAP_ROWS]);
/// counts[0] = 8; // the north-western cell
/// marks[0] = 1 << 63;
/// assert_eq!(footprint(&counts, &marks, 10_000), Ok(Footprint { row: 5, place: 0, people: 8, cells: 1 }));
///
/// marks[0] = 0;
/// assert_eq!(footprint(&counts, &marks, 10_000), Err(Refusal::NoCell));
/// ```
pub fn footprint(counts: &[u32], marks: &[u64], cell_area: u32) -> Result<Footprint, Refusal> {
    // SAFETY: both slices are valid for their lengths and are only read.
    let answer = unsafe { ffi::nb_footprint(counts.as_ptr(), counts.len(), marks.as_ptr(), marks.len(), cell_area) };
    accepted(answer.refusal)?;
    Ok(answer.into())
}

/// The intrinsic ground risk class, 1 to 10: column (1 to 5), which is the sheet's [`column`](Sheet::column) and not its size
/// column, and row (2 to 7) of the footprint. Controlled ground puts row 1 in place of the row.
///
/// # Errors
///
/// [`Refusal::ClassInput`] where column or row is out of range, [`Refusal::NoClass`] where the class table has no class there.
///
/// # Examples
///
/// ```
/// use nuggetbay::{intrinsic_class, Refusal};
///
/// assert_eq!(intrinsic_class(3, 4, false), Ok(6));
/// assert_eq!(intrinsic_class(3, 4, true), Ok(2));
/// assert_eq!(intrinsic_class(3, 7, false), Err(Refusal::NoClass));
/// ```
pub fn intrinsic_class(column: u8, row: u8, controlled: bool) -> Result<u8, Refusal> {
    // SAFETY: numbers only.
    let answer = unsafe { ffi::nb_intrinsic_class(column, row, controlled.into()) };
    accepted(answer.refusal)?;
    Ok(answer.class)
}

/// The final ground risk class after mitigation, -1 to 7: column (1 to 5, the sheet's [`column`](Sheet::column)), intrinsic class
/// (an entry of that column) and the mitigation word.
///
/// The four hexadecimal digits of the word are M1(A), M1(B), M1(C), M2, with 0 none, 1 low, 2 medium, 3 high: 0x2212 is M1(A)
/// medium, M1(B) medium, M1(C) low, M2 medium. Offered are M1(A) 0 to 2, M1(B) 0, 2, 3, M1(C) 0, 1, M2 0, 2, 3.
///
/// # Errors
///
/// [`Refusal::ClassInput`] where column or class is out of range, [`Refusal::Mitigation`] where a digit isn't offered,
/// [`Refusal::FinalClass`] where the final class is above 7.
///
/// # Examples
///
/// ```
/// use nuggetbay::{final_class, Refusal};
///
/// assert_eq!(final_class(3, 6, 0x2212), Ok(1));
/// assert_eq!(final_class(1, 1, 0x0003), Ok(-1));
/// assert_eq!(final_class(3, 6, 0x4000), Err(Refusal::Mitigation));
/// ```
pub fn final_class(column: u8, class: u8, word: u16) -> Result<i8, Refusal> {
    // SAFETY: numbers only.
    let answer = unsafe { ffi::nb_final_class(column, class, word) };
    accepted(answer.refusal)?;
    Ok(answer.class)
}

/// Sheet, footprint and both classes over a map.
///
/// # Errors
///
/// Those of [`sheet`] first, then those of [`footprint`], [`intrinsic_class`] and [`final_class`].
///
/// # Examples
///
/// ```
/// use nuggetbay::{assess, Aircraft, Question, Refusal, MAP_CELLS, MAP_ROWS};
///
/// let (mut counts, mut marks) = ([0; MAP_CELLS], [0; MAP_ROWS]);
/// counts[0] = 8;
/// marks[0] = 1 << 63;
/// let question = Question {
///     aircraft: Aircraft { dimension: 1_000, mass: 10_000, speed: 2_500 },
///     counts: &counts,
///     marks: &marks,
///     cell_area: 10_000,
///     controlled: false,
///     word: 0x1000,
/// };
/// let assessment = assess(question)?;
/// assert_eq!((assessment.row_used, assessment.intrinsic, assessment.final_class), (5, 6, 5));
///
/// assert_eq!(assess(Question { cell_area: 99, ..question }), Err(Refusal::CellArea));
/// # Ok::<(), Refusal>(())
/// ```
pub fn assess(question: Question<'_>) -> Result<Assessment, Refusal> {
    let Question { aircraft, counts, marks, cell_area, controlled, word } = question;
    let head = CaseHead { aircraft, cell_area, controlled: controlled.into(), word };
    head.assess(counts, marks)
}

impl CaseHead {
    /// Sheet, footprint and both classes of the case that was read, over the counts and the footprint that were read with it.
    ///
    /// # Errors
    ///
    /// Those of [`assess`], and [`Refusal::ClassInput`] where the mark is neither 0 nor 1, tested after the footprint. Of one text
    /// [`read_case`] and this give the refusals of [`case`].
    ///
    /// # Examples
    ///
    /// ```
    /// use nuggetbay::{Aircraft, CaseHead, Refusal, MAP_CELLS, MAP_ROWS};
    ///
    /// let aircraft = Aircraft { dimension: 1_000, mass: 10_000, speed: 2_500 };
    /// let head = CaseHead { aircraft, cell_area: 10_000, controlled: 1, word: 0 };
    /// let (counts, marks) = ([8; MAP_CELLS], [u64::MAX; MAP_ROWS]);
    /// assert_eq!(head.assess(&counts, &marks)?.row_used, 1);
    ///
    /// let head = CaseHead { controlled: 2, ..head };
    /// assert_eq!(head.assess(&counts, &marks), Err(Refusal::ClassInput));
    /// # Ok::<(), Refusal>(())
    /// ```
    pub fn assess(&self, counts: &[u32], marks: &[u64]) -> Result<Assessment, Refusal> {
        let CaseHead { aircraft: Aircraft { dimension, mass, speed }, cell_area, controlled, word } = *self;
        let ((counts, counts_len), (marks, marks_len)) =
            ((counts.as_ptr(), counts.len()), (marks.as_ptr(), marks.len()));
        // SAFETY: both slices are valid for their lengths and are only read.
        let answer = unsafe {
            ffi::nb_assess(dimension, mass, speed, counts, counts_len, marks, marks_len, cell_area, controlled, word)
        };
        accepted(answer.refusal)?;
        Ok(answer.into())
    }
}

/// Reads a case text ([`TEXT_LENGTH`] bytes) into [`MAP_CELLS`] counts and [`MAP_ROWS`] footprint rows, and answers its line 1.
/// Where the reading is refused, both slices keep their content.
///
/// # Errors
///
/// [`Refusal::TextLength`], [`Refusal::BufferLength`] where a slice has another length, [`Refusal::TextByte`] where a byte is no
/// lower-case hexadecimal digit, or no line end where a line ends. Ranges aren't judged.
///
/// # Examples
///
/// ```
/// use nuggetbay::{read_case, Refusal, MAP_CELLS, MAP_ROWS};
///
/// // 1,000 mm, 10,000 g, 2,500 cm/s, cells of 10,000 square metres, no controlled ground, M1(A) low
/// let mut text = String::from("000003e800002710000009c400002710001000\n");
/// // a mark and eight people in the north-western cell
/// text += &format!("{:0<16}\n{}", "8", format!("{:0<16}\n", "").repeat(63));
/// text += &format!("{:0<512}\n{}", "00000008", format!("{:0<512}\n", "").repeat(63));
///
/// let (mut counts, mut marks) = ([0; MAP_CELLS], [0; MAP_ROWS]);
/// let head = read_case(text.as_bytes(), &mut counts, &mut marks)?;
/// assert_eq!((head.aircraft.dimension, head.word), (1_000, 0x1000));
/// assert_eq!((counts[0], marks[0]), (8, 1 << 63));
///
/// let assessment = head.assess(&counts, &marks)?;
/// assert_eq!((assessment.intrinsic, assessment.final_class), (6, 5));
///
/// let capital = text.to_uppercase();
/// assert_eq!(read_case(capital.as_bytes(), &mut counts, &mut marks), Err(Refusal::TextByte));
/// # Ok::<(), Refusal>(())
/// ```
pub fn read_case(text: &[u8], counts: &mut [u32], marks: &mut [u64]) -> Result<CaseHead, Refusal> {
    // SAFETY: the slices are valid for their lengths and don't overlap.
    let answer = unsafe {
        ffi::nb_read_case(text.as_ptr(), text.len(), counts.as_mut_ptr(), counts.len(), marks.as_mut_ptr(), marks.len())
    };
    accepted(answer.refusal)?;
    Ok(answer.head.into())
}

/// Writes what is printed of an accepted case ([`FRAME_LENGTH`] bytes) or of a refused one ([`REFUSAL_LENGTH`] bytes) at the start
/// of the slice, and answers how many bytes that are. The bytes after the last one written keep their content. An [`Assessment`] has
/// its fields by `FrameFields::from(&assessment)`.
///
/// # Errors
///
/// [`Refusal::FrameLength`] where the slice has less than [`FRAME_LENGTH`] bytes, for refused cases too. Then nothing is written.
///
/// # Examples
///
/// ```
/// use nuggetbay::{write_frame, FrameFields, Refusal, FRAME_LENGTH};
///
/// let mut frame = [0; FRAME_LENGTH];
/// let fields = FrameFields {
///     low: 114_494,
///     high: 114_495,
///     column: 2,
///     flag: false,
///     size_column: Some(1),
///     row_used: 5,
///     place: 0,
///     people: 8,
///     intrinsic: 6,
///     final_class: 5,
/// };
/// let length = write_frame(Ok(fields), &mut frame)?;
/// assert_eq!(&frame[..length], b"000001bf3e0001bf3f020001050000000000080605\n");
///
/// let length = write_frame(Err(Refusal::FinalClass), &mut frame)?;
/// assert_eq!(&frame[..length], b"0c\n");
///
/// assert_eq!(write_frame(Ok(fields), &mut frame[1..]), Err(Refusal::FrameLength));
/// # Ok::<(), Refusal>(())
/// ```
pub fn write_frame(case: Result<FrameFields, Refusal>, frame: &mut [u8]) -> Result<usize, Refusal> {
    let (number, fields, length) = match case {
        Ok(fields) => (0, fields.into(), FRAME_LENGTH),
        Err(refusal) => (refusal.number(), ffi::FrameFields::default(), REFUSAL_LENGTH),
    };
    // SAFETY: the slice is valid for its length.
    accepted(unsafe { ffi::nb_write_frame(number, fields, frame.as_mut_ptr(), frame.len()) })?;
    Ok(length)
}

/// The whole case: reads the text, assesses it, and prints the frame.
///
/// Counts and marks are filled where the reading succeeds, also when a later refusal is printed, and keep their content where it
/// doesn't. Of the frame the first [`FRAME_LENGTH`] bytes are written, or the first [`REFUSAL_LENGTH`] where the case is refused.
/// Under [`Refusal::FrameLength`] all three slices keep their content.
///
/// # Errors
///
/// [`Refusal::FrameLength`] where the frame has less than [`FRAME_LENGTH`] bytes, then those of [`read_case`], then those of
/// [`CaseHead::assess`].
///
/// # Examples
///
/// ```
/// use nuggetbay::{case, Refusal, FRAME_LENGTH, MAP_CELLS, MAP_ROWS, REFUSAL_LENGTH};
///
/// let mut text = String::from("000003e800002710000009c400002710001000\n");
/// text += &format!("{:0<16}\n{}", "8", format!("{:0<16}\n", "").repeat(63));
/// text += &format!("{:0<512}\n{}", "00000008", format!("{:0<512}\n", "").repeat(63));
///
/// let (mut counts, mut marks, mut frame) = ([0; MAP_CELLS], [0; MAP_ROWS], [0; FRAME_LENGTH]);
/// case(text.as_bytes(), &mut counts, &mut marks, &mut frame)?;
/// assert_eq!(&frame, b"000001bf3e0001bf3f020001050000000000080605\n");
///
/// text.pop();
/// let refused = case(text.as_bytes(), &mut counts, &mut marks, &mut frame);
/// assert_eq!(refused, Err(Refusal::TextLength));
/// assert_eq!(&frame[..REFUSAL_LENGTH], b"0d\n");
/// # Ok::<(), Refusal>(())
/// ```
pub fn case(text: &[u8], counts: &mut [u32], marks: &mut [u64], frame: &mut [u8]) -> Result<(), Refusal> {
    // SAFETY: the slices are valid for their lengths and don't overlap.
    accepted(unsafe {
        ffi::nb_case(
            text.as_ptr(),
            text.len(),
            counts.as_mut_ptr(),
            counts.len(),
            marks.as_mut_ptr(),
            marks.len(),
            frame.as_mut_ptr(),
            frame.len(),
        )
    })
}
