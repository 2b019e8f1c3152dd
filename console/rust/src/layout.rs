//! The lengths and places of a map, a case text and a printed frame.
//!
//! A map is 64 rows of 64 cells, row 0 north, column 0 west, row after row. A case text is line 1, then a line for each footprint
//! row, then a line for each map row, of its counts. All digits are lower-case hexadecimal, and each line ends with byte 10.
//!
//! # Examples
//!
//! The bit of a footprint row that marks a cell:
//!
//! ```
//! use nuggetbay::layout::{MAP_COLUMNS, MAP_ROWS};
//!
//! let mut marks = [0u64; MAP_ROWS];
//! let (row, column) = (21, 31);
//! marks[row] |= 1 << (MAP_COLUMNS - 1 - column);
//! assert_eq!(marks[21], 0x0000_0001_0000_0000);
//! ```

use std::ops::Range;

/// The rows of a map, and of a footprint.
pub const MAP_ROWS: usize = 64;
/// The columns of a map: the cell at row r and column c is number `MAP_COLUMNS` × r + c.
pub const MAP_COLUMNS: usize = 64;
/// The cells of a map.
pub const MAP_CELLS: usize = MAP_ROWS * MAP_COLUMNS;

/// A field of a line: its name and its digits.
pub type Field = (&'static str, usize);

/// The fields of line 1 of a case text, in order.
pub const LINE_1: [Field; 6] =
    [("dimension", 8), ("mass", 8), ("speed", 8), ("cell_area", 8), ("controlled", 2), ("word", 4)];
/// The digits of a footprint row, which has a line for itself.
pub const MARK_DIGITS: usize = 16;
/// The digits of a count; a line has those of a map row.
pub const COUNT_DIGITS: usize = 8;

/// The bytes of line 1, with its line end.
pub const LINE_1_LENGTH: usize = digits(&LINE_1) + 1;
/// The bytes of a footprint row's line, with its line end.
pub const MARK_LINE: usize = MARK_DIGITS + 1;
/// The bytes of a map row's line, with its line end.
pub const COUNT_LINE: usize = MAP_COLUMNS * COUNT_DIGITS + 1;

/// Where the footprint's lines start in a case text.
pub const MARKS: usize = LINE_1_LENGTH;
/// Where the counts' lines start in a case text.
pub const COUNTS: usize = MARKS + MAP_ROWS * MARK_LINE;
/// The bytes of a case text.
pub const TEXT_LENGTH: usize = COUNTS + MAP_ROWS * COUNT_LINE;

/// The fields of a printed frame, in order. A printed refusal has the first one only.
pub const FRAME: [Field; 11] = [
    ("refusal", 2),
    ("low", 8),
    ("high", 8),
    ("column", 2),
    ("flag", 2),
    ("size_column", 2),
    ("row_used", 2),
    ("place", 4),
    ("people", 8),
    ("intrinsic", 2),
    ("final_class", 2),
];
/// The bytes of a printed frame, with its line end, and the least length of a frame buffer.
pub const FRAME_LENGTH: usize = digits(&FRAME) + 1;
/// The bytes of a printed refusal, with its line end.
pub const REFUSAL_LENGTH: usize = FRAME[0].1 + 1;

/// The places of a field's digits in line 1 of a case text, by the names of [`LINE_1`]; `None` for any other name.
///
/// # Examples
///
/// ```
/// use nuggetbay::layout::line_1_place;
///
/// assert_eq!(line_1_place("mass"), Some(8..16));
/// assert_eq!(line_1_place("people"), None);
/// ```
#[must_use]
pub const fn line_1_place(name: &str) -> Option<Range<usize>> {
    place_of(&LINE_1, name)
}

/// The places of a field's digits in a printed frame, by the names of [`FRAME`]; `None` for any other name.
///
/// # Examples
///
/// ```
/// use nuggetbay::layout::frame_place;
///
/// let frame = b"000001bf3e0001bf3f020001050000000000080605\n";
/// assert_eq!(&frame[frame_place("people").unwrap()], b"00000008");
/// assert_eq!(frame_place("mass"), None);
/// ```
#[must_use]
pub const fn frame_place(name: &str) -> Option<Range<usize>> {
    place_of(&FRAME, name)
}

/// The digits of all fields.
const fn digits(fields: &[Field]) -> usize {
    let (mut sum, mut i) = (0, 0);
    while i < fields.len() {
        sum += fields[i].1;
        i += 1;
    }
    sum
}

const fn same(a: &str, b: &str) -> bool {
    let (a, b) = (a.as_bytes(), b.as_bytes());
    let mut i = 0;
    while i < a.len() && i < b.len() && a[i] == b[i] {
        i += 1;
    }
    i == a.len() && i == b.len()
}

const fn place_of(fields: &[Field], name: &str) -> Option<Range<usize>> {
    let (mut start, mut i) = (0, 0);
    while i < fields.len() {
        let (field, digits) = fields[i];
        if same(field, name) {
            return Some(start..start + digits);
        }
        start += digits;
        i += 1;
    }
    None
}
