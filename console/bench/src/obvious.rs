//! The operations as one would write them first: match, early exits, Option and Result, u128 where a product might be long, a root
//! by powf that is then made right, a greatest number by bisection over whole sheets.

use crate::ffi::{Bracket, CaseHead, Descent, Fall, Footprint, FrameFields, HighAngle, Sheet};
use nuggetbay::layout::{line_1_place, COUNT_DIGITS, LINE_1_LENGTH, MARK_DIGITS};
use nuggetbay::layout::{FRAME_LENGTH, MAP_CELLS, MAP_COLUMNS, MAP_ROWS, TEXT_LENGTH};
use std::io::Write;

pub const LIMITS: [u64; 5] = [65_000, 650_000, 6_500_000, 65_000_000, 650_000_000];
/// The dimension and the speed of each size column.
pub const SIZES: [(u32, u32); 5] = [(1_000, 2_500), (3_000, 3_500), (8_000, 7_500), (20_000, 12_000), (40_000, 20_000)];

/// A quotient rounded up, as `div_ceil` of Rust 1.73 gives it.
macro_rules! rounded_up {
    ($number:expr, $by:expr) => {{
        let (number, by) = ($number, $by);
        if number % by > 0 {
            number / by + 1
        } else {
            number / by
        }
    }};
}

#[inline(never)]
pub fn sheet(dimension: u32, mass: u32, speed: u32) -> Result<Sheet, u8> {
    if !(50..=100_000).contains(&dimension) {
        return Err(1);
    }
    if !(50..=25_000_000).contains(&mass) {
        return Err(2);
    }
    if speed > 40_000 {
        return Err(3);
    }
    let glide = Bracket { low: 2_570_666, high: 2_570_667 };
    let square = u128::from(speed) * u128::from(speed);
    let run = Bracket {
        low: (square * 1_926_617_433 / 1_000_000_000) as u64,
        high: rounded_up!(square * 1_926_617_434, 1_000_000_000) as u64,
    };
    let mass = u64::from(mass);
    let saving = Bracket { low: 39_415_562_351 / mass, high: rounded_up!(39_415_562_352, mass) };
    let slide = Bracket { low: run.low.saturating_sub(saving.high), high: run.high.saturating_sub(saving.low) };
    let a = u64::from(dimension) + 600;
    let total_at = |glide: u64, slide: u64| a * (glide + slide) + 785 * a * a;
    let total = Bracket { low: total_at(glide.low, slide.low), high: total_at(glide.high, slide.high) };
    let area = if dimension >= 8_000 {
        Bracket { low: total.low / 100_000, high: rounded_up!(total.high, 100_000) }
    } else if dimension >= 1_000 {
        Bracket { low: 3 * total.low / 500_000, high: rounded_up!(3 * total.high, 500_000) }
    } else {
        let without_slide = |glide: u64| 2 * a * glide + 785 * a * a;
        Bracket { low: without_slide(glide.low) / 200_000, high: rounded_up!(without_slide(glide.high), 200_000) }
    };
    let column = LIMITS.iter().position(|&limit| limit >= area.high).ok_or(4)?;
    let flag = column > 0 && area.low <= LIMITS[column - 1];
    let size_column = SIZES.iter().position(|&(largest, fastest)| largest >= dimension && fastest >= speed);
    Ok(Sheet {
        glide,
        run,
        saving,
        slide,
        total,
        area,
        column: column as u8 + 1,
        flag: u8::from(flag),
        size_column: size_column.map_or(0, |before| before as u8 + 1),
    })
}

/// The dimensions and the frontal areas between which there are straight lines.
pub const FRONTAL_AREAS: [(u32, u32); 5] =
    [(1_000, 100_000), (3_000, 500_000), (8_000, 2_500_000), (20_000, 12_500_000), (40_000, 25_000_000)];

pub fn frontal_area(dimension: u32) -> Option<u64> {
    FRONTAL_AREAS.windows(2).find_map(|line| {
        let ((first, low), (last, high)) = (line[0], line[1]);
        if !(first..=last).contains(&dimension) {
            return None;
        }
        Some(u64::from(low) + u64::from(high - low) * u64::from(dimension - first) / u64::from(last - first))
    })
}

/// The largest number whose fifth power is at most this one. powf is near it, and not always right.
fn fifth_root(number: u128) -> u128 {
    let mut root = (number as f64).powf(0.2) as u128;
    while root.pow(5) > number {
        root -= 1;
    }
    while (root + 1).pow(5) <= number {
        root += 1;
    }
    root
}

fn factor(joules: u64, up: bool) -> u64 {
    match joules {
        0..=11_999 => 2_300,
        12_000..=3_125_000 => {
            let power = 5_378_240_000_000 * u128::from(joules);
            let root = fifth_root(power);
            (root + u128::from(up && root.pow(5) < power)) as u64
        }
        _ => 7_000,
    }
}

#[inline(never)]
pub fn high_angle(dimension: u32, mass: u32, speed: u32) -> Result<HighAngle, u8> {
    if !(50..=100_000).contains(&dimension) {
        return Err(1);
    }
    if !(50..=25_000_000).contains(&mass) {
        return Err(2);
    }
    if speed > 40_000 {
        return Err(3);
    }
    let frontal_area = frontal_area(dimension).ok_or(16)?;
    // in g and square millimetres, 9.81 / (1.225 × 0.8) as 981 / 98
    let energy = u128::from(mass) * u128::from(mass) * 981;
    let by = 98 * u128::from(frontal_area);
    let joules = Bracket { low: (energy / by) as u64, high: rounded_up!(energy, by) as u64 };
    let factor = Bracket { low: factor(joules.low, false), high: factor(joules.high, true) };
    let a = u64::from(dimension) + 600;
    let area_at = |factor: u64| 157 * a * a * factor;
    let area = Bracket { low: area_at(factor.low) / 20_000_000, high: rounded_up!(area_at(factor.high), 20_000_000) };
    let column = LIMITS.iter().position(|&limit| limit >= area.high).ok_or(4)?;
    let flag = column > 0 && area.low <= LIMITS[column - 1];
    Ok(HighAngle { refusal: 0, column: column as u8 + 1, flag: u8::from(flag), frontal_area, joules, factor, area })
}

/// The root of the sum of the squares, by six rounds.
fn speed_of(fall: Fall) -> f64 {
    if fall.horizontal == 0.0 && fall.downward == 0.0 {
        return 0.0;
    }
    let sum = fall.horizontal * fall.horizontal + fall.downward * fall.downward;
    (0..6).fold(fall.horizontal + fall.downward, |guess, _| (guess + sum / guess) * 0.5)
}

/// The state 0.01 s later.
fn step(fall: Fall, area: f64, mass: f64) -> Fall {
    let drag = 0.5 * 1.225 * area * 0.8 * speed_of(fall);
    let slowing = |speed: f64| drag * speed / mass;
    let horizontal = fall.horizontal - slowing(fall.horizontal) * 0.01;
    let downward = fall.downward + (9.81 - slowing(fall.downward)) * 0.01;
    Fall { horizontal, downward, fallen: fall.fallen + 0.5 * (fall.downward + downward) * 0.01 }
}

#[inline(never)]
pub fn descent(dimension: u32, mass: u32, speed: u32, height: u32, budget: u32) -> Result<Descent, u8> {
    if !(50..=100_000).contains(&dimension) {
        return Err(1);
    }
    if !(50..=25_000_000).contains(&mass) {
        return Err(2);
    }
    if speed > 40_000 {
        return Err(3);
    }
    let frontal_area = frontal_area(dimension).ok_or(16)?;
    if !(1..=50_000).contains(&height) || !(1..=20_000).contains(&budget) {
        return Err(17);
    }
    let area = frontal_area as f64 / 1_000_000.0;
    let mass = f64::from(mass) / 1_000.0;
    let height = f64::from(height) / 100.0;
    let mut fall = Fall { horizontal: f64::from(speed) / 100.0, downward: 0.0, fallen: 0.0 };
    for steps in 1..=budget {
        fall = step(fall, area, mass);
        if fall.horizontal < 0.0 || fall.downward < 0.0 {
            return Err(19);
        }
        if fall.fallen >= height {
            let above_60 = fall.downward * fall.downward > 3.0 * (fall.horizontal * fall.horizontal);
            return Ok(Descent { refusal: 0, above_60: u8::from(above_60), steps, end: fall });
        }
    }
    Err(18)
}

/// Whether the sheet is accepted with a column at most this one.
fn passes(dimension: u32, mass: u32, speed: u32, column: u8) -> bool {
    sheet(dimension, mass, speed).map_or(false, |sheet| sheet.column <= column)
}

/// The greatest number of a range that passes, where none passes above one that doesn't. By bisection: what one might write first, a
/// walk down from the top, would make up to 25,000,000 sheets a call.
fn greatest(least: u32, most: u32, passes: impl Fn(u32) -> bool) -> Option<u32> {
    if !passes(least) {
        return None;
    }
    let (mut low, mut high) = (least, most + 1);
    while high - low > 1 {
        let middle = (low + high) / 2;
        if passes(middle) {
            low = middle;
        } else {
            high = middle;
        }
    }
    Some(low)
}

#[inline(never)]
pub fn greatest_speed(dimension: u32, mass: u32, column: u8) -> Result<u32, u8> {
    if !(50..=100_000).contains(&dimension) {
        return Err(1);
    }
    if !(50..=25_000_000).contains(&mass) {
        return Err(2);
    }
    if !(1..=5).contains(&column) {
        return Err(20);
    }
    greatest(0, 40_000, |speed| passes(dimension, mass, speed, column)).ok_or(21)
}

#[inline(never)]
pub fn greatest_mass(dimension: u32, speed: u32, column: u8) -> Result<u32, u8> {
    if !(50..=100_000).contains(&dimension) {
        return Err(1);
    }
    if speed > 40_000 {
        return Err(3);
    }
    if !(1..=5).contains(&column) {
        return Err(20);
    }
    greatest(50, 25_000_000, |mass| passes(dimension, mass, speed, column)).ok_or(21)
}

fn table_row(people: u32, cell_area: u32) -> u8 {
    let people = u64::from(people) * 1_000_000;
    let area = u64::from(cell_area);
    match () {
        _ if people < 5 * area => 2,
        _ if people < 50 * area => 3,
        _ if people < 500 * area => 4,
        _ if people < 5_000 * area => 5,
        _ if people < 50_000 * area => 6,
        _ => 7,
    }
}

#[inline(never)]
pub fn footprint(counts: &[u32], marks: &[u64], cell_area: u32) -> Result<Footprint, u8> {
    if counts.len() != MAP_CELLS || marks.len() != MAP_ROWS {
        return Err(5);
    }
    if !(100..=25_000_000).contains(&cell_area) {
        return Err(6);
    }
    if counts.iter().any(|&count| count > 1_000_000) {
        return Err(7);
    }
    let mut worst: Option<(u32, u32)> = None;
    let mut answer = Footprint::default();
    for (r, &bits) in marks.iter().enumerate() {
        for c in 0..MAP_COLUMNS {
            if (bits >> (MAP_COLUMNS - 1 - c)) & 1 == 0 {
                continue;
            }
            let place = MAP_COLUMNS * r + c;
            let people = counts[place];
            answer.row = answer.row.max(table_row(people, cell_area));
            answer.people += u64::from(people);
            answer.cells += 1;
            match worst {
                Some((most, _)) if people <= most => {}
                _ => worst = Some((people, place as u32)),
            }
        }
    }
    let (_, place) = worst.ok_or(8)?;
    answer.place = place;
    Ok(answer)
}

const CLASSES: [[Option<u8>; 5]; 7] = [
    [Some(1), Some(1), Some(2), Some(3), Some(3)],
    [Some(2), Some(3), Some(4), Some(5), Some(6)],
    [Some(3), Some(4), Some(5), Some(6), Some(7)],
    [Some(4), Some(5), Some(6), Some(7), Some(8)],
    [Some(5), Some(6), Some(7), Some(8), Some(9)],
    [Some(6), Some(7), Some(8), Some(9), Some(10)],
    [Some(7), Some(8), None, None, None],
];

fn intrinsic_class(column: u8, row: u8, controlled: u8) -> Result<u8, u8> {
    if !(1..=5).contains(&column) || !(2..=7).contains(&row) || controlled > 1 {
        return Err(9);
    }
    let row = if controlled == 1 { 1 } else { row };
    CLASSES[usize::from(row) - 1][usize::from(column) - 1].ok_or(10)
}

fn credit(which: usize, digit: u16) -> Option<i8> {
    match (which, digit) {
        (_, 0) => Some(0),
        (0, 1) => Some(1),
        (0, 2) => Some(2),
        (1, 2) => Some(1),
        (1, 3) => Some(2),
        (2, 1) => Some(1),
        (3, 2) => Some(1),
        (3, 3) => Some(2),
        _ => None,
    }
}

fn final_class(column: u8, class: u8, word: u16) -> Result<i8, u8> {
    if !(1..=5).contains(&column) {
        return Err(9);
    }
    let column = usize::from(column) - 1;
    if !CLASSES.iter().any(|row| row[column] == Some(class)) {
        return Err(9);
    }
    let mut credits = [0i8; 4];
    for (which, credit_of_digit) in credits.iter_mut().enumerate() {
        *credit_of_digit = credit(which, (word >> (12 - 4 * which)) & 15).ok_or(11)?;
    }
    let floor = CLASSES[0][column].unwrap_or(0) as i8;
    let last = (class as i8 - credits[0] - credits[1] - credits[2]).max(floor) - credits[3];
    if last > 7 {
        return Err(12);
    }
    Ok(last)
}

fn digit(byte: u8) -> Option<u64> {
    match byte {
        b'0'..=b'9' => Some(u64::from(byte - b'0')),
        b'a'..=b'f' => Some(u64::from(byte - b'a' + 10)),
        _ => None,
    }
}

fn number(digits: &[u8]) -> Option<u64> {
    let mut value = 0;
    for &byte in digits {
        value = value * 16 + digit(byte)?;
    }
    Some(value)
}

/// Everything is read into locals first, since a refused reading changes neither buffer.
fn parse(text: &[u8], counts: &mut [u32], marks: &mut [u64]) -> Option<CaseHead> {
    let mut lines = text.split(|&byte| byte == b'\n');
    let first = lines.next().filter(|line| line.len() + 1 == LINE_1_LENGTH)?;
    let field = |name| number(&first[line_1_place(name)?]);
    let head = CaseHead {
        dimension: field("dimension")? as u32,
        mass: field("mass")? as u32,
        speed: field("speed")? as u32,
        cell_area: field("cell_area")? as u32,
        controlled: field("controlled")? as u8,
        word: field("word")? as u16,
    };
    let mut read_marks = [0u64; MAP_ROWS];
    for mark in read_marks.iter_mut() {
        let line = lines.next().filter(|line| line.len() == MARK_DIGITS)?;
        *mark = number(line)?;
    }
    let mut read_counts = [0u32; MAP_CELLS];
    for row in read_counts.chunks_mut(MAP_COLUMNS) {
        let line = lines.next().filter(|line| line.len() == MAP_COLUMNS * COUNT_DIGITS)?;
        for (count, digits) in row.iter_mut().zip(line.chunks(COUNT_DIGITS)) {
            *count = number(digits)? as u32;
        }
    }
    lines.next().filter(|rest| rest.is_empty())?;
    counts.copy_from_slice(&read_counts);
    marks.copy_from_slice(&read_marks);
    Some(head)
}

#[inline(never)]
pub fn read_case(text: &[u8], counts: &mut [u32], marks: &mut [u64]) -> Result<CaseHead, u8> {
    if text.len() != TEXT_LENGTH {
        return Err(13);
    }
    if counts.len() != MAP_CELLS || marks.len() != MAP_ROWS {
        return Err(5);
    }
    parse(text, counts, marks).ok_or(14)
}

fn working(text: &[u8], counts: &mut [u32], marks: &mut [u64]) -> Result<FrameFields, u8> {
    let head = read_case(text, counts, marks)?;
    let sheet = sheet(head.dimension, head.mass, head.speed)?;
    let footprint = footprint(counts, marks, head.cell_area)?;
    let intrinsic = intrinsic_class(sheet.column, footprint.row, head.controlled)?;
    let final_class = final_class(sheet.column, intrinsic, head.word)?;
    Ok(FrameFields {
        low: sheet.area.low,
        high: sheet.area.high,
        column: sheet.column,
        flag: sheet.flag,
        size_column: sheet.size_column,
        row_used: if head.controlled == 1 { 1 } else { footprint.row },
        place: footprint.place,
        people: footprint.people,
        intrinsic,
        final_class,
    })
}

#[inline(never)]
pub fn case(text: &[u8], counts: &mut [u32], marks: &mut [u64], mut frame: &mut [u8]) -> u8 {
    if frame.len() < FRAME_LENGTH {
        return 15;
    }
    match working(text, counts, marks) {
        Ok(f) => {
            writeln!(
                frame,
                "00{:08x}{:08x}{:02x}{:02x}{:02x}{:02x}{:04x}{:08x}{:02x}{:02x}",
                f.low,
                f.high,
                f.column,
                f.flag,
                f.size_column,
                f.row_used,
                f.place,
                f.people,
                f.intrinsic,
                f.final_class
            )
            .expect("the buffer was found long enough");
            0
        }
        Err(refusal) => {
            writeln!(frame, "{refusal:02x}").expect("the buffer was found long enough");
            refusal
        }
    }
}
