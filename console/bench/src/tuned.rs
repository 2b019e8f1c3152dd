//! The operations tuned by hand for the same target (x86-64 with SSE2, safe Rust, no intrinsics): no early exit where bytes or
//! cells are walked, lanes of digits, cells chosen by masks, one division where two quotients differ by one, roots from parabolas,
//! steps of a fall that don't wait for the one before, bisections without branches whose limit is worked out before.

use crate::ffi::{
    Bracket, CaseHead, Descent, Fall, Footprint, FrameFields, GreatestMass, GreatestSpeed, HighAngle, Reading, Sheet,
    SheetAnswer,
};
use nuggetbay::layout::{frame_place, line_1_place, COUNTS, COUNT_LINE, LINE_1_LENGTH, MARKS, MARK_LINE};
use nuggetbay::layout::{FRAME_LENGTH, MAP_CELLS, MAP_COLUMNS, MAP_ROWS, REFUSAL_LENGTH, TEXT_LENGTH};
use std::ops::Range;

const LIMITS: [u64; 5] = [65_000, 650_000, 6_500_000, 65_000_000, 650_000_000];
/// The dimension and the speed of each size column.
const SIZES: [(u32, u32); 5] = [(1_000, 2_500), (3_000, 3_500), (8_000, 7_500), (20_000, 12_000), (40_000, 20_000)];

fn refused_sheet(refusal: u8) -> SheetAnswer {
    SheetAnswer { refusal, ..Default::default() }
}

#[inline(never)]
pub fn sheet(dimension: u32, mass: u32, speed: u32) -> SheetAnswer {
    if dimension.wrapping_sub(50) > 99_950 {
        return refused_sheet(1);
    }
    if mass.wrapping_sub(50) > 24_999_950 {
        return refused_sheet(2);
    }
    if speed > 40_000 {
        return refused_sheet(3);
    }
    let square = u64::from(speed) * u64::from(speed);
    let run = Bracket {
        low: square * 1_926_617_433 / 1_000_000_000,
        high: (square * 1_926_617_434 + 999_999_999) / 1_000_000_000,
    };
    // one more than the low dividend: its quotient rounded up is the low quotient and one
    let low = 39_415_562_351 / u64::from(mass);
    let saving = Bracket { low, high: low + 1 };
    let slide = Bracket { low: run.low.saturating_sub(saving.high), high: run.high.saturating_sub(saving.low) };
    let a = u64::from(dimension) + 600;
    let round = 785 * a;
    let total = Bracket { low: a * (2_570_666 + slide.low + round), high: a * (2_570_667 + slide.high + round) };
    let area = if dimension >= 8_000 {
        Bracket { low: total.low / 100_000, high: (total.high + 99_999) / 100_000 }
    } else if dimension >= 1_000 {
        Bracket { low: 3 * total.low / 500_000, high: (3 * total.high + 499_999) / 500_000 }
    } else {
        Bracket { low: a * (5_141_332 + round) / 200_000, high: (a * (5_141_334 + round) + 199_999) / 200_000 }
    };
    if area.high > LIMITS[4] {
        return refused_sheet(4);
    }
    let before = LIMITS[..4].iter().map(|&limit| usize::from(area.high > limit)).sum::<usize>();
    let flag = (before > 0) & (area.low <= LIMITS[before.wrapping_sub(1) & 3]);
    // from the last to the first, so that the first that is large enough stays: conditional moves, and no branch
    let size_column = SIZES.iter().enumerate().rev().fold(0, |later, (earlier, &(largest, fastest))| {
        if (dimension <= largest) & (speed <= fastest) {
            earlier as u8 + 1
        } else {
            later
        }
    });
    let glide = Bracket { low: 2_570_666, high: 2_570_667 };
    let (column, flag) = (before as u8 + 1, u8::from(flag));
    SheetAnswer { refusal: 0, sheet: Sheet { glide, run, saving, slide, total, area, column, flag, size_column } }
}

/// Whether an aircraft has a frontal area and is in range.
fn is_multirotor(dimension: u32, mass: u32, speed: u32) -> bool {
    (dimension.wrapping_sub(1_000) <= 39_000) & (mass.wrapping_sub(50) <= 24_999_950) & (speed <= 40_000)
}

/// The refusal of an aircraft that isn't accepted.
fn multirotor_refusal(dimension: u32, mass: u32, speed: u32) -> u8 {
    if dimension.wrapping_sub(50) > 99_950 {
        1
    } else if mass.wrapping_sub(50) > 24_999_950 {
        2
    } else if speed > 40_000 {
        3
    } else {
        16
    }
}

/// By branches: with conditional moves in their place the whole answer took longer.
fn frontal_area(dimension: u64) -> u64 {
    if dimension <= 8_000 {
        if dimension <= 3_000 {
            200 * dimension - 100_000
        } else {
            400 * dimension - 700_000
        }
    } else if dimension <= 20_000 {
        2_500 * (dimension - 8_000) / 3 + 2_500_000
    } else {
        625 * dimension
    }
}

/// The fifth power, in thousandths, of the factor of one joule.
const JOULE: u64 = 5_378_240_000_000;

/// The factor of an energy, in 2^20ths of a thousandth, by bisection.
const fn fine_factor(joules: u64) -> u64 {
    let power = JOULE as u128 * joules as u128;
    let (mut low, mut high) = (0u128, 7_200 << 20);
    while low + 1 < high {
        let middle = (low + high) / 2;
        // in two steps, so that no product passes 128 bits
        let square = middle * middle >> 20;
        if (square * square >> 20) * middle >> 40 < power {
            low = middle;
        } else {
            high = middle;
        }
    }
    low as u64
}

/// A parabola over each quarter of an octave of energies, through its start, middle and end: the factor at the start, the rise at the
/// start's rate, and the bend that is taken off by the end. The place is four times the leading zeros and the first three digits.
static PARABOLAS: [(u64, u64, u64); 64] = {
    let mut parabolas = [(0, 0, 0); 64];
    let mut place = 44;
    while place < 80 {
        // the three digits are 4 to 7, so that the zeros are one less than a fourth of the place
        let eighth = 1 << (29 - place / 4);
        let start = (place % 4 + 4) * 2 * eighth;
        let (first, middle, last) = (fine_factor(start), fine_factor(start + eighth), fine_factor(start + 2 * eighth));
        parabolas[place as usize % 64] = (first << 29, 4 * middle - 3 * first - last, 2 * (2 * middle - first - last));
        place += 1;
    }
    parabolas
};

fn guess(joules: u32) -> u64 {
    let zeros = joules.leading_zeros();
    let shifted = joules << (zeros % 32);
    let (first, rise, bend) = PARABOLAS[(4 * zeros + (shifted >> 29)) as usize % 64];
    let along = u64::from(shifted % (1 << 29));
    (first + along * (rise - (along * bend >> 29))) >> 49
}

fn fifth_power(factor: u64) -> u64 {
    let square = factor * factor;
    square * square * factor
}

/// The factors of energies from 12,000 to 3,125,000 J. The guess is nearly always right, so that the loops' branches are foreseen.
fn roots(joules: Bracket) -> Bracket {
    let (power, high_power) = (JOULE * joules.low, JOULE * joules.high);
    let mut low = guess(joules.low as u32);
    let mut below = fifth_power(low);
    while power < below {
        low -= 1;
        below = fifth_power(low);
    }
    let mut above = fifth_power(low + 1);
    while above <= power {
        low += 1;
        below = above;
        above = fifth_power(low + 1);
    }
    if below == high_power {
        return Bracket { low, high: low };
    }
    let mut high = low + 1;
    while above < high_power {
        high += 1;
        above = fifth_power(high);
    }
    Bracket { low, high }
}

#[inline(never)]
pub fn high_angle(dimension: u32, mass: u32, speed: u32) -> HighAngle {
    if !is_multirotor(dimension, mass, speed) {
        return HighAngle { refusal: multirotor_refusal(dimension, mass, speed), ..Default::default() };
    }
    let frontal_area = frontal_area(u64::from(dimension));
    let energy = u64::from(mass) * u64::from(mass) * 981;
    let by = 98 * frontal_area;
    let low = energy / by;
    // the division leaves the rest too
    let joules = Bracket { low, high: low + u64::from(energy % by != 0) };
    // one comparison where both are roots; the low energy alone may be below the first limit, and then the high one is 12,000 J
    let factor = if (12_000..3_125_000).contains(&joules.low) {
        roots(joules)
    } else if joules.low >= 3_125_000 {
        Bracket { low: 7_000, high: 7_000 }
    } else {
        Bracket { low: 2_300, high: if joules.high < 12_000 { 2_300 } else { 2_302 } }
    };
    let a = u64::from(dimension) + 600;
    let square = 157 * a * a;
    let area =
        Bracket { low: factor.low * square / 20_000_000, high: (factor.high * square + 19_999_999) / 20_000_000 };
    // the column, and the limit before it and one
    let (column, flagged_below) = if area.high <= LIMITS[2] {
        if area.high <= LIMITS[0] {
            (1, 0)
        } else if area.high <= LIMITS[1] {
            (2, LIMITS[0] + 1)
        } else {
            (3, LIMITS[1] + 1)
        }
    } else if area.high <= LIMITS[3] {
        (4, LIMITS[2] + 1)
    } else {
        (5, LIMITS[3] + 1)
    };
    let flag = u8::from(area.low < flagged_below);
    HighAngle { refusal: 0, column, flag, frontal_area, joules, factor, area }
}

/// The factors of a fall: drag per speed squared, in kg/m, and mass in kg.
#[derive(Clone, Copy)]
struct Body {
    drag: f64,
    mass: f64,
}

/// The speed of a state, by rounds that are left at the first one that changes nothing: no later one does then.
fn speed_of(fall: Fall) -> f64 {
    if (fall.horizontal == 0.0) & (fall.downward == 0.0) {
        return 0.0;
    }
    let sum = fall.horizontal * fall.horizontal + fall.downward * fall.downward;
    let mut guess = fall.horizontal + fall.downward;
    for _ in 0..6 {
        let next = (guess + sum / guess) * 0.5;
        if next == guess {
            break;
        }
        guess = next;
    }
    guess
}

fn next_horizontal(body: Body, horizontal: f64, speed: f64) -> f64 {
    horizontal - body.drag * speed * horizontal / body.mass * 0.01
}

fn next_downward(body: Body, downward: f64, speed: f64) -> f64 {
    downward + (9.81 - body.drag * speed * downward / body.mass) * 0.01
}

/// The state after this one that has these speeds.
fn next(fall: Fall, horizontal: f64, downward: f64) -> Fall {
    Fall { horizontal, downward, fallen: fall.fallen + 0.5 * (fall.downward + downward) * 0.01 }
}

fn is_negative(fall: Fall) -> bool {
    (fall.horizontal < 0.0) | (fall.downward < 0.0)
}

/// The speeds of two states at once, in lanes. A round keeps twice its guess: to halve it is exact, and the next division needn't
/// wait for that. If the second round changes nothing in either, no later one does.
fn speeds_of(one: Fall, other: Fall) -> [f64; 2] {
    let horizontal = [one.horizontal, other.horizontal];
    let downward = [one.downward, other.downward];
    let sum = lanes(|i| horizontal[i] * horizontal[i] + downward[i] * downward[i]);
    let twice_sum = lanes(|i| sum[i] + sum[i]);
    let guess = lanes(|i| horizontal[i] + downward[i]);
    let first = lanes(|i| guess[i] + sum[i] / guess[i]);
    let round = |twice: [f64; 2]| lanes(|i| 0.5 * twice[i] + twice_sum[i] / twice[i]);
    let second = round(first);
    if (second[0] == first[0]) & (second[1] == first[1]) {
        return lanes(|i| 0.5 * first[i]);
    }
    let sixth = round(round(round(round(second))));
    lanes(|i| 0.5 * sixth[i])
}

fn lanes(lane: impl Fn(usize) -> f64) -> [f64; 2] {
    [lane(0), lane(1)]
}

/// The last four speeds, the newest first.
type Speeds = [f64; 4];

/// A guess at the speed of a state: what the last four lead to, and one step of Newton's from there.
fn guessed_speed(before: Speeds, fall: Fall) -> f64 {
    let far = 4.0 * (before[0] + before[2]) - 6.0 * before[1] - before[3];
    let sum = fall.horizontal * fall.horizontal + fall.downward * fall.downward;
    far + (sum - far * far) * (0.5 / far)
}

/// A guess at the next state; `slowing` is 0.01 of drag over mass. At its terminal speed the aircraft keeps it, to the last bit: a
/// formula that is wrong there by a bit would be wrong at each step.
fn guessed_next(fall: Fall, speed: f64, slowing: f64, terminal: bool) -> Fall {
    let horizontal = fall.horizontal - speed * (slowing * fall.horizontal);
    let downward = if terminal { fall.downward } else { fall.downward + (0.0981 - speed * (slowing * fall.downward)) };
    next(fall, horizontal, downward)
}

fn refused_descent(refusal: u8) -> Descent {
    Descent { refusal, ..Default::default() }
}

/// The fall is one chain of divisions, each waiting for the one before. So the next two states are guessed, and begun from while their
/// rounds still go on: nearly every guess is right to the last bit. It is held to the exact state by a branch, which is foreseen.
/// Zeros need no other comparison: no state has a zero with a sign.
fn fall_from(body: Body, height: f64, budget: u32, speed: f64) -> Descent {
    let slowing = body.drag / body.mass * 0.01;
    let mut fall = Fall { horizontal: speed, downward: 0.0, fallen: 0.0 };
    let mut before = [0.0; 4];
    let mut steps = 0;
    while steps < budget {
        let speed = speed_of(fall);
        let downward = next_downward(body, fall.downward, speed);
        let terminal = downward == fall.downward;
        fall = next(fall, next_horizontal(body, fall.horizontal, speed), downward);
        steps += 1;
        if is_negative(fall) {
            return refused_descent(19);
        }
        if fall.fallen >= height {
            let above_60 = fall.downward * fall.downward > 3.0 * (fall.horizontal * fall.horizontal);
            return Descent { refusal: 0, above_60: u8::from(above_60), steps, end: fall };
        }
        before = [speed, before[0], before[1], before[2]];
        while steps + 1 < budget {
            let speed = guessed_speed(before, fall);
            let middle = guessed_next(fall, speed, slowing, terminal);
            let middle_speed = guessed_speed([speed, before[0], before[1], before[2]], middle);
            let last = guessed_next(middle, middle_speed, slowing, terminal);
            // the fall ends by the loop around this one
            if is_negative(middle) | is_negative(last) | (middle.fallen >= height) | (last.fallen >= height) {
                break;
            }
            let speeds = speeds_of(fall, middle);
            let wrong = (next_horizontal(body, fall.horizontal, speeds[0]) != middle.horizontal)
                | (next_horizontal(body, middle.horizontal, speeds[1]) != last.horizontal)
                | (next_downward(body, fall.downward, speeds[0]) != middle.downward)
                | (next_downward(body, middle.downward, speeds[1]) != last.downward);
            if wrong {
                break;
            }
            fall = last;
            steps += 2;
            before = [middle_speed, speed, before[0], before[1]];
        }
    }
    refused_descent(18)
}

#[inline(never)]
pub fn descent(dimension: u32, mass: u32, speed: u32, height: u32, budget: u32) -> Descent {
    if !is_multirotor(dimension, mass, speed) {
        return refused_descent(multirotor_refusal(dimension, mass, speed));
    }
    if (height.wrapping_sub(1) > 49_999) | (budget.wrapping_sub(1) > 19_999) {
        return refused_descent(17);
    }
    let area = frontal_area(u64::from(dimension)) as f64 / 1_000_000.0;
    let body = Body { drag: 0.5 * 1.225 * area * 0.8, mass: f64::from(mass) / 1_000.0 };
    fall_from(body, f64::from(height) / 100.0, budget, f64::from(speed) / 100.0)
}

/// The largest total of each column, in thousandths of a square millimetre: below 8,000 mm, where six tenths of it count, and from there.
static TOTALS: [[i64; 5]; 2] = {
    let mut totals = [[0; 5]; 2];
    let mut column = 0;
    while column < 5 {
        totals[0][column] = 500_000 * LIMITS[column] as i64 / 3;
        totals[1][column] = 100_000 * LIMITS[column] as i64;
        column += 1;
    }
    totals
};

/// The dividend of the low saving.
const SAVING: i64 = 39_415_562_351;

/// A quotient rounded down. On many processors the division of f64 is the faster one. It is exact for whole numbers below 2^53: a
/// quotient that isn't whole is further below the next whole number than a rounding moves it.
fn quotient(number: i64, by: i64) -> i64 {
    (number as f64 / by as f64) as i64
}

/// Below 1,000 mm, where there is no slide: whether the area is within the column's limit.
fn fits_without_slide(dimension: u32, column: u8) -> bool {
    let a = u64::from(dimension) + 600;
    a * (5_141_334 + 785 * a) <= 200_000 * LIMITS[usize::from(column - 1) % 5]
}

/// From 1,000 mm on: the longest high slide, in micrometres, with which the area is within the column's limit; negative where it isn't
/// with none.
fn longest_slide(dimension: u32, column: u8) -> i64 {
    let a = i64::from(dimension) + 600;
    quotient(TOTALS[usize::from(dimension >= 8_000)][usize::from(column - 1) % 5], a) - (2_570_667 + 785 * a)
}

fn refused_speed(refusal: u8) -> GreatestSpeed {
    GreatestSpeed { refusal, speed: 0 }
}

/// By bisection: whether a speed passes is one product and one comparison, and half of such branches wouldn't be foreseen, so there are
/// conditional moves. Four ways a round, products in 32 bits, or a first round against a table of squares took as long or longer.
#[inline(never)]
pub fn greatest_speed(dimension: u32, mass: u32, column: u8) -> GreatestSpeed {
    if dimension.wrapping_sub(50) > 99_950 {
        return refused_speed(1);
    }
    if mass.wrapping_sub(50) > 24_999_950 {
        return refused_speed(2);
    }
    if column.wrapping_sub(1) > 4 {
        return refused_speed(20);
    }
    if dimension < 1_000 {
        let fits = fits_without_slide(dimension, column);
        return if fits { GreatestSpeed { refusal: 0, speed: 40_000 } } else { refused_speed(21) };
    }
    let slide = longest_slide(dimension, column);
    if slide < 0 {
        return refused_speed(21);
    }
    // the longest high run, at most that of the last speed in range
    let run = (slide + quotient(SAVING, i64::from(mass))).min(3_082_587_895) as u64;
    let largest_square = run * 1_000_000_000 / 1_926_617_434;
    let mut speed = 0;
    for bit in (0..16).rev() {
        let faster = speed | 1 << bit;
        speed = if faster * faster <= largest_square { faster } else { speed };
    }
    GreatestSpeed { refusal: 0, speed: speed as u32 }
}

fn refused_mass(refusal: u8) -> GreatestMass {
    GreatestMass { refusal, mass: 0 }
}

/// By bisection, as the speed. A mass passes where its product with the saving that is needed is at most the saving's dividend. What
/// the product leaves of that is kept from round to round, so that a round is a subtraction: with a product it took a third longer.
#[inline(never)]
pub fn greatest_mass(dimension: u32, speed: u32, column: u8) -> GreatestMass {
    if dimension.wrapping_sub(50) > 99_950 {
        return refused_mass(1);
    }
    if speed > 40_000 {
        return refused_mass(3);
    }
    if column.wrapping_sub(1) > 4 {
        return refused_mass(20);
    }
    if dimension < 1_000 {
        let fits = fits_without_slide(dimension, column);
        return if fits { GreatestMass { refusal: 0, mass: 25_000_000 } } else { refused_mass(21) };
    }
    let slide = longest_slide(dimension, column);
    if slide < 0 {
        return refused_mass(21);
    }
    let square = u64::from(speed) * u64::from(speed);
    let run = (square * 1_926_617_434 + 999_999_999) / 1_000_000_000;
    let needed = (run as i64 - slide).max(0);
    let (mut mass, mut rest, mut part) = (0, SAVING, needed << 24);
    for _ in 0..25 {
        let left = rest - part;
        mass = mass << 1 | u32::from(left >= 0);
        rest = if left >= 0 { left } else { rest };
        part >>= 1;
    }
    if mass < 50 {
        return refused_mass(21);
    }
    GreatestMass { refusal: 0, mass: mass.min(25_000_000) }
}

fn table_row(people: u32, cell_area: u32) -> u8 {
    let people = u64::from(people) * 1_000_000;
    let area = u64::from(cell_area);
    let reached = |density: u64| u8::from(people >= density * area);
    2 + reached(5) + reached(50) + reached(500) + reached(5_000) + reached(50_000)
}

/// For each four bits of a footprint row, all ones where a bit is set.
static FOUR_CELLS: [[u32; 4]; 16] = {
    let mut masks = [[0; 4]; 16];
    let mut bits = 0;
    while bits < 16 {
        let mut cell = 0;
        while cell < 4 {
            if (bits >> (3 - cell)) & 1 == 1 {
                masks[bits][cell] = u32::MAX;
            }
            cell += 1;
        }
        bits += 1;
    }
    masks
};

/// The largest key (count + 1) and the sum of the keys of a row's marked cells, in eight lanes. Signed, since SSE2 compares
/// signed numbers only.
fn walk_row(counts: &[u32; MAP_COLUMNS], bits: u64) -> (u32, u32) {
    let mut largest = [0i32; 8];
    let mut sums = [0i32; 8];
    for eight in 0..8 {
        let west = &FOUR_CELLS[(bits >> (60 - 8 * eight)) as usize & 15];
        let east = &FOUR_CELLS[(bits >> (56 - 8 * eight)) as usize & 15];
        for cell in 0..4 {
            let key = ((counts[8 * eight + cell] + 1) & west[cell]) as i32;
            sums[cell] += key;
            largest[cell] = largest[cell].max(key);
        }
        for cell in 0..4 {
            let key = ((counts[8 * eight + 4 + cell] + 1) & east[cell]) as i32;
            sums[4 + cell] += key;
            largest[4 + cell] = largest[4 + cell].max(key);
        }
    }
    let mut worst = 0;
    let mut sum = 0;
    for lane in 0..8 {
        worst = worst.max(largest[lane]);
        sum += sums[lane];
    }
    (worst as u32, sum as u32)
}

fn refused_footprint(refusal: u8) -> Footprint {
    Footprint { refusal, ..Default::default() }
}

#[inline(never)]
pub fn footprint(counts: &[u32], marks: &[u64], cell_area: u32) -> Footprint {
    let (counts, marks) = match (<&[u32; MAP_CELLS]>::try_from(counts), <&[u64; MAP_ROWS]>::try_from(marks)) {
        (Ok(counts), Ok(marks)) => (counts, marks),
        _ => return refused_footprint(5),
    };
    if cell_area.wrapping_sub(100) > 24_999_900 {
        return refused_footprint(6);
    }
    if counts.iter().fold(false, |any, &count| any | (count > 1_000_000)) {
        return refused_footprint(7);
    }
    let (mut worst, mut worst_row, mut keys, mut cells) = (0, 0, 0u64, 0);
    for (r, (row, &bits)) in counts.chunks_exact(MAP_COLUMNS).zip(marks).enumerate() {
        if bits == 0 {
            continue;
        }
        let row: &[u32; MAP_COLUMNS] = row.try_into().expect("a map row");
        let (largest, sum) = walk_row(row, bits);
        keys += u64::from(sum);
        cells += bits.count_ones();
        if largest > worst {
            worst = largest;
            worst_row = r;
        }
    }
    if cells == 0 {
        return refused_footprint(8);
    }
    let row = &counts[MAP_COLUMNS * worst_row..][..MAP_COLUMNS];
    let bits = marks[worst_row];
    let first =
        (0..MAP_COLUMNS).find(|&c| ((bits >> (MAP_COLUMNS - 1 - c)) & 1 == 1) & (row[c] + 1 == worst)).unwrap_or(0);
    Footprint {
        refusal: 0,
        row: table_row(worst - 1, cell_area),
        place: (MAP_COLUMNS * worst_row + first) as u32,
        people: keys - u64::from(cells),
        cells,
    }
}

/// 0 is "none".
static CLASSES: [[u8; 5]; 7] = [
    [1, 1, 2, 3, 3],
    [2, 3, 4, 5, 6],
    [3, 4, 5, 6, 7],
    [4, 5, 6, 7, 8],
    [5, 6, 7, 8, 9],
    [6, 7, 8, 9, 10],
    [7, 8, 0, 0, 0],
];

/// 64 is "not offered".
static CREDITS: [[u8; 16]; 4] = {
    let mut credits = [[64; 16]; 4];
    credits[0][0] = 0;
    credits[0][1] = 1;
    credits[0][2] = 2;
    credits[1][0] = 0;
    credits[1][2] = 1;
    credits[1][3] = 2;
    credits[2][0] = 0;
    credits[2][1] = 1;
    credits[3][0] = 0;
    credits[3][2] = 1;
    credits[3][3] = 2;
    credits
};

/// Both classes of a sheet's column and a footprint's row; the column is known to be 1 to 5 and the row 2 to 7.
fn classes(column: u8, row: u8, controlled: u8, word: u16) -> Result<(u8, i8), u8> {
    if controlled > 1 {
        return Err(9);
    }
    let column = usize::from(column - 1) % 5;
    let row = if controlled == 1 { 1 } else { row };
    let class = CLASSES[usize::from(row - 1) % 7][column];
    if class == 0 {
        return Err(10);
    }
    let credit = |which: usize| CREDITS[which][usize::from(word >> (12 - 4 * which)) & 15];
    let (m1, m2) = (credit(0) + credit(1) + credit(2), credit(3));
    if (m1 | m2) >= 64 {
        return Err(11);
    }
    let last = class.saturating_sub(m1).max(CLASSES[0][column]) as i8 - m2 as i8;
    if last > 7 {
        return Err(12);
    }
    Ok((class, last))
}

/// Whether all bytes are digits: 0 to 9 are 10 bytes from 48 on, a to f six from 97 on.
#[inline(always)]
fn are_digits(bytes: &[u8]) -> bool {
    let mut wrong = 0;
    for &byte in bytes {
        wrong |= byte.wrapping_sub(b'0').saturating_sub(9).min(byte.wrapping_sub(b'a').saturating_sub(5));
    }
    wrong == 0
}

#[inline(always)]
fn is_line(line: &[u8]) -> bool {
    let digits = line.len() - 1;
    are_digits(&line[..digits]) & (line[digits] == b'\n')
}

/// The number of eight digits in one word, first digit highest.
#[inline(always)]
fn eight_digits(digits: &[u8]) -> u32 {
    let x = u64::from_be_bytes(digits[..8].try_into().expect("eight digits"));
    let values = (x & 0x0f0f_0f0f_0f0f_0f0f) + 9 * ((x >> 6) & 0x0101_0101_0101_0101);
    let pairs = (values | (values >> 4)) & 0x00ff_00ff_00ff_00ff;
    let fours = (pairs | (pairs >> 8)) & 0x0000_ffff_0000_ffff;
    (fours | (fours >> 16)) as u32
}

/// The counts of a line, through lanes of two digits: each pair to its byte, then four bytes to a count.
#[inline(always)]
fn fill_row(line: &[u8; COUNT_LINE - 1], row: &mut [u32; MAP_COLUMNS]) {
    let mut pairs = [0u16; 256];
    for (i, pair) in pairs.iter_mut().enumerate() {
        *pair = u16::from_le_bytes([line[2 * i], line[2 * i + 1]]);
    }
    let mut bytes = [0u8; 256];
    for (byte, &pair) in bytes.iter_mut().zip(&pairs) {
        let values = (pair & 0x0f0f) + 9 * ((pair >> 6) & 0x0101);
        *byte = (((values << 4) | (values >> 8)) & 0xff) as u8;
    }
    for (c, count) in row.iter_mut().enumerate() {
        *count = u32::from_be_bytes(bytes[4 * c..4 * c + 4].try_into().expect("four bytes"));
    }
}

/// A field's place, found by the compiler.
macro_rules! place {
    ($found:expr) => {{
        const PLACE: Range<usize> = match $found {
            Some(place) => place,
            None => panic!("no such field"),
        };
        PLACE
    }};
}

fn refused_reading(refusal: u8) -> Reading {
    Reading { refusal, ..Default::default() }
}

#[inline(never)]
pub fn read_case(text: &[u8], counts: &mut [u32], marks: &mut [u64]) -> Reading {
    let text = match <&[u8; TEXT_LENGTH]>::try_from(text) {
        Ok(text) => text,
        Err(_) => return refused_reading(13),
    };
    let (counts, marks) = match (<&mut [u32; MAP_CELLS]>::try_from(counts), <&mut [u64; MAP_ROWS]>::try_from(marks)) {
        (Ok(counts), Ok(marks)) => (counts, marks),
        _ => return refused_reading(5),
    };
    let mut good = is_line(&text[..LINE_1_LENGTH]);
    for k in 0..MAP_ROWS {
        good &= is_line(&text[MARKS + MARK_LINE * k..][..MARK_LINE]);
    }
    for k in 0..MAP_ROWS {
        good &= is_line(&text[COUNTS + COUNT_LINE * k..][..COUNT_LINE]);
    }
    if !good {
        return refused_reading(14);
    }
    for (k, mark) in marks.iter_mut().enumerate() {
        let line = &text[MARKS + MARK_LINE * k..][..MARK_LINE];
        *mark = u64::from(eight_digits(line)) << 32 | u64::from(eight_digits(&line[8..]));
    }
    for (k, row) in counts.chunks_exact_mut(MAP_COLUMNS).enumerate() {
        let line = &text[COUNTS + COUNT_LINE * k..][..COUNT_LINE - 1];
        fill_row(line.try_into().expect("a line of digits"), row.try_into().expect("a map row"));
    }
    // the controlled mark and the word end with the line's digits
    let last = eight_digits(&text[place!(line_1_place("word")).end - 8..]);
    let head = CaseHead {
        dimension: eight_digits(&text[place!(line_1_place("dimension"))]),
        mass: eight_digits(&text[place!(line_1_place("mass"))]),
        speed: eight_digits(&text[place!(line_1_place("speed"))]),
        cell_area: eight_digits(&text[place!(line_1_place("cell_area"))]),
        controlled: (last >> 16) as u8,
        word: last as u16,
    };
    Reading { refusal: 0, head }
}

#[inline(always)]
fn write_digits(part: &mut [u8], number: u64) {
    let width = part.len();
    for (i, byte) in part.iter_mut().enumerate() {
        *byte = b"0123456789abcdef"[(number >> (4 * (width - 1 - i))) as usize & 15];
    }
}

/// The part of a frame that has a field.
macro_rules! part {
    ($frame:ident, $name:literal) => {
        &mut $frame[place!(frame_place($name))]
    };
}

fn write_refusal(frame: &mut [u8; FRAME_LENGTH], refusal: u8) -> u8 {
    write_digits(part!(frame, "refusal"), u64::from(refusal));
    frame[REFUSAL_LENGTH - 1] = b'\n';
    refusal
}

fn write_frame(frame: &mut [u8; FRAME_LENGTH], f: &FrameFields) {
    write_digits(part!(frame, "refusal"), 0);
    write_digits(part!(frame, "low"), f.low);
    write_digits(part!(frame, "high"), f.high);
    write_digits(part!(frame, "column"), u64::from(f.column));
    write_digits(part!(frame, "flag"), u64::from(f.flag));
    write_digits(part!(frame, "size_column"), u64::from(f.size_column));
    write_digits(part!(frame, "row_used"), u64::from(f.row_used));
    write_digits(part!(frame, "place"), u64::from(f.place));
    write_digits(part!(frame, "people"), f.people);
    write_digits(part!(frame, "intrinsic"), u64::from(f.intrinsic));
    write_digits(part!(frame, "final_class"), f.final_class as u64);
    frame[FRAME_LENGTH - 1] = b'\n';
}

#[inline(never)]
pub fn case(text: &[u8], counts: &mut [u32], marks: &mut [u64], frame: &mut [u8]) -> u8 {
    let frame = match frame.get_mut(..FRAME_LENGTH).and_then(|frame| <&mut [u8; FRAME_LENGTH]>::try_from(frame).ok()) {
        Some(frame) => frame,
        None => return 15,
    };
    let reading = read_case(text, counts, marks);
    if reading.refusal != 0 {
        return write_refusal(frame, reading.refusal);
    }
    let head = reading.head;
    let answer = sheet(head.dimension, head.mass, head.speed);
    if answer.refusal != 0 {
        return write_refusal(frame, answer.refusal);
    }
    let footprint = footprint(counts, marks, head.cell_area);
    if footprint.refusal != 0 {
        return write_refusal(frame, footprint.refusal);
    }
    let sheet = answer.sheet;
    let (intrinsic, final_class) = match classes(sheet.column, footprint.row, head.controlled, head.word) {
        Ok(both) => both,
        Err(refusal) => return write_refusal(frame, refusal),
    };
    let fields = FrameFields {
        low: sheet.area.low,
        high: sheet.area.high,
        column: sheet.column,
        flag: sheet.flag,
        size_column: sheet.size_column,
        row_used: if head.controlled == 1 { 1 } else { footprint.row },
        place: footprint.place,
        people: footprint.people,
        intrinsic,
        final_class,
    };
    write_frame(frame, &fields);
    0
}
