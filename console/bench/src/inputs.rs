//! The inputs of the benchmark, from a fixed seed.

use crate::obvious;
use nuggetbay::layout::{MAP_CELLS, MAP_COLUMNS, MAP_ROWS, TEXT_LENGTH};
use nuggetbay::Aircraft;
use std::fmt::Write;

pub struct Random(pub u64);

impl Random {
    pub fn next(&mut self) -> u64 {
        self.0 ^= self.0 << 13;
        self.0 ^= self.0 >> 7;
        self.0 ^= self.0 << 17;
        self.0
    }

    pub fn below(&mut self, n: u64) -> u64 {
        (self.next() >> 11) % n
    }

    pub fn between(&mut self, low: u32, high: u32) -> u32 {
        low + self.below(u64::from(high - low) + 1) as u32
    }

    pub fn one_of<T: Copy>(&mut self, choices: &[T]) -> T {
        choices[self.below(choices.len() as u64) as usize]
    }
}

/// Of all sizes, masses and speeds; a few are refused for their area.
pub fn any_aircraft(random: &mut Random) -> Aircraft {
    let dimension = random.one_of(&[(50, 999), (1_000, 7_999), (8_000, 20_000), (20_001, 100_000)]);
    let mass = random.one_of(&[(50, 1_000), (1_001, 25_000), (25_001, 1_000_000), (1_000_001, 25_000_000)]);
    let speed = random.one_of(&[(0, 2_500), (2_501, 7_500), (7_501, 20_000), (20_001, 40_000)]);
    Aircraft {
        dimension: random.between(dimension.0, dimension.1),
        mass: random.between(mass.0, mass.1),
        speed: random.between(speed.0, speed.1),
    }
}

/// The mass that has this energy at terminal speed, rounded down.
pub fn mass_of_energy(joules: f64, dimension: u32) -> u32 {
    let frontal_area = obvious::frontal_area(dimension).expect("a dimension of the high impact angle model");
    (joules * 98.0 * frontal_area as f64 / 981.0).sqrt() as u32
}

/// For the high impact angle model: of all its dimensions, with an energy from 5,000 to 5,120,000 J, each doubling as often as the
/// next, so that most factors are roots.
pub fn steep_aircraft(random: &mut Random) -> Aircraft {
    let dimension = random.one_of(&[(1_000, 3_000), (3_001, 8_000), (8_001, 20_000), (20_001, 40_000)]);
    let dimension = random.between(dimension.0, dimension.1);
    let doubled = random.below(10);
    let joules = random.between(5_000 << doubled, 10_000 << doubled);
    Aircraft { dimension, mass: mass_of_energy(f64::from(joules), dimension), speed: random.between(0, 40_000) }
}

/// What a descent is asked for: the height in cm, and the step budget.
#[derive(Clone, Copy, Debug, PartialEq, Eq)]
pub struct DescentInput {
    pub aircraft: Aircraft,
    pub height: u32,
    pub budget: u32,
}

/// A multirotor of 1 to 8 m and 2 to 100 kg at 5 to 30 m/s, from 30 to 120 m.
pub fn operating_descent(random: &mut Random) -> DescentInput {
    let dimension = random.between(1_000, 8_000);
    let aircraft = Aircraft { dimension, mass: random.between(2_000, 100_000), speed: random.between(500, 3_000) };
    DescentInput { aircraft, height: random.between(3_000, 12_000), budget: LARGEST_BUDGET }
}

/// So light and wide that 500 m take longer than the largest budget, and so slow at first that no speed becomes negative.
pub fn endless_descent(random: &mut Random) -> DescentInput {
    let dimension = random.between(3_000, 4_000);
    let aircraft = Aircraft { dimension, mass: random.between(50, 100), speed: random.between(500, 1_000) };
    DescentInput { aircraft, height: 50_000, budget: LARGEST_BUDGET }
}

/// Of all dimensions that have a frontal area, and of all masses, speeds, heights and budgets.
pub fn any_descent(random: &mut Random) -> DescentInput {
    let dimension = random.between(1_000, 40_000);
    let mass = random.one_of(&[(50, 1_000), (1_001, 25_000), (25_001, 1_000_000), (1_000_001, 25_000_000)]);
    let speed = random.one_of(&[(0, 0), (1, 500), (501, 5_000), (5_001, 40_000)]);
    let height = random.one_of(&[(1, 100), (101, 3_000), (3_001, 12_000), (12_001, 50_000)]);
    let budget = random.one_of(&[(1, 20), (21, 500), (501, LARGEST_BUDGET)]);
    let aircraft =
        Aircraft { dimension, mass: random.between(mass.0, mass.1), speed: random.between(speed.0, speed.1) };
    DescentInput { aircraft, height: random.between(height.0, height.1), budget: random.between(budget.0, budget.1) }
}

/// What a greatest speed or a greatest mass is asked for: `given` is the mass or the speed.
#[derive(Clone, Copy, Debug, PartialEq, Eq)]
pub struct TradeOff {
    pub dimension: u32,
    pub given: u32,
    pub column: u8,
}

/// Nearly always a dimension that has the column at some speeds of the range and not at others, so that most answers lie inside it. One
/// of sixteen has no slide, and one is any.
fn dimension_and_column(random: &mut Random) -> (u32, u8) {
    let of_columns =
        [(1, 1_000, 1_800), (2, 1_000, 7_999), (3, 1_000, 25_000), (4, 3_001, 85_000), (5, 21_000, 100_000)];
    let (column, least, most) = match random.below(16) {
        0 => (random.between(1, 5) as u8, 50, 999),
        1 => (random.between(1, 5) as u8, 1_000, 100_000),
        _ => random.one_of(&of_columns),
    };
    (random.between(least, most), column)
}

/// Each doubling as often as the next.
fn any_mass(random: &mut Random) -> u32 {
    let doubled = random.below(19);
    random.between(50 << doubled, (100 << doubled).min(25_000_000))
}

pub fn wanted_speed(random: &mut Random) -> TradeOff {
    let (dimension, column) = dimension_and_column(random);
    TradeOff { dimension, given: any_mass(random), column }
}

/// With the greatest speed of some mass, or the next one, so that the greatest mass is as various as that.
pub fn wanted_mass(random: &mut Random) -> TradeOff {
    let (dimension, column) = dimension_and_column(random);
    let given = match obvious::greatest_speed(dimension, any_mass(random), column) {
        Ok(speed) => (speed + random.below(2) as u32).min(40_000),
        Err(_) => random.between(0, 40_000),
    };
    TradeOff { dimension, given, column }
}

/// Of column 1, so that every row of the class table has a class.
pub fn small_aircraft(random: &mut Random) -> Aircraft {
    Aircraft { dimension: random.between(300, 999), mass: random.between(250, 25_000), speed: random.between(0, 3_000) }
}

#[derive(Clone)]
pub struct Map {
    pub counts: Vec<u32>,
    pub marks: Vec<u64>,
    pub cell_area: u32,
}

/// Counts up to a million in every cell, half of the cells marked.
pub fn full_map(random: &mut Random) -> Map {
    Map {
        counts: (0..MAP_CELLS).map(|_| random.between(0, 1_000_000)).collect(),
        marks: (0..MAP_ROWS).map(|_| random.next()).collect(),
        cell_area: random.between(1_000_000, 25_000_000),
    }
}

/// One cell in twenty is inhabited, by at most 49 people; a block of 10 rows and 20 columns is marked.
pub fn sparse_map(random: &mut Random) -> Map {
    let (top, east) = (random.below(55), random.below(45));
    Map {
        counts: (0..MAP_CELLS).map(|_| if random.below(20) == 0 { random.between(0, 49) } else { 0 }).collect(),
        marks: (0..MAP_ROWS as u64)
            .map(|row| if (top..top + 10).contains(&row) { 0xf_ffff << east } else { 0 })
            .collect(),
        cell_area: random.between(10_000, 1_000_000),
    }
}

pub fn text(aircraft: Aircraft, map: &Map, controlled: u8, word: u16) -> Vec<u8> {
    let mut text = String::with_capacity(TEXT_LENGTH);
    let Aircraft { dimension, mass, speed } = aircraft;
    let cell_area = map.cell_area;
    writeln!(text, "{dimension:08x}{mass:08x}{speed:08x}{cell_area:08x}{controlled:02x}{word:04x}")
        .expect("a String grows");
    for mark in &map.marks {
        writeln!(text, "{mark:016x}").expect("a String grows");
    }
    for row in map.counts.chunks(MAP_COLUMNS) {
        for count in row {
            write!(text, "{count:08x}").expect("a String grows");
        }
        text.push('\n');
    }
    text.into_bytes()
}

pub fn texts(random: &mut Random, map: fn(&mut Random) -> Map) -> Vec<Vec<u8>> {
    (0..TEXTS).map(|_| text(small_aircraft(random), &map(random), 0, 0)).collect()
}

pub const TEXTS: usize = 16;
pub const MAPS: usize = 64;
pub const AIRCRAFT: usize = 1024;
pub const OPERATING_DESCENTS: usize = 256;
pub const ENDLESS_DESCENTS: usize = 8;
pub const LARGEST_BUDGET: u32 = 20_000;
