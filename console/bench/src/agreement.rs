//! All contestants answer alike, and leave alike what is lent, on good and on damaged inputs.

use crate::ffi::{Descent, Footprint, GreatestMass, GreatestSpeed, HighAngle, Reading, Sheet, SheetAnswer};
use crate::inputs::{self, DescentInput, Map, Random, TradeOff};
use crate::{library, obvious, tuned};
use nuggetbay::layout::{FRAME_LENGTH, LINE_1_LENGTH, MAP_CELLS, MAP_COLUMNS, MAP_ROWS};
use nuggetbay::Aircraft;

pub struct Tally {
    pub inputs: usize,
    pub refused: usize,
}

fn sheet_answer(result: Result<Sheet, u8>) -> SheetAnswer {
    match result {
        Ok(sheet) => SheetAnswer { refusal: 0, sheet },
        Err(refusal) => SheetAnswer { refusal, ..Default::default() },
    }
}

/// On both sides of each cut, where the area formula changes, and one further.
const AT_A_CUT: [u32; 6] = [999, 1_000, 1_001, 7_999, 8_000, 8_001];

pub fn sheets(random: &mut Random, tally: &mut Tally) {
    for i in 0..200_000 {
        let mut a = inputs::any_aircraft(random);
        let anything = (random.next() >> 32) as u32 >> random.below(32);
        match i % 20 {
            0 => a.dimension = anything,
            1 => a.mass = anything,
            2 => a.speed = anything,
            // at the edge of a size column
            3 => {
                let (largest, fastest) = random.one_of(&obvious::SIZES);
                a.dimension = largest + random.below(2) as u32;
                a.speed = fastest + random.below(2) as u32;
            }
            4 => a.dimension = random.one_of(&AT_A_CUT),
            _ => {}
        }
        let answer = library::sheet(a.dimension, a.mass, a.speed);
        assert_eq!(answer, sheet_answer(obvious::sheet(a.dimension, a.mass, a.speed)));
        assert_eq!(answer, tuned::sheet(a.dimension, a.mass, a.speed));
        tally.inputs += 1;
        tally.refused += usize::from(answer.refusal != 0);
    }
}

fn high_angle_answer(result: Result<HighAngle, u8>) -> HighAngle {
    result.unwrap_or_else(|refusal| HighAngle { refusal, ..Default::default() })
}

/// The mass with which the area is near a limit, where a factor between 2.3 and 7 leads there.
fn mass_near_a_limit(a: Aircraft) -> u32 {
    let circle = 157.0 * f64::from(a.dimension + 600).powi(2) / 20_000_000.0;
    let factor = obvious::LIMITS.iter().map(|&limit| limit as f64 / circle).find(|f| (2_300.0..7_000.0).contains(f));
    factor.map_or(a.mass, |f| inputs::mass_of_energy((f / 1_400.0).powi(5) * 1_000.0, a.dimension))
}

pub fn high_angles(random: &mut Random, tally: &mut Tally) {
    for i in 0..200_000 {
        let mut a = inputs::steep_aircraft(random);
        let anything = (random.next() >> 32) as u32 >> random.below(32);
        match i % 20 {
            0 => a.dimension = anything,
            1 => a.mass = anything,
            2 => a.speed = anything,
            // where two straight lines of the frontal area meet, and where the first begins and the last ends
            3 => a.dimension = random.one_of(&obvious::FRONTAL_AREAS).0 - 1 + random.below(3) as u32,
            // at a cut of the factor
            4 => {
                let joules = random.one_of(&[12_000.0, 3_125_000.0]);
                a.mass = inputs::mass_of_energy(joules, a.dimension) + random.below(2) as u32;
            }
            5 => a.mass = mass_near_a_limit(a) + random.below(2) as u32,
            6 => a = inputs::any_aircraft(random),
            _ => {}
        }
        let answer = library::high_angle(a.dimension, a.mass, a.speed);
        assert_eq!(answer, high_angle_answer(obvious::high_angle(a.dimension, a.mass, a.speed)));
        assert_eq!(answer, tuned::high_angle(a.dimension, a.mass, a.speed));
        tally.inputs += 1;
        tally.refused += usize::from(answer.refusal != 0);
    }
}

/// To the bit: `==` doesn't see a zero's sign.
fn descent_bits(d: Descent) -> (u8, u8, u32, [u64; 3]) {
    (d.refusal, d.above_60, d.steps, [d.end.horizontal, d.end.downward, d.end.fallen].map(f64::to_bits))
}

fn descent_answer(result: Result<Descent, u8>) -> Descent {
    result.unwrap_or_else(|refusal| Descent { refusal, ..Default::default() })
}

fn damaged_descent(random: &mut Random, kind: usize, mut d: DescentInput) -> DescentInput {
    let anything = (random.next() >> 32) as u32 >> random.below(32);
    match kind {
        0 => d.aircraft.dimension = anything,
        1 => d.aircraft.mass = anything,
        2 => d.aircraft.speed = anything,
        3 => d.height = anything,
        4 => d.budget = anything,
        5 => d.height = random.one_of(&[0, 1, 50_000, 50_001]),
        6 => d.budget = random.one_of(&[0, 1, 20_000, 20_001]),
        // the budget is just enough, one more, or one less
        7..=9 => {
            let Aircraft { dimension, mass, speed } = d.aircraft;
            let steps = library::descent(dimension, mass, speed, d.height, d.budget).steps;
            d.budget = (steps + random.below(3) as u32).saturating_sub(1);
        }
        // hovering
        10 => d.aircraft.speed = 0,
        // so fast for its mass that a speed becomes negative, or nearly
        11 => d.aircraft.mass = random.between(50, 2_000),
        _ => {}
    }
    d
}

pub fn descents(random: &mut Random, tally: &mut Tally) {
    for i in 0..10_000 {
        let d = match i % 8 {
            0..=4 => inputs::operating_descent(random),
            5 | 6 => inputs::any_descent(random),
            _ if i % 16 == 7 => inputs::endless_descent(random),
            _ => inputs::any_descent(random),
        };
        let DescentInput { aircraft, height, budget } = damaged_descent(random, i / 8 % 20, d);
        let Aircraft { dimension, mass, speed } = aircraft;
        let answer = library::descent(dimension, mass, speed, height, budget);
        let obvious = descent_answer(obvious::descent(dimension, mass, speed, height, budget));
        assert_eq!(descent_bits(answer), descent_bits(obvious), "{aircraft:?} {height} {budget}");
        let tuned = tuned::descent(dimension, mass, speed, height, budget);
        assert_eq!(descent_bits(answer), descent_bits(tuned), "{aircraft:?} {height} {budget}");
        tally.inputs += 1;
        tally.refused += usize::from(answer.refusal != 0);
    }
}

/// `edge` is a given number at which the answer changes, where there is one.
fn damaged_trade_off(random: &mut Random, kind: usize, mut asked: TradeOff, edge: Option<u32>) -> TradeOff {
    let anything = (random.next() >> 32) as u32 >> random.below(32);
    match kind {
        0 => asked.dimension = anything,
        1 => asked.given = anything,
        2 => asked.column = anything as u8,
        3 => asked.dimension = random.one_of(&[49, 50, 100_000, 100_001]),
        4 => asked.given = random.one_of(&[0, 49, 50, 40_000, 40_001, 25_000_000, 25_000_001]),
        5 => asked.column = random.between(1, 5) as u8,
        6 => asked.dimension = random.one_of(&AT_A_CUT),
        7 => asked.dimension = random.between(50, 100_000),
        8..=12 => asked.given = (edge.unwrap_or(asked.given) + random.below(3) as u32).saturating_sub(1),
        _ => {}
    }
    asked
}

/// One of the two operations, at inputs near the answers of the other among them, where its own answer changes.
macro_rules! agree_on_trade_offs {
    ($random:ident, $tally:ident, $greatest:ident, $answer:ident { $number:ident }, $draw:ident, $other:ident of $least:literal to $most:literal) => {
        for i in 0..200_000 {
            let asked = inputs::$draw($random);
            let edge = obvious::$other(asked.dimension, $random.between($least, $most), asked.column).ok();
            let TradeOff { dimension, given, column } = damaged_trade_off($random, i % 20, asked, edge);
            let answer = library::$greatest(dimension, given, column);
            let obvious = match obvious::$greatest(dimension, given, column) {
                Ok($number) => $answer { refusal: 0, $number },
                Err(refusal) => $answer { refusal, $number: 0 },
            };
            assert_eq!(answer, obvious, "{dimension} {given} {column}");
            assert_eq!(answer, tuned::$greatest(dimension, given, column), "{dimension} {given} {column}");
            $tally.inputs += 1;
            $tally.refused += usize::from(answer.refusal != 0);
        }
    };
}

pub fn trade_offs(random: &mut Random, tally: &mut Tally) {
    agree_on_trade_offs!(random, tally, greatest_speed, GreatestSpeed { speed }, wanted_speed, greatest_mass of 0 to 40_000);
    agree_on_trade_offs!(random, tally, greatest_mass, GreatestMass { mass }, wanted_mass, greatest_speed of 50 to 25_000_000);
}

fn footprint_answer(result: Result<Footprint, u8>) -> Footprint {
    result.unwrap_or_else(|refusal| Footprint { refusal, ..Default::default() })
}

fn damaged_map(random: &mut Random, kind: usize, mut map: Map) -> Map {
    let place = random.below(MAP_CELLS as u64) as usize;
    match kind {
        0 => map.counts[place] = 1_000_001,
        1 => map.counts[place] = u32::MAX,
        2 => map.cell_area = random.one_of(&[0, 99, 25_000_001, u32::MAX]),
        3 => map.marks = vec![0; MAP_ROWS],
        4 => drop(map.counts.pop()),
        5 => map.marks.push(1),
        // one marked cell
        6 => {
            map.marks = vec![0; MAP_ROWS];
            map.marks[place / MAP_COLUMNS] = 1 << (place % MAP_COLUMNS);
        }
        // ties, and nobody at all
        7 => map.counts.iter_mut().for_each(|count| *count %= 3),
        8 => map.counts.fill(0),
        _ => map.cell_area = random.between(100, 25_000_000),
    }
    map
}

pub fn footprints(random: &mut Random, tally: &mut Tally) {
    for i in 0..4_000 {
        let map = if i % 2 == 0 { inputs::full_map(random) } else { inputs::sparse_map(random) };
        let map = damaged_map(random, i / 2 % 20, map);
        let answer = library::footprint(&map.counts, &map.marks, map.cell_area);
        assert_eq!(answer, footprint_answer(obvious::footprint(&map.counts, &map.marks, map.cell_area)));
        assert_eq!(answer, tuned::footprint(&map.counts, &map.marks, map.cell_area));
        tally.inputs += 1;
        tally.refused += usize::from(answer.refusal != 0);
    }
}

/// What is lent to a case, and its answer.
#[derive(Clone, PartialEq, Eq, Debug)]
struct Lent {
    answer: u8,
    reading: Reading,
    counts: Vec<u32>,
    marks: Vec<u64>,
    frame: Vec<u8>,
}

type ReadCase = fn(&[u8], &mut [u32], &mut [u64]) -> Reading;
type Case = fn(&[u8], &mut [u32], &mut [u64], &mut [u8]) -> u8;

fn obvious_reading(text: &[u8], counts: &mut [u32], marks: &mut [u64]) -> Reading {
    match obvious::read_case(text, counts, marks) {
        Ok(head) => Reading { refusal: 0, head },
        Err(refusal) => Reading { refusal, ..Default::default() },
    }
}

fn run(text: &[u8], before: &Lent, read_case: ReadCase, case: Case) -> (Lent, Lent) {
    let mut read = before.clone();
    read.reading = read_case(text, &mut read.counts, &mut read.marks);
    let mut printed = before.clone();
    printed.answer = case(text, &mut printed.counts, &mut printed.marks, &mut printed.frame);
    (read, printed)
}

fn damaged_text(random: &mut Random, kind: usize, text: &mut Vec<u8>, lent: &mut Lent) {
    let place = random.below(text.len() as u64) as usize;
    match kind {
        0 => text[place] = random.one_of(b"/:@AFG`g\n\0\xff "),
        1 => drop(text.pop()),
        2 => text.push(b'\n'),
        3 => text.clear(),
        4 => drop(lent.counts.pop()),
        5 => lent.marks.push(9),
        6 => lent.frame.truncate(FRAME_LENGTH - 1),
        7 => lent.frame.resize(FRAME_LENGTH + 23, 7),
        // the last line end, and the first byte
        8 => *text.last_mut().expect("not empty") = b'0',
        9 => text[0] = b'F',
        // the digits of line 1
        10..=14 => text[random.below(LINE_1_LENGTH as u64 - 1) as usize] = random.one_of(b"0123456789abcdef"),
        // any digit
        _ if text[place] != b'\n' => text[place] = random.one_of(b"0123456789abcdef"),
        _ => {}
    }
}

pub fn cases(random: &mut Random, tally: &mut Tally) {
    for i in 0..2_000 {
        let map = if i % 2 == 0 { inputs::full_map(random) } else { inputs::sparse_map(random) };
        let damage = random.below(4) as usize;
        let map = if i % 5 == 0 { damaged_map(random, damage, map) } else { map };
        let aircraft = if i % 3 == 0 { inputs::any_aircraft(random) } else { inputs::small_aircraft(random) };
        let controlled = random.one_of(&[0, 0, 0, 1, 2]);
        let word = random.one_of(&[0, 0x2212, 0x2313, 0x0003, 0x1000, 0x0100, 0x3000]);
        let mut text = inputs::text(aircraft, &map, controlled, word);
        let mut lent = Lent {
            answer: 0,
            reading: Reading::default(),
            counts: vec![7; MAP_CELLS],
            marks: vec![9; MAP_ROWS],
            frame: vec![5; FRAME_LENGTH],
        };
        damaged_text(random, i / 2 % 30, &mut text, &mut lent);
        let answer = run(&text, &lent, library::read_case, library::case);
        assert_eq!(answer, run(&text, &lent, obvious_reading, obvious::case));
        assert_eq!(answer, run(&text, &lent, tuned::read_case, tuned::case));
        tally.inputs += 1;
        tally.refused += usize::from(answer.1.answer != 0);
    }
}
