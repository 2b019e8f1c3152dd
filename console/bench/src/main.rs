//! The library against obvious and tuned Rust: the same inputs, in one run, the contestants in turn.

mod agreement;
mod barrier;
// as the package declares them; not all are measured
#[allow(dead_code)]
#[path = "../../rust/src/ffi.rs"]
mod ffi;
mod inputs;
mod instructions;
mod library;
mod obvious;
mod tuned;

use barrier::black_box;
use inputs::{DescentInput, Map, Random, TradeOff};
use nuggetbay::layout::{FRAME_LENGTH, MAP_CELLS, MAP_ROWS};
use nuggetbay::Aircraft;
use std::cell::RefCell;
use std::rc::Rc;
use std::time::{Duration, Instant};

const NAMES: [&str; 3] = ["library", "tuned", "obvious"];

/// How far two runs of the same code differ here.
const NOISE: f64 = 0.02;

/// One line of the table: each contestant's walk over all inputs, or over all steps of falls, and the ratios that are wanted of the others' times.
struct Contest {
    name: &'static str,
    inputs: usize,
    runs: [Box<dyn FnMut(usize)>; 3],
    tuned_at_least: f64,
    obvious_at_least: f64,
}

/// What is lent again and again, to all contestants, and never cleared: each call finds what the one before left there. In each
/// round the counts start at another place of a page, since a store slows the loads at the same place of another page.
struct Buffers {
    counts: Vec<u32>,
    marks: Vec<u64>,
    frame: Vec<u8>,
}

/// The counts that are lent in a round.
fn lent_counts(counts: &mut [u32], round: usize) -> &mut [u32] {
    let start = round % PLACES_OF_A_PAGE * (PAGE / PLACES_OF_A_PAGE);
    &mut counts[start..start + MAP_CELLS]
}

/// In counts.
const PAGE: usize = 1024;
const PLACES_OF_A_PAGE: usize = 16;

fn buffers() -> Rc<RefCell<Buffers>> {
    let (counts, marks, frame) = (vec![0; MAP_CELLS + PAGE], vec![0; MAP_ROWS], vec![0; FRAME_LENGTH]);
    Rc::new(RefCell::new(Buffers { counts, marks, frame }))
}

/// A walk over aircraft.
macro_rules! aircraft_run {
    ($aircraft:ident, $answer:path) => {{
        let aircraft = Rc::clone(&$aircraft);
        Box::new(move |_| {
            for a in aircraft.iter() {
                black_box(&$answer(black_box(a.dimension), black_box(a.mass), black_box(a.speed)));
            }
        })
    }};
}

fn sheet_contest(aircraft: Vec<Aircraft>) -> Contest {
    let aircraft = Rc::new(aircraft);
    let runs: [Box<dyn FnMut(usize)>; 3] = [
        aircraft_run!(aircraft, library::sheet),
        aircraft_run!(aircraft, tuned::sheet),
        aircraft_run!(aircraft, obvious::sheet),
    ];
    Contest { name: "sheet", inputs: aircraft.len(), runs, tuned_at_least: 1.0, obvious_at_least: 0.0 }
}

fn high_angle_contest(aircraft: Vec<Aircraft>) -> Contest {
    for a in &aircraft {
        assert_eq!(library::high_angle(a.dimension, a.mass, a.speed).refusal, 0);
    }
    let aircraft = Rc::new(aircraft);
    let runs: [Box<dyn FnMut(usize)>; 3] = [
        aircraft_run!(aircraft, library::high_angle),
        aircraft_run!(aircraft, tuned::high_angle),
        aircraft_run!(aircraft, obvious::high_angle),
    ];
    Contest { name: "high angle", inputs: aircraft.len(), runs, tuned_at_least: 1.0, obvious_at_least: 0.0 }
}

/// Of falls that end alike; the time is that of a step.
fn descent_contest(name: &'static str, descents: Vec<DescentInput>, refusal: u8) -> Contest {
    let mut steps = 0;
    for d in &descents {
        let Aircraft { dimension, mass, speed } = d.aircraft;
        let answer = library::descent(dimension, mass, speed, d.height, d.budget);
        assert_eq!(answer.refusal, refusal);
        // where the whole budget is spent, the answer has no number of steps
        steps += if refusal == 18 { d.budget } else { answer.steps };
    }
    let descents = Rc::new(descents);
    macro_rules! run {
        ($descent:path) => {{
            let descents = Rc::clone(&descents);
            Box::new(move |_| {
                for d in descents.iter() {
                    let DescentInput { aircraft, height, budget } = black_box(*d);
                    let Aircraft { dimension, mass, speed } = aircraft;
                    black_box(&$descent(dimension, mass, speed, height, budget));
                }
            })
        }};
    }
    let runs: [Box<dyn FnMut(usize)>; 3] = [run!(library::descent), run!(tuned::descent), run!(obvious::descent)];
    Contest { name, inputs: steps as usize, runs, tuned_at_least: 1.0, obvious_at_least: 0.0 }
}

/// The contest of one of the two operations; at least three quarters of its answers are inside the range.
macro_rules! trade_off_contest {
    ($name:literal, $greatest:ident, $number:ident in $inside:expr, $asked:expr) => {{
        let asked = Rc::new($asked);
        let inside = |a: &&TradeOff| {
            let answer = library::$greatest(a.dimension, a.given, a.column);
            answer.refusal == 0 && $inside.contains(&answer.$number)
        };
        assert!(4 * asked.iter().filter(inside).count() >= 3 * asked.len());
        macro_rules! run {
            ($answer:path) => {{
                let asked = Rc::clone(&asked);
                Box::new(move |_| {
                    for a in asked.iter() {
                        black_box(&$answer(black_box(a.dimension), black_box(a.given), black_box(a.column)));
                    }
                })
            }};
        }
        let runs: [Box<dyn FnMut(usize)>; 3] =
            [run!(library::$greatest), run!(tuned::$greatest), run!(obvious::$greatest)];
        Contest { name: $name, inputs: asked.len(), runs, tuned_at_least: 1.0, obvious_at_least: 0.0 }
    }};
}

fn footprint_contest(name: &'static str, maps: Vec<Map>) -> Contest {
    let maps = Rc::new(maps);
    macro_rules! run {
        ($footprint:path) => {{
            let maps = Rc::clone(&maps);
            Box::new(move |_| {
                for m in maps.iter() {
                    black_box(&$footprint(black_box(&m.counts), black_box(&m.marks), black_box(m.cell_area)));
                }
            })
        }};
    }
    let runs: [Box<dyn FnMut(usize)>; 3] = [run!(library::footprint), run!(tuned::footprint), run!(obvious::footprint)];
    Contest { name, inputs: maps.len(), runs, tuned_at_least: 1.0, obvious_at_least: 0.0 }
}

fn reading_contest(name: &'static str, texts: &Rc<Vec<Vec<u8>>>) -> Contest {
    let lent = buffers();
    macro_rules! run {
        ($read_case:path) => {{
            let (texts, lent) = (Rc::clone(texts), Rc::clone(&lent));
            Box::new(move |round| {
                let b = &mut *lent.borrow_mut();
                for text in texts.iter() {
                    let counts = black_box(lent_counts(&mut b.counts, round));
                    black_box(&$read_case(black_box(text), counts, black_box(&mut b.marks)));
                }
            })
        }};
    }
    let runs: [Box<dyn FnMut(usize)>; 3] = [run!(library::read_case), run!(tuned::read_case), run!(obvious::read_case)];
    Contest { name, inputs: texts.len(), runs, tuned_at_least: 1.0, obvious_at_least: 0.0 }
}

fn case_contest(
    name: &'static str,
    texts: &Rc<Vec<Vec<u8>>>,
    answer: u8,
    tuned_at_least: f64,
    obvious_at_least: f64,
) -> Contest {
    let lent = buffers();
    macro_rules! run {
        ($case:path) => {{
            let (texts, lent) = (Rc::clone(texts), Rc::clone(&lent));
            Box::new(move |round| {
                let b = &mut *lent.borrow_mut();
                for text in texts.iter() {
                    let counts = black_box(lent_counts(&mut b.counts, round));
                    black_box(&$case(black_box(text), counts, black_box(&mut b.marks), black_box(&mut b.frame)));
                }
            })
        }};
    }
    for text in texts.iter() {
        let b = &mut *lent.borrow_mut();
        assert_eq!(library::case(text, lent_counts(&mut b.counts, 0), &mut b.marks, &mut b.frame), answer);
    }
    let runs: [Box<dyn FnMut(usize)>; 3] = [run!(library::case), run!(tuned::case), run!(obvious::case)];
    Contest { name, inputs: texts.len(), runs, tuned_at_least, obvious_at_least }
}

/// Full texts with one damage each.
fn damaged(random: &mut Random, damage: fn(&mut Random, &mut Map, &mut u16), byte: bool) -> Rc<Vec<Vec<u8>>> {
    let texts = (0..inputs::TEXTS)
        .map(|_| {
            let (mut map, mut word) = (inputs::full_map(random), 0);
            damage(random, &mut map, &mut word);
            let mut text = inputs::text(inputs::small_aircraft(random), &map, 0, word);
            if byte {
                let place = random.below(text.len() as u64) as usize;
                text[place] = b'G';
            }
            text
        })
        .collect();
    Rc::new(texts)
}

/// As many inputs as there are aircraft, no two alike.
fn different<T: PartialEq>(random: &mut Random, draw: fn(&mut Random) -> T) -> Vec<T> {
    let mut drawn = Vec::new();
    while drawn.len() < inputs::AIRCRAFT {
        let one = draw(random);
        if !drawn.contains(&one) {
            drawn.push(one);
        }
    }
    drawn
}

/// Those whose name begins with BENCH_ONLY, where that is set.
fn contests() -> Vec<Contest> {
    let only = std::env::var("BENCH_ONLY").unwrap_or_default();
    all_contests().into_iter().filter(|contest| contest.name.starts_with(&only)).collect()
}

fn all_contests() -> Vec<Contest> {
    let mut random = Random(0x9e37_79b9_7f4a_7c15);
    let random = &mut random;
    let mut aircraft = Vec::new();
    while aircraft.len() < inputs::AIRCRAFT {
        let a = inputs::any_aircraft(random);
        if library::sheet(a.dimension, a.mass, a.speed).refusal == 0 {
            aircraft.push(a);
        }
    }
    let full_maps = (0..inputs::MAPS).map(|_| inputs::full_map(random)).collect();
    let sparse_maps = (0..inputs::MAPS).map(|_| inputs::sparse_map(random)).collect();
    let full = Rc::new(inputs::texts(random, inputs::full_map));
    let sparse = Rc::new(inputs::texts(random, inputs::sparse_map));
    let wrong_byte = damaged(random, |_, _, _| {}, true);
    let wrong_count =
        damaged(random, |random, map, _| map.counts[random.below(MAP_CELLS as u64) as usize] = 1_000_001, false);
    let no_cell = damaged(random, |_, map, _| map.marks.fill(0), false);
    let wrong_word = damaged(random, |_, _, word| *word = 0x3000, false);
    // drawn last, so that the other inputs are those of before
    let steep = different(random, inputs::steep_aircraft);
    let operating = (0..inputs::OPERATING_DESCENTS).map(|_| inputs::operating_descent(random)).collect();
    let endless = (0..inputs::ENDLESS_DESCENTS).map(|_| inputs::endless_descent(random)).collect();
    let wanted_speeds = different(random, inputs::wanted_speed);
    let wanted_masses = different(random, inputs::wanted_mass);
    vec![
        sheet_contest(aircraft),
        high_angle_contest(steep),
        descent_contest("descent from 30 to 120 m, a step", operating, 0),
        descent_contest("descent, refusal 18, 20,000 steps, a step", endless, 18),
        trade_off_contest!("greatest speed", greatest_speed, speed in 1..40_000, wanted_speeds),
        trade_off_contest!("greatest mass", greatest_mass, mass in 51..25_000_000, wanted_masses),
        footprint_contest("footprint, full maps", full_maps),
        footprint_contest("footprint, sparse maps", sparse_maps),
        reading_contest("reading, full texts", &full),
        reading_contest("reading, sparse texts", &sparse),
        case_contest("whole case, full texts", &full, 0, 1.0, 10.0),
        case_contest("whole case, sparse texts", &sparse, 0, 1.0, 5.0),
        case_contest("whole case, refusal 14, a wrong byte", &wrong_byte, 14, 0.0, 0.0),
        case_contest("whole case, refusal 7, a count too large", &wrong_count, 7, 0.0, 0.0),
        case_contest("whole case, refusal 8, no cell marked", &no_cell, 8, 0.0, 0.0),
        case_contest("whole case, refusal 11, a mitigation digit", &wrong_word, 11, 0.0, 0.0),
    ]
}

/// The best time of each contestant's walk over all inputs, in nanoseconds an input. In each round each has its turn.
fn best_times(contest: &mut Contest, time: Duration) -> [f64; 3] {
    let mut best = [f64::MAX; 3];
    let start = Instant::now();
    let mut round = 0;
    while start.elapsed() < time || round < 3 * PLACES_OF_A_PAGE {
        for turn in 0..3 {
            let who = (round + turn) % 3;
            let before = Instant::now();
            (contest.runs[who])(round);
            let nanoseconds = before.elapsed().as_secs_f64() * 1e9 / contest.inputs as f64;
            best[who] = best[who].min(nanoseconds);
        }
        round += 1;
    }
    best
}

fn counted_name(contest: &Contest, who: usize) -> String {
    format!("{} / {}", contest.name, NAMES[who])
}

fn count_instructions() {
    for mut contest in contests() {
        for who in 0..3 {
            let name = counted_name(&contest, who);
            instructions::count(&name, &mut || (contest.runs[who])(0));
        }
    }
}

fn compare() {
    let mut random = Random(88_172_645_463_325_252);
    let mut tally = agreement::Tally { inputs: 0, refused: 0 };
    agreement::sheets(&mut random, &mut tally);
    agreement::footprints(&mut random, &mut tally);
    agreement::cases(&mut random, &mut tally);
    agreement::high_angles(&mut random, &mut tally);
    agreement::descents(&mut random, &mut tally);
    agreement::trade_offs(&mut random, &mut tally);
    println!(
        "All three agree on {} inputs, {} of them refused, and on what is left in the lent buffers.\n",
        tally.inputs, tally.refused
    );
}

fn print_table() {
    println!(
        "{} texts, {} maps, {} aircraft for the sheet and {2} each for the high angle, the greatest speed and the greatest mass, {} falls from 30 to 120 m and {} of 20,000 steps, all different, shared by the contestants. Lent buffers are lent again without clearing.\n",
        inputs::TEXTS,
        inputs::MAPS,
        inputs::AIRCRAFT,
        inputs::OPERATING_DESCENTS,
        inputs::ENDLESS_DESCENTS
    );
    let counts = instructions::all();
    println!("| best of many rounds, an input | library | tuned | obvious | tuned / library | obvious / library | instructions: library | tuned | obvious |");
    println!("|---|---|---|---|---|---|---|---|---|");
    let mut missed = Vec::new();
    for mut contest in contests() {
        let best = best_times(&mut contest, Duration::from_millis(1_500));
        let time = |who: usize| {
            if best[0] < 1_000.0 {
                format!("{:.1} ns", best[who])
            } else {
                format!("{:.2} µs", best[who] / 1e3)
            }
        };
        let counted = |who: usize| {
            let total = counts.as_ref().and_then(|counts| counts.get(&counted_name(&contest, who)));
            total.map_or("not counted".to_string(), |total| format!("{}", total / contest.inputs as u64))
        };
        let (tuned, obvious) = (best[1] / best[0], best[2] / best[0]);
        println!(
            "| {} | {} | {} | {} | {tuned:.2} | {obvious:.2} | {} | {} | {} |",
            contest.name,
            time(0),
            time(1),
            time(2),
            counted(0),
            counted(1),
            counted(2)
        );
        if tuned < contest.tuned_at_least - NOISE {
            missed.push(format!("{}: tuned / library is {tuned:.2}, wanted {}", contest.name, contest.tuned_at_least));
        }
        if obvious < contest.obvious_at_least - NOISE {
            missed.push(format!(
                "{}: obvious / library is {obvious:.2}, wanted {}",
                contest.name, contest.obvious_at_least
            ));
        }
    }
    println!("\nTargets missed: {}", if missed.is_empty() { "none".to_string() } else { missed.join("; ") });
}

fn main() {
    if std::env::args().any(|word| word == "--count-instructions") {
        count_instructions();
        return;
    }
    compare();
    print_table();
}
