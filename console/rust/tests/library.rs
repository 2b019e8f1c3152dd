//! The safe calls: the worked points P1 to P16 of document 01, the high impact angle model, the descent, the greatest speed and mass,
//! every refusal, and what is left in lent buffers.

use nuggetbay::layout::{
    frame_place, line_1_place, COUNT_DIGITS, COUNT_LINE, FRAME, LINE_1, LINE_1_LENGTH, MARK_DIGITS, MARK_LINE,
};
use nuggetbay::*;

fn area_and_column(dimension: u32, mass: u32, speed: u32) -> Result<(u64, u64, u8), Refusal> {
    sheet(Aircraft { dimension, mass, speed }).map(|s| (s.area.low, s.area.high, s.column))
}

#[test]
fn p1_to_p8_the_sheet() {
    assert_eq!(area_and_column(50, 50, 0), Ok((18_367, 18_368, 1)));
    assert_eq!(area_and_column(1_000, 10_000, 2_500), Ok((114_494, 114_495, 2)));
    assert_eq!(area_and_column(1_001, 10_000, 0), Ok((36_766, 36_767, 1)));
    assert_eq!(area_and_column(3_000, 25_000, 3_500), Ok((592_295, 592_296, 2)));
    assert_eq!(area_and_column(8_000, 50_000, 0), Ok((801_663, 801_664, 3)));
    assert_eq!(area_and_column(8_001, 50_000, 0), Ok((801_824, 801_825, 3)));
    assert_eq!(area_and_column(49, 0, 0), Err(Refusal::Dimension));
    assert_eq!(area_and_column(100_000, 25_000_000, 40_000), Err(Refusal::Area));
}

#[test]
fn from_1000_mm_six_tenths_count_and_from_8000_mm_the_whole() {
    assert_eq!(area_and_column(999, 10_000, 2_500), Ok((51_140, 51_141, 1)));
    assert_eq!(area_and_column(999, 10_000, 0), Ok((51_140, 51_141, 1)));
    assert_eq!(area_and_column(1_000, 10_000, 0), Ok((36_735, 36_737, 1)));
    assert_eq!(area_and_column(7_999, 50_000, 0), Ok((480_901, 480_902, 2)));
    assert_eq!(area_and_column(8_000, 50_000, 0), Ok((801_663, 801_664, 3)));
}

#[test]
fn the_flag_is_that_of_the_stored_example() {
    let flagged = case_file("flagged");
    assert_eq!(
        flagged.head.assess(&flagged.counts, &flagged.marks).map(|a| (a.sheet.column, a.sheet.flag)),
        Ok((3, true))
    );
    assert_eq!(sheet(P2).map(|sheet| sheet.flag), Ok(false));
}

/// Dimension and speed of each size column.
const SIZE_PAIRS: [(u32, u32); 5] =
    [(1_000, 2_500), (3_000, 3_500), (8_000, 7_500), (20_000, 12_000), (40_000, 20_000)];

#[test]
fn the_size_column_is_the_first_that_is_large_enough() {
    // so light that no area is refused
    let size_column = |dimension, speed| sheet(Aircraft { dimension, mass: 50, speed }).map(|sheet| sheet.size_column);
    for (column, (dimension, speed)) in (1..).zip(SIZE_PAIRS) {
        let next = Some(column + 1).filter(|&next| next <= 5);
        assert_eq!(size_column(dimension, speed), Ok(Some(column)));
        assert_eq!(size_column(dimension + 1, speed), Ok(next));
        assert_eq!(size_column(dimension, speed + 1), Ok(next));
    }
    assert_eq!(size_column(50, 0), Ok(Some(1)));
    assert_eq!(size_column(100_000, 0), Ok(None));
    assert_eq!(size_column(50, 40_000), Ok(None));
}

#[test]
fn the_column_is_never_above_the_size_column_but_at_two_dimensions() {
    // the heaviest at the pair's speed has the largest area
    let above = |dimension, speed| {
        let sheet = sheet(Aircraft { dimension, mass: 25_000_000, speed }).expect("refusal 4 never comes");
        sheet.column > sheet.size_column.expect("the pair is large enough")
    };
    let found: Vec<(u32, u32)> = SIZE_PAIRS
        .into_iter()
        .flat_map(|(widest, speed)| (50..=widest).map(move |dimension| (dimension, speed)))
        .filter(|&(dimension, speed)| above(dimension, speed))
        .collect();
    assert_eq!(found, [(1_000, 2_500), (8_000, 7_500)]);
    let heaviest = Aircraft { dimension: 8_000, mass: 25_000_000, speed: 7_500 };
    for (aircraft, low, column, size_column) in [(P2, 114_494, 2, 1), (heaviest, 10_121_539, 4, 3)] {
        let sheet = sheet(aircraft).unwrap();
        assert_eq!((sheet.area, sheet.column, sheet.flag), (bracket(low, low + 1), column, false));
        assert_eq!(sheet.size_column, Some(size_column));
    }
}

#[test]
fn the_class_comes_from_the_area_and_not_from_the_size() {
    let (counts, marks) = one_cell(8, 0);
    let assessed = |aircraft| {
        let question =
            Question { aircraft, counts: &counts, marks: &marks, cell_area: 10_000, controlled: false, word: 0 };
        assess(question).map(|a| (a.sheet.size_column, a.sheet.column, a.intrinsic))
    };
    assert_eq!(assessed(P2), Ok((Some(1), 2, 6)));
    // P5, and one millimetre less
    assert_eq!(assessed(Aircraft { dimension: 8_000, mass: 50_000, speed: 0 }), Ok((Some(3), 3, 7)));
    assert_eq!(assessed(Aircraft { dimension: 7_999, mass: 50_000, speed: 0 }), Ok((Some(3), 2, 6)));
    // below 1,000 mm no slide counts, whatever the speed
    assert_eq!(assessed(Aircraft { dimension: 999, speed: 40_000, ..P2 }), Ok((None, 1, 5)));
}

fn bracket(low: u64, high: u64) -> Bracket {
    Bracket { low, high }
}

fn high_angle_of(dimension: u32, mass: u32) -> Result<HighAngle, Refusal> {
    high_angle(Aircraft { dimension, mass, speed: 0 })
}

#[test]
fn the_high_angle_of_a_multirotor() {
    let answer = HighAngle {
        column: 1,
        flag: false,
        frontal_area: 120_000,
        joules: bracket(18_769, 18_770),
        factor: bracket(2_516, 2_517),
        area: bracket(57_079, 57_102),
    };
    let aircraft = Aircraft { dimension: 1_100, mass: 15_000, speed: 2_500 };
    assert_eq!(high_angle(aircraft), Ok(answer));
    // no figure depends on the speed
    for speed in [0, 1, 40_000] {
        assert_eq!(high_angle(Aircraft { speed, ..aircraft }), Ok(answer));
    }
}

#[test]
fn the_frontal_area_runs_in_straight_lines() {
    let points = [(1_000, 100_000), (3_000, 500_000), (8_000, 2_500_000), (20_000, 12_500_000), (40_000, 25_000_000)];
    // 833 1/3 square millimetres a millimetre from 8,000 to 20,000 mm, rounded down
    let between = [(1_001, 100_200), (2_999, 499_800), (3_001, 500_400), (7_999, 2_499_600), (8_001, 2_500_833)];
    let more =
        [(8_002, 2_501_666), (8_003, 2_502_500), (19_999, 12_499_166), (20_001, 12_500_625), (39_999, 24_999_375)];
    for (dimension, frontal_area) in points.into_iter().chain(between).chain(more) {
        assert_eq!(high_angle_of(dimension, 50).map(|answer| answer.frontal_area), Ok(frontal_area));
    }
}

#[test]
fn the_factor_is_chosen_by_each_ones_joules() {
    let energy = |dimension, mass| high_angle_of(dimension, mass).map(|answer| (answer.joules, answer.factor));
    // at 12,000 J, where the root is 2.3013: below it, on both sides of it, and exactly there
    assert_eq!(energy(1_000, 10_948), Ok((bracket(11_998, 11_999), bracket(2_300, 2_300))));
    assert_eq!(energy(1_006, 11_014), Ok((bracket(11_999, 12_000), bracket(2_300, 2_302))));
    assert_eq!(energy(3_385, 28_000), Ok((bracket(12_000, 12_000), bracket(2_301, 2_302))));
    // at 3,125,000 J, where the root is 7 itself
    assert_eq!(energy(1_035, 182_766), Ok((bracket(3_124_999, 3_125_000), bracket(6_999, 7_000))));
    assert_eq!(energy(2_462, 350_000), Ok((bracket(3_125_000, 3_125_000), bracket(7_000, 7_000))));
    assert_eq!(energy(1_039, 183_448), Ok((bracket(3_125_000, 3_125_001), bracket(7_000, 7_000))));
    // the least and the greatest
    assert_eq!(energy(40_000, 50), Ok((bracket(0, 1), bracket(2_300, 2_300))));
    assert_eq!(energy(1_000, 25_000_000), Ok((bracket(62_563_775_510, 62_563_775_511), bracket(7_000, 7_000))));
}

#[test]
fn the_high_angles_column_and_flag_are_those_of_its_area() {
    let judged =
        |dimension, mass| high_angle_of(dimension, mass).map(|answer| (answer.area, answer.column, answer.flag));
    assert_eq!(judged(1_202, 16_782), Ok((bracket(65_000, 65_027), 2, true)));
    assert_eq!(judged(4_261, 99_319), Ok((bracket(649_957, 650_144), 3, true)));
    assert_eq!(judged(12_556, 541_519), Ok((bracket(6_499_928, 6_501_287), 4, true)));
    assert_eq!(judged(39_079, 1_350_958), Ok((bracket(64_997_142, 65_009_502), 5, true)));
    // the largest, far below the last limit
    assert_eq!(judged(40_000, 25_000_000), Ok((bracket(90_577_382, 90_577_382), 5, false)));
}

#[test]
fn high_angle_refusals_in_their_order() {
    let refused = |dimension, mass, speed| high_angle(Aircraft { dimension, mass, speed }).err();
    assert_eq!(refused(49, 49, 40_001), Some(Refusal::Dimension));
    assert_eq!(refused(100_001, 49, 40_001), Some(Refusal::Dimension));
    assert_eq!(refused(50, 49, 40_001), Some(Refusal::Mass));
    assert_eq!(refused(100_000, 25_000_001, 40_001), Some(Refusal::Mass));
    assert_eq!(refused(50, 50, 40_001), Some(Refusal::Speed));
    assert_eq!(refused(100_000, 25_000_000, 40_001), Some(Refusal::Speed));
    for dimension in [50, 999, 40_001, 100_000] {
        assert_eq!(refused(dimension, 25_000_000, 40_000), Some(Refusal::FrontalDimension));
    }
    for dimension in [1_000, 40_000] {
        assert_eq!(refused(dimension, 25_000_000, 40_000), None);
        assert_eq!(refused(dimension, 50, 0), None);
    }
}

const MULTIROTOR: Aircraft = Aircraft { dimension: 1_100, mass: 15_000, speed: 2_500 };

/// Equal bits, where == would take a zero for its negative.
fn bits(fall: Fall) -> [u64; 3] {
    [fall.horizontal, fall.downward, fall.fallen].map(f64::to_bits)
}

#[test]
fn the_descent_of_a_multirotor() {
    for (height, above_60, steps, horizontal, downward, fallen) in [
        (5_739, false, 364, 16.89205619293888, 29.2054207058643, 57.394134348678406),
        (5_740, true, 365, 16.869715501946732, 29.264894900229216, 57.686485926708876),
        (12_000, true, 549, 12.898774905571575, 38.15703508038924, 120.32397548436764),
    ] {
        let end = Fall { horizontal, downward, fallen };
        let answer = descent(MULTIROTOR, height, BUDGET_MOST);
        assert_eq!(answer, Ok(Descent { above_60, steps, end }));
        assert_eq!(answer.map(|answer| bits(answer.end)), Ok(bits(end)));
    }
}

#[test]
fn a_descent_at_rest_is_plumb() {
    let answer = descent(Aircraft { speed: 0, ..MULTIROTOR }, 1, BUDGET_MOST);
    let end = Fall { horizontal: 0.0, downward: 0.4904886828464401, fallen: 0.012262367965681066 };
    assert_eq!(answer, Ok(Descent { above_60: true, steps: 5, end }));
    assert_eq!(answer.map(|answer| bits(answer.end)), Ok(bits(end)));
}

#[test]
fn the_budget_changes_no_answer_that_is_given() {
    let answer = descent(MULTIROTOR, 5_740, 365);
    assert_eq!(answer.map(|answer| answer.steps), Ok(365));
    for budget in [366, 1_000, BUDGET_MOST] {
        assert_eq!(descent(MULTIROTOR, 5_740, budget), answer);
    }
    for budget in [1, 2, 364] {
        assert_eq!(descent(MULTIROTOR, 5_740, budget), Err(Refusal::BudgetSpent));
    }
    // nearly all of the largest budget, and more than it
    let light = Aircraft { dimension: 3_000, mass: 50, speed: 0 };
    assert_eq!(descent(light, 28_250, BUDGET_MOST).map(|answer| answer.steps), Ok(19_976));
    assert_eq!(descent(light, HEIGHT_MOST, BUDGET_MOST), Err(Refusal::BudgetSpent));
}

#[test]
fn a_negative_speed_comes_before_a_spent_budget() {
    // at 102.041 m/s the first step takes the whole speed away
    let light = |speed| Aircraft { dimension: 1_000, mass: 50, speed };
    assert_eq!(descent(light(10_204), 1, 1), Err(Refusal::BudgetSpent));
    assert_eq!(descent(light(10_205), 1, 1), Err(Refusal::NegativeSpeed));
    assert_eq!(descent(light(10_204), 1, BUDGET_MOST).map(|answer| answer.steps), Ok(5));
    assert_eq!(descent(light(10_205), 1, BUDGET_MOST), Err(Refusal::NegativeSpeed));
}

#[test]
fn descent_refusals_in_their_order() {
    let refused =
        |dimension, mass, speed, height| descent(Aircraft { dimension, mass, speed }, height, BUDGET_MOST).err();
    assert_eq!(refused(49, 49, 40_001, 0), Some(Refusal::Dimension));
    assert_eq!(refused(100_001, 49, 40_001, 0), Some(Refusal::Dimension));
    assert_eq!(refused(50, 49, 40_001, 0), Some(Refusal::Mass));
    assert_eq!(refused(50, 50, 40_001, 0), Some(Refusal::Speed));
    for dimension in [50, 999, 40_001, 100_000] {
        assert_eq!(refused(dimension, 50, 40_000, 0), Some(Refusal::FrontalDimension));
    }
    for (height, budget) in [(0, 1), (1, 0), (0, 0), (HEIGHT_MOST + 1, 1), (1, BUDGET_MOST + 1), (0, BUDGET_MOST)] {
        let light = Aircraft { dimension: 1_000, mass: 50, speed: 40_000 };
        assert_eq!(descent(light, height, budget), Err(Refusal::HeightOrBudget));
    }
    assert_eq!(refused(1_000, 50, 40_000, 1), Some(Refusal::NegativeSpeed));
    assert_eq!(refused(40_000, 50, 40_000, HEIGHT_MOST), Some(Refusal::NegativeSpeed));
    assert_eq!(refused(40_000, 25_000_000, 40_000, HEIGHT_MOST), None);
}

/// Whether the sheet is accepted with a column at most this one.
fn passes(dimension: u32, mass: u32, speed: u32, column: u8) -> bool {
    sheet(Aircraft { dimension, mass, speed }).map_or(false, |sheet| sheet.column <= column)
}

#[test]
fn the_greatest_speeds_and_masses_of_an_aircraft() {
    let none = Err(Refusal::NoneForColumn);
    let speeds = |dimension, mass| [1, 2, 3, 4, 5].map(|column| greatest_speed(dimension, mass, column));
    assert_eq!(speeds(1_500, 10_000), [Ok(1_591), Ok(5_160), Ok(16_359), Ok(40_000), Ok(40_000)]);
    assert_eq!(speeds(3_000, 25_000), [none, Ok(3_692), Ok(12_418), Ok(39_496), Ok(40_000)]);
    let masses = |dimension, speed| [1, 2, 3, 4, 5].map(|column| greatest_mass(dimension, speed, column));
    assert_eq!(masses(1_500, 3_000), [Ok(2_403), Ok(25_000_000), Ok(25_000_000), Ok(25_000_000), Ok(25_000_000)]);
    assert_eq!(masses(3_000, 5_000), [none, Ok(1_679), Ok(25_000_000), Ok(25_000_000), Ok(25_000_000)]);
}

#[test]
fn no_larger_number_passes_and_the_greatest_does() {
    let dimensions = [50, 999, 1_000, 1_500, 3_000, 7_999, 8_000, 20_000, 100_000];
    let masses = [50, 900, 25_000, 25_000_000];
    for dimension in dimensions {
        for column in 1..=5 {
            for mass in masses {
                let passes = |speed| passes(dimension, mass, speed, column);
                match greatest_speed(dimension, mass, column) {
                    Ok(speed) => assert!(passes(speed) && (speed == 40_000 || !passes(speed + 1))),
                    Err(refusal) => assert!(refusal == Refusal::NoneForColumn && !passes(0)),
                }
            }
            for speed in [0, 1_500, 7_500, 40_000] {
                let passes = |mass| passes(dimension, mass, speed, column);
                match greatest_mass(dimension, speed, column) {
                    Ok(mass) => assert!(passes(mass) && (mass == 25_000_000 || !passes(mass + 1))),
                    Err(refusal) => assert!(refusal == Refusal::NoneForColumn && !passes(50)),
                }
            }
        }
    }
}

#[test]
fn where_the_area_has_no_slide_the_ends_of_the_ranges_are_the_greatest() {
    for number in [50, 25_000, 40_000] {
        assert_eq!(greatest_speed(999, number, 1), Ok(40_000));
        assert_eq!(greatest_mass(999, number, 1), Ok(25_000_000));
    }
    // from 1,000 mm on it has one
    assert_eq!((greatest_speed(1_000, 25_000, 1), greatest_mass(1_000, 2_500, 1)), (Ok(1_531), Ok(4_332)));
}

#[test]
fn at_8000_mm_the_whole_area_is_too_large_for_column_2() {
    let none = Err(Refusal::NoneForColumn);
    let greatest =
        |dimension, column| [greatest_speed(dimension, 25_000, column), greatest_mass(dimension, 2_500, column)];
    assert_eq!(greatest(7_999, 2), [Ok(1_587), Ok(4_497)]);
    assert_eq!(greatest(8_000, 2), [none, none]);
    assert_eq!(greatest(8_000, 3), [Ok(5_933), Ok(25_000_000)]);
}

#[test]
fn refusals_of_the_greatest_in_their_order() {
    for dimension in [0, 49, 100_001, u32::MAX] {
        assert_eq!(greatest_speed(dimension, 49, 0), Err(Refusal::Dimension));
        assert_eq!(greatest_mass(dimension, 40_001, 0), Err(Refusal::Dimension));
    }
    for dimension in [50, 100_000] {
        for mass in [0, 49, 25_000_001, u32::MAX] {
            assert_eq!(greatest_speed(dimension, mass, 0), Err(Refusal::Mass));
        }
        for speed in [40_001, u32::MAX] {
            assert_eq!(greatest_mass(dimension, speed, 0), Err(Refusal::Speed));
        }
        for column in [0, 6, 255] {
            assert_eq!(greatest_speed(dimension, 50, column), Err(Refusal::WantedColumn));
            assert_eq!(greatest_mass(dimension, 40_000, column), Err(Refusal::WantedColumn));
        }
    }
    // the largest has no column below 5, whatever its speed or mass
    assert_eq!(greatest_speed(100_000, 50, 4), Err(Refusal::NoneForColumn));
    assert_eq!(greatest_mass(100_000, 0, 4), Err(Refusal::NoneForColumn));
    assert!(greatest_speed(100_000, 50, 5).is_ok() && greatest_mass(100_000, 0, 5).is_ok());
    // a mass may be in range and a column too low for the speed alone
    assert_eq!(greatest_mass(1_500, 40_000, 1), Err(Refusal::NoneForColumn));
    assert!(greatest_mass(1_500, 0, 1).is_ok());
}

/// A map with people in one marked cell.
fn one_cell(people: u32, place: usize) -> (Vec<u32>, Vec<u64>) {
    let (mut counts, mut marks) = (vec![0; MAP_CELLS], vec![0; MAP_ROWS]);
    counts[place] = people;
    marks[place / MAP_COLUMNS] = 1 << (MAP_COLUMNS - 1 - place % MAP_COLUMNS);
    (counts, marks)
}

#[test]
fn p9_to_p11_the_table_row() {
    let row = |people, cell_area| {
        let (counts, marks) = one_cell(people, MAP_CELLS - 1);
        footprint(&counts, &marks, cell_area).map(|f| (f.row, f.place, f.people, f.cells))
    };
    assert_eq!(row(4, 1_000_000), Ok((2, 4_095, 4, 1)));
    assert_eq!(row(5, 1_000_000), Ok((3, 4_095, 5, 1)));
    assert_eq!(row(49_999, 1_000_000), Ok((6, 4_095, 49_999, 1)));
    assert_eq!(row(50_000, 1_000_000), Ok((7, 4_095, 50_000, 1)));
    assert_eq!(row(1, 10_000), Ok((4, 4_095, 1, 1)));
    assert_eq!(row(8, 10_000), Ok((5, 4_095, 8, 1)));
}

#[test]
fn footprint_refusals() {
    let (counts, marks) = one_cell(1, 0);
    assert_eq!(footprint(&counts[1..], &marks, 100), Err(Refusal::BufferLength));
    assert_eq!(footprint(&counts, &marks[1..], 100), Err(Refusal::BufferLength));
    assert_eq!(footprint(&[], &[], 100), Err(Refusal::BufferLength));
    assert_eq!(footprint(&counts, &marks, 99), Err(Refusal::CellArea));
    assert_eq!(footprint(&counts, &marks, 25_000_001), Err(Refusal::CellArea));
    let (too_many, _) = one_cell(1_000_001, 1);
    assert_eq!(footprint(&too_many, &marks, 100), Err(Refusal::Count));
    assert_eq!(footprint(&counts, &[0; MAP_ROWS], 100), Err(Refusal::NoCell));
}

#[test]
fn p12_to_p15_the_classes() {
    assert_eq!(final_class(3, 6, 0x2212), Ok(1));
    assert_eq!(final_class(3, 6, 0x2313), Ok(0));
    assert_eq!(final_class(1, 1, 0x0003), Ok(-1));
    assert_eq!(final_class(5, 9, 0x0000), Err(Refusal::FinalClass));
    assert_eq!(final_class(3, 6, 0x4000), Err(Refusal::Mitigation));
    assert_eq!(final_class(3, 1, 0x0000), Err(Refusal::ClassInput));
    assert_eq!(intrinsic_class(3, 4, false), Ok(6));
    assert_eq!(intrinsic_class(3, 4, true), Ok(2));
    assert_eq!(intrinsic_class(3, 7, false), Err(Refusal::NoClass));
    assert_eq!(intrinsic_class(0, 4, false), Err(Refusal::ClassInput));
}

const P2: Aircraft = Aircraft { dimension: 1_000, mass: 10_000, speed: 2_500 };

#[test]
fn the_assessment_is_its_parts() {
    let (counts, marks) = one_cell(8, 0);
    let question =
        Question { aircraft: P2, counts: &counts, marks: &marks, cell_area: 10_000, controlled: false, word: 0x1000 };
    let a = assess(question).expect("P16 is accepted");
    assert_eq!(Ok(a.sheet), sheet(P2));
    assert_eq!(Ok(a.footprint), footprint(&counts, &marks, 10_000));
    assert_eq!((a.row_used, a.intrinsic, a.final_class), (5, 6, 5));
    let controlled = assess(Question { controlled: true, ..question }).expect("P16 on controlled ground is accepted");
    assert_eq!((controlled.row_used, controlled.intrinsic, controlled.final_class), (1, 1, 1));
    let of_aircraft = |aircraft| assess(Question { aircraft, ..question });
    assert_eq!(of_aircraft(Aircraft { mass: 49, ..P2 }), Err(Refusal::Mass));
    assert_eq!(of_aircraft(Aircraft { speed: 40_001, ..P2 }), Err(Refusal::Speed));
    assert_eq!(assess(Question { word: 0x4000, ..question }), Err(Refusal::Mitigation));
}

#[test]
fn the_mark_of_line_1_is_judged_after_the_map() {
    let (counts, marks) = one_cell(8, 0);
    let head = CaseHead { aircraft: P2, cell_area: 10_000, controlled: 0, word: 0x1000 };
    let question =
        Question { aircraft: P2, counts: &counts, marks: &marks, cell_area: 10_000, controlled: false, word: 0x1000 };
    for controlled in 0..=u8::MAX {
        let head = CaseHead { controlled, ..head };
        let mark = head.controlled_ground();
        assert_eq!(
            mark,
            [Ok(false), Ok(true)].get(usize::from(controlled)).copied().unwrap_or(Err(Refusal::ClassInput))
        );
        let asked = mark.and_then(|controlled| assess(Question { controlled, ..question }));
        assert_eq!(head.assess(&counts, &marks), asked);
    }
    let twice_wrong = CaseHead { controlled: 2, cell_area: 99, ..head };
    assert_eq!(twice_wrong.assess(&counts, &marks), Err(Refusal::CellArea));
}

/// P16.
fn text() -> Vec<u8> {
    let line = |first: &str, digits: usize| format!("{first:0<digits$}\n");
    let mut text = String::from("000003e800002710000009c400002710001000\n");
    for row in 0..MAP_ROWS {
        text += &line(if row == 0 { "8" } else { "" }, MARK_DIGITS);
    }
    for row in 0..MAP_ROWS {
        text += &line(if row == 0 { "00000008" } else { "" }, COUNT_DIGITS * MAP_COLUMNS);
    }
    text.into_bytes()
}

#[test]
fn the_text_and_the_frame_are_as_long_as_the_papers_say() {
    assert_eq!((MAP_CELLS, TEXT_LENGTH, FRAME_LENGTH, REFUSAL_LENGTH), (4_096, 33_959, 43, 3));
    assert_eq!((LINE_1_LENGTH, MARK_LINE, COUNT_LINE), (39, 17, 513));
}

#[test]
fn fields_follow_one_another() {
    type Place = fn(&str) -> Option<std::ops::Range<usize>>;
    for (fields, place, length) in
        [(&LINE_1[..], line_1_place as Place, LINE_1_LENGTH), (&FRAME, frame_place, FRAME_LENGTH)]
    {
        let mut start = 0;
        for (name, digits) in fields {
            assert_eq!(place(name), Some(start..start + digits));
            start += digits;
        }
        assert_eq!(start + 1, length);
        assert_eq!((place(""), place("lo"), place("lower")), (None, None, None));
    }
}

struct Lent {
    counts: Vec<u32>,
    marks: Vec<u64>,
    frame: Vec<u8>,
}

fn lent() -> Lent {
    Lent { counts: vec![7; MAP_CELLS], marks: vec![9; MAP_ROWS], frame: b"x".repeat(FRAME_LENGTH + 9) }
}

#[test]
fn p16_the_whole_case() {
    let mut l = lent();
    assert_eq!(text().len(), TEXT_LENGTH);
    assert_eq!(case(&text(), &mut l.counts, &mut l.marks, &mut l.frame), Ok(()));
    assert_eq!(l.frame, b"000001bf3e0001bf3f020001050000000000080605\nxxxxxxxxx");
    let (counts, marks) = one_cell(8, 0);
    assert_eq!((l.counts, l.marks), (counts, marks));
}

#[test]
fn refused_readings_change_nothing() {
    let mut short = text();
    short.pop();
    let mut capital = text();
    capital[4] = b'F';
    for (text, counts_length, refusal, digits) in [
        (short, MAP_CELLS, Refusal::TextLength, "0d\nxx"),
        (capital, MAP_CELLS, Refusal::TextByte, "0e\nxx"),
        (text(), MAP_CELLS - 1, Refusal::BufferLength, "05\nxx"),
    ] {
        let mut l = lent();
        l.counts.truncate(counts_length);
        assert_eq!(read_case(&text, &mut l.counts, &mut l.marks), Err(refusal));
        assert_eq!(case(&text, &mut l.counts, &mut l.marks, &mut l.frame), Err(refusal));
        assert!(l.counts.iter().all(|&count| count == 7) && l.marks.iter().all(|&mark| mark == 9));
        assert_eq!(&l.frame[..5], digits.as_bytes());
    }
}

#[test]
fn a_short_frame_buffer_changes_nothing() {
    let mut l = lent();
    l.frame.truncate(FRAME_LENGTH - 1);
    assert_eq!(case(&text(), &mut l.counts, &mut l.marks, &mut l.frame), Err(Refusal::FrameLength));
    assert!(l.counts.iter().all(|&count| count == 7) && l.frame.iter().all(|&byte| byte == b'x'));
    assert_eq!(write_frame(Err(Refusal::Mass), &mut l.frame), Err(Refusal::FrameLength));
    assert_eq!(write_frame(Err(Refusal::Mass), &mut []), Err(Refusal::FrameLength));
}

#[test]
fn line_1_is_read_and_frames_are_written() {
    let mut l = lent();
    let head = CaseHead { aircraft: P2, cell_area: 10_000, controlled: 0, word: 0x1000 };
    assert_eq!(read_case(&text(), &mut l.counts, &mut l.marks), Ok(head));
    let fields = FrameFields {
        low: 1,
        high: 2,
        column: 3,
        flag: true,
        size_column: Some(5),
        row_used: 4,
        place: 4_095,
        people: 5,
        intrinsic: 6,
        final_class: -1,
    };
    assert_eq!(write_frame(Ok(fields), &mut l.frame), Ok(FRAME_LENGTH));
    assert_eq!(&l.frame[..FRAME_LENGTH + 1], b"000000000100000002030105040fff0000000506ff\nx");
    assert_eq!(write_frame(Ok(FrameFields { size_column: None, ..fields }), &mut l.frame), Ok(FRAME_LENGTH));
    assert_eq!(&l.frame[..FRAME_LENGTH + 1], b"000000000100000002030100040fff0000000506ff\nx");
    assert_eq!(write_frame(Err(Refusal::NoClass), &mut l.frame), Ok(REFUSAL_LENGTH));
    assert_eq!(&l.frame[..4], b"0a\n0");
}

/// What was read of a stored case, and the text.
struct CaseFile {
    text: Vec<u8>,
    head: CaseHead,
    counts: Vec<u32>,
    marks: Vec<u64>,
}

fn case_file(name: &str) -> CaseFile {
    let text =
        std::fs::read(format!("{}/../../examples/{name}.case", env!("CARGO_MANIFEST_DIR"))).expect("it is stored");
    let Lent { mut counts, mut marks, .. } = lent();
    let head = read_case(&text, &mut counts, &mut marks).expect("a stored case can be read");
    CaseFile { text, head, counts, marks }
}

#[test]
fn a_written_assessment_is_the_printed_case() {
    for name in ["farmhouses", "area_route", "flagged", "refused"] {
        let CaseFile { text, head, counts, marks } = case_file(name);
        let answer = head.assess(&counts, &marks);
        let (mut written, mut printed) = (lent(), lent());
        let length = write_frame(answer.map(|assessment| FrameFields::from(&assessment)), &mut written.frame);
        assert_eq!(length, Ok(if answer.is_ok() { FRAME_LENGTH } else { REFUSAL_LENGTH }));
        assert_eq!(case(&text, &mut printed.counts, &mut printed.marks, &mut printed.frame).err(), answer.err());
        assert_eq!(written.frame, printed.frame);
        assert_eq!((counts, marks), (printed.counts, printed.marks));
    }
}

#[test]
fn empty_slices_are_refused() {
    let Lent { mut counts, mut marks, mut frame } = lent();
    assert_eq!(footprint(&[], &marks, 100), Err(Refusal::BufferLength));
    assert_eq!(footprint(&counts, &[], 100), Err(Refusal::BufferLength));
    let question = Question { aircraft: P2, counts: &[], marks: &[], cell_area: 100, controlled: true, word: 0 };
    assert_eq!(assess(question), Err(Refusal::BufferLength));
    assert_eq!(read_case(&[], &mut counts, &mut marks), Err(Refusal::TextLength));
    assert_eq!(read_case(&text(), &mut [], &mut marks), Err(Refusal::BufferLength));
    assert_eq!(read_case(&text(), &mut counts, &mut []), Err(Refusal::BufferLength));
    assert_eq!(write_frame(Err(Refusal::Mass), &mut []), Err(Refusal::FrameLength));
    assert_eq!(case(&[], &mut [], &mut [], &mut []), Err(Refusal::FrameLength));
    assert_eq!(case(&[], &mut [], &mut [], &mut frame), Err(Refusal::TextLength));
    assert_eq!(case(&text(), &mut [], &mut [], &mut frame), Err(Refusal::BufferLength));
}

#[test]
fn refusals_are_found_by_their_numbers() {
    for number in 0..=u8::MAX {
        let found = Refusal::ALL.iter().copied().find(|&refusal| u8::from(refusal) == number);
        match Refusal::try_from(number) {
            Ok(refusal) => assert_eq!((Some(refusal), refusal.number()), (found, number)),
            Err(error) => assert_eq!((None, error.number()), (found, number)),
        }
        assert_eq!(found.is_some(), (1..=21).contains(&number));
    }
}

/// A number as messages have it, with a comma before each three digits.
fn with_commas(number: usize) -> String {
    match number {
        0..=999 => number.to_string(),
        _ => format!("{},{:03}", with_commas(number / 1_000), number % 1_000),
    }
}

#[test]
fn ranges_are_as_the_messages_say() {
    type Refused<'a> = &'a dyn Fn(u32) -> Option<Refusal>;
    let (counts, marks) = one_cell(1, 0);
    let cell_area = |cell_area| footprint(&counts, &marks, cell_area).err();
    let of_descent = |aircraft| descent(aircraft, 1, BUDGET_MOST).err();
    let ranges: [(Refusal, u32, u32, Refused); 20] = [
        (Refusal::Dimension, 50, 100_000, &|dimension| sheet(Aircraft { dimension, ..P2 }).err()),
        (Refusal::Mass, 50, 25_000_000, &|mass| sheet(Aircraft { mass, ..P2 }).err()),
        (Refusal::Speed, 0, 40_000, &|speed| sheet(Aircraft { speed, ..P2 }).err()),
        (Refusal::CellArea, 100, 25_000_000, &cell_area),
        (Refusal::Dimension, 50, 100_000, &|dimension| high_angle(Aircraft { dimension, ..P2 }).err()),
        (Refusal::Mass, 50, 25_000_000, &|mass| high_angle(Aircraft { mass, ..P2 }).err()),
        (Refusal::Speed, 0, 40_000, &|speed| high_angle(Aircraft { speed, ..P2 }).err()),
        (Refusal::FrontalDimension, 1_000, 40_000, &|dimension| high_angle(Aircraft { dimension, ..P2 }).err()),
        (Refusal::Dimension, 50, 100_000, &|dimension| of_descent(Aircraft { dimension, ..P2 })),
        (Refusal::Mass, 50, 25_000_000, &|mass| of_descent(Aircraft { mass, ..P2 })),
        (Refusal::Speed, 0, 40_000, &|speed| of_descent(Aircraft { speed, ..P2 })),
        (Refusal::FrontalDimension, 1_000, 40_000, &|dimension| of_descent(Aircraft { dimension, ..P2 })),
        (Refusal::HeightOrBudget, 1, HEIGHT_MOST, &|height| descent(P2, height, 1).err()),
        (Refusal::HeightOrBudget, 1, BUDGET_MOST, &|budget| descent(P2, 1, budget).err()),
        (Refusal::Dimension, 50, 100_000, &|dimension| greatest_speed(dimension, P2.mass, 5).err()),
        (Refusal::Mass, 50, 25_000_000, &|mass| greatest_speed(P2.dimension, mass, 5).err()),
        (Refusal::WantedColumn, 1, 5, &|column| greatest_speed(P2.dimension, P2.mass, column as u8).err()),
        (Refusal::Dimension, 50, 100_000, &|dimension| greatest_mass(dimension, P2.speed, 5).err()),
        (Refusal::Speed, 0, 40_000, &|speed| greatest_mass(P2.dimension, speed, 5).err()),
        (Refusal::WantedColumn, 1, 5, &|column| greatest_mass(P2.dimension, P2.speed, column as u8).err()),
    ];
    for (refusal, low, high, refused) in ranges {
        let range = format!(" {} to {} ", with_commas(low as usize), with_commas(high as usize));
        assert!(refusal.message().contains(&range), "{refusal}");
        for allowed in [low, high] {
            assert_ne!(refused(allowed), Some(refusal));
        }
        for wrong in [low.wrapping_sub(1), high + 1] {
            assert_eq!(refused(wrong), Some(refusal));
        }
        // no frontal area is asked for where the dimension itself is out of range
        let first = if refusal == Refusal::FrontalDimension { Refusal::Dimension } else { refusal };
        assert_eq!(refused(u32::MAX), Some(first));
    }
}

#[test]
fn refusals_say_what_is_allowed() {
    for refusal in Refusal::ALL {
        let message = refusal.message();
        assert!(message.contains(" allowed") || message.contains(" needed"), "{message}");
        assert_eq!(refusal.to_string(), format!("refusal {}: {message}", refusal.number()));
    }
    for (refusal, length) in [
        (Refusal::BufferLength, MAP_CELLS),
        (Refusal::BufferLength, MAP_ROWS),
        (Refusal::TextLength, TEXT_LENGTH),
        (Refusal::FrameLength, FRAME_LENGTH),
        (Refusal::BudgetSpent, BUDGET_MOST as usize),
    ] {
        assert!(refusal.message().contains(&format!(" {} ", with_commas(length))), "{refusal}");
    }
    assert_eq!(Refusal::Mass.to_string(), "refusal 2: mass out of range: 50 to 25,000,000 g is allowed");
    assert_eq!(Refusal::try_from(0).map_err(|error| error.to_string()), Err("no refusal has number 0".to_string()));
}

/// A user passes them on by `?` and from thread to thread.
#[test]
fn refusals_are_errors() {
    fn passed_on(number: u8) -> Result<Refusal, Box<dyn std::error::Error + Send + Sync>> {
        let refusal = Refusal::try_from(number)?;
        sheet(P2)?;
        Ok(refusal)
    }
    assert_eq!(passed_on(4).expect("4 is a refusal"), Refusal::Area);
    assert_eq!(passed_on(255).expect_err("255 isn't").to_string(), "no refusal has number 255");
}

#[allow(dead_code)]
#[path = "../src/ffi.rs"]
mod ffi;

#[test]
fn sizes_are_those_of_the_header() {
    use ffi::*;
    use std::mem::size_of;
    let header = include_str!("../../include/nuggetbay.h");
    let sizes = [
        ("bracket", size_of::<Bracket>()),
        ("sheet", size_of::<Sheet>()),
        ("sheet_answer", size_of::<SheetAnswer>()),
        ("high_angle", size_of::<HighAngle>()),
        ("fall", size_of::<Fall>()),
        ("descent", size_of::<Descent>()),
        ("greatest_speed", size_of::<GreatestSpeed>()),
        ("greatest_mass", size_of::<GreatestMass>()),
        ("footprint", size_of::<Footprint>()),
        ("intrinsic_class", size_of::<IntrinsicClass>()),
        ("final_class", size_of::<FinalClass>()),
        ("assessment", size_of::<Assessment>()),
        ("case_head", size_of::<CaseHead>()),
        ("reading", size_of::<Reading>()),
        ("frame_fields", size_of::<FrameFields>()),
    ];
    for (name, size) in sizes {
        assert!(header.contains(&format!("NB_ASSERT(sizeof(nb_{name}_t) == {size}, ")), "{name} has {size} bytes");
    }
    assert_eq!(header.matches("NB_ASSERT(sizeof(").count(), sizes.len());
}
