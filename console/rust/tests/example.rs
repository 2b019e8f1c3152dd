//! The examples end with the status that they promise, also where their words can't be written.

use std::fs::File;
use std::path::PathBuf;
use std::process::{Command, Output, Stdio};
use std::sync::{Mutex, MutexGuard, PoisonError};

/// Held by each test, so that no other one starts a program meanwhile: until that program runs it has a copy of every open file, and a
/// closed pipe would still have a reader.
fn alone() -> MutexGuard<'static, ()> {
    static TURN: Mutex<()> = Mutex::new(());
    TURN.lock().unwrap_or_else(PoisonError::into_inner)
}

/// An example. `cargo test` builds it beside this test; with `--test` it has to be there already.
fn example_called(name: &str) -> Command {
    let test = std::env::current_exe().expect("a test knows its file");
    let built = test.parent().and_then(|deps| deps.parent()).expect("it stands in the folder deps");
    Command::new(built.join("examples").join(name))
}

fn example() -> Command {
    example_called("case")
}

fn high_angle(arguments: &[&str]) -> Command {
    let mut command = example_called("high_angle");
    command.args(arguments);
    command
}

fn descent(arguments: &[&str]) -> Command {
    let mut command = example_called("descent");
    command.args(arguments);
    command
}

fn trade_off(arguments: &[&str]) -> Command {
    let mut command = example_called("trade_off");
    command.args(arguments);
    command
}

fn stored(name: &str) -> PathBuf {
    [env!("CARGO_MANIFEST_DIR"), "../../examples", name].iter().collect()
}

fn ended(command: &mut Command) -> (Option<i32>, String) {
    let Output { status, stderr, .. } = command.output().expect("cargo test builds the examples");
    (status.code(), String::from_utf8_lossy(&stderr).into_owned())
}

#[test]
fn answers_end_with_0_or_1() {
    let _alone = alone();
    assert_eq!(ended(example().arg(stored("farmhouses.case"))), (Some(0), String::new()));
    assert_eq!(ended(example().arg(stored("refused.case"))), (Some(1), String::new()));
    assert_eq!(ended(example().arg(stored("farmhouses.frame"))), (Some(1), String::new()));
}

#[test]
fn no_file_ends_with_2() {
    let _alone = alone();
    assert_eq!(ended(&mut example()), (Some(2), "usage: case FILE\n".to_string()));
    let (status, said) = ended(example().arg(stored("no.case")));
    assert_eq!((status, said.lines().count()), (Some(2), 1));
    assert!(said.starts_with("can't read "), "{said}");
}

#[test]
fn aircraft_end_with_0_or_1() {
    let _alone = alone();
    assert_eq!(ended(&mut high_angle(&["1100", "15000", "2500"])), (Some(0), String::new()));
    for refused in [["999", "15000", "2500"], ["1100", "49", "2500"], ["4294967295", "15000", "0"]] {
        assert_eq!(ended(&mut high_angle(&refused)), (Some(1), String::new()));
    }
}

#[test]
fn no_aircraft_ends_with_2() {
    let _alone = alone();
    let usage = "usage: high_angle DIMENSION MASS SPEED, in mm, g and cm/s\n".to_string();
    for arguments in [&[][..], &["1100", "15000"], &["1100", "15000", "2500", "2500"]] {
        assert_eq!(ended(&mut high_angle(arguments)), (Some(2), usage.clone()));
    }
    for wrong in ["", "x", "-1", "+1", " 1", "1.0", "1e3", "0x10", "1_000", "4294967296", "18446744073709551617"] {
        for place in 0..3 {
            let mut arguments = ["1100", "15000", "2500"];
            arguments[place] = wrong;
            let said = format!("not a number of 32 bits: '{wrong}'\n");
            assert_eq!(ended(&mut high_angle(&arguments)), (Some(2), said));
        }
    }
}

#[test]
fn descents_end_with_0_or_1() {
    let _alone = alone();
    for accepted in [&["1100", "15000", "2500", "5740"][..], &["1100", "15000", "2500", "5740", "365"]] {
        assert_eq!(ended(&mut descent(accepted)), (Some(0), String::new()));
    }
    for refused in [
        &["999", "15000", "2500", "5740"][..],
        &["1100", "15000", "2500", "50001"],
        &["1100", "15000", "2500", "5740", "364"],
        &["1100", "15000", "2500", "5740", "4294967295"],
        &["1000", "50", "10205", "1"],
    ] {
        assert_eq!(ended(&mut descent(refused)), (Some(1), String::new()));
    }
}

#[test]
fn no_descent_ends_with_2() {
    let _alone = alone();
    let right = ["1100", "15000", "2500", "5740", "365"];
    let usage =
        "usage: descent DIMENSION MASS SPEED HEIGHT [BUDGET], in mm, g, cm/s, cm and steps of 0.01 s\n".to_string();
    for arguments in [&[][..], &right[..3], &["1100", "15000", "2500", "5740", "365", "365"]] {
        assert_eq!(ended(&mut descent(arguments)), (Some(2), usage.clone()));
    }
    for wrong in ["", "x", "-1", "+1", " 1", "1.0", "1e3", "0x10", "1_000", "4294967296", "18446744073709551617"] {
        for place in 0..right.len() {
            let mut arguments = right;
            arguments[place] = wrong;
            let said = format!("not a number of 32 bits: '{wrong}'\n");
            assert_eq!(ended(&mut descent(&arguments)), (Some(2), said));
        }
    }
}

fn said(command: &mut Command) -> (Option<i32>, String) {
    let Output { status, stdout, .. } = command.output().expect("cargo test builds the examples");
    (status.code(), String::from_utf8_lossy(&stdout).into_owned())
}

#[test]
fn trade_offs_end_with_0_or_1() {
    let _alone = alone();
    let speed = "greatest speed for column 2: 3,692 cm/s\n\
        critical area at this speed: 649,760 to 649,761 square centimetres\n\
        column at this speed: 2\n";
    assert_eq!(said(&mut trade_off(&["speed", "3000", "25000", "2"])), (Some(0), speed.to_string()));
    let mass = "greatest mass for column 2: 1,679 g\n\
        critical area at this mass: 649,868 to 649,869 square centimetres\n\
        column at this mass: 2\n";
    assert_eq!(said(&mut trade_off(&["mass", "3000", "5000", "2"])), (Some(0), mass.to_string()));
    for (refused, number) in [
        (["speed", "49", "25000", "2"], 1),
        (["speed", "3000", "49", "2"], 2),
        (["mass", "3000", "40001", "2"], 3),
        (["speed", "3000", "25000", "1"], 21),
        (["mass", "3000", "5000", "1"], 21),
    ] {
        let (status, words) = said(&mut trade_off(&refused));
        assert_eq!((status, words.lines().count()), (Some(1), 1));
        assert!(words.starts_with(&format!("refusal {number}: ")), "{words}");
    }
}

#[test]
fn columns_of_more_than_8_bits_are_refused_as_0_is() {
    let _alone = alone();
    for sought in ["speed", "mass"] {
        let zero = said(&mut trade_off(&[sought, "3000", "25000", "0"]));
        assert!(zero.1.starts_with("refusal 20: "), "{}", zero.1);
        // in the last 8 bits a column
        for column in ["6", "255", "256", "258", "65538", "4294967042"] {
            assert_eq!(said(&mut trade_off(&[sought, "3000", "25000", column])), zero);
            assert!(said(&mut trade_off(&[sought, "49", "25000", column])).1.starts_with("refusal 1: "));
        }
    }
}

#[test]
fn no_trade_off_ends_with_2() {
    let _alone = alone();
    let right = ["speed", "3000", "25000", "2"];
    let usage =
        "usage: trade_off speed DIMENSION MASS COLUMN, or trade_off mass DIMENSION SPEED COLUMN, in mm, g and cm/s\n"
            .to_string();
    for arguments in [&[][..], &right[..3], &["speed", "3000", "25000", "2", "2"], &right[1..]] {
        assert_eq!(ended(&mut trade_off(arguments)), (Some(2), usage.clone()));
    }
    for wrong in ["", "x", "-1", "+1", " 1", "1.0", "1e3", "0x10", "1_000", "4294967296", "18446744073709551617"] {
        assert_eq!(ended(&mut trade_off(&[wrong, "3000", "25000", "2"])), (Some(2), usage.clone()));
        for sought in ["speed", "mass"] {
            for place in 1..right.len() {
                let mut arguments = right;
                (arguments[0], arguments[place]) = (sought, wrong);
                let said = format!("not a number of 32 bits: '{wrong}'\n");
                assert_eq!(ended(&mut trade_off(&arguments)), (Some(2), said));
            }
        }
    }
}

/// A pipe that nobody reads any more.
fn closed_pipe() -> Stdio {
    let mut reader = Command::new("true").stdin(Stdio::piped()).spawn().expect("there is a program true");
    let pipe = reader.stdin.take().expect("it was asked for");
    reader.wait().expect("it ends");
    pipe.into()
}

fn full_disk() -> Stdio {
    File::options().write(true).open("/dev/full").expect("Linux has it").into()
}

#[test]
fn words_that_cannot_be_written_end_with_2() {
    let _alone = alone();
    for output in [closed_pipe, full_disk] {
        for case in ["farmhouses.case", "refused.case"] {
            let (status, said) = ended(example().arg(stored(case)).stdout(output()));
            assert_eq!((status, said.lines().count()), (Some(2), 1), "{said}");
            assert!(said.starts_with("can't write: "), "{said}");
            assert_eq!(ended(example().arg(stored(case)).stdout(output()).stderr(output())), (Some(2), String::new()));
        }
        for dimension in ["1100", "999"] {
            let fall = [dimension, "15000", "2500", "5740"];
            let speed = ["speed", "3000", "25000", if dimension == "999" { "1" } else { "2" }];
            for (program, arguments) in
                [(high_angle as fn(&[&str]) -> Command, &fall[..3]), (descent, &fall), (trade_off, &speed)]
            {
                let (status, said) = ended(program(arguments).stdout(output()));
                assert_eq!((status, said.lines().count()), (Some(2), 1), "{said}");
                assert!(said.starts_with("can't write: "), "{said}");
                assert_eq!(ended(program(arguments).stdout(output()).stderr(output())), (Some(2), String::new()));
            }
        }
    }
}
