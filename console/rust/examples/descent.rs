//! Says in words how an aircraft that falls from its operating height strikes the ground.
//!
//!     cargo run --release --example descent -- DIMENSION MASS SPEED HEIGHT [BUDGET]
//!
//! The maximum characteristic dimension is in mm, the maximum take-off mass in g, the maximum cruise speed in cm/s, the lowest operating
//! height in cm, and the step budget in steps of 0.01 s, the largest one where none is given. Ends with 0 where the descent is accepted,
//! 1 where it is refused, 2 where an argument is no number or the words can't be written.

use nuggetbay::{descent, Aircraft, Descent, Refusal, BUDGET_MOST};
use std::ffi::OsString;
use std::io::{self, Write};
use std::process::ExitCode;

fn say(answer: &Result<Descent, Refusal>, mut out: impl Write) -> io::Result<()> {
    match answer {
        Ok(answer) => say_answer(answer, &mut out)?,
        Err(refusal) => writeln!(out, "{refusal}")?,
    }
    out.flush()
}

fn say_answer(answer: &Descent, out: &mut impl Write) -> io::Result<()> {
    let Descent { above_60, steps, end } = answer;
    let (angle, model) = if *above_60 {
        ("above", "a rotorcraft or multirotor may use the high impact angle model")
    } else {
        ("not above", "the high impact angle model may not be used: the area is the sheet's")
    };
    writeln!(out, "strikes the ground after {}.{:02} seconds, {steps} steps", steps / 100, steps % 100)?;
    writeln!(out, "distance fallen: {:.3} metres", end.fallen)?;
    writeln!(out, "speed at the ground: {:.3} m/s horizontally, {:.3} m/s downward", end.horizontal, end.downward)?;
    writeln!(out, "impact angle: {angle} 60 degrees")?;
    writeln!(out, "from this operating height {model}")
}

/// A number of digits alone, of 32 bits.
fn number(argument: &OsString) -> Result<u32, String> {
    let words = argument.to_string_lossy();
    // a sign would be parsed too
    let digits = words.bytes().all(|byte| byte.is_ascii_digit());
    words.parse().ok().filter(|_| digits).ok_or_else(|| format!("not a number of 32 bits: '{words}'"))
}

/// The aircraft, the height and the budget.
fn asked(arguments: &[OsString]) -> Result<(Aircraft, u32, u32), String> {
    match arguments {
        [dimension, mass, speed, height, budget @ ..] if budget.len() <= 1 => {
            let aircraft = Aircraft { dimension: number(dimension)?, mass: number(mass)?, speed: number(speed)? };
            Ok((aircraft, number(height)?, budget.first().map_or(Ok(BUDGET_MOST), number)?))
        }
        _ => {
            Err("usage: descent DIMENSION MASS SPEED HEIGHT [BUDGET], in mm, g, cm/s, cm and steps of 0.01 s"
                .to_string())
        }
    }
}

/// Whether the descent is accepted, or why there is no answer.
fn run() -> Result<bool, String> {
    let arguments: Vec<OsString> = std::env::args_os().skip(1).collect();
    let (aircraft, height, budget) = asked(&arguments)?;
    let answer = descent(aircraft, height, budget);
    say(&answer, io::stdout().lock()).map_err(|error| format!("can't write: {error}"))?;
    Ok(answer.is_ok())
}

fn main() -> ExitCode {
    match run() {
        Ok(true) => ExitCode::SUCCESS,
        Ok(false) => ExitCode::from(1),
        Err(message) => {
            // where standard error is closed too, the status alone has to say it
            let _ = writeln!(io::stderr(), "{message}");
            ExitCode::from(2)
        }
    }
}
