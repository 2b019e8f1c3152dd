//! Says in words what the high impact angle model gives for an aircraft.
//!
//!     cargo run --release --example high_angle -- DIMENSION MASS SPEED
//!
//! The maximum characteristic dimension is in mm, the maximum take-off mass in g, the maximum cruise speed in cm/s. Ends with 0 where
//! the aircraft is accepted, 1 where it is refused, 2 where an argument is no number or the words can't be written.

use nuggetbay::{high_angle, Aircraft, HighAngle, Refusal};
use std::ffi::OsString;
use std::io::{self, Write};
use std::process::ExitCode;

fn say(answer: &Result<HighAngle, Refusal>, mut out: impl Write) -> io::Result<()> {
    match answer {
        Ok(answer) => say_answer(answer, &mut out)?,
        Err(refusal) => writeln!(out, "{refusal}")?,
    }
    out.flush()
}

/// A number of thousandths as a decimal.
fn decimal(thousandths: u64) -> String {
    format!("{}.{:03}", thousandths / 1_000, thousandths % 1_000)
}

fn say_answer(answer: &HighAngle, out: &mut impl Write) -> io::Result<()> {
    let HighAngle { column, flag, frontal_area, joules, factor, area } = answer;
    let flagged = if *flag { ", the exact one may be the column before" } else { "" };
    writeln!(out, "frontal area: {frontal_area} square millimetres")?;
    writeln!(out, "energy at terminal speed: {} to {} joules", joules.low, joules.high)?;
    writeln!(out, "safety factor: {} to {}", decimal(factor.low), decimal(factor.high))?;
    writeln!(out, "critical area: {} to {} square centimetres", area.low, area.high)?;
    writeln!(out, "column: {column}{flagged}")?;
    writeln!(
        out,
        "only for a rotorcraft or multirotor that strikes the ground at more than 60 degrees, which the descent judges"
    )
}

/// A number of digits alone, of 32 bits.
fn number(argument: &OsString) -> Result<u32, String> {
    let words = argument.to_string_lossy();
    // a sign would be parsed too
    let digits = words.bytes().all(|byte| byte.is_ascii_digit());
    words.parse().ok().filter(|_| digits).ok_or_else(|| format!("not a number of 32 bits: '{words}'"))
}

fn aircraft(arguments: &[OsString]) -> Result<Aircraft, String> {
    match arguments {
        [dimension, mass, speed] => {
            Ok(Aircraft { dimension: number(dimension)?, mass: number(mass)?, speed: number(speed)? })
        }
        _ => Err("usage: high_angle DIMENSION MASS SPEED, in mm, g and cm/s".to_string()),
    }
}

/// Whether the aircraft is accepted, or why there is no answer.
fn run() -> Result<bool, String> {
    let arguments: Vec<OsString> = std::env::args_os().skip(1).collect();
    let answer = high_angle(aircraft(&arguments)?);
    say(&answer, io::stdout().lock()).map_err(|error| format!("can't write: {error}"))?;
    Ok(answer.is_ok())
}

fn main() -> ExitCode {
    match run() {
        Ok(true) => ExitCode::SUCCESS,
        Ok(false) => ExitCode::from(1),
        Err(message) => {
            // where standard error is closed too, the status alone has to say it
            let _ = writeln!(io::stderr(), "{message}");
            ExitCode::from(2)
        }
    }
}
