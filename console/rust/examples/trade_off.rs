//! Says in words how fast an aircraft may fly, or how heavy it may be, for its sheet to have a column or a lower one.
//!
//!     cargo run --release --example trade_off -- speed DIMENSION MASS COLUMN
//!     cargo run --release --example trade_off -- mass DIMENSION SPEED COLUMN
//!
//! The maximum characteristic dimension is in mm, the maximum take-off mass in g, the maximum cruise speed in cm/s. Ends with 0 where
//! there is a greatest one, 1 where it is refused, 2 where an argument is wrong or the words can't be written.

use nuggetbay::{greatest_mass, greatest_speed, sheet, Aircraft, Refusal, Sheet};
use std::ffi::OsString;
use std::io::{self, Write};
use std::process::ExitCode;

/// What is asked: the word for it, its unit, the numbers that are given, and the column.
struct Asked {
    sought: &'static str,
    unit: &'static str,
    dimension: u32,
    given: u32,
    column: u8,
}

/// The greatest speed or mass, and the sheet that an aircraft has with it, whose area shows how near the limit it is.
fn answer(asked: &Asked) -> Result<(u32, Sheet), Refusal> {
    let Asked { sought, dimension, given, column, .. } = *asked;
    let (greatest, aircraft) = if sought == "speed" {
        let speed = greatest_speed(dimension, given, column)?;
        (speed, Aircraft { dimension, mass: given, speed })
    } else {
        let mass = greatest_mass(dimension, given, column)?;
        (mass, Aircraft { dimension, mass, speed: given })
    };
    Ok((greatest, sheet(aircraft)?))
}

fn say(asked: &Asked, answer: &Result<(u32, Sheet), Refusal>, mut out: impl Write) -> io::Result<()> {
    match answer {
        Ok((greatest, sheet)) => say_answer(asked, *greatest, sheet, &mut out)?,
        Err(refusal) => writeln!(out, "{refusal}")?,
    }
    out.flush()
}

/// A number with a comma before each three digits.
fn with_commas(number: u64) -> String {
    match number {
        0..=999 => number.to_string(),
        _ => format!("{},{:03}", with_commas(number / 1_000), number % 1_000),
    }
}

fn say_answer(asked: &Asked, greatest: u32, sheet: &Sheet, out: &mut impl Write) -> io::Result<()> {
    let Asked { sought, unit, column, .. } = asked;
    let (low, high) = (with_commas(sheet.area.low), with_commas(sheet.area.high));
    let flagged = if sheet.flag { ", the exact one may be the column before" } else { "" };
    writeln!(out, "greatest {sought} for column {column}: {} {unit}", with_commas(greatest.into()))?;
    writeln!(out, "critical area at this {sought}: {low} to {high} square centimetres")?;
    writeln!(out, "column at this {sought}: {}{flagged}", sheet.column)
}

/// A number of digits alone, of 32 bits.
fn number(argument: &OsString) -> Result<u32, String> {
    let words = argument.to_string_lossy();
    // a sign would be parsed too
    let digits = words.bytes().all(|byte| byte.is_ascii_digit());
    words.parse().ok().filter(|_| digits).ok_or_else(|| format!("not a number of 32 bits: '{words}'"))
}

fn asked(arguments: &[OsString]) -> Result<Asked, String> {
    let (sought, unit, numbers) = match arguments {
        [word, numbers @ ..] if word == "speed" && numbers.len() == 3 => ("speed", "cm/s", numbers),
        [word, numbers @ ..] if word == "mass" && numbers.len() == 3 => ("mass", "g", numbers),
        _ => return Err(
            "usage: trade_off speed DIMENSION MASS COLUMN, or trade_off mass DIMENSION SPEED COLUMN, in mm, g and cm/s"
                .to_string(),
        ),
    };
    let (dimension, given, column) = (number(&numbers[0])?, number(&numbers[1])?, number(&numbers[2])?);
    // one of more than 8 bits is refused as 0 is; cut to 8 bits it might be a column
    Ok(Asked { sought, unit, dimension, given, column: u8::try_from(column).unwrap_or(0) })
}

/// Whether there is a greatest one, or why there is no answer.
fn run() -> Result<bool, String> {
    let arguments: Vec<OsString> = std::env::args_os().skip(1).collect();
    let asked = asked(&arguments)?;
    let answer = answer(&asked);
    say(&asked, &answer, io::stdout().lock()).map_err(|error| format!("can't write: {error}"))?;
    Ok(answer.is_ok())
}

fn main() -> ExitCode {
    match run() {
        Ok(true) => ExitCode::SUCCESS,
        Ok(false) => ExitCode::from(1),
        Err(message) => {
            // where standard error is closed too, the status alone has to say it
            let _ = writeln!(io::stderr(), "{message}");
            ExitCode::from(2)
        }
    }
}
