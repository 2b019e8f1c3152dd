//! Reads a case file and says in words what comes of it.
//!
//!     cargo run --release --example case -- FILE
//!
//! Ends with 0 where the case is accepted, 1 where it is refused, 2 where the file can't be read or the words can't be written.

use nuggetbay::{read_case, Assessment, Refusal, MAP_CELLS, MAP_COLUMNS, MAP_ROWS};
use std::io::{self, Write};
use std::process::ExitCode;

/// The density of each row of the class table; there is no row 0.
const GROUND: [&str; 8] = [
    "",
    "controlled ground",
    "below 5 people per square kilometre",
    "below 50 people per square kilometre",
    "below 500 people per square kilometre",
    "below 5,000 people per square kilometre",
    "below 50,000 people per square kilometre",
    "50,000 people per square kilometre or more",
];

fn assess(text: &[u8]) -> Result<Assessment, Refusal> {
    let (mut counts, mut marks) = ([0; MAP_CELLS], [0; MAP_ROWS]);
    let head = read_case(text, &mut counts, &mut marks)?;
    head.assess(&counts, &marks)
}

fn say(answer: &Result<Assessment, Refusal>, mut out: impl Write) -> io::Result<()> {
    match answer {
        Ok(assessment) => say_assessment(assessment, &mut out)?,
        Err(refusal) => writeln!(out, "{refusal}")?,
    }
    out.flush()
}

fn say_assessment(assessment: &Assessment, out: &mut impl Write) -> io::Result<()> {
    let Assessment { sheet, footprint, row_used, intrinsic, final_class } = assessment;
    let ground = GROUND.get(usize::from(*row_used)).unwrap_or(&"");
    let place = footprint.place as usize;
    let flagged = if sheet.flag { ", the exact one may be the column before" } else { "" };
    writeln!(out, "critical area: {} to {} square centimetres", sheet.area.low, sheet.area.high)?;
    writeln!(out, "column: {}{flagged}", sheet.column)?;
    match sheet.size_column {
        Some(column) => writeln!(out, "size column: {column}")?,
        None => writeln!(out, "size column: none is large enough")?,
    }
    writeln!(out, "table row: {row_used}, {ground}")?;
    writeln!(out, "most people: in the cell at row {}, column {}", place / MAP_COLUMNS, place % MAP_COLUMNS)?;
    writeln!(out, "people under the footprint: {}", footprint.people)?;
    writeln!(out, "intrinsic ground risk class: {intrinsic}")?;
    writeln!(out, "final ground risk class: {final_class}")
}

/// Whether the case is accepted, or why there is no answer.
fn run() -> Result<bool, String> {
    let name = std::env::args_os().nth(1).ok_or("usage: case FILE")?;
    let text = std::fs::read(&name).map_err(|error| format!("can't read {}: {error}", name.to_string_lossy()))?;
    let answer = assess(&text);
    say(&answer, io::stdout().lock()).map_err(|error| format!("can't write: {error}"))?;
    Ok(answer.is_ok())
}

fn main() -> ExitCode {
    match run() {
        Ok(true) => ExitCode::SUCCESS,
        Ok(false) => ExitCode::from(1),
        Err(message) => {
            // where standard error is closed too, the status alone has to say it
            let _ = writeln!(io::stderr(), "{message}");
            ExitCode::from(2)
        }
    }
}
