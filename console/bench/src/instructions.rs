//! Instruction counts by valgrind's callgrind. They repeat from run to run, unlike times.

use std::arch::asm;
use std::collections::HashMap;
use std::ffi::CString;
use std::process::{Command, Stdio};

const ZERO_STATS: u64 = 0x4354_0001;
const DUMP_STATS_AT: u64 = 0x4354_0003;

/// A request to valgrind, as its callgrind.h spells it; without valgrind it does nothing.
fn request(number: u64, argument: u64) {
    let words = [number, argument, 0, 0, 0, 0];
    // SAFETY: the rotations add up to 128 bits, so rdi keeps its content; valgrind reads the six words.
    unsafe {
        asm!(
            "rol rdi, 3", "rol rdi, 13", "rol rdi, 61", "rol rdi, 51", "xchg rbx, rbx",
            in("rax") words.as_ptr(), inout("rdx") 0u64 => _,
        );
    }
}

/// Runs once, and has valgrind write down the instructions under the name.
pub fn count(name: &str, run: &mut dyn FnMut()) {
    let name = CString::new(name).expect("a name without zero bytes");
    request(ZERO_STATS, 0);
    run();
    request(DUMP_STATS_AT, name.as_ptr() as u64);
}

/// This program again, under callgrind: the instructions of each name. Nothing where there is no valgrind.
pub fn all() -> Option<HashMap<String, u64>> {
    let program = std::env::current_exe().ok()?;
    let file = std::env::temp_dir().join(format!("nuggetbay-bench-{}.callgrind", std::process::id()));
    let status = Command::new("valgrind")
        .args(["--tool=callgrind", "--combine-dumps=yes", "--quiet"])
        .arg(format!("--callgrind-out-file={}", file.display()))
        .arg(program)
        .arg("--count-instructions")
        .stdout(Stdio::null())
        .status()
        .ok()?;
    let text = std::fs::read_to_string(&file).ok()?;
    std::fs::remove_file(&file).ok()?;
    if !status.success() {
        return None;
    }
    let mut counts = HashMap::new();
    let mut name = None;
    for line in text.lines() {
        if let Some(trigger) = line.strip_prefix("desc: Trigger: Client Request: ") {
            name = Some(trigger.to_string());
        } else if let Some(total) = line.strip_prefix("totals: ").or_else(|| line.strip_prefix("summary: ")) {
            if let (Some(name), Ok(total)) = (name.take(), total.trim().parse()) {
                counts.insert(name, total);
            }
        }
    }
    Some(counts)
}
