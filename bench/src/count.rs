//! Instructions a call, counted by valgrind's callgrind over passes of one side alone.

use std::env;
use std::fs;
use std::path::Path;
use std::process::{Command, Stdio};

/// The option by which the driver runs passes of one side: row, side, passes. It then prints the calls it made.
pub const PASSES: &str = "--passes";

/// Instructions a call of a side of a row.
pub fn instructions(tables: &Path, row: &str, side: usize) -> Result<f64, String> {
    let passes = 2;
    let counts = env::temp_dir().join(format!("bench-{}-{side}.callgrind", std::process::id()));
    let driver = env::current_exe().map_err(|e| e.to_string())?;
    let run = Command::new("valgrind")
        .args(["--quiet", "--tool=callgrind", "--toggle-collect=measured_pass"])
        .arg(format!("--callgrind-out-file={}", counts.display()))
        .arg(driver)
        .arg("--tables")
        .arg(tables)
        .args([PASSES, &side.to_string(), &passes.to_string(), row])
        .stderr(Stdio::inherit())
        .output()
        .map_err(|e| format!("valgrind does not run: {e}"))?;
    let calls = String::from_utf8_lossy(&run.stdout).trim().parse::<f64>();
    let calls = calls.map_err(|_| format!("the driver made no calls of {row}"))?;
    let text = fs::read_to_string(&counts).map_err(|e| e.to_string())?;
    let _ = fs::remove_file(&counts);
    let total = text.lines().find_map(|line| line.strip_prefix("totals: "));
    let total = total.and_then(|total| total.trim().parse::<f64>().ok());
    Ok(total.ok_or("valgrind counted nothing")? / calls)
}
