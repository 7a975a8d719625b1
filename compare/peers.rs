// What users would pick instead: numpy.cov and scikit-learn's ledoit_wolf on the same returns, and
// numpy's quotients of the same prices, timed by peers.py in a python3 that has them.

use std::fs;
use std::process::Command;

pub const RETURNS: &str = "target/compare/returns";
pub const PRICES: &str = "target/compare/timed-prices";

/// Stores returns or prices for `print`, by their shape.
pub fn note(folder: &str, numbers: &[f64], assets: usize, rows: usize) {
    fs::create_dir_all(folder).expect("target/compare can be written");
    let bytes: Vec<u8> = numbers.iter().flat_map(|x| x.to_le_bytes()).collect();
    let file = format!("{folder}/{assets}x{rows}");
    fs::write(file, bytes).expect("target/compare can be written");
}

pub fn print() {
    let timed = |python: &&str| {
        let output = Command::new(python)
            .args(["compare/peers.py", RETURNS, PRICES])
            .envs(["OMP_NUM_THREADS", "OPENBLAS_NUM_THREADS", "MKL_NUM_THREADS"].map(|x| (x, "1")))
            .output()
            .ok()?;
        let lines = String::from_utf8_lossy(&output.stdout).into_owned();
        (output.status.success() && !lines.is_empty()).then_some(lines)
    };
    let pythons = ["python3", "/usr/bin/python3"];
    match pythons.iter().find_map(timed) {
        Some(lines) => print!("\n{lines}"),
        None => println!("\nnumpy: not installed"),
    }
}
