// Document 02, Paper 3, at its corners: what the screen shows of a number at a half and beside one,
// about 0, and about the size from which on a number is `big`.

use crate::{minus_zero, Table};
use reference::exam::exam;
use reference::screen::screen;

pub fn all(table: &mut Table) {
    lines(table, &HALVES);
    lines(table, &NO_HALVES);
    lines(table, &ABOUT_ZERO);
    lines(table, &ABOUT_BIG);
    let printed = String::from_utf8(exam(&minus_zero::PAPER)).expect("a text");
    let should_be = minus_zero::TEXT.trim_end();
    table.line("a mean of -0, printed", printed.trim_end(), should_be);
}

fn lines(table: &mut Table, examples: &[(f64, &str)]) {
    for &(x, should_be) in examples {
        table.line(&format!("screen of {x:?}"), &screen(x), should_be);
    }
}

/// Odd multiples of 1/32. To even, four of them would end in 2.
const HALVES: [(f64, &str); 7] = [
    (0.03125, "0.0313"),
    (-0.03125, "-0.0313"),
    (0.09375, "0.0938"),
    (0.15625, "0.1563"),
    (1.21875, "1.2188"),
    (2147483647.90625, "2147483647.9063"),
    (2147483647.96875, "2147483647.9688"),
];

/// The floats nearest to halves that no float has, each with its exact value, which lies on one side
/// or the other; and some more.
const NO_HALVES: [(f64, &str); 19] = [
    (0.00005, "0.0001"),             // 0.0000500000000000000023..
    (0.00015, "0.0001"),             // 0.0001499999999999999868..
    (0.00025, "0.0003"),             // 0.0002500000000000000052..
    (0.00035, "0.0003"),             // 0.0003499999999999999964..
    (0.00045, "0.0004"),             // 0.0004499999999999999876..
    (-0.00045, "-0.0004"),           // its negative
    (0.99995, "1.0000"),             // 0.9999500000000000055..
    (1.00005, "1.0001"),             // 1.0000500000000001055..
    (1.99995, "1.9999"),             // 1.9999499999999998944..
    (9.99995, "10.0000"),            // 9.9999500000000001165..
    (-9.99995, "-10.0000"),          // its negative
    (99.99995, "99.9999"),           // 99.9999499999999983..
    (9999.99995, "9999.9999"),       // 9999.9999499999994441..
    (4194303.99995, "4194304.0000"), // 4194303.9999500000849..
    // Beside 0.03125, which is a half.
    (f64::from_bits(0x3F9FFFFFFFFFFFFF), "0.0312"),
    (f64::from_bits(0x3FA0000000000001), "0.0313"),
    // Just below 5.5.
    (f64::from_bits(0x4015FFFFFFFFFFFF), "5.5000"),
    (1.0 / 3.0, "0.3333"),
    (-2.0 / 3.0, "-0.6667"),
];

const ABOUT_ZERO: [(f64, &str); 8] = [
    (0.0, "0.0000"),
    (-0.0, "0.0000"),
    (0.00004, "0.0000"),
    (-0.00004, "0.0000"),
    // Next to -0.00005: -0.0000499999999999999956..
    (f64::from_bits(0xBF0A36E2EB1C432C), "0.0000"),
    (-0.00005, "-0.0001"),
    (-0.0001, "-0.0001"),
    (f64::from_bits(0x8000000000000001), "0.0000"),
];

const ABOUT_BIG: [(f64, &str); 14] = [
    (2147483647.9999, "2147483647.9999"),
    (2147483647.99995, "2147483647.9999"), // 2147483647.9999499320..
    (f64::from_bits(0x41DFFFFFFFFFFF2F), "2147483648.0000"), // 2147483647.9999501705..
    (2147483647.99999, "2147483648.0000"),
    (-2147483647.99999, "-2147483648.0000"),
    // The largest float below 2^31.
    (f64::from_bits(0x41DFFFFFFFFFFFFF), "2147483648.0000"),
    (2147483648.0, "big"),
    (-2147483648.0, "big"),
    (f64::from_bits(0x41E0000000000001), "big"),
    (f64::MAX, "big"),
    (f64::MIN, "big"),
    (f64::INFINITY, "big"),
    (f64::NEG_INFINITY, "big"),
    (f64::NAN, "big"),
];
