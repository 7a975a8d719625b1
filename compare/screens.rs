// Compares the screen numbers that the copy and the engine print, byte for byte, over drawn floats:
// each is an answer of a question file. The copy's are held to Rust's own rounding as well, which is
// the same but at halves. Prints a line for each class of floats, and ends with 1 if anything differs
// or an answer isn't the float that was meant. Argument: how many floats of each class.

mod argument;
mod marked;
mod minus_zero;

use generator::random::Random;
use generator::screens::{draw_float, BIG, CLASSES};
use marked::other_text;
use reference::exam::{exam, FILE_ASSETS};
use std::array;

fn main() {
    let floats = argument::whole(1, 150_000);
    let random = Random::new(10);
    let mut wrong = 0;
    println!(
        "{:20} {:>7} {:>7} {:>7} {:>8} {:>10} {:>11} {:>11}",
        "class", "floats", "big", "halves", "no minus", "other bits", "differences", "unlike Rust"
    );
    for (name, draw) in CLASSES {
        let mut row = Row::default();
        for _ in 0..floats.div_ceil(FILE_ASSETS) {
            row.compare(array::from_fn(|_| draw_float(&random, draw)));
        }
        row.print(name);
        wrong += row.wrong();
    }
    wrong += minus_zero_differs() as usize;
    if wrong > 0 {
        std::process::exit(1);
    }
}

/// A file with the floats as its answer: the weighted mean, where each is its asset's return of both
/// periods. The last weight is 1, and the first one is below 1e-300 and lost in every sum. A return of
/// 0 instead would do as well, but for large floats, whose variance is not finite.
fn paper(floats: &[f64]) -> Vec<u8> {
    const HALF_LIFE: f64 = 0.001;
    let mut file = vec![1, floats.len() as u8, 0, 2, 0];
    for x in [floats, floats].concat() {
        file.push(2);
        file.extend(x.to_le_bytes());
    }
    file.push(6);
    file.extend(HALF_LIFE.to_le_bytes());
    file.extend([11, 1]);
    file
}

/// So many are shown of what is wrong in a class.
const EXAMPLES: usize = 3;

#[derive(Default)]
struct Row {
    floats: usize,
    big: usize,
    halves: usize,
    /// Numbers below 0 that are shown as 0.0000.
    no_minus: usize,
    /// Answers of the copy or of the engine that aren't the float.
    other_bits: usize,
    different: usize,
    unlike_rust: usize,
}

impl Row {
    fn wrong(&self) -> usize {
        self.other_bits + self.different + self.unlike_rust
    }

    fn compare(&mut self, floats: [f64; FILE_ASSETS]) {
        let file = paper(&floats);
        let copied = String::from_utf8(exam(&file)).expect("a text");
        let other = other_text(&file, copied.as_bytes());
        let computed = other.as_ref().unwrap_or(&copied);
        let before = self.wrong();
        for (row, x) in floats.into_iter().enumerate() {
            self.add(x, shown(&copied, row, x), shown(computed, row, x));
        }
        // The first line differs, or what stands behind the last.
        if other.is_some() && self.wrong() == before {
            self.different += 1;
            if before < EXAMPLES {
                println!("    {floats:?}: copy {copied:?}, engine {computed:?}");
            }
        }
    }

    /// A float with its screen numbers, the copy's and the engine's.
    fn add(&mut self, x: f64, copied: Option<&str>, computed: Option<&str>) {
        let before = self.wrong();
        self.floats += 1;
        if let (Some(copied), Some(computed)) = (copied, computed) {
            self.big += (copied == "big") as usize;
            self.halves += is_half(x) as usize;
            self.no_minus += (x < 0.0 && copied == "0.0000") as usize;
            self.different += (copied != computed) as usize;
            self.unlike_rust += (!is_half(x) && copied != rounded_by_rust(x)) as usize;
        } else {
            self.other_bits += 1;
        }
        if before < self.wrong() && before < EXAMPLES {
            println!("    {x:e}: copy {copied:?}, engine {computed:?}");
        }
    }

    fn print(&self, name: &str) {
        let Row {
            floats,
            big,
            halves,
            no_minus,
            other_bits,
            different,
            unlike_rust,
        } = self;
        println!(
            "{name:20} {floats:>7} {big:>7} {halves:>7} {no_minus:>8} {other_bits:>10} \
             {different:>11} {unlike_rust:>11}"
        );
    }
}

/// The screen number in a row of a text, if the bits before it are the float's. A mean of -0 and -0 is
/// +0, since sums begin at +0.
fn shown(text: &str, row: usize, x: f64) -> Option<&str> {
    let before = format!("{row} 0 {:016X} ", (x + 0.0).to_bits());
    text.lines().nth(row + 1)?.strip_prefix(&before)
}

/// Whether a number that isn't big lies in the middle of two ten-thousandths.
fn is_half(x: f64) -> bool {
    x.abs() < BIG && (x * 32.0).abs() % 2.0 == 1.0
}

/// What the screen shows of a number that is no half. Rust rounds the exact value, a half to even.
fn rounded_by_rust(x: f64) -> String {
    if x.abs() >= BIG {
        return "big".to_string();
    }
    match format!("{x:.4}") {
        zero if zero == "-0.0000" => "0.0000".to_string(),
        rounded => rounded,
    }
}

/// Whether the copy or the engine prints something else of an answer of -0.
fn minus_zero_differs() -> bool {
    let text = minus_zero::TEXT.as_bytes();
    let copied = exam(&minus_zero::PAPER);
    let other = other_text(&minus_zero::PAPER, text);
    let differs = copied != text || other.is_some();
    println!("an answer of -0, differences: {}", differs as usize);
    if differs {
        println!(
            "    copy {:?}, engine {other:?}",
            String::from_utf8_lossy(&copied)
        );
    }
    differs
}
