// Compares what the copy prints of drawn question files with what the engine prints, byte for byte,
// after the documents' own files. Prints a line for each outcome with how many files had it, and ends
// with 1 if they ever differ. Argument: how many files.

mod argument;
mod case6;
mod factor_papers;
mod marked;

use generator::papers::draw_paper;
use generator::random::Random;
use marked::other_text;
use reference::exam::{exam, outcome, MALFORMED};

fn main() {
    let files = argument::whole(1, 200_000);
    let random = Random::new(9);
    let mut counts = [0usize; MALFORMED + 1];
    let mut different = differs(&case6::PAPER, case6::TEXT) as usize;
    for (_, file, text) in factor_papers::all() {
        different += differs(&file, text.as_bytes()) as usize;
    }
    for _ in 0..files {
        let file = draw_paper(&random);
        let text = exam(&file);
        counts[outcome(&text)] += 1;
        different += differs(&file, &text) as usize;
    }
    println!("accepted   {:>8}", counts[0]);
    for (number, count) in counts.iter().enumerate().skip(1) {
        println!("refused {number:>2} {count:>8}");
    }
    println!("differences: {different}");
    if different > 0 {
        std::process::exit(1);
    }
}

/// Whether the engine prints another text, or writes behind it.
fn differs(file: &[u8], text: &[u8]) -> bool {
    let other = other_text(file, text);
    if let Some(engine) = &other {
        println!("{file:02X?}: copy {:?}", String::from_utf8_lossy(text));
        println!("    engine {engine:?}");
    }
    other.is_some()
}
