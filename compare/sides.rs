// Compares the calls of the copy with the engine's (agreement.rs) where a side is about the limit: the
// assets, a given side beside other assets, or both together. Prints a line for each side and kind,
// and ends with 1 where the two differ or a side beyond the limit is accepted.
// Argument: how many inputs of each line.

mod agreement;
mod argument;

use generator::random::Random;
use generator::sides::{draw_with_side, Whose, SIDES};
use reference::input::Input;
use reference::refusal::Refusal;
use reference::MAX_SIDE;

const PERIODS: usize = 64;
const ACCEPTED: usize = 0;
const TOO_LARGE: usize = Refusal::TooLarge.number();
const KINDS: [(&str, Whose); 3] = [
    ("assets", Whose::Returns),
    ("given side", Whose::Given),
    ("both", Whose::Both),
];

fn main() {
    let inputs = argument::whole(1, 1_000);
    let random = Random::new(8);
    let mut wrong = 0;
    println!(
        "{:13} {:>7} {:>8} {:>9} {:>9} {:>11}",
        "", "inputs", "accepted", "refused 2", "otherwise", "differences"
    );
    for (name, whose) in KINDS {
        for side in SIDES {
            let mut row = Row::default();
            for _ in 0..inputs {
                row.compare(&draw_with_side(&random, side, whose, PERIODS));
            }
            row.print(&format!("{name} {side}"));
            wrong += row.different;
            if side > MAX_SIDE {
                wrong += row.accepted;
            }
        }
    }
    if wrong > 0 {
        std::process::exit(1);
    }
}

#[derive(Default)]
struct Row {
    accepted: usize,
    too_large: usize,
    otherwise: usize,
    different: usize,
}

impl Row {
    fn compare(&mut self, input: &Input) {
        let (number, same) = agreement::judge(input);
        match number {
            ACCEPTED => self.accepted += 1,
            TOO_LARGE => self.too_large += 1,
            _ => self.otherwise += 1,
        }
        if !same {
            self.different += 1;
            if self.different <= 3 {
                agreement::show(input);
            }
        }
    }

    fn print(&self, name: &str) {
        let Row {
            accepted,
            too_large,
            otherwise,
            different,
        } = self;
        let inputs = accepted + too_large + otherwise;
        println!(
            "{name:13} {inputs:>7} {accepted:>8} {too_large:>9} {otherwise:>9} {different:>11}"
        );
    }
}
