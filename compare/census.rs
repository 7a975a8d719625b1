// Counts what the copy answers to drawn inputs, for each call: accepted, and each refusal.
// Arguments: how many inputs, and the most assets and periods.

mod argument;
mod tally;

use argument::whole;
use generator::random::Random;
use generator::{draw, Shapes};
use reference::MIN_PERIODS;
use tally::{Tally, ACCEPTED};

fn main() {
    let shapes = Shapes {
        assets: 1..=whole(2, 8),
        periods: MIN_PERIODS..=whole(3, 128),
    };
    let random = Random::new(1);
    let mut tally = Tally::new(&[]);
    for _ in 0..whole(1, 50_000) {
        let input = draw(&random, &shapes);
        let (report, answer) = input.answered();
        let number = report.map_or_else(|refusal| refusal.number(), |_| ACCEPTED);
        assert!(input.kept(number, &answer));
        tally.add(&input.call, number);
    }
    tally.print();
}
