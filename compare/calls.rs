// Compares the five calls of the copy with the engine's (agreement.rs), and prints a table for each
// range of shapes. Ends with 1 where the two differ or a refusal never occurred.
// Arguments: how many inputs of each range.

mod agreement;
mod argument;
mod tally;

use engine::calls::{adjusted_covariance, ledoit_wolf};
use generator::random::Random;
use generator::{draw, Shapes};
use reference::covariance::{Estimate, Settings};
use reference::flat::{Flat, FlatSettings};
use reference::input::Input;
use reference::{MAX_PERIODS, MAX_SIDE, MIN_PERIODS};
use std::ops::RangeInclusive;
use tally::{Tally, ACCEPTED, OWN};

const DIFFERENT: usize = OWN;

/// The assets and periods of a range, and how many inputs are drawn of it.
type Range = (RangeInclusive<usize>, RangeInclusive<usize>, usize);

const RANGES: [Range; 3] = [
    (1..=8, MIN_PERIODS..=128, 50_000),
    (1..=MAX_SIDE, MIN_PERIODS..=512, 2_000),
    (MAX_SIDE..=MAX_SIDE, MAX_PERIODS..=MAX_PERIODS, 100),
];

fn main() {
    let random = Random::new(5);
    let mut wrong = 0;
    let mut refusals = [0; OWN];
    for (at, (assets, periods, otherwise)) in RANGES.into_iter().enumerate() {
        println!("{assets:?} assets, {periods:?} periods");
        let shapes = Shapes { assets, periods };
        let mut tally = Tally::new(&["differences"]);
        for _ in 0..argument::whole(at + 1, otherwise) {
            compare(&draw(&random, &shapes), &mut tally);
        }
        tally.print();
        println!();
        wrong += tally.total(DIFFERENT);
        (0..OWN).for_each(|number| refusals[number] += tally.total(number));
    }
    for number in (ACCEPTED..OWN).filter(|&number| refusals[number] == 0) {
        println!("no input was answered {number}");
        wrong += 1;
    }
    wrong += unknown_kinds(&random);
    if wrong > 0 {
        std::process::exit(1);
    }
}

fn compare(input: &Input, tally: &mut Tally) {
    let (number, same) = agreement::judge(input);
    tally.add(&input.call, number);
    if !same {
        tally.add(&input.call, DIFFERENT);
        if tally.total(DIFFERENT) <= 3 {
            agreement::show(input);
        }
    }
}

/// Numbers that stand for no kind: the engine says 100, whatever else is wrong, and writes no answer.
fn unknown_kinds(random: &Random) -> usize {
    let unknown = Flat {
        number: 100,
        numbers: [0.0; 2],
        wholes: [0; 2],
    };
    let kinds = |least: u32| [least, least + 1, 1 << 16, u32::MAX].map(|kind| (least, kind));
    let shape = |what: usize| match what {
        0 => (2, 2),
        1 => (0, 2),
        _ => (usize::MAX, usize::MAX),
    };
    let (mut calls, mut wrong) = (0, 0);
    let mut expect = |told: Flat, kept: bool| {
        calls += 1;
        wrong += usize::from(told != unknown || !kept);
    };
    let returns = [1.0, 2.0, 3.0, 6.0];
    for what in 0..3 {
        for (_, kind) in kinds(2) {
            expect(ledoit_wolf(&returns, shape(what), kind), true);
        }
        for (least, kind) in [6, 4, 2].into_iter().flat_map(kinds) {
            let mut settings = FlatSettings::of(&Settings::of(Estimate::Sample));
            match least {
                6 => settings.estimate.0 = kind,
                4 => settings.shrinkage.0 = kind,
                _ => settings.regularization.0 = kind,
            }
            settings.limit = random.below(200);
            let held = [random.bits(), 1, 2, 3, 4].map(f64::from_bits);
            let mut answer = held;
            let told = adjusted_covariance(&returns, shape(what), &settings, (&[], 0), &mut answer);
            expect(told, held.map(f64::to_bits) == answer.map(f64::to_bits));
        }
    }
    println!("numbers of no kind: {calls}, taken all the same: {wrong}");
    wrong
}
