// Writes a sample of the copy's answers for the program `replay` of the gate, which needs no Rust:
// crates/replay/stdin has the inputs and answers, crates/replay/stdout what the program is to print.
// All of stdin is eight-byte numbers, the low byte first: the count of answers, and for each
//   the count of returns, the returns, the assets, the periods, the length of the answer slice
//   (which holds 7.5 everywhere before the call), the number of the call and its arguments (of the
//   covariance: the count of given entries, a kind and a value three times, the limit, the side, the
//   given entries; of every other call: its setting), the number that is answered with what comes
//   with it, the answer slice after it. The weighted mean by a decay factor has number 5.
// The call that takes prices has number 6 and no argument: its returns, periods and answer slice are
// the prices, the rows and the return slice. These come last, each that is accepted followed by the
// sample covariance of the returns that it answers.
// Floats are bits, NaN as 7FF8000000000000.

mod price_answers;

use generator::prices::{draw_about_limits, draw_prices};
use generator::random::Random;
use generator::sides::{draw_with_side, Whose, SIDES};
use generator::{draw, Shapes};
use price_answers::{kind, KINDS};
use reference::covariance::{Decay, Estimate, Settings};
use reference::flat::{flat_target, Flat, FlatSettings};
use reference::input::{Call, Input, UNTOUCHED};
use reference::leaves::{all_bits, bits};
use reference::prices::Prices;
use reference::refusal::{LARGEST_NUMBER, REFUSALS};
use reference::{MIN_PERIODS, MIN_PRICE_ROWS};
use std::fs;

/// How many are drawn for the five calls, and how many for the call that takes prices.
const ANSWERS: usize = 3_000;
const PRICES: usize = 300;

/// What the program counts: answers, each number up to the largest, and all other numbers together.
const COUNTS: usize = LARGEST_NUMBER + 2;

/// What the program has room for.
const MOST_RETURNS: usize = 260;
const MOST_ENTRIES: usize = 84;

fn main() {
    let random = Random::new(7);
    let shapes = Shapes {
        assets: 1..=8,
        periods: MIN_PERIODS..=32,
    };
    let mut sample = Sample {
        words: Vec::new(),
        counts: [0; COUNTS],
    };
    for _ in 0..ANSWERS {
        let mut input = drawn(&random, &shapes);
        input.answer.fill(UNTOUCHED);
        sample.add(&input);
    }
    sample.add_prices(&Prices::new(&[100.0, 110.0, 99.0], 1));
    // The covariance of these is refused.
    sample.add_prices(&Prices::new(&[1.0, 1e200, 1.0], 1));
    let mut kinds = [0; KINDS.len()];
    for _ in 0..PRICES {
        let mut input = drawn_prices(&random);
        input.returns.fill(UNTOUCHED);
        let number = sample.add_prices(&input);
        kinds[kind(&input, number)] += 1;
    }
    assert!(kinds.iter().all(|&count| count > 0));
    sample.write();
}

struct Sample {
    /// All answers, without their count.
    words: Vec<u64>,
    counts: [usize; COUNTS],
}

impl Sample {
    fn add(&mut self, input: &Input) {
        ask(&mut self.words, input);
        let (report, slice) = input.answered();
        self.answer(&Flat::of(&report), &slice);
    }

    /// The number that is answered.
    fn add_prices(&mut self, input: &Prices) -> usize {
        ask_prices(&mut self.words, input);
        let (answer, returns) = input.answered();
        let flat = Flat::of_filled(&answer);
        self.answer(&flat, &returns);
        if answer.is_ok() {
            let returns = &returns[..input.needed()];
            let sample = Settings::of(Estimate::Sample);
            self.add(&Input::covariance(returns, input.n, sample));
        }
        flat.number as usize
    }

    fn answer(&mut self, flat: &Flat, slice: &[f64]) {
        self.words.push(u64::from(flat.number));
        self.words.extend(flat.numbers.map(bits));
        let wholes = flat.wholes.map(|whole| whole as u64);
        self.words.extend(wholes);
        self.words.extend(all_bits(slice));
        self.counts[flat.number as usize] += 1;
    }

    fn write(&self) {
        let mut numbers = (0..=REFUSALS).chain([LARGEST_NUMBER]);
        assert!(numbers.all(|number| self.counts[number] > 0));
        let answers: usize = self.counts.iter().sum();
        let words = [&[answers as u64], &self.words[..]].concat();
        let bytes: Vec<u8> = words.iter().flat_map(|word| word.to_le_bytes()).collect();
        fs::write("crates/replay/stdin", bytes).expect("crates/replay can be written");
        let text = printed(&self.counts);
        fs::write("crates/replay/stdout", text).expect("crates/replay can be written");
    }
}

/// The next input that the program has room for, now and then one with a side about the limit.
fn drawn(random: &Random, shapes: &Shapes) -> Input {
    loop {
        let input = match random.below(6) {
            0 => {
                let whose = random.pick(&[Whose::Returns, Whose::Given, Whose::Both]);
                draw_with_side(random, random.pick(&SIDES), whose, 10)
            }
            _ => draw(random, shapes),
        };
        let entries = match &input.call {
            Call::AdjustedCovariance { given, .. } => given.len(),
            _ => 0,
        };
        let room = input.returns.len() <= MOST_RETURNS && input.answer.len() <= MOST_ENTRIES;
        if room && entries <= MOST_ENTRIES {
            return input;
        }
    }
}

/// The same for prices, with room for the covariance of their returns as well, if they are accepted.
fn drawn_prices(random: &Random) -> Prices {
    let shapes = Shapes {
        assets: 1..=8,
        periods: MIN_PRICE_ROWS..=32,
    };
    loop {
        let input = match random.below(6) {
            0 => draw_about_limits(random),
            _ => draw_prices(random, &shapes),
        };
        let room = input.prices.len() <= MOST_RETURNS && input.returns.len() <= MOST_ENTRIES;
        let refused = input.answered().0.is_err();
        if room && (refused || input.n * input.n < MOST_ENTRIES) {
            return input;
        }
    }
}

fn ask(words: &mut Vec<u64>, input: &Input) {
    words.push(input.returns.len() as u64);
    words.extend(all_bits(&input.returns));
    words.extend([input.n, input.t, input.answer.len()].map(|count| count as u64));
    match &input.call {
        Call::AdjustedCovariance {
            settings,
            given,
            side,
        } => {
            let flat = FlatSettings::of(settings);
            words.extend([0, given.len() as u64]);
            for (kind, value) in [flat.estimate, flat.shrinkage, flat.regularization] {
                words.extend([u64::from(kind), bits(value)]);
            }
            words.extend([flat.limit as u64, *side as u64]);
            words.extend(all_bits(given));
        }
        Call::LedoitWolf(target) => words.extend([1, u64::from(flat_target(*target))]),
        Call::ExponentiallyWeightedMean { decay } => match decay {
            Decay::HalfLife(half_life) => words.extend([2, bits(*half_life)]),
            Decay::Lambda(lambda) => words.extend([5, bits(*lambda)]),
        },
        Call::JamesSteinMean { limit } => words.extend([3, *limit as u64]),
        Call::BayesSteinMean { limit } => words.extend([4, *limit as u64]),
    }
}

fn ask_prices(words: &mut Vec<u64>, input: &Prices) {
    words.push(input.prices.len() as u64);
    words.extend(all_bits(&input.prices));
    words.extend([input.n, input.rows, input.returns.len()].map(|count| count as u64));
    words.push(6);
}

fn printed(counts: &[usize; COUNTS]) -> String {
    let refused = |number: usize| format!("refused {number}: {}\n", counts[number]);
    let refusals: String = (1..counts.len()).map(refused).collect();
    format!("accepted: {}\n{refusals}differences: 0\n", counts[0])
}
