// Compares the call that takes prices, the copy's and the engine's (price_agreement.rs). Returns that are
// accepted are to be finite and at least -1, and those of a moderate input go on to the sample covariance
// of both. Then the law, on drawn pairs: each column times a power of two of its own, with the same
// report and returns. Prints a table, and ends with 1 where anything differs or a kind of answer never
// occurred.
// Arguments: how many inputs are small, and as many pairs; how many are of middle size; how many are
// the largest, and as many about the limits.

mod agreement;
mod argument;
mod price_agreement;
mod price_answers;

use generator::price_pairs::{draw_price_pair, PricePair, PRICE_RANGE};
use generator::prices::{draw_about_limits, draw_prices};
use generator::random::Random;
use generator::Shapes;
use price_agreement::{computed, copied, same_bits, Answer};
use price_answers::{kind, KINDS};
use reference::covariance::{Estimate, Settings};
use reference::input::Input;
use reference::leaves::{abs, pow2};
use reference::prices::Prices;
use reference::refusal::Refusal;
use reference::{MAX_PRICE_ROWS, MAX_SIDE, MIN_PRICE_ROWS};

const ACCEPTED: usize = 0;
const NOT_FINITE: usize = Refusal::CovarianceNotFinite.number();

/// So many prices are of moderate size.
const MODERATE: usize = 512;

/// So many are shown of what is wrong in a line.
const EXAMPLES: usize = 3;

fn main() {
    let small = argument::whole(1, 60_000);
    let middle = argument::whole(2, 4_000);
    let largest = argument::whole(3, 400);
    let random = Random::new(11);
    let within = |assets, periods| {
        let shapes = Shapes { assets, periods };
        let random = &random;
        move || draw_prices(random, &shapes)
    };
    let (few, most) = (MIN_PRICE_ROWS, MAX_PRICE_ROWS);
    let mut table = Table::new();
    table.line("8 × 64", small, within(1..=8, few..=64));
    table.line("24 × 512", middle, within(1..=MAX_SIDE, few..=512));
    let widest = MAX_SIDE..=MAX_SIDE;
    table.line("24 × 4,097", largest, within(widest, most..=most));
    table.line("about the limits", largest, || draw_about_limits(&random));
    let wrong = table.ended() + law(small);
    if wrong > 0 {
        std::process::exit(1);
    }
}

// ---- inputs

struct Table {
    total: Row,
    covariances: Covariances,
}

impl Table {
    fn new() -> Self {
        print!("{:16} {:>7}", "prices", "inputs");
        KINDS.iter().for_each(|kind| print!(" {kind:>8}"));
        println!(" {:>12} {:>11}", "out of range", "differences");
        Table {
            total: Row::default(),
            covariances: Covariances::default(),
        }
    }

    /// The line of so many inputs.
    fn line(&mut self, name: &str, inputs: usize, draw: impl Fn() -> Prices) {
        let mut row = Row::default();
        for _ in 0..inputs {
            let input = draw();
            let (flat, returns) = row.compare(&input);
            let moderate = input.prices.len() <= MODERATE;
            if flat.number as usize == ACCEPTED && moderate {
                let returns = &returns[..input.filled(ACCEPTED)];
                self.covariances.compare(returns, input.n);
            }
        }
        row.print(name);
        self.total.add(&row);
    }

    /// The last lines, and how much is wrong.
    fn ended(self) -> usize {
        let Table { total, covariances } = self;
        total.print("all");
        covariances.print();
        total.wrong() + covariances.wrong()
    }
}

#[derive(Default)]
struct Row {
    kinds: [usize; KINDS.len()],
    /// Accepted, with a return that is NaN, infinite or below -1.
    out_of_range: usize,
    different: usize,
}

impl Row {
    /// The copy's answer, which the engine's has to be.
    fn compare(&mut self, input: &Prices) -> Answer {
        let (answer, same) = price_agreement::judge(input);
        let number = answer.0.number as usize;
        self.kinds[kind(input, number)] += 1;
        let in_range = |&x: &f64| x.is_finite() && x >= -1.0;
        if !answer.1[..input.filled(number)].iter().all(in_range) {
            self.out_of_range += 1;
        }
        if !same {
            self.different += 1;
            if self.different <= EXAMPLES {
                price_agreement::show(input);
            }
        }
        answer
    }

    fn add(&mut self, other: &Row) {
        for (total, count) in self.kinds.iter_mut().zip(other.kinds) {
            *total += count;
        }
        self.out_of_range += other.out_of_range;
        self.different += other.different;
    }

    fn print(&self, name: &str) {
        let inputs: usize = self.kinds.iter().sum();
        print!("{name:16} {inputs:>7}");
        self.kinds.iter().for_each(|count| print!(" {count:>8}"));
        println!(" {:>12} {:>11}", self.out_of_range, self.different);
    }

    fn wrong(&self) -> usize {
        let mut wrong = self.out_of_range + self.different;
        for (kind, _) in KINDS.iter().zip(self.kinds).filter(|pair| pair.1 == 0) {
            println!("no input was answered {kind}");
            wrong += 1;
        }
        wrong
    }
}

/// The sample covariances of returns that were accepted.
#[derive(Default)]
struct Covariances {
    accepted: usize,
    not_finite: usize,
    otherwise: usize,
    different: usize,
}

impl Covariances {
    fn compare(&mut self, returns: &[f64], n: usize) {
        let input = Input::covariance(returns, n, Settings::of(Estimate::Sample));
        let (number, same) = agreement::judge(&input);
        match number {
            ACCEPTED => self.accepted += 1,
            NOT_FINITE => self.not_finite += 1,
            _ => self.otherwise += 1,
        }
        if !same {
            self.different += 1;
            if self.different <= EXAMPLES {
                agreement::show(&input);
            }
        }
    }

    fn print(&self) {
        let Covariances {
            accepted,
            not_finite,
            otherwise,
            different,
        } = self;
        println!(
            "covariances of these returns: accepted {accepted}, refused 6 {not_finite}, \
             otherwise {otherwise}, differences {different}"
        );
    }

    /// One of them has to be refused 6: the call that takes prices leaves that to this one.
    fn wrong(&self) -> usize {
        self.different + usize::from(self.not_finite == 0)
    }
}

// ---- the law

/// A line for the copy and one for the engine, over the same pairs.
fn law(pairs: usize) -> usize {
    let ways: [(&str, fn(&Prices) -> Option<Answer>); 2] =
        [("copy", |input| Some(copied(input))), ("engine", computed)];
    let mut wrong = 0;
    for (name, answered) in ways {
        let random = Random::new(12);
        let (mut accepted, mut refused, mut broken) = (0, 0, 0);
        for _ in 0..pairs {
            let pair = draw_price_pair(&random);
            assert!(granted(&pair.input) && granted(&pair.scaled));
            let (one, other) = (answered(&pair.input), answered(&pair.scaled));
            match &one {
                Some((flat, _)) if flat.number as usize == ACCEPTED => accepted += 1,
                _ => refused += 1,
            }
            if !holds(&pair, &one, &other) {
                broken += 1;
                if broken <= EXAMPLES {
                    show(&pair, &one, &other);
                }
            }
        }
        println!("pairs, the {name}: accepted {accepted}, refused {refused}, broken {broken}");
        wrong += broken + usize::from(accepted == 0 || refused == 0);
    }
    wrong
}

/// Whether all prices are of a size that the law is about.
fn granted(input: &Prices) -> bool {
    let sizes = pow2(-PRICE_RANGE)..=pow2(PRICE_RANGE);
    input.prices.iter().all(|&p| sizes.contains(&abs(p)))
}

/// The same report and returns. The two return slices held other numbers before, and keep them.
fn holds(pair: &PricePair, one: &Option<Answer>, other: &Option<Answer>) -> bool {
    let (Some((one, first)), Some((other, second))) = (one, other) else {
        return false;
    };
    let number = one.number as usize;
    let filled = pair.input.filled(number);
    one == other
        && same_bits(&first[..filled], &second[..filled])
        && pair.input.kept(number, first)
        && pair.scaled.kept(number, second)
}

fn show(pair: &PricePair, one: &Option<Answer>, other: &Option<Answer>) {
    let PricePair { powers, input, .. } = pair;
    let words = format!("powers {powers:?}, {input:?}: {one:?}, {other:?}");
    println!("    {}", words.chars().take(2000).collect::<String>());
}
