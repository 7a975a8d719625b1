// A table of inputs of the five calls: for each call those accepted and each refusal, and then
// columns of the program's own.

use reference::input::Call;
use reference::refusal::REFUSALS;

const CALLS: [&str; 5] = [
    "adjusted_covariance",
    "ledoit_wolf",
    "exponentially_weighted_mean",
    "james_stein_mean",
    "bayes_stein_mean",
];

/// The column of an accepted input. A refusal's is its number.
pub const ACCEPTED: usize = 0;
/// The first column of the program's own.
pub const OWN: usize = REFUSALS + 1;

pub struct Tally {
    own: &'static [&'static str],
    rows: [Vec<usize>; 5],
}

impl Tally {
    pub fn new(own: &'static [&'static str]) -> Self {
        Tally {
            own,
            rows: CALLS.map(|_| vec![0; OWN + own.len()]),
        }
    }

    pub fn add(&mut self, call: &Call, column: usize) {
        let row = match call {
            Call::AdjustedCovariance { .. } => 0,
            Call::LedoitWolf(_) => 1,
            Call::ExponentiallyWeightedMean { .. } => 2,
            Call::JamesSteinMean { .. } => 3,
            Call::BayesSteinMean { .. } => 4,
        };
        self.rows[row][column] += 1;
    }

    pub fn total(&self, column: usize) -> usize {
        self.rows.iter().map(|row| row[column]).sum()
    }

    pub fn print(&self) {
        print!("{:27} {:>7} {:>8}", "call", "inputs", "accepted");
        (1..OWN).for_each(|number| print!(" {number:>5}"));
        self.own.iter().for_each(|name| print!(" {name:>11}"));
        println!();
        for (name, row) in CALLS.iter().zip(&self.rows) {
            line(name, row);
        }
        let total: Vec<usize> = (0..self.rows[0].len()).map(|at| self.total(at)).collect();
        line("all", &total);
    }
}

fn line(name: &str, row: &[usize]) {
    let inputs: usize = row[..OWN].iter().sum();
    print!("{name:27} {inputs:>7} {:>8}", row[ACCEPTED]);
    row[1..OWN].iter().for_each(|count| print!(" {count:>5}"));
    row[OWN..].iter().for_each(|count| print!(" {count:>11}"));
    println!();
}
