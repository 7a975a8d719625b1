// Compares the copy's decomposition with the engine's, bit for bit, NaN equal to NaN: whether it is
// found, and then the values, vectors, sweeps and rotations. Where it is not, the copy has no more.
// Prints a line for each kind of matrix, and ends with 1 if they ever differ.
// Argument: how many matrices.

mod argument;

use engine::jacobi::decompose;
use generator::damage::TOO_WIDE;
use generator::matrices::KINDS;
use generator::random::Random;
use generator::sides::FORMER_MAX_SIDE;
use reference::eigen::SymmetricEigen;
use reference::input::UNTOUCHED;
use reference::leaves::all_bits;
use reference::matrix::Matrix;
use reference::{MAX_SIDE, MAX_SWEEPS};

fn main() {
    let matrices = argument::whole(1, 26_000);
    let random = Random::new(3);
    let mut different = 0;
    println!(
        "{:25} {:>8} {:>8} {:>9} {:>11}",
        "kind", "matrices", "found", "not found", "differences"
    );
    for (name, draw) in KINDS {
        let mut row = Row::default();
        for _ in 0..matrices.div_ceil(KINDS.len()) {
            let side = draw_side(&random);
            row.compare(&draw(&random, side), side, draw_limit(&random));
        }
        let Row {
            found,
            missed,
            differences,
        } = row;
        println!(
            "{name:25} {:>8} {found:>8} {missed:>9} {differences:>11}",
            found + missed
        );
        different += differences;
    }
    different += misfits(&random);
    if different > 0 {
        std::process::exit(1);
    }
}

#[derive(Default)]
struct Row {
    found: usize,
    missed: usize,
    differences: usize,
}

/// What a decomposition that is found tells: values, vectors, sweeps, rotations.
type Told = (Vec<u64>, Vec<u64>, usize, usize);

impl Row {
    fn compare(&mut self, a: &[f64], side: usize, limit: usize) {
        let copied = SymmetricEigen::new(&Matrix::from_row_slice(side, side, a), limit).map(|e| {
            let (values, vectors) = (all_bits(&e.values), all_bits(e.vectors.entries()));
            (values, vectors, e.sweeps, e.rotations)
        });
        match copied {
            Some(_) => self.found += 1,
            None => self.missed += 1,
        }
        let computed = told(a, side, limit);
        if copied != computed {
            self.differences += 1;
            if self.differences <= 3 {
                println!("    {a:?}, limit {limit}: copy {copied:X?}, engine {computed:X?}");
            }
        }
    }
}

/// The engine's answer.
fn told(a: &[f64], side: usize, limit: usize) -> Option<Told> {
    let (mut values, mut vectors) = (vec![UNTOUCHED; side], vec![UNTOUCHED; side * side]);
    let mut counts = [usize::MAX; 2];
    match decompose(a, side, limit, &mut values, &mut vectors, &mut counts) {
        0 => Some((all_bits(&values), all_bits(&vectors), counts[0], counts[1])),
        1 => None,
        number => panic!("{number}, but the arguments fit"),
    }
}

/// Mostly small, the largest often.
fn draw_side(random: &Random) -> usize {
    match random.below(50) {
        0 => MAX_SIDE,
        1..=5 => 1 + random.below(MAX_SIDE),
        _ => 1 + random.below(random.pick(&[2, 4, 8])),
    }
}

/// Every limit, those at which many decompositions just end or just don't the most often.
fn draw_limit(random: &Random) -> usize {
    match random.below(4) {
        0 => random.below(MAX_SWEEPS + 1),
        1 | 2 => random.below(12),
        _ => MAX_SWEEPS,
    }
}

/// Arguments of which one does not fit the others: the engine says 2 and writes nothing.
fn misfits(random: &Random) -> usize {
    let (mut calls, mut wrong) = (0, 0);
    for side in 0..=MAX_SIDE {
        for what in 0..12 {
            let (mut n, mut limit) = (side, random.below(MAX_SWEEPS + 1));
            let mut lengths = [side * side, side, side * side];
            match what {
                0 => n += 1,
                1 => n = n.wrapping_sub(1),
                2 => n = random.pick(&TOO_WIDE),
                3 => {
                    n = random.pick(&[MAX_SIDE + 1, FORMER_MAX_SIDE]);
                    lengths = [n * n, n, n * n];
                }
                4 => limit = MAX_SWEEPS + 1,
                5 => limit = usize::MAX,
                _ if what % 2 == 0 => lengths[(what - 6) / 2] += 1,
                _ if side > 0 => lengths[(what - 6) / 2] -= 1,
                _ => continue,
            }
            let [a, values, vectors] = lengths.map(|length| vec![0.5; length]);
            let (mut new_values, mut new_vectors) = (values.clone(), vectors.clone());
            let mut counts = [7, 8];
            let number = decompose(&a, n, limit, &mut new_values, &mut new_vectors, &mut counts);
            calls += 1;
            if (number, new_values, new_vectors, counts) != (2, values, vectors, [7, 8]) {
                wrong += 1;
                println!("    n {n}, limit {limit}, lengths {lengths:?}: {number}");
            }
        }
    }
    println!("arguments that do not fit: {calls}, taken all the same: {wrong}");
    wrong
}
