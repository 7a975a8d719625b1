// Square matrices to decompose, of every kind of number that the decomposition treats apart.

use crate::given::draw_given;
use crate::random::Random;

type Kind = (&'static str, fn(&Random, usize) -> Vec<f64>);

/// Each draws a matrix of some side, row by row.
pub const KINDS: [Kind; 13] = [
    ("covariance", draw_given),
    ("small whole numbers", whole),
    ("equal diagonal", equal_diagonal),
    ("zeros of both signs", zeros),
    ("nearly diagonal", nearly_diagonal),
    ("sizes far apart", |random, side| {
        symmetric(side, || random.sized(-300, 300))
    }),
    ("subnormal", |random, side| {
        symmetric(side, || random.sized(-1074, -1020))
    }),
    ("near overflow", |random, side| {
        symmetric(side, || random.sized(1015, 1022))
    }),
    ("any finite", |random, side| {
        symmetric(side, || random.of_bits(2047))
    }),
    ("not symmetric", |random, side| {
        (0..side * side).map(|_| random.bell()).collect()
    }),
    ("not symmetric, far apart", |random, side| {
        (0..side * side)
            .map(|_| random.sized(-1074, 1022))
            .collect()
    }),
    ("any bits", |random, side| {
        (0..side * side).map(|_| random.of_bits(2048)).collect()
    }),
    ("one NaN or infinity", |random, side| {
        let mut matrix = symmetric(side, || random.bell());
        let infinity = f64::INFINITY;
        matrix[random.below(side * side)] = random.pick(&[f64::NAN, infinity, -infinity]);
        matrix
    }),
];

fn symmetric(side: usize, entry: impl Fn() -> f64) -> Vec<f64> {
    let mut matrix = vec![0.0; side * side];
    for i in 0..side {
        for j in 0..=i {
            let x = entry();
            matrix[i * side + j] = x;
            matrix[j * side + i] = x;
        }
    }
    matrix
}

fn set_diagonal(matrix: &mut [f64], side: usize, entry: impl Fn() -> f64) {
    for i in 0..side {
        matrix[i * side + i] = entry();
    }
}

fn whole(random: &Random, side: usize) -> Vec<f64> {
    let most = random.pick(&[1, 2, 9]);
    symmetric(side, || f64::from(random.between(-most, most)))
}

/// Every angle begins at 45 degrees, of either sign.
fn equal_diagonal(random: &Random, side: usize) -> Vec<f64> {
    let mut matrix = symmetric(side, || random.bell());
    let value = random.pick(&[0.0, -0.0, 1.0, -3.0]);
    set_diagonal(&mut matrix, side, || value);
    matrix
}

fn zeros(random: &Random, side: usize) -> Vec<f64> {
    let percent = random.pick(&[50, 90, 100]);
    symmetric(side, || {
        if random.chance(percent) {
            random.pick(&[0.0, -0.0])
        } else {
            random.pick(&[1.0, -1.0, random.bell()])
        }
    })
}

/// Numbers off the diagonal about the size at which the sweeps stop.
fn nearly_diagonal(random: &Random, side: usize) -> Vec<f64> {
    let high = random.pick(&[-50, -52, -54, -200, -600]);
    let mut matrix = symmetric(side, || random.sized(high - 6, high));
    set_diagonal(&mut matrix, side, || {
        random.pick(&[1.0, -1.0, random.bell()])
    });
    matrix
}
