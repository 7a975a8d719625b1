// Compares the copy's float leaves with the engine's, bit for bit, NaN equal to NaN, and prints
// how many inputs each was given and on how many they differ. Ends with 1 if they ever do.

use engine::leaves as engine;
use generator::random::Random;
use generator::settings::SMALLEST_FACTOR;
use reference::leaves as copy;
use reference::leaves::bits;
use std::fmt::Debug;

/// A leaf of one number, as the engine exports it.
type Leaf = extern "C" fn(f64) -> f64;

fn main() {
    let random = Random::new(2);
    let floats = floats(&random);
    let pairs = pairs(&random, &floats);
    let scalings = scalings(&random, &floats);
    let slices = slices(&random, &floats);

    let mut table = Table { different: 0 };
    table.heading();
    of_one(&random, &floats, &mut table);
    of_two(&pairs, &scalings, &mut table);
    of_slices(&slices, &mut table);
    if table.different > 0 {
        std::process::exit(1);
    }
}

fn of_one(random: &Random, floats: &[f64], table: &mut Table) {
    let mut exponents = floats.to_vec();
    exponents.extend(logarithms(random));
    let mut arguments = floats.to_vec();
    arguments.extend(factors(random));
    let mut squares = floats.to_vec();
    squares.extend(squares_and_neighbours(random));
    table.leaf("is_finite", floats, |&x| {
        (copy::is_finite(x), engine::is_finite(x))
    });
    table.leaf("binary_exponent", floats, |&x| {
        (copy::binary_exponent(x), engine::binary_exponent(x))
    });
    let mut unary = |name: &str, inputs: &[f64], copied: fn(f64) -> f64, computed: Leaf| {
        table.leaf(name, inputs, |&x| (bits(copied(x)), bits(computed(x))));
    };
    unary("abs", floats, copy::abs, engine::abs);
    unary("signum", floats, copy::signum, engine::signum);
    unary("min0", floats, copy::min0, engine::min0);
    unary("max0", floats, copy::max0, engine::max0);
    unary("clamp01", floats, copy::clamp01, engine::clamp01);
    unary("sqrt", &squares, copy::sqrt, engine::sqrt);
    unary("exp", &exponents, copy::exp, engine::exp);
    unary("exp_m1", &exponents, copy::exp_m1, engine::exp_m1);
    unary("ln", &arguments, copy::ln, engine::ln);
}

fn of_two(pairs: &[(f64, f64)], scalings: &[(f64, i32)], table: &mut Table) {
    table.leaf("larger", pairs, |&(x, y)| {
        (bits(copy::larger(x, y)), bits(engine::larger(x, y)))
    });
    table.leaf("smaller", pairs, |&(x, y)| {
        (bits(copy::smaller(x, y)), bits(engine::smaller(x, y)))
    });
    table.leaf("pow2_scaled", scalings, |&(x, k)| {
        let computed = engine::pow2_scaled(x, k);
        (bits(copy::pow2_scaled(x, k)), bits(computed))
    });
}

fn of_slices(slices: &[Vec<f64>], table: &mut Table) {
    table.leaf("sum", slices, |xs| {
        (bits(copy::sum(xs)), bits(engine::sum(xs)))
    });
    table.leaf("amax", slices, |xs| {
        (bits(copy::amax(xs)), bits(engine::amax(xs)))
    });
}

struct Table {
    /// Leaves that differ somewhere.
    different: usize,
}

impl Table {
    fn heading(&self) {
        println!("{:15} {:>8} {:>11}", "leaf", "inputs", "differences");
    }

    /// One line of the table, with the first inputs that differ below it.
    fn leaf<I: Debug, O: PartialEq + Debug>(
        &mut self,
        name: &str,
        inputs: &[I],
        both: impl Fn(&I) -> (O, O),
    ) {
        let differs = |input: &&I| {
            let (copied, computed) = both(input);
            copied != computed
        };
        let different: Vec<&I> = inputs.iter().filter(differs).collect();
        println!("{name:15} {:>8} {:>11}", inputs.len(), different.len());
        for input in different.iter().take(3) {
            let (copied, computed) = both(input);
            println!("    {input:?}: copy {copied:X?}, engine {computed:X?}");
        }
        self.different += usize::from(!different.is_empty());
    }
}

/// The number whose bits are `ulps` further on.
fn moved(x: f64, ulps: i64) -> f64 {
    f64::from_bits(x.to_bits().wrapping_add_signed(ulps))
}

/// Every exponent with both signs: the powers of two (zeros and infinities among them), their
/// neighbours, the middle, and drawn fractions; then drawn bits, and thresholds with neighbours.
fn floats(random: &Random) -> Vec<f64> {
    let mut floats = Vec::new();
    let (all, middle) = ((1 << 52) - 1, 1 << 51);
    for high in 0..1 << 12 {
        let edges = [0, 1, 2, middle - 1, middle, middle + 1, all - 1, all];
        let drawn = (0..16).map(|_| random.bits() & all);
        let with_high = |fraction| f64::from_bits((high << 52) | fraction);
        floats.extend(edges.into_iter().chain(drawn).map(with_high));
    }
    floats.extend((0..20_000).map(|_| f64::from_bits(random.bits())));
    for threshold in [-746.0, -745.0, -708.0, -0.5, 0.5, 1.0, 1e150] {
        floats.extend((-20..=20).map(|ulps| moved(threshold, ulps)));
    }
    floats
}

/// Each number beside another, beside itself, beside a neighbour and beside its negative.
fn pairs(random: &Random, floats: &[f64]) -> Vec<(f64, f64)> {
    let beside = |&x: &f64| match random.below(8) {
        0 => (x, x),
        1 => (x, moved(x, 1)),
        2 => (moved(x, 1), x),
        3 => (x, -x),
        _ => (x, random.pick(floats)),
    };
    let mut pairs: Vec<(f64, f64)> = floats.iter().map(beside).collect();
    let special = [0.0, -0.0, 1.0, f64::INFINITY, f64::NEG_INFINITY, f64::NAN];
    for x in special {
        pairs.extend(special.map(|y| (x, y)));
    }
    pairs
}

/// Numbers and powers: in the normal range, where the result is subnormal or just out of it, and
/// far beyond. Few at the ends of `i32`, since the scaling goes there in steps.
fn scalings(random: &Random, floats: &[f64]) -> Vec<(f64, i32)> {
    let with_power = |&x: &f64| {
        let k = match random.below(10) {
            0..=3 => random.between(-1100, 1100),
            4..=6 => -1074 - copy::binary_exponent(x) + random.between(-2, 60),
            7 => 1023 - copy::binary_exponent(x) + random.between(-2, 2),
            8 => random.between(-5000, 5000),
            _ => random.between(-100_000, 100_000),
        };
        (x, k)
    };
    let mut scalings: Vec<(f64, i32)> = floats.iter().map(with_power).collect();
    scalings.extend((0..10_000).map(|_| rounded_twice(random)));
    for k in [
        i32::MIN,
        i32::MIN + 1,
        -(1 << 30),
        1 << 30,
        i32::MAX - 1,
        i32::MAX,
    ] {
        let ends = [0.0, -0.0, 1.0, -f64::MAX, f64::from_bits(1), f64::NAN];
        scalings.extend(ends.map(|x| (x, k)));
    }
    scalings
}

/// A scaling whose first step loses the low bits of a number just above the middle of two results,
/// so that the second step sees the middle itself.
fn rounded_twice(random: &Random) -> (f64, i32) {
    let lost = random.between(1, 50);
    let kept = random.between(0, 51 - lost);
    let top = random.bits() & ((1 << kept) - 1);
    let low = random.bits() & ((1 << lost) - 1);
    let fraction = (top << (52 - kept)) | (1 << (51 - kept)) | low;
    let x = f64::from_bits((1023 << 52) | fraction);
    (copy::pow2_scaled(x, -lost), -1074 + kept + lost)
}

/// Where exp and exp_m1 compute: from below -746 to above 0, and about the whole and half
/// multiples of the logarithm of 2.
fn logarithms(random: &Random) -> Vec<f64> {
    let mut ys: Vec<f64> = (0..60_000).map(|_| -750.0 * random.unit()).collect();
    ys.extend((0..20_000).map(|_| 2.0 * random.unit() - 1.0));
    ys.extend((0..20_000).map(|_| random.sized(-60, 2)));
    for halves in 0..=2160 {
        let y = f64::from(-halves) * 0.5 * copy::LN_2;
        ys.extend((-5..=5).map(|ulps| moved(y, ulps)));
    }
    ys
}

/// Where ln computes, between 0 and 1: evenly, near 1, of every size, far from a power of two, where the
/// end of the series shows, about the smallest accepted factor, and about each power of two and 1.5
/// times it, from the least number to above 1.
fn factors(random: &Random) -> Vec<f64> {
    let mut xs: Vec<f64> = (0..40_000).map(|_| random.unit()).collect();
    xs.extend((0..20_000).map(|_| 0.9 + 0.1 * random.unit()));
    xs.extend((0..20_000).map(|_| 1.0 - random.sized(-53, -10)));
    xs.extend((0..20_000).map(|_| random.sized(-1074, -1)));
    let far = |_| random.pick(&[0.75, 0.375]) * (1.0 + 0.04 * (random.unit() - 0.5));
    xs.extend((0..40_000).map(far));
    xs.extend((-20..=20).map(|ulps| moved(SMALLEST_FACTOR, ulps)));
    for k in -1074..=1 {
        for m in [1.0, 1.5] {
            let x = copy::pow2_scaled(m, k);
            xs.extend((-5..=5).map(|ulps| moved(x, ulps)));
        }
    }
    xs
}

/// Squares of numbers with few bits and with many, at every size, and their neighbours.
fn squares_and_neighbours(random: &Random) -> Vec<f64> {
    let mut squares = Vec::new();
    for _ in 0..20_000 {
        let few = (random.bits() >> 38) as f64;
        let many = 1.0 + random.unit();
        let square = random.pick(&[few * few, many * many]);
        let square = copy::pow2_scaled(square, random.between(-1100, 950));
        squares.extend((-2..=2).map(|ulps| moved(square, ulps)));
    }
    squares
}

/// Slices of up to 40 numbers: of any size, of sizes near 1 so that sums round, or with the
/// special numbers among them.
fn slices(random: &Random, floats: &[f64]) -> Vec<Vec<f64>> {
    let special = [0.0, -0.0, f64::INFINITY, f64::NEG_INFINITY, f64::NAN];
    let slice = |_| {
        let kind = random.below(4);
        let entry = |_| match kind {
            0 => random.pick(floats),
            1 if random.chance(10) => random.pick(&special),
            2 => random.pick(&special[..2]),
            _ => random.sized(-30, 30),
        };
        (0..random.below(41)).map(entry).collect()
    };
    (0..100_000).map(slice).collect()
}
