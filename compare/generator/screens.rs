// Floats for the screen number: halves of a ten-thousandth, floats beside them and beside multiples,
// those about where a number becomes `big` or 0.0000, the least, and any.

use crate::random::Random;

/// Draws a size.
type Draw = fn(&Random) -> f64;

/// Each class of floats by its name.
pub const CLASSES: [(&str, Draw); 8] = [
    ("halves", half),
    ("beside halves", |random| beside(random, half(random))),
    // Of these halves, one in 625 is a float itself.
    ("nearest to halves", |random| {
        random.near(odd_parts(random, 20_000), FLOATS_BESIDE)
    }),
    ("nearest to multiples", |random| {
        random.near(parts(random, 10_000), FLOATS_BESIDE)
    }),
    ("about 2^31", about_big),
    ("about 0", about_zero),
    ("subnormal", |random| match random.below(2) {
        0 => random.sized(-1074, -1022),
        // All subnormal numbers as likely, and the least normal ones.
        _ => random.of_bits(2),
    }),
    // But none of the largest exponent: the sum of two such returns is infinite, and refused.
    ("any", |random| random.of_bits(2046)),
];

/// From this size on, a number is shown as `big`.
pub const BIG: f64 = 2147483648.0;

/// So many floats beside a place are drawn, both ways.
const FLOATS_BESIDE: i32 = 3;

/// With either sign.
pub fn draw_float(random: &Random, draw: Draw) -> f64 {
    random.pick(&[1.0, -1.0]) * draw(random)
}

/// An odd multiple of 1/32: these are all floats that lie in the middle of two ten-thousandths.
fn half(random: &Random) -> f64 {
    odd_parts(random, 32)
}

/// The float nearest to a whole multiple of `1/of` below 2^31.
fn parts(random: &Random, of: u64) -> f64 {
    whole(random, of << 31) as f64 / of as f64
}

/// The same for an odd multiple.
fn odd_parts(random: &Random, of: u64) -> f64 {
    (whole(random, of << 31) | 1) as f64 / of as f64
}

/// From 1 to `end - 1`, each power of two as likely.
fn whole(random: &Random, end: u64) -> u64 {
    let powers = (end - 1).ilog2() + 1;
    let first = 1 << random.below(powers as usize);
    first + random.bits() % first.min(end - first)
}

/// A float next to it, but not itself.
fn beside(random: &Random, x: f64) -> f64 {
    let floats = i64::from(random.between(1, FLOATS_BESIDE));
    let steps = random.pick(&[floats, -floats]);
    f64::from_bits(x.to_bits().wrapping_add_signed(steps))
}

fn about_big(random: &Random) -> f64 {
    match random.below(3) {
        0 => random.near(BIG, 4_000),
        1 => {
            // The last multiples and halves of a ten-thousandth below.
            let steps = f64::from(random.between(0, 40));
            random.near(BIG - steps / 20_000.0, FLOATS_BESIDE)
        }
        _ => random.sized(30, 70),
    }
}

fn about_zero(random: &Random) -> f64 {
    match random.below(8) {
        0 => 0.0,
        1..=4 => random.near(random.pick(&[0.00005, 0.0001]), FLOATS_BESIDE),
        // Up to above the least half.
        _ => random.sized(-80, -14),
    }
}
