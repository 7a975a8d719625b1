// Inputs with a side about the limit: of the return matrix, of a given matrix, or of both. Nothing
// else of them is damaged, but that a given slice is empty now and then: refusal 2 is for the side.

use crate::given::draw_given;
use crate::random::Random;
use crate::settings::draw_settings;
use crate::{draw_good, Shapes};
use reference::covariance::Estimate;
use reference::input::{Call, Input};
use reference::{MAX_SIDE, MIN_PERIODS};

/// The limit of document 01, before document 02's Paper 2.
pub const FORMER_MAX_SIDE: usize = 32;

/// About the limit, and about the former one.
pub const SIDES: [usize; 5] = [
    MAX_SIDE - 1,
    MAX_SIDE,
    MAX_SIDE + 1,
    FORMER_MAX_SIDE,
    FORMER_MAX_SIDE + 1,
];

/// Whose side it is.
#[derive(Clone, Copy, PartialEq)]
pub enum Whose {
    Returns,
    Given,
    Both,
}

/// An input with that side. A return matrix or a given one whose side it isn't has one within the
/// limit.
pub fn draw_with_side(random: &Random, side: usize, whose: Whose, periods: usize) -> Input {
    let other = 1 + random.below(MAX_SIDE);
    let n = if whose == Whose::Given { other } else { side };
    let shapes = Shapes {
        assets: n..=n,
        periods: MIN_PERIODS..=periods,
    };
    let input = draw_good(random, &shapes);
    match whose {
        Whose::Returns => input,
        Whose::Given | Whose::Both => with_given(random, input, side),
    }
}

/// The same returns, under the adjusted covariance of a given matrix. Sometimes its slice is empty,
/// which is looked at only where the side isn't too large.
fn with_given(random: &Random, input: Input, side: usize) -> Input {
    let mut settings = draw_settings(random);
    settings.estimate = Estimate::Given;
    let given = match random.below(8) {
        0 => Vec::new(),
        _ => draw_given(random, side),
    };
    let call = Call::AdjustedCovariance {
        settings,
        given,
        side,
    };
    let answer = vec![f64::from_bits(random.bits()); call.fills(input.n)];
    Input {
        call,
        answer,
        ..input
    }
}
