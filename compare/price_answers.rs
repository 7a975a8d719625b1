// The kinds of answers of the call that takes prices, in the order in which they are decided. Refusal 5
// for a price and refusal 5 for a return are two.

use reference::prices::Prices;

pub const KINDS: [&str; 8] = ["1", "2", "3", "4", "5 price", "16", "5 return", "accepted"];

/// The kind of `number`, 0 or a refusal's, where it answers the input.
pub fn kind(input: &Prices, number: usize) -> usize {
    let name = match number {
        0 => "accepted",
        5 if input.prices.iter().all(|p| p.is_finite()) => "5 return",
        5 => "5 price",
        _ => &number.to_string(),
    };
    let place = KINDS.iter().position(|&kind| kind == name);
    place.expect("the call has no other refusal")
}
