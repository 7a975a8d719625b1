// Whether the copy and the engine answer an input alike, bit for bit, NaN equal to NaN: accepted or
// refused, what comes with it, and the whole answer slice, of which the numbers past the answer, and
// all of them after a refusal, keep their very bits.

use engine::calls::answered;
use reference::flat::Flat;
use reference::input::Input;
use reference::leaves::all_bits;

/// What the copy answers, 0 or a refusal's number, and whether the engine answers alike.
pub fn judge(input: &Input) -> (usize, bool) {
    let (copied, computed) = both(input);
    let number = copied.0.number as usize;
    let filled = input.filled(number);
    let same = copied.0 == computed.0
        && all_bits(&copied.1[..filled]) == all_bits(&computed.1[..filled])
        && input.kept(number, &copied.1)
        && input.kept(number, &computed.1);
    (number, same)
}

/// Prints the input's beginning and, where it is short, both answers.
pub fn show(input: &Input) {
    let (copied, computed) = both(input);
    let words = format!("{input:?}: copy {copied:?}, engine {computed:?}");
    println!("    {}", words.chars().take(2000).collect::<String>());
}

/// What the call reports, and the whole answer slice after it: the copy's and the engine's.
fn both(input: &Input) -> ((Flat, Vec<f64>), (Flat, Vec<f64>)) {
    let (report, slice) = input.answered();
    ((Flat::of(&report), slice), answered(input))
}
