// Whether the copy and the engine answer prices alike, bit for bit: accepted or refused, what comes with
// it, and the whole return slice, of which the numbers past the returns, and all of them after a
// refusal, keep their bits. The engine may change no price, and no number beside the two slices.

use reference::flat::Flat;
use reference::prices::Prices;
use reference::MAX_SIDE;

/// What the call reports, and the whole return slice after it.
pub type Answer = (Flat, Vec<f64>);

/// The copy's answer, and whether the engine answers alike.
pub fn judge(input: &Prices) -> (Answer, bool) {
    let copied = copied(input);
    let number = copied.0.number as usize;
    let same = match computed(input) {
        Some((flat, returns)) => {
            flat == copied.0 && same_bits(&returns, &copied.1) && input.kept(number, &returns)
        }
        None => false,
    };
    (copied, same)
}

/// Prints both reports, the input's beginning and, where it is short, both return slices.
pub fn show(input: &Prices) {
    let (copied, computed) = (copied(input), computed(input));
    let report = computed.as_ref().map(|answer| answer.0);
    let words = format!(
        "copy {:?}, engine {report:?}: {input:?}: copy {:?}, engine {:?}",
        copied.0,
        copied.1,
        computed.map(|answer| answer.1)
    );
    println!("    {}", words.chars().take(2000).collect::<String>());
}

pub fn copied(input: &Prices) -> Answer {
    let (answer, returns) = input.answered();
    (Flat::of_filled(&answer), returns)
}

/// The engine's answer, or nothing where it has changed a price or a number beside a slice.
pub fn computed(input: &Prices) -> Option<Answer> {
    let (prices, mut returns) = (guarded(&input.prices), guarded(&input.returns));
    let (lent, end) = (prices.clone(), GUARDS + input.returns.len());
    let flat = engine::calls::returns_from_prices(
        &prices[GUARDS..GUARDS + input.prices.len()],
        (input.n, input.rows),
        &mut returns[GUARDS..end],
    );
    let clean = same_bits(&prices, &lent)
        && same_bits(&returns[..GUARDS], &[GUARD; GUARDS])
        && same_bits(&returns[end..], &[GUARD; GUARDS]);
    clean.then(|| (flat, returns[GUARDS..end].to_vec()))
}

/// So many numbers stand on either side of a slice that is lent: a row of the most assets. One that is
/// taken for a price shows, since it is NaN.
const GUARDS: usize = MAX_SIDE;
const GUARD: f64 = f64::from_bits(0x7FF8A5A5A5A5A5A5);

fn guarded(numbers: &[f64]) -> Vec<f64> {
    [&[GUARD; GUARDS], numbers, &[GUARD; GUARDS]].concat()
}

pub fn same_bits(xs: &[f64], ys: &[f64]) -> bool {
    let bits = |x: &f64| x.to_bits();
    xs.iter().map(bits).eq(ys.iter().map(bits))
}
