// Numbers in words: read to the bits of an f64, and printed so that they read back to the same bits.

/// The bits of the number that a word stands for: the nearest f64 of a decimal, an infinity, or the
/// bits themselves. Else what is wrong with the word.
pub fn read(word: &str) -> Result<u64, String> {
    match word {
        "inf" => return Ok(f64::INFINITY.to_bits()),
        "-inf" => return Ok(f64::NEG_INFINITY.to_bits()),
        _ => {}
    }
    let found = format!("found {}", quoted(word));
    if let Some(digits) = word.strip_prefix("0x") {
        return hexadecimal(digits)
            .ok_or_else(|| format!("expected 1 to 16 hexadecimal digits after 0x, {found}"));
    }
    let unsigned = word.strip_prefix(['+', '-']).unwrap_or(word);
    if unsigned.eq_ignore_ascii_case("nan") {
        return Err(format!(
            "expected a number, {found}: give the bits of a NaN, as in 0x7FF8000000000000"
        ));
    }
    if !is_decimal(unsigned) {
        return Err(format!("expected a number, {found}"));
    }
    let number: f64 = word.parse().expect("Rust reads every decimal");
    if number.is_infinite() {
        return Err(format!(
            "expected a number, {found}, which is beyond the largest f64: write {number} if that is meant"
        ));
    }
    Ok(number.to_bits())
}

fn hexadecimal(digits: &str) -> Option<u64> {
    let plain = digits.bytes().all(|each| each.is_ascii_hexdigit());
    if plain && (1..=16).contains(&digits.len()) {
        u64::from_str_radix(digits, 16).ok()
    } else {
        None
    }
}

/// Digits with a point or without one, and an exponent or none.
fn is_decimal(unsigned: &str) -> bool {
    let (size, exponent) = match unsigned.split_once(['e', 'E']) {
        Some((size, exponent)) => (size, exponent.strip_prefix(['+', '-']).unwrap_or(exponent)),
        None => (unsigned, "0"),
    };
    let (whole, fraction) = size.split_once('.').unwrap_or((size, ""));
    let some = !exponent.is_empty() && whole.len() + fraction.len() > 0;
    some && [whole, fraction, exponent].into_iter().all(are_digits)
}

fn are_digits(text: &str) -> bool {
    text.bytes().all(|each| each.is_ascii_digit())
}

/// A whole number, the largest usize for all above; else what is wrong with the word.
pub fn whole(word: &str) -> Result<usize, String> {
    if word.is_empty() || !are_digits(word) {
        return Err(format!("expected a whole number, found {}", quoted(word)));
    }
    Ok(word.parse().unwrap_or(usize::MAX))
}

/// The shorter of the plain and the exponent form, the plain one where they are as long. A NaN as
/// its bits.
pub fn print(bits: u64) -> String {
    let number = f64::from_bits(bits);
    if number.is_nan() {
        return format!("0x{bits:016X}");
    }
    let (plain, exponent) = (format!("{number}"), format!("{number:e}"));
    if exponent.len() < plain.len() {
        exponent
    } else {
        plain
    }
}

/// A word as it was found, in quotes.
pub fn quoted(word: &str) -> String {
    format!("'{}'", word.escape_debug())
}
