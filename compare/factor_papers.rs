// Document 02, Paper 1, as question files: a decay factor in its place and elsewhere, beside other
// settings and under other questions, and the text that is printed of each.

const SHAPE: &[u8] = &[0x01, 0x01, 0x00, 0x02, 0x00];
const RETURN_1: &[u8] = &[0x02, 0x00, 0x00, 0x00, 0x00, 0x00, 0x00, 0xF0, 0x3F];
const RETURN_4: &[u8] = &[0x02, 0x00, 0x00, 0x00, 0x00, 0x00, 0x00, 0x10, 0x40];
const RIDGE_1: &[u8] = &[0x03, 0x00, 0x00, 0x00, 0x00, 0x00, 0x00, 0xF0, 0x3F];
const TO_VARIANCE: &[u8] = &[0x05, 0x00];
const HALF_LIFE_1: &[u8] = &[0x06, 0x00, 0x00, 0x00, 0x00, 0x00, 0x00, 0xF0, 0x3F];
const LIMIT_100: &[u8] = &[0x0A, 0x64];
const FACTOR: &[u8] = &[0x0C, 0x00, 0x00, 0x00, 0x00, 0x00, 0x00, 0xE0, 0x3F];
const FACTOR_2: &[u8] = &[0x0C, 0x00, 0x00, 0x00, 0x00, 0x00, 0x00, 0x00, 0x40];
const COVARIANCE: &[u8] = &[0x0B, 0x00];
const MEAN: &[u8] = &[0x0B, 0x01];
const JAMES_STEIN: &[u8] = &[0x0B, 0x02];

/// What the file is about, its records behind the returns 1 and 4 of one asset, and its text.
type Example = (&'static str, &'static [&'static [u8]], &'static str);

#[rustfmt::skip]
const EXAMPLES: [Example; 10] = [
    ("mean", &[FACTOR, MEAN], "ok 1 1\n0 0 4008000000000000 3.0000\n"),
    // The number is just below 5.5, and the screen shows the nearest ten-thousandth.
    ("ridge", &[RIDGE_1, FACTOR, COVARIANCE], "ok 1 1\n0 0 4015FFFFFFFFFFFF 5.5000\n"),
    ("behind the question", &[MEAN, FACTOR], "refused 15\n"),
    ("half-life, mean", &[HALF_LIFE_1, FACTOR, MEAN], "refused 15\n"),
    ("ridge, mean", &[RIDGE_1, FACTOR, MEAN], "refused 15\n"),
    ("limit", &[LIMIT_100, FACTOR, COVARIANCE], "refused 15\n"),
    ("before Ledoit-Wolf", &[FACTOR, TO_VARIANCE, COVARIANCE], "refused 15\n"),
    ("James-Stein", &[FACTOR, JAMES_STEIN], "refused 15\n"),
    ("Ledoit-Wolf", &[TO_VARIANCE, FACTOR, COVARIANCE], "refused 8\n"),
    ("factor 2, mean", &[FACTOR_2, MEAN], "refused 7\n"),
];

/// What each file is about, the file and its text.
pub fn all() -> impl Iterator<Item = (&'static str, Vec<u8>, &'static str)> {
    EXAMPLES.into_iter().map(|(about, records, text)| {
        let file = [&[SHAPE, RETURN_1, RETURN_4], records].concat().concat();
        (about, file, text)
    })
}
