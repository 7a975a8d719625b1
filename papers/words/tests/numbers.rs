// Numbers in words: those that are read, those that are not, what is printed, and there and back.

use crate::numbers::{print, read};

const READ: &[(&str, u64)] = &[
    ("0", 0x0000000000000000),
    ("-0", 0x8000000000000000),
    ("1", 0x3FF0000000000000),
    ("+1", 0x3FF0000000000000),
    ("001.50", 0x3FF8000000000000),
    (".5", 0x3FE0000000000000),
    ("-5.", 0xC014000000000000),
    ("0.1", 0x3FB999999999999A),
    ("0.94", 0x3FEE147AE147AE14),
    ("1e-4", 0x3F1A36E2EB1C432D),
    ("0.0001", 0x3F1A36E2EB1C432D),
    ("1E+2", 0x4059000000000000),
    ("-1e200", 0xE974E718D7D7625A),
    // A half, to the even one, and a number a little above it.
    ("9007199254740993", 0x4340000000000000),
    (
        "9007199254740993.0000000000000000000000000000001",
        0x4340000000000001,
    ),
    // The largest number, the least one, and half of it and a little more.
    ("1.7976931348623157e308", 0x7FEFFFFFFFFFFFFF),
    ("1.7976931348623158e308", 0x7FEFFFFFFFFFFFFF),
    ("5e-324", 0x0000000000000001),
    ("2.4703282292062327e-324", 0x0000000000000000),
    ("2.4703282292062328e-324", 0x0000000000000001),
    ("-1e-999", 0x8000000000000000),
    ("inf", 0x7FF0000000000000),
    ("-inf", 0xFFF0000000000000),
    ("0x1", 0x0000000000000001),
    ("0x7FF0000000000001", 0x7FF0000000000001),
    ("0xfff8000000000abc", 0xFFF8000000000ABC),
];

#[test]
fn reads() {
    for &(word, bits) in READ {
        assert_eq!(read(word), Ok(bits), "{word}");
    }
}

const UNREAD: &[&str] = &[
    "", "+", "-", ".", "e5", "1e", "1e+", "1e1.5", "1.2.3", "--1", "+-1", "1_000", "1,5", "0.5f",
    "1d", "٣", "−1", "infinity", "Inf", "+inf", "NaN()", "0X1", "-0x1", "x1",
];

#[test]
fn refuses() {
    for &word in UNREAD {
        assert_eq!(
            read(word),
            Err(format!("expected a number, found '{word}'"))
        );
    }
}

#[test]
fn says_why() {
    let said = |word: &str| read(word).expect_err("no number");
    for word in ["nan", "NaN", "-nan"] {
        let expected = "': give the bits of a NaN, as in 0x7FF8000000000000";
        assert!(said(word).ends_with(expected), "{}", said(word));
    }
    assert_eq!(
        said("1.7976931348623159e308"),
        "expected a number, found '1.7976931348623159e308', which is beyond the largest f64: write inf if that is meant"
    );
    assert_eq!(
        said("-1e999"),
        "expected a number, found '-1e999', which is beyond the largest f64: write -inf if that is meant"
    );
    for word in ["0x", "0x+1", "0xG", "0x00000000000000001"] {
        let expected = format!("expected 1 to 16 hexadecimal digits after 0x, found '{word}'");
        assert_eq!(said(word), expected);
    }
}

const PRINTED: &[(u64, &str)] = &[
    (0x0000000000000000, "0"),
    (0x8000000000000000, "-0"),
    (0x4018000000000000, "6"),
    (0x4059000000000000, "100"),
    (0x408F400000000000, "1e3"),
    (0x3FB999999999999A, "0.1"),
    (0x3F889374BC6A7EFA, "0.012"),
    (0x3FEE147AE147AE14, "0.94"),
    (0x3F847AE147AE147B, "0.01"),
    (0x3F1A36E2EB1C432D, "1e-4"),
    (0xBF04F8B588E368F1, "-4e-5"),
    (0x3FD3333333333334, "0.30000000000000004"),
    (0x41DFFFFFFFFFFFD6, "2147483647.99999"),
    (0x7FEFFFFFFFFFFFFF, "1.7976931348623157e308"),
    (0x0000000000000001, "5e-324"),
    (0x7FF0000000000000, "inf"),
    (0xFFF0000000000000, "-inf"),
    (0x7FF0000000000001, "0x7FF0000000000001"),
    (0xFFF8000000000ABC, "0xFFF8000000000ABC"),
];

#[test]
fn prints() {
    for &(bits, text) in PRINTED {
        assert_eq!(print(bits), text);
    }
}

/// Bits of all kinds, by xorshift, every eighth with the exponent of NaNs and infinities, and every
/// eighth with that of subnormal numbers.
#[test]
fn there_and_back() {
    const EXPONENT: u64 = 0x7FF0000000000000;
    let mut drawn: u64 = 0x9E3779B97F4A7C15;
    for at in 0..100_000 {
        drawn ^= drawn << 13;
        drawn ^= drawn >> 7;
        drawn ^= drawn << 17;
        let bits = match at % 8 {
            0 => drawn | EXPONENT,
            1 => drawn & !EXPONENT,
            _ => drawn,
        };
        let text = print(bits);
        assert_eq!(read(&text), Ok(bits), "{text}");
    }
}
