// Document 01's notation of a question file, as papers/mark reads it: pairs of hexadecimal digits,
// with spaces and bars for the eye. A line that begins with # is a comment.

/// The bytes of a question file that a file stands for: itself where it begins with the byte 01,
/// which no notation does. None where it is no notation either.
pub fn bytes(file: Vec<u8>) -> Option<Vec<u8>> {
    if file.first() == Some(&1) {
        return Some(file);
    }
    let lines = file.split(|&each| each == b'\n');
    let said = lines.filter(|line| !line.starts_with(b"#")).flatten();
    let digits: Vec<u8> = said
        .filter(|each| !b" |".contains(each))
        .map(|&each| digit(each))
        .collect::<Option<_>>()?;
    let pairs = digits.chunks_exact(2);
    let whole = pairs.remainder().is_empty();
    whole.then(|| pairs.map(|pair| 16 * pair[0] + pair[1]).collect())
}

fn digit(byte: u8) -> Option<u8> {
    let value = char::from(byte).to_digit(16)?;
    u8::try_from(value).ok()
}
