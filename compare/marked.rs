// Whether the engine prints a given text of a question file, byte for byte.

use engine::exam::mark;

/// What include/engine.h says is always enough for a text.
const ENOUGH: usize = 8192;

/// The engine's text, where it is another one or something is written behind it.
pub fn other_text(file: &[u8], text: &[u8]) -> Option<String> {
    const UNTOUCHED: u8 = 0xA5;
    let mut out = [UNTOUCHED; ENOUGH];
    let count = mark(file, &mut out);
    let same = out[..count] == *text && out[count..].iter().all(|&b| b == UNTOUCHED);
    (!same).then(|| String::from_utf8_lossy(&out[..count]).into_owned())
}
