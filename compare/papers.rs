// Marks the papers of papers/ with the copy. Each answer goes beside its paper, and all papers and
// all answers, one after another in the order of their names, to the program `replay_papers`: as its
// input, each paper after its length in two bytes, and as what it must write.

use reference::exam::exam;
use std::fs;
use std::io;
use std::path::{Path, PathBuf};

fn main() -> io::Result<()> {
    let (mut input, mut output) = (Vec::new(), Vec::new());
    for path in papers()? {
        let file = bytes(&fs::read_to_string(&path)?);
        let text = exam(&file);
        fs::write(path.with_extension("answer"), &text)?;
        let length = u16::try_from(file.len()).expect("a length of two bytes");
        input.extend(length.to_le_bytes());
        input.extend(file);
        output.extend(text);
    }
    let replay = Path::new("crates/replay_papers");
    fs::write(replay.join("stdin"), input)?;
    fs::write(replay.join("stdout"), output)
}

fn papers() -> io::Result<Vec<PathBuf>> {
    let mut paths = Vec::new();
    for entry in fs::read_dir("papers")? {
        let path = entry?.path();
        if path.extension().is_some_and(|word| word == "paper") {
            paths.push(path);
        }
    }
    paths.sort();
    Ok(paths)
}

/// What a paper in document 01's notation stands for: pairs of hexadecimal digits, with spaces and
/// bars for the eye. A line that begins with # is a comment.
fn bytes(text: &str) -> Vec<u8> {
    let lines = text.lines().filter(|line| !line.starts_with('#'));
    let digits: String = lines.flat_map(|line| line.split([' ', '|'])).collect();
    assert!(digits.len() % 2 == 0, "pairs of digits");
    (0..digits.len())
        .step_by(2)
        .map(|at| u8::from_str_radix(&digits[at..at + 2], 16).expect("hexadecimal digits"))
        .collect()
}
