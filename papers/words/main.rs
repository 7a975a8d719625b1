// The question author's tool, for papers/write and papers/show: a question file out of a paper in
// words, and a question file in words. The bytes of a file are the engine's own matter.

mod engine;
mod lines;
mod notation;
mod numbers;
mod parser;
mod record;
mod rules;
mod say;
#[cfg(test)]
mod tests;
mod vocabulary;

use std::env;
use std::ffi::OsString;
use std::fs;
use std::io::{self, Write};
use std::path::{Path, PathBuf};
use std::process::{self, ExitCode};

fn main() -> ExitCode {
    let arguments: Vec<OsString> = env::args_os().skip(1).collect();
    let done = match &arguments[..] {
        [command, text, file] if command == "write" => write(Path::new(text), Path::new(file)),
        [command, file] if command == "show" => show(Path::new(file)),
        _ => {
            eprintln!("usage: words write TEXT FILE, or words show FILE");
            return ExitCode::from(2);
        }
    };
    match done {
        Ok(()) => ExitCode::SUCCESS,
        Err(why) => {
            eprintln!("{why}");
            ExitCode::FAILURE
        }
    }
}

/// Makes the question file of a paper in words.
fn write(text: &Path, file: &Path) -> Result<(), String> {
    let words = fs::read(text).map_err(|error| at(text, error))?;
    let record = parser::parse(&String::from_utf8_lossy(&words))
        .map_err(|fault| format!("{}:{}: {}", text.display(), fault.line, fault.why))?;
    let bytes = engine::write(&record).map_err(|number| match number {
        engine::BREAKS_A_RULE => at(text, "refused 17: it breaks a rule of the format"),
        _ => at(text, format!("refused {number} by the engine's writer")),
    })?;
    put(file, &bytes).map_err(|error| at(file, error))
}

/// Says a question file in words on standard output.
fn show(file: &Path) -> Result<(), String> {
    let content = fs::read(file).map_err(|error| at(file, error))?;
    let bytes =
        notation::bytes(content).ok_or_else(|| at(file, "not pairs of hexadecimal digits"))?;
    let record = engine::read(&bytes).map_err(|number| match number {
        engine::NO_QUESTION => "refused 15: not a question file".to_string(),
        _ => at(file, format!("refused {number} by the engine's reader")),
    })?;
    let text = say::say(&record);
    let said = io::stdout().write_all(text.as_bytes());
    said.map_err(|error| format!("standard output: {error}"))
}

fn at(path: &Path, what: impl std::fmt::Display) -> String {
    format!("{}: {what}", path.display())
}

/// Writes a file whole or not at all: beside its place first, then moved there. What is no plain
/// file, as /dev/stdout, is written to itself.
fn put(file: &Path, bytes: &[u8]) -> io::Result<()> {
    if fs::metadata(file).is_ok_and(|known| !known.is_file()) {
        return fs::write(file, bytes);
    }
    let place = fs::canonicalize(file).unwrap_or(file.to_path_buf());
    let mut beside = place.clone().into_os_string();
    beside.push(format!(".{}", process::id()));
    let beside = PathBuf::from(beside);
    let moved = fs::write(&beside, bytes).and_then(|()| fs::rename(&beside, &place));
    if moved.is_err() {
        let _ = fs::remove_file(&beside);
    }
    moved
}
