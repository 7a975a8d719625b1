// A record in words, in the order of a question file. The parser reads them back to the same record.

use crate::numbers::print;
use crate::record::{Estimate, Record, Shrinkage};
use crate::vocabulary::{name, QUESTIONS, TARGETS};

pub fn say(record: &Record) -> String {
    let mut text = format!("assets {}\nperiods {}\n", record.assets, record.periods);
    if !record.returns.is_empty() {
        text += "returns\n";
        text += &rows(&record.returns, record.assets);
    }
    if let Some(bits) = record.regularization {
        text += &format!("regularization {}\n", print(bits));
    }
    text += &shrinkage(&record.shrinkage);
    text += &estimate(record);
    if let Some(limit) = record.limit {
        text += &format!("limit {limit}\n");
    }
    text += &format!("question {}\n", name(QUESTIONS, record.question));
    text
}

fn shrinkage(shrinkage: &Shrinkage) -> String {
    match *shrinkage {
        Shrinkage::Unshrunk => String::new(),
        Shrinkage::Fixed(bits) => format!("shrink {}\n", print(bits)),
        Shrinkage::LedoitWolf(target) => format!("ledoit-wolf {}\n", name(TARGETS, target)),
    }
}

fn estimate(record: &Record) -> String {
    match &record.estimate {
        Estimate::Sample => String::new(),
        Estimate::Given(given) => format!("given\n{}", rows(given, record.assets)),
        Estimate::HalfLife(bits) => format!("half-life {}\n", print(*bits)),
        Estimate::Semi => "semi\n".to_string(),
        Estimate::Threshold(bits) => format!("threshold {}\n", print(*bits)),
        Estimate::DecayFactor(bits) => format!("decay-factor {}\n", print(*bits)),
    }
}

/// A line for each row. In each column the numbers end at the same place.
fn rows(numbers: &[u64], columns: usize) -> String {
    let printed: Vec<String> = numbers.iter().map(|bits| print(*bits)).collect();
    let mut widths = vec![0; columns];
    for row in printed.chunks(columns.max(1)) {
        for (width, number) in widths.iter_mut().zip(row) {
            *width = number.len().max(*width);
        }
    }
    let mut text = String::new();
    for row in printed.chunks(columns.max(1)) {
        for (width, number) in widths.iter().zip(row) {
            text += &format!("  {number:>width$}");
        }
        text += "\n";
    }
    text
}
