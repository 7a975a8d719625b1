// Question files of document 01, 'The exam program', and document 02: drawn inputs as authors would
// write them down, with or without the records that may be left out, such files damaged byte by byte,
// and files whose records stand in other orders.

use crate::random::Random;
use crate::{draw, Shapes};
use reference::covariance::{Decay, Estimate, Settings, Shrinkage};
use reference::exam::{FILE_ASSETS, FILE_PERIODS};
use reference::flat::flat_target;
use reference::input::{Call, Input};
use reference::{MAX_SWEEPS, MIN_PERIODS};

const SHAPES: Shapes = Shapes {
    assets: 1..=FILE_ASSETS,
    periods: MIN_PERIODS..=FILE_PERIODS,
};

/// Few periods, so that damage often strikes a setting or a count.
const SHORT: Shapes = Shapes {
    assets: 1..=3,
    periods: MIN_PERIODS..=4,
};

/// A file whose numbers or counts may be damaged, and then its bytes.
pub fn draw_paper(random: &Random) -> Vec<u8> {
    let mut file = match random.below(10) {
        0 => draw_arranged(random),
        _ => draw_written(random),
    };
    if random.chance(35) {
        for _ in 0..random.pick(&[1, 1, 1, 2, 4]) {
            damage(random, &mut file);
        }
    }
    file
}

/// An input as a file.
fn draw_written(random: &Random) -> Vec<u8> {
    let shapes = if random.chance(40) { &SHAPES } else { &SHORT };
    let mut input = draw(random, shapes);
    if random.chance(4) {
        // Still as many returns as the counts say.
        match random.below(2) {
            0 => input.n = 0,
            _ => input.t = random.below(MIN_PERIODS),
        }
        input.returns.truncate(input.n * input.t);
    }
    write(random, &input)
}

/// One asset with two returns, a decay factor and up to two more settings, under any question: in the
/// order of the file, or with two records exchanged, or with one twice; whole, or cut off near its end.
fn draw_arranged(random: &Random) -> Vec<u8> {
    let mut settings = vec![FACTOR];
    settings.extend((0..random.below(3)).map(|_| random.pick(&RECORDS)));
    // By kind: the factor's is the last before the question's.
    settings.sort();
    let mut records = [&OPENING, &settings[..], &[random.pick(&QUESTIONS)]].concat();
    let (i, j) = (random.below(records.len()), random.below(records.len()));
    match random.below(6) {
        0 => records.swap(i, j),
        1 => records.insert(i, records[j]),
        _ => {}
    }
    let mut file = records.concat();
    if random.chance(10) {
        file.truncate(file.len() - 1 - random.below(10));
    }
    file
}

/// The records of an input, in the order of the file. A limit that no byte holds is left out, and
/// so is the limit that stands where none is written, sometimes.
fn write(random: &Random, input: &Input) -> Vec<u8> {
    let mut file = vec![1];
    file.extend((input.n as u16).to_le_bytes());
    file.extend((input.t as u16).to_le_bytes());
    numbers(&mut file, 2, &input.returns);
    match &input.call {
        Call::AdjustedCovariance {
            settings, given, ..
        } => {
            let is_given = matches!(settings.estimate, Estimate::Given);
            let limit = is_given.then_some(settings.limit);
            adjustments(&mut file, settings, given);
            with_question(random, &mut file, limit, 0);
        }
        Call::LedoitWolf(target) => {
            file.extend([5, flat_target(*target) as u8]);
            with_question(random, &mut file, None, 0);
        }
        Call::ExponentiallyWeightedMean { decay } => {
            with_decay(&mut file, *decay);
            with_question(random, &mut file, None, 1);
        }
        Call::JamesSteinMean { limit } => with_question(random, &mut file, Some(*limit), 2),
        Call::BayesSteinMean { limit } => with_question(random, &mut file, Some(*limit), 3),
    }
    file
}

/// Kinds 3 to 9, and 12, beside which no 10 is written.
fn adjustments(file: &mut Vec<u8>, settings: &Settings, given: &[f64]) {
    if let Some(ridge) = settings.regularization {
        numbers(file, 3, &[ridge]);
    }
    match settings.shrinkage {
        Shrinkage::Unshrunk => {}
        Shrinkage::Fixed(intensity) => numbers(file, 4, &[intensity]),
        Shrinkage::LedoitWolf(target) => file.extend([5, flat_target(target) as u8]),
    }
    match settings.estimate {
        Estimate::Sample => {}
        Estimate::ExponentiallyWeighted(decay) => with_decay(file, decay),
        Estimate::Semi => file.push(7),
        Estimate::SemiBelow(threshold) => numbers(file, 8, &[threshold]),
        Estimate::Given => numbers(file, 9, given),
    }
}

fn with_decay(file: &mut Vec<u8>, decay: Decay) {
    match decay {
        Decay::HalfLife(half_life) => numbers(file, 6, &[half_life]),
        Decay::Lambda(lambda) => numbers(file, 12, &[lambda]),
    }
}

fn numbers(file: &mut Vec<u8>, kind: u8, numbers: &[f64]) {
    for x in numbers {
        file.push(kind);
        file.extend(x.to_le_bytes());
    }
}

fn with_question(random: &Random, file: &mut Vec<u8>, limit: Option<usize>, question: u8) {
    match limit.map(u8::try_from) {
        Some(Ok(limit)) if usize::from(limit) != MAX_SWEEPS || random.chance(50) => {
            file.extend([10, limit])
        }
        _ => {}
    }
    file.extend([11, question]);
}

/// A byte changed, a piece cut out, put in or repeated, the end cut off, or a last record changed.
fn damage(random: &Random, file: &mut Vec<u8>) {
    if file.is_empty() {
        file.push(random.pick(&BYTES));
        return;
    }
    let len = file.len();
    // Counts and settings stand near the two ends.
    let near = random.below(len.min(12));
    let at = random.pick(&[random.below(len), near, len - 1 - near]);
    let piece = random.pick(&[1, 2, 5, 9, 18]).min(len - at);
    match random.below(10) {
        0 | 1 => file[at] = random.pick(&BYTES),
        2 => file[at] ^= 1 << random.below(8),
        3 => {
            file.drain(at..at + piece);
        }
        4 => file.truncate(at),
        5 => file.insert(at, random.pick(&BYTES)),
        6 => {
            let copied = file[at..at + piece].to_vec();
            file.splice(at..at, copied);
        }
        7 => file.push(random.pick(&BYTES)),
        8 => {
            // A setting more, or one where its question takes none.
            let record = random.pick(&RECORDS);
            let question = len.saturating_sub(2);
            file.splice(question..question, record.iter().copied());
        }
        _ => file[len - 1] = random.pick(&[0, 1, 2, 3, 4, 255]),
    }
}

const BYTES: [u8; 17] = [0, 1, 2, 3, 4, 5, 6, 7, 8, 9, 10, 11, 12, 13, 100, 101, 255];

/// One asset, two periods, the returns 1 and 4.
const OPENING: [&[u8]; 3] = [
    &[1, 1, 0, 2, 0],
    &[2, 0, 0, 0, 0, 0, 0, 0xF0, 0x3F],
    &[2, 0, 0, 0, 0, 0, 0, 0x10, 0x40],
];

/// The decay factor 0.5.
const FACTOR: &[u8] = &[12, 0, 0, 0, 0, 0, 0, 0xE0, 0x3F];

const QUESTIONS: [&[u8]; 4] = [&[11, 0], &[11, 1], &[11, 2], &[11, 3]];

/// A record of each setting.
const RECORDS: [&[u8]; 10] = [
    &[3, 0, 0, 0, 0, 0, 0, 0, 0],
    &[4, 0, 0, 0, 0, 0, 0, 0xE0, 0x3F],
    &[5, 0],
    &[5, 2],
    &[6, 0, 0, 0, 0, 0, 0, 0, 0x40],
    &[7],
    &[8, 0, 0, 0, 0, 0, 0, 0, 0],
    &[9, 0, 0, 0, 0, 0, 0, 0xF0, 0x3F],
    &[10, 3],
    FACTOR,
];
