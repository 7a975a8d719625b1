// What the engine writes of a draft and reads of a file, to be compared with what the copy does, bit
// for bit: what it answers, and all that is lent. It may change nothing that is lent to be read, and
// nothing beside a slice.

use crate::guarded::Guarded;
use engine::questions::{read_question, write_question};
use reference::flat::Flat;
use reference::flat_question::{Draft, Lent};

const BYTE: u8 = 0xA5;
const NUMBER: u64 = 0x7FF0A5A5A5A5A5A5;

/// The engine's answer and the whole output after it, or nothing where it has changed anything else.
pub fn written(draft: &Draft) -> Option<(Flat, Vec<u8>)> {
    let returns = Guarded::new(&draft.returns, NUMBER);
    let given = Guarded::new(&draft.given, NUMBER);
    let mut out = Guarded::new(&draft.out, BYTE);
    let flat = write_question(
        &draft.record,
        returns.slice(),
        given.slice(),
        out.slice_mut(),
    );
    let kept = returns.slice() == draft.returns && given.slice() == draft.given;
    let clean = kept && returns.kept() && given.kept() && out.kept();
    clean.then(|| (flat, out.slice().to_vec()))
}

/// The number that the engine answers to the file and what is lent after it, or nothing where it has
/// changed anything else.
pub fn read(file: &[u8], lent: &Lent) -> Option<(u32, Lent)> {
    let paper = Guarded::new(file, BYTE);
    let mut returns = Guarded::new(&lent.returns, NUMBER);
    let mut given = Guarded::new(&lent.given, NUMBER);
    let mut bits = Guarded::new(&lent.bits, NUMBER);
    let mut wholes = Guarded::new(&lent.wholes, NUMBER as usize);
    let number = read_question(
        paper.slice(),
        returns.slice_mut(),
        given.slice_mut(),
        bits.slice_mut().try_into().expect("three"),
        wholes.slice_mut().try_into().expect("eight"),
    );
    let after = Lent {
        returns: returns.slice().to_vec(),
        given: given.slice().to_vec(),
        bits: bits.slice().try_into().expect("three"),
        wholes: wholes.slice().try_into().expect("eight"),
    };
    let numbers = returns.kept() && given.kept() && bits.kept() && wholes.kept();
    let clean = paper.slice() == file && paper.kept() && numbers;
    clean.then_some((number, after))
}
