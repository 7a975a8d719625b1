// The writing of a question record, and the reading of one from a file. Numbers cross as their bits.

use crate::calls::reported;
use reference::flat::Flat;
use reference::flat_question::FlatQuestion;

unsafe extern "C" {
    fn engine_write_question(
        assets: usize,
        periods: usize,
        returns: *const u64,
        returns_len: usize,
        estimate: u32,
        estimate_bits: u64,
        shrinkage: u32,
        shrinkage_bits: u64,
        regularization: u32,
        regularization_bits: u64,
        given: *const u64,
        given_len: usize,
        has_limit: u32,
        limit: usize,
        question: u32,
        out: *mut u8,
        out_len: usize,
        numbers: *mut [f64; 2],
        wholes: *mut [usize; 2],
    ) -> u32;
    fn engine_read_question(
        file: *const u8,
        file_len: usize,
        returns: *mut u64,
        returns_len: usize,
        given: *mut u64,
        given_len: usize,
        bits: *mut [u64; 3],
        wholes: *mut [usize; 8],
    ) -> u32;
}

/// Writes the file to the front of `out`.
pub fn write_question(
    record: &FlatQuestion,
    returns: &[u64],
    given: &[u64],
    out: &mut [u8],
) -> Flat {
    reported(|numbers, wholes| unsafe {
        engine_write_question(
            record.assets,
            record.periods,
            returns.as_ptr(),
            returns.len(),
            record.estimate.0,
            record.estimate.1,
            record.shrinkage.0,
            record.shrinkage.1,
            record.regularization.0,
            record.regularization.1,
            given.as_ptr(),
            given.len(),
            record.limit.0,
            record.limit.1,
            record.asked,
            out.as_mut_ptr(),
            out.len(),
            numbers,
            wholes,
        )
    })
}

/// Writes the file's numbers to the fronts of the two slices, and answers 0 or a refusal's number.
pub fn read_question(
    file: &[u8],
    returns: &mut [u64],
    given: &mut [u64],
    bits: &mut [u64; 3],
    wholes: &mut [usize; 8],
) -> u32 {
    unsafe {
        engine_read_question(
            file.as_ptr(),
            file.len(),
            returns.as_mut_ptr(),
            returns.len(),
            given.as_mut_ptr(),
            given.len(),
            bits,
            wholes,
        )
    }
}
