// The marking of a question file.

unsafe extern "C" {
    fn exam_mark(paper: *const u8, paper_len: usize, out: *mut u8, out_len: usize) -> usize;
}

/// Writes what is printed of a file to the front of `out`, and answers how many bytes that is.
pub fn mark(paper: &[u8], out: &mut [u8]) -> usize {
    unsafe { exam_mark(paper.as_ptr(), paper.len(), out.as_mut_ptr(), out.len()) }
}
