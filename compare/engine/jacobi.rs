// The decomposition.

unsafe extern "C" {
    fn matrix_decompose(
        a: *const f64,
        a_len: usize,
        n: usize,
        limit: usize,
        values: *mut f64,
        values_len: usize,
        vectors: *mut f64,
        vectors_len: usize,
        counts: *mut [usize; 2],
    ) -> u32;
}

/// 0 found, 1 not found, 2 where the arguments do not fit each other. `counts` are the sweeps and
/// rotations.
pub fn decompose(
    a: &[f64],
    n: usize,
    limit: usize,
    values: &mut [f64],
    vectors: &mut [f64],
    counts: &mut [usize; 2],
) -> u32 {
    unsafe {
        matrix_decompose(
            a.as_ptr(),
            a.len(),
            n,
            limit,
            values.as_mut_ptr(),
            values.len(),
            vectors.as_mut_ptr(),
            vectors.len(),
            counts,
        )
    }
}
