// The processor's time of this thread, on Linux.

pub fn micros(work: &mut impl FnMut()) -> f64 {
    let start = processor_micros();
    work();
    processor_micros() - start
}

fn processor_micros() -> f64 {
    unsafe extern "C" {
        fn clock_gettime(clock: i32, seconds_and_nanos: *mut [i64; 2]) -> i32;
    }
    const CLOCK_THREAD_CPUTIME_ID: i32 = 3;
    let mut time = [0; 2];
    let failed = unsafe { clock_gettime(CLOCK_THREAD_CPUTIME_ID, &mut time) };
    assert_eq!(failed, 0);
    time[0] as f64 * 1e6 + time[1] as f64 / 1e3
}

pub fn median(numbers: impl Iterator<Item = f64>) -> f64 {
    let mut sorted: Vec<f64> = numbers.collect();
    sorted.sort_by(f64::total_cmp);
    sorted[sorted.len() / 2]
}
