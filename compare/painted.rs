// How much stack some work takes, on Linux: it runs in a thread whose stack was painted before, and
// what has lost its paint was taken. Numbers that a frame leaves room for but never writes count only
// where something is written below them.

use std::ffi::c_void;
use std::hint::black_box;
use std::ptr::{null_mut, read_volatile};

/// A stack's words are of 16 bytes, to which frames are aligned.
const WORDS: usize = 1 << 16;
const BYTES: usize = WORDS * 16;
const PAINT: u128 = 0xA5C3_96F0_5A3C_690F_0F69_3CA5_F096_C35A;

/// A thread's attributes: as many bytes as any Linux has.
#[repr(C, align(16))]
struct Attributes([u8; 64]);

unsafe extern "C" {
    fn pthread_attr_init(attributes: *mut Attributes) -> i32;
    fn pthread_attr_setstack(attributes: *mut Attributes, low: *mut c_void, size: usize) -> i32;
    fn pthread_create(
        thread: *mut usize,
        attributes: *const Attributes,
        start: extern "C" fn(*mut c_void) -> *mut c_void,
        task: *mut c_void,
    ) -> i32;
    fn pthread_join(thread: usize, result: *mut *mut c_void) -> i32;
}

pub struct Stack(Vec<u128>);

struct Task<'a> {
    work: &'a mut dyn FnMut(),
    /// Where the stack stands when the work begins.
    top: usize,
}

impl Stack {
    pub fn new() -> Self {
        Stack(vec![PAINT; WORDS])
    }

    /// The bytes from where the work begins down to the lowest that it writes.
    pub fn taken(&mut self, work: &mut dyn FnMut()) -> usize {
        self.0.fill(PAINT);
        let low = self.0.as_mut_ptr();
        let mut task = Task { work, top: 0 };
        unsafe { run_on(low, &mut task) };
        let painted = (0..WORDS)
            .take_while(|&at| unsafe { read_volatile(low.add(at)) } == PAINT)
            .count();
        task.top - unsafe { low.add(painted) } as usize
    }
}

/// Runs the task in a thread on the words from `low` on.
unsafe fn run_on(low: *mut u128, task: &mut Task) {
    let mut attributes = Attributes([0; 64]);
    let mut thread = 0;
    let task: *mut Task = task;
    unsafe {
        assert_eq!(pthread_attr_init(&mut attributes), 0);
        let set = pthread_attr_setstack(&mut attributes, low.cast(), BYTES);
        assert_eq!(set, 0);
        let begun = pthread_create(&mut thread, &attributes, start, task.cast());
        assert_eq!(begun, 0);
        assert_eq!(pthread_join(thread, null_mut()), 0);
    }
}

extern "C" fn start(task: *mut c_void) -> *mut c_void {
    let task = unsafe { &mut *task.cast::<Task>() };
    let here = 0u128;
    task.top = black_box(&raw const here) as usize;
    (task.work)();
    null_mut()
}
