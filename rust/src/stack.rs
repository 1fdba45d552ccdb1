//! How much stack a call takes: it is made on a thread whose stack is lent and painted before. And how much each call of the library takes.

#[cfg(archive)]
mod inputs;

use core::ffi::c_void;

#[cfg(archive)]
pub use inputs::{Taken, all_calls};

/// What a call took of its thread's stack.
#[derive(Clone, Copy, Debug, Default, PartialEq, Eq)]
pub struct Stack {
    /// Bytes from where the call was made down to the lowest one written.
    pub bytes: usize,
    /// How many of them, in words of 8 bytes, were written. A list that is never filled counts above and not here.
    pub words: usize,
}

impl Stack {
    /// The greater of each figure.
    pub fn or(self, other: Self) -> Self {
        Self { bytes: self.bytes.max(other.bytes), words: self.words.max(other.words) }
    }
}

const SIZE: usize = 256 * 1024;
const PAINT: u64 = 0x5afe_c0de_5afe_c0de;

/// Room for a `pthread_attr_t`: 56 bytes on x86-64 Linux, 64 on Arm.
#[repr(C)]
struct Attributes([u64; 8]);

unsafe extern "C" {
    fn pthread_attr_init(attributes: *mut Attributes) -> i32;
    fn pthread_attr_setstack(attributes: *mut Attributes, lowest: *mut c_void, size: usize) -> i32;
    fn pthread_create(
        thread: *mut usize,
        attributes: *const Attributes,
        entry: extern "C" fn(*mut c_void) -> *mut c_void,
        lent: *mut c_void,
    ) -> i32;
    fn pthread_join(thread: usize, answer: *mut *mut c_void) -> i32;
}

/// The work, its answer, and where it was called.
struct Job<F, T> {
    work: Option<F>,
    answer: Option<T>,
    called_at: usize,
}

extern "C" fn entry<F: FnOnce() -> T, T>(lent: *mut c_void) -> *mut c_void {
    // SAFETY: `on_painted_stack` lends a job of this type, and waits for this thread before it looks at it.
    let job = unsafe { &mut *lent.cast::<Job<F, T>>() };
    let here = 0u64;
    job.called_at = core::hint::black_box(&here) as *const u64 as usize;
    job.answer = job.work.take().map(|work| work());
    core::ptr::null_mut()
}

/// Does the work on such a thread, and answers what it took of the stack. The work must not panic.
pub fn on_painted_stack<F: FnOnce() -> T + Send, T: Send>(work: F) -> (Stack, T) {
    let mut stack = vec![[PAINT; 2]; SIZE / 16];
    let lowest = stack.as_mut_ptr();
    let mut job = Job { work: Some(work), answer: None, called_at: 0 };
    let (mut attributes, mut thread) = (Attributes([0; 8]), 0);
    // SAFETY: the stack is lent to the thread alone until it was waited for, and so is the job; both outlive it.
    unsafe {
        assert_eq!(pthread_attr_init(&mut attributes), 0);
        assert_eq!(pthread_attr_setstack(&mut attributes, lowest.cast(), SIZE), 0);
        assert_eq!(pthread_create(&mut thread, &attributes, entry::<F, T>, (&raw mut job).cast()), 0);
        assert_eq!(pthread_join(thread, core::ptr::null_mut()), 0);
    }
    let below = (job.called_at - lowest as usize) / 8;
    let words = &stack.as_flattened()[..below];
    let first = words.iter().position(|&word| word != PAINT).unwrap_or(below);
    let written = words.iter().filter(|&&word| word != PAINT).count();
    (Stack { bytes: 8 * (below - first), words: written }, job.answer.expect("the work was done"))
}
