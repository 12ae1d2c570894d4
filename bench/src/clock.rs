//! Processor time of this thread, and what the allocator keeps.

#[repr(C)]
struct Timespec {
    seconds: i64,
    nanoseconds: i64,
}

unsafe extern "C" {
    fn clock_gettime(clock: i32, time: *mut Timespec) -> i32;
    fn mallopt(option: i32, value: i32) -> i32;
    pub fn malloc_trim(pad: usize) -> i32;
}

const CLOCK_THREAD_CPUTIME_ID: i32 = 3;
const M_TRIM_THRESHOLD: i32 = -1;
const M_TOP_PAD: i32 = -2;
const M_MMAP_MAX: i32 = -4;

pub fn thread_nanoseconds() -> u64 {
    let mut t = Timespec {
        seconds: 0,
        nanoseconds: 0,
    };
    // SAFETY: t is a place for one time.
    let failed = unsafe { clock_gettime(CLOCK_THREAD_CPUTIME_ID, &mut t) };
    assert_eq!(failed, 0);
    t.seconds as u64 * 1_000_000_000 + t.nanoseconds as u64
}

/// Freed memory stays in the process, so that the original's vectors cost no page faults after the first round, as the
/// proved scan's rooms cost none.
pub fn keep_memory() {
    // SAFETY: sets options of the allocator only.
    unsafe {
        mallopt(M_MMAP_MAX, 0);
        mallopt(M_TRIM_THRESHOLD, i32::MAX);
        mallopt(M_TOP_PAD, 1 << 20);
    }
}

/// Runs it once and keeps the lesser time. What it gives is dropped after the clock is read.
pub fn least<T>(time: &mut u64, run: impl FnOnce() -> T) {
    let begin = thread_nanoseconds();
    let answer = std::hint::black_box(run());
    let end = thread_nanoseconds();
    drop(answer);
    *time = (*time).min(end - begin);
}
