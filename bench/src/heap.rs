//! The heap keeps what is freed, so that plain Rust pays for no page twice: without this, its large lists cost up to twice the time.

extern "C" {
    fn mallopt(parameter: i32, value: i32) -> i32;
}

const TRIM_THRESHOLD: i32 = -1;
const MMAP_THRESHOLD: i32 = -3;

pub fn keep() {
    // glibc's own settings, made before anything is timed.
    let done = unsafe { mallopt(TRIM_THRESHOLD, i32::MAX) * mallopt(MMAP_THRESHOLD, 1 << 25) };
    assert_eq!(done, 1);
}
