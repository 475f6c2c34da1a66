//! Says which seed was being compared when the program is stopped by a read
//! or write outside what was lent, or by a panic.

use std::sync::atomic::{AtomicU64, Ordering};
use std::sync::Mutex;

extern "C" {
    fn signal(number: i32, handler: extern "C" fn(i32)) -> usize;
    fn _exit(code: i32) -> !;
}

// Linux.
const BUS_ERROR: i32 = 7;
const SEGMENTATION_FAULT: i32 = 11;

static PART: Mutex<&str> = Mutex::new("");
static SEED: AtomicU64 = AtomicU64::new(0);

pub fn watch() {
    unsafe {
        signal(SEGMENTATION_FAULT, outside);
        signal(BUS_ERROR, outside);
    }
    let usual = std::panic::take_hook();
    std::panic::set_hook(Box::new(move |panic| {
        usual(panic);
        tell("stopped");
    }));
}

pub fn at(part: &'static str, seed: u64) {
    *PART.lock().expect("one thread") = part;
    SEED.store(seed, Ordering::Relaxed);
}

fn tell(what: &str) {
    let part = PART.try_lock().map_or("?", |part| *part);
    eprintln!("{what}; again: tests/compare/run case {part} {}", SEED.load(Ordering::Relaxed));
}

extern "C" fn outside(_: i32) {
    tell("a read or write outside what was lent");
    unsafe { _exit(1) }
}
