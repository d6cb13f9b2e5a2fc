// Names the running cases when the library crashes or does not come back.
// The C library's own functions are declared here; there are no crates.

use std::cell::Cell;
use std::sync::atomic::{AtomicU64, Ordering};

/// The most threads of a run.
pub const THREADS: usize = 64;
pub const NONE: u64 = u64::MAX;

/// The case that each thread is at.
pub static CURRENT: [AtomicU64; THREADS] = [const { AtomicU64::new(NONE) }; THREADS];

#[cfg(all(target_os = "linux", target_env = "gnu", target_pointer_width = "64"))]
mod signals {
    use super::{AtomicU64, Ordering, CURRENT, NONE};

    static SEED: AtomicU64 = AtomicU64::new(0);

    #[repr(C)]
    struct Action {
        handler: usize,
        mask: [u64; 16],
        flags: i32,
        restorer: usize,
    }

    extern "C" {
        fn sigaction(signal: i32, action: *const Action, old: *mut Action) -> i32;
        fn write(file: i32, bytes: *const u8, count: usize) -> isize;
        fn _exit(code: i32) -> !;
    }

    fn say(text: &[u8]) {
        // SAFETY: the slice is as long as stated.
        unsafe { write(2, text.as_ptr(), text.len()) };
    }

    fn say_number(mut number: u64) {
        let mut digits = [0u8; 20];
        let mut at = digits.len();
        loop {
            at -= 1;
            digits[at] = b'0' + (number % 10) as u8;
            number /= 10;
            if number == 0 {
                break;
            }
        }
        say(&digits[at..]);
    }

    extern "C" fn handler(signal: i32) {
        say(b"compare: signal ");
        say_number(signal as u64);
        say(b"; cases running:");
        for current in &CURRENT {
            let number = current.load(Ordering::Relaxed);
            if number != NONE {
                say(b" ");
                say_number(number);
            }
        }
        say(b"; run one alone with: compare 1 ");
        say_number(SEED.load(Ordering::Relaxed));
        say(b" --only NUMBER\n");
        // SAFETY: ends the process at once.
        unsafe { _exit(1) }
    }

    pub fn install(seed: u64) {
        SEED.store(seed, Ordering::Relaxed);
        const ON_ALTERNATE_STACK: i32 = 0x0800_0000;
        let handler = handler as extern "C" fn(i32) as usize;
        let action = Action { handler, mask: [0; 16], flags: ON_ALTERNATE_STACK, restorer: 0 };
        // Illegal instruction, abort, bus error, arithmetic fault, segment.
        for signal in [4, 6, 7, 8, 11] {
            // SAFETY: the record has the layout of this target's C library.
            unsafe { sigaction(signal, &action, std::ptr::null_mut()) };
        }
    }
}

#[cfg(not(all(target_os = "linux", target_env = "gnu", target_pointer_width = "64")))]
mod signals {
    pub fn install(_: u64) {}
}

pub use signals::install;

thread_local! {
    static MINE: Cell<u64> = const { Cell::new(NONE) };
}

/// The calling thread is at that case.
pub fn at(thread: usize, case: u64) {
    CURRENT[thread].store(case, Ordering::Relaxed);
    MINE.set(case);
}

/// The calling thread's case.
pub fn mine() -> Option<u64> {
    Some(MINE.get()).filter(|&case| case != NONE)
}
