//! What to say when the subject touches memory that was not lent to it.

use std::sync::atomic::{AtomicU64, Ordering};

unsafe extern "C" {
    fn signal(number: i32, handler: extern "C" fn(i32)) -> usize;
    fn write(file: i32, bytes: *const u8, length: usize) -> isize;
    fn _exit(status: i32) -> !;
}

const SIGNALS: [i32; 4] = [4, 7, 8, 11];
const MOST_THREADS: usize = 64;
const IDLE: u64 = u64::MAX;

static CURRENT: [AtomicU64; MOST_THREADS] = [const { AtomicU64::new(IDLE) }; MOST_THREADS];

/// That thread begins that case.
pub fn begins(thread: usize, index: u64) {
    CURRENT[thread % MOST_THREADS].store(index, Ordering::Relaxed);
}

/// From now on a fault names the cases at work and ends the program with status 3.
pub fn watch_for_faults() {
    for number in SIGNALS {
        // SAFETY: the handler makes only calls that a handler may make.
        unsafe {
            signal(number, faulted);
        }
    }
}

extern "C" fn faulted(_number: i32) {
    say(b"a fault (memory that was not lent, or an illegal instruction) in one of the cases");
    for current in &CURRENT {
        let index = current.load(Ordering::Relaxed);
        if index != IDLE {
            say(b" ");
            say_number(index);
        }
    }
    say(b"\n");
    // SAFETY: ends the program.
    unsafe { _exit(3) }
}

fn say(text: &[u8]) {
    // SAFETY: the pointer and length are those of the slice.
    unsafe {
        write(2, text.as_ptr(), text.len());
    }
}

fn say_number(mut number: u64) {
    let mut digits = [0; 20];
    let mut begin = digits.len();
    loop {
        begin -= 1;
        digits[begin] = b'0' + (number % 10) as u8;
        number /= 10;
        if number == 0 {
            return say(&digits[begin..]);
        }
    }
}
