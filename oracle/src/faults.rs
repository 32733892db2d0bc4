//! Says which seed was compared when a fault ends the program.

use std::cell::Cell;
use std::ffi::{c_int, c_void};

unsafe extern "C" {
    fn signal(number: c_int, handler: extern "C" fn(c_int)) -> usize;
    fn write(file: c_int, bytes: *const c_void, len: usize) -> isize;
    fn _exit(status: c_int) -> !;
}

/// A bus error and a segmentation fault.
const FAULTS: [c_int; 2] = [7, 11];

thread_local! {
    static SEED: Cell<u64> = const { Cell::new(0) };
}

/// The seed that this thread compares from now on.
pub fn at_seed(seed: u64) {
    SEED.set(seed);
}

/// From now on a fault of any thread prints its seed and ends the program with status 1.
pub fn report_seeds() {
    for fault in FAULTS {
        // SAFETY: the handler calls nothing that a handler must not call.
        unsafe { signal(fault, report_seed) };
    }
}

/// The digits of a number, at the end of the room.
fn digits(mut number: u64, room: &mut [u8; 20]) -> &[u8] {
    let mut at = room.len();
    loop {
        at -= 1;
        room[at] = b'0' + (number % 10) as u8;
        number /= 10;
        if number == 0 {
            return &room[at..];
        }
    }
}

/// Neither allocates nor locks, since a fault may come at any time.
extern "C" fn report_seed(_: c_int) {
    let mut room = [0; 20];
    let parts = [
        b"a read or a write outside of what was lent, seed ".as_slice(),
        digits(SEED.get(), &mut room),
        b"\n",
    ];
    for part in parts {
        // SAFETY: the bytes are there for the call.
        unsafe { write(1, part.as_ptr().cast(), part.len()) };
    }
    // SAFETY: ends the program at once.
    unsafe { _exit(1) }
}

#[cfg(test)]
mod tests {
    use super::*;

    #[test]
    fn digits_are_those_of_a_number() {
        for number in [0, 7, 10, 20_000_001, u64::MAX] {
            assert_eq!(digits(number, &mut [0; 20]), number.to_string().as_bytes());
        }
    }
}
