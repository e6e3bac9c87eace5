//! Requests of a program that runs under valgrind's callgrind; nothing where it runs by itself.
use std::ffi::CString;

const ZERO_COUNTS: usize = 1;
const DUMP_AT: usize = 3;

/// Counts one call, in a dump that says this of itself.
pub fn count(what: &str, side: &mut dyn FnMut()) {
    let what = CString::new(what).expect("a name without a zero");
    request(ZERO_COUNTS, 0);
    side();
    request(DUMP_AT, what.as_ptr() as usize);
}

fn request(number: usize, argument: usize) {
    let words = [(usize::from(b'C') << 24) + (usize::from(b'T') << 16) + number, argument, 0, 0, 0, 0];
    // SAFETY: valgrind's mark: the rotations leave rdi as it was, and outside valgrind nothing reads the words.
    unsafe {
        std::arch::asm!("rol rdi, 3", "rol rdi, 13", "rol rdi, 61", "rol rdi, 51", "xchg rbx, rbx",
            in("rax") words.as_ptr(), inout("rdx") 0usize => _);
    }
}
