//! Requests of valgrind, if it runs this process; otherwise nothing happens.
//! Their numbers and the instructions that carry them are those of valgrind.h
//! and memcheck.h for x86-64.

use std::arch::asm;

const RUNNING: usize = 0x1001;
const COUNT_ERRORS: usize = 0x1201;
const MAKE_NO_ACCESS: usize = 0x4D43_0000;
const MAKE_DEFINED: usize = 0x4D43_0002;

/// Valgrind's answer to a request; 0 without valgrind.
fn request(number: usize, first: usize, second: usize) -> usize {
    let asked = [number, first, second, 0, 0, 0];
    let answer;
    // The four rotations together leave rdi as it was.
    unsafe {
        asm!(
            "rol rdi, 3",
            "rol rdi, 13",
            "rol rdi, 61",
            "rol rdi, 51",
            "xchg rbx, rbx",
            in("rax") &asked,
            inout("rdx") 0usize => answer,
        );
    }
    answer
}

/// Whether valgrind runs this process.
pub fn runs() -> bool {
    request(RUNNING, 0, 0) > 0
}

/// Errors that valgrind has seen so far.
pub fn errors() -> usize {
    request(COUNT_ERRORS, 0, 0)
}

/// A read or write of these cells is an error until they are opened.
pub fn close<T>(cells: &[T]) {
    request(MAKE_NO_ACCESS, cells.as_ptr() as usize, size_of_val(cells));
}

pub fn open<T>(cells: &[T]) {
    request(MAKE_DEFINED, cells.as_ptr() as usize, size_of_val(cells));
}
