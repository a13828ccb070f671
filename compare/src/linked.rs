//! The measured calls, linked directly: for the benchmark, whose library is built for this processor.
//! Units, answers and refusals are those of `include/chandvreksh.h`.

use crate::numbers::Answer;

extern "C" {
    fn chandvreksh_check(file: *const u8, file_len: usize, answer: *mut u64);
    fn chandvreksh_run(
        file: *const u8,
        file_len: usize,
        count: u32,
        area: *mut u8,
        area_len: usize,
        place: usize,
        answer: *mut u64,
    );
    fn chandvreksh_exact(
        file: *const u8,
        file_len: usize,
        area: *mut u8,
        area_len: usize,
        place: usize,
        answer: *mut u64,
    );
}

// SAFETY, for every call below: each pointer and length come from one slice that lives through the
// call; area and answer are borrowed mutably, so they overlap nothing; the answer has eight slots.

pub fn check(file: &[u8]) -> Answer {
    let mut answer = [0; 8];
    unsafe { chandvreksh_check(file.as_ptr(), file.len(), answer.as_mut_ptr()) };
    answer
}

pub fn run(file: &[u8], count: u32, area: &mut [u8], place: usize) -> Answer {
    let (mut answer, len) = ([0; 8], area.len());
    unsafe {
        let (start, out) = (area.as_mut_ptr(), answer.as_mut_ptr());
        chandvreksh_run(file.as_ptr(), file.len(), count, start, len, place, out)
    };
    answer
}

pub fn exact(file: &[u8], area: &mut [u8], place: usize) -> Answer {
    let (mut answer, len) = ([0; 8], area.len());
    unsafe {
        let (start, out) = (area.as_mut_ptr(), answer.as_mut_ptr());
        chandvreksh_exact(file.as_ptr(), file.len(), start, len, place, out)
    };
    answer
}
