//! The proved library's planner, reviewer, crane and board to watch behind safe functions.

use crate::model::Answer;

extern "C" {
    fn lumavoneig_plan(
        text: *const u8,
        text_len: usize,
        out: *mut u8,
        out_len: usize,
        answer: *mut u64,
        answer_len: usize,
    );
    fn lumavoneig_review(
        text: *const u8,
        text_len: usize,
        out: *mut u8,
        out_len: usize,
        answer: *mut u64,
        answer_len: usize,
    );
    fn lumavoneig_crane(
        text: *const u8,
        text_len: usize,
        out: *mut u8,
        out_len: usize,
        answer: *mut u64,
        answer_len: usize,
    );
    fn lumavoneig_watch(
        text: *const u8,
        text_len: usize,
        out: *mut u8,
        out_len: usize,
        answer: *mut u64,
        answer_len: usize,
    );
}

// Calls of an older library, for `bench` alone: docs/TESTING.md has how they are renamed.
#[cfg(before)]
extern "C" {
    fn lumavoneig_plan_before(
        text: *const u8,
        text_len: usize,
        out: *mut u8,
        out_len: usize,
        answer: *mut u64,
        answer_len: usize,
    );
    fn lumavoneig_review_before(
        text: *const u8,
        text_len: usize,
        out: *mut u8,
        out_len: usize,
        answer: *mut u64,
        answer_len: usize,
    );
}

type Function = unsafe extern "C" fn(*const u8, usize, *mut u8, usize, *mut u64, usize);

fn call(function: Function, text: &[u8], buffer: &mut [u8]) -> Answer {
    // A value that the library does not set shows up as this one.
    let mut answer = [u64::MAX; 3];
    // SAFETY: each pointer comes with the length of the slice it was taken from, the slices do
    // not overlap, and both written ones are borrowed mutably for the whole call.
    unsafe {
        function(
            text.as_ptr(),
            text.len(),
            buffer.as_mut_ptr(),
            buffer.len(),
            answer.as_mut_ptr(),
            answer.len(),
        );
    }
    let [number, place, length] = answer;
    Answer { number, place, length }
}

pub fn plan(text: &[u8], buffer: &mut [u8]) -> Answer {
    call(lumavoneig_plan, text, buffer)
}

#[cfg(before)]
pub fn plan_before(text: &[u8], buffer: &mut [u8]) -> Answer {
    call(lumavoneig_plan_before, text, buffer)
}

#[cfg(before)]
pub fn review_before(text: &[u8], buffer: &mut [u8]) -> Answer {
    call(lumavoneig_review_before, text, buffer)
}

pub fn review(text: &[u8], buffer: &mut [u8]) -> Answer {
    call(lumavoneig_review, text, buffer)
}

pub fn crane(text: &[u8], buffer: &mut [u8]) -> Answer {
    call(lumavoneig_crane, text, buffer)
}

pub fn watch(text: &[u8], buffer: &mut [u8]) -> Answer {
    call(lumavoneig_watch, text, buffer)
}
