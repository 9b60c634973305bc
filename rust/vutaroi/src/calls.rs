//! The calls of the library, each behind a safe function. This file has the only `unsafe` code of
//! the crate. What makes it sound: a slice crosses as its pointer and its length, no two overlap, and
//! the library is proved for all lists: one that is no machine is refused.

use crate::{Fed, Mark, Refusal, Stroke};

/// The numbers of a machine: `VUTAROI_NUMBERS` of `include/vutaroi.h`.
pub const NUMBERS: usize = 650;

/// The numbers of a stroke or a mark.
const RECORD_NUMBERS: usize = 5;

const _: () = assert!(size_of::<Stroke>() == RECORD_NUMBERS * size_of::<i64>());
const _: () = assert!(size_of::<Mark>() == RECORD_NUMBERS * size_of::<i64>());

extern "C" {
    fn vutaroi_version() -> u32;
    fn vutaroi_fresh(
        left: i64,
        bottom: i64,
        right: i64,
        top: i64,
        state: *mut i64,
        state_len: usize,
    ) -> u8;
    fn vutaroi_take(state: *mut i64, state_len: usize, byte: u8) -> u8;
    fn vutaroi_draw(state: *mut i64, state_len: usize, stroke: *mut i64, stroke_len: usize) -> u8;
    fn vutaroi_look(state: *const i64, state_len: usize, seen: *mut i64, seen_len: usize) -> u8;
    fn vutaroi_fetch(
        state: *mut i64,
        state_len: usize,
        out: *mut u8,
        out_len: usize,
        answer: *mut u64,
        answer_len: usize,
    ) -> u8;
    fn vutaroi_feed(
        state: *mut i64,
        state_len: usize,
        bytes: *const u8,
        bytes_len: usize,
        records: *mut i64,
        records_len: usize,
        answer: *mut u64,
        answer_len: usize,
    ) -> u8;
    fn vutaroi_plot(
        state: *mut i64,
        state_len: usize,
        bytes: *const u8,
        bytes_len: usize,
        records: *mut i64,
        records_len: usize,
        answer: *mut u64,
        answer_len: usize,
    ) -> u8;
    fn vutaroi_write(
        numbers: *const i64,
        numbers_len: usize,
        out: *mut u8,
        out_len: usize,
        answer: *mut u64,
        answer_len: usize,
    ) -> u8;
}

type State = [i64; NUMBERS];

/// A number that says that something was refused.
fn answered(number: u8) -> Result<(), Refusal> {
    Refusal::of(number).map_or(Ok(()), Err)
}

/// What a call stopped with, unless the library found no machine. (No list of these calls is too short,
/// which is 41.)
fn stopped(number: u8) -> Result<Option<Refusal>, Refusal> {
    match Refusal::of(number) {
        Some(refusal) if refusal >= Refusal::NO_MACHINE => Err(refusal),
        stopped => Ok(stopped),
    }
}

pub fn version() -> u32 {
    // SAFETY: the call takes nothing.
    unsafe { vutaroi_version() }
}

pub fn fresh(
    left: i64,
    bottom: i64,
    right: i64,
    top: i64,
    state: &mut State,
) -> Result<(), Refusal> {
    // SAFETY: the count is the list's.
    answered(unsafe { vutaroi_fresh(left, bottom, right, top, state.as_mut_ptr(), NUMBERS) })
}

pub fn take(state: &mut State, byte: u8) -> Result<(), Refusal> {
    // SAFETY: the count is the list's.
    answered(unsafe { vutaroi_take(state.as_mut_ptr(), NUMBERS, byte) })
}

/// 0, 1 or 2: idle, hidden, or the stroke.
pub fn draw(state: &mut State, stroke: &mut Stroke) -> Result<u8, Refusal> {
    let numbers: *mut Stroke = stroke;
    // SAFETY: the counts are the lists', and a stroke is five numbers.
    let drawn =
        unsafe { vutaroi_draw(state.as_mut_ptr(), NUMBERS, numbers.cast(), RECORD_NUMBERS) };
    stopped(drawn).map(|_| drawn)
}

pub fn look(state: &State) -> Result<[i64; 5], Refusal> {
    let mut seen = [0; 5];
    // SAFETY: the counts are the lists'; the call only reads the state.
    answered(unsafe { vutaroi_look(state.as_ptr(), NUMBERS, seen.as_mut_ptr(), seen.len()) })?;
    Ok(seen)
}

pub fn fetch(state: &mut State, out: &mut [u8]) -> Result<usize, Refusal> {
    let mut answer = [0u64; 1];
    // SAFETY: the counts are the lists'.
    let number = unsafe {
        vutaroi_fetch(
            state.as_mut_ptr(),
            NUMBERS,
            out.as_mut_ptr(),
            out.len(),
            answer.as_mut_ptr(),
            answer.len(),
        )
    };
    answered(number).map(|()| answer[0] as usize)
}

pub fn feed(state: &mut State, bytes: &[u8], strokes: &mut [Stroke]) -> Result<Fed, Refusal> {
    let mut answer = [0u64; 2];
    // SAFETY: the counts are the lists'; a stroke is five numbers, and any will do.
    let number = unsafe {
        vutaroi_feed(
            state.as_mut_ptr(),
            NUMBERS,
            bytes.as_ptr(),
            bytes.len(),
            strokes.as_mut_ptr().cast(),
            strokes.len() * RECORD_NUMBERS,
            answer.as_mut_ptr(),
            answer.len(),
        )
    };
    fed(answer, number)
}

pub fn plot(state: &mut State, bytes: &[u8], marks: &mut [Mark]) -> Result<Fed, Refusal> {
    let mut answer = [0u64; 2];
    // SAFETY: the counts are the lists'; a mark is five numbers, and any will do.
    let number = unsafe {
        vutaroi_plot(
            state.as_mut_ptr(),
            NUMBERS,
            bytes.as_ptr(),
            bytes.len(),
            marks.as_mut_ptr().cast(),
            marks.len() * RECORD_NUMBERS,
            answer.as_mut_ptr(),
            answer.len(),
        )
    };
    fed(answer, number)
}

/// The bytes written.
pub fn write(strokes: &[Stroke], out: &mut [u8]) -> Result<usize, Refusal> {
    let mut answer = [0u64; 1];
    // SAFETY: the counts are the lists'; a stroke is five numbers, and any will do.
    let number = unsafe {
        vutaroi_write(
            strokes.as_ptr().cast(),
            strokes.len() * RECORD_NUMBERS,
            out.as_mut_ptr(),
            out.len(),
            answer.as_mut_ptr(),
            answer.len(),
        )
    };
    answered(number).map(|()| answer[0] as usize)
}

fn fed([taken, stored]: [u64; 2], number: u8) -> Result<Fed, Refusal> {
    Ok(Fed { taken: taken as usize, stored: stored as usize, stopped: stopped(number)? })
}
