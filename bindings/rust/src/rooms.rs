//! The call.

use std::{io, panic, thread};

use crate::{Answer, Kind, Layout, Limits, Line};

// the least lengths of the working rooms, as in include/muharegoden.h
const ROWS: usize = 32_768;
const NAMES: usize = 4_096;
const CELLS: usize = 256;
const ROOM: usize = 65_536;
const LINE: usize = 12;
// the stack that a call may take, MUHAREGODEN_STACK there, and some for its thread
const STACK: usize = 4_194_304 + 65_536;

unsafe extern "C" {
    // an exported slice is a pointer and a count of elements
    fn muharegoden_expand(
        cards: u32,
        deck: *const u8,
        deck_size: usize,
        text: *mut u8,
        text_size: usize,
        list: *mut u8,
        list_size: usize,
        rows: *mut u16,
        rows_size: usize,
        names: *mut u16,
        names_size: usize,
        cells: *mut u32,
        cells_size: usize,
        low: *mut u8,
        low_size: usize,
        high: *mut u8,
        high_size: usize,
        work: *mut u8,
        work_size: usize,
        joined: *mut u8,
        joined_size: usize,
        steps: u32,
        numbers: *mut u32,
        numbers_size: usize,
    );
}

/// Expands a deck. Any bytes are a deck; what is wrong with them is a number of the answer. The call has a thread of its
/// own, since the caller's may have too little stack (docs/CALLING.md).
///
/// # Errors
///
/// The system gives no thread.
pub fn expand(deck: &[u8], layout: Layout, limits: Limits) -> io::Result<Answer> {
    thread::scope(|scope| {
        let call = || expand_here(deck, layout, limits);
        let thread = thread::Builder::new()
            .stack_size(STACK)
            .spawn_scoped(scope, call)?;
        Ok(thread
            .join()
            .unwrap_or_else(|reason| panic::resume_unwind(reason)))
    })
}

fn expand_here(deck: &[u8], layout: Layout, limits: Limits) -> Answer {
    let mut text = vec![0u8; limits.text_bytes];
    let mut list = vec![0u8; limits.lines * LINE];
    let (mut rows, mut names, mut cells) = (vec![0u16; ROWS], vec![0u16; NAMES], vec![0u32; CELLS]);
    let (mut low, mut high) = (vec![0u8; ROOM], vec![0u8; ROOM]);
    let (mut work, mut joined) = (vec![0u8; ROOM], vec![0u8; ROOM]);
    let mut numbers = [0u32; 6];
    // SAFETY: each pointer comes with the length of its own vector, and no two of them overlap
    unsafe {
        muharegoden_expand(
            u32::from(layout == Layout::Cards),
            deck.as_ptr(),
            deck.len(),
            text.as_mut_ptr(),
            text.len(),
            list.as_mut_ptr(),
            list.len(),
            rows.as_mut_ptr(),
            rows.len(),
            names.as_mut_ptr(),
            names.len(),
            cells.as_mut_ptr(),
            cells.len(),
            low.as_mut_ptr(),
            low.len(),
            high.as_mut_ptr(),
            high.len(),
            work.as_mut_ptr(),
            work.len(),
            joined.as_mut_ptr(),
            joined.len(),
            limits.steps,
            numbers.as_mut_ptr(),
            numbers.len(),
        );
    }
    let [number, member, offset, steps, size, lines] = numbers;
    text.truncate(size as usize);
    list.truncate(lines as usize * LINE);
    Answer {
        number,
        member,
        offset,
        steps,
        text,
        lines: list.chunks_exact(LINE).map(line).collect(),
    }
}

fn line(bytes: &[u8]) -> Line {
    let kind = match bytes[0] {
        1 => Kind::Blank,
        2 => Kind::Copied,
        _ => Kind::Replaced,
    };
    Line {
        kind,
        member: bytes[1],
        offset: number(&bytes[4..8]),
        length: number(&bytes[8..12]),
    }
}

fn number(bytes: &[u8]) -> u32 {
    bytes
        .iter()
        .rev()
        .fold(0, |so_far, byte| so_far << 8 | u32::from(*byte))
}
