// Safe wrappers, with the names and signatures of the plain implementation, over the proved code's archives.

use super::plain::{ReadAnswer, RunAnswer, Tally};

// A slice passes as a pointer and a length.
#[link(name = "skiffplank_c", kind = "static")]
extern "C" {
    fn skiffplank_read(
        offsets: *mut u16,
        offsets_len: usize,
        targets: *mut u16,
        targets_len: usize,
        flags: *mut u16,
        flags_len: usize,
        places: *mut u32,
        places_len: usize,
        text: *const u8,
        text_len: usize,
    ) -> ReadAnswer;

    fn skiffplank_run(
        room: *mut u16,
        room_len: usize,
        lasso: *mut u16,
        lasso_len: usize,
        tally: *mut Tally,
        turns: *const u8,
        turns_len: usize,
        offsets: *const u16,
        offsets_len: usize,
        targets: *const u16,
        targets_len: usize,
        flags: *const u16,
        flags_len: usize,
        workers: u64,
    ) -> RunAnswer;

    fn skiffplank_run_to_end(
        room: *mut u16,
        room_len: usize,
        lasso: *mut u16,
        lasso_len: usize,
        tally: *mut Tally,
        offsets: *const u16,
        offsets_len: usize,
        targets: *const u16,
        targets_len: usize,
        flags: *const u16,
        flags_len: usize,
        workers: u64,
    ) -> RunAnswer;
}

#[link(name = "graphs_c", kind = "static")]
extern "C" {
    fn graphs_c_is_graph(
        offsets: *const u16,
        offsets_len: usize,
        targets: *const u16,
        targets_len: usize,
        flags: *const u16,
        flags_len: usize,
    ) -> bool;
}

// Where a length is 0, the pointer may be NULL (include/skiffplank.h).
fn start<T>(list: &[T]) -> *const T {
    if list.is_empty() { std::ptr::null() } else { list.as_ptr() }
}

fn start_mut<T>(list: &mut [T]) -> *mut T {
    if list.is_empty() { std::ptr::null_mut() } else { list.as_mut_ptr() }
}

pub fn is_graph(offsets: &[u16], targets: &[u16], flags: &[u16]) -> bool {
    unsafe { graphs_c_is_graph(start(offsets), offsets.len(), start(targets), targets.len(), start(flags), flags.len()) }
}

pub fn read(offsets: &mut [u16], targets: &mut [u16], flags: &mut [u16], places: &mut [u32], text: &[u8]) -> ReadAnswer {
    unsafe {
        skiffplank_read(
            start_mut(offsets),
            offsets.len(),
            start_mut(targets),
            targets.len(),
            start_mut(flags),
            flags.len(),
            start_mut(places),
            places.len(),
            start(text),
            text.len(),
        )
    }
}

pub fn run(
    room: &mut [u16],
    lasso: &mut [u16],
    tally: &mut Tally,
    turns: &[u8],
    offsets: &[u16],
    targets: &[u16],
    flags: &[u16],
    workers: u64,
) -> RunAnswer {
    unsafe {
        skiffplank_run(
            start_mut(room),
            room.len(),
            start_mut(lasso),
            lasso.len(),
            tally,
            start(turns),
            turns.len(),
            start(offsets),
            offsets.len(),
            start(targets),
            targets.len(),
            start(flags),
            flags.len(),
            workers,
        )
    }
}

pub fn run_to_end(
    room: &mut [u16],
    lasso: &mut [u16],
    tally: &mut Tally,
    offsets: &[u16],
    targets: &[u16],
    flags: &[u16],
    workers: u64,
) -> RunAnswer {
    unsafe {
        skiffplank_run_to_end(
            start_mut(room),
            room.len(),
            start_mut(lasso),
            lasso.len(),
            tally,
            start(offsets),
            offsets.len(),
            start(targets),
            targets.len(),
            start(flags),
            flags.len(),
            workers,
        )
    }
}
