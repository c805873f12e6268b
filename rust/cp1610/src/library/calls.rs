//! The C interface as it is (`include/cp1610.h`), with slices in place of pointers and lengths. All `unsafe` code of the wrapper
//! stands here. A program wants [`Machine`](crate::Machine) and the functions beside it; these are for one that has its own
//! state of words, or that tests the interface.
#![allow(unsafe_code)]

/// The refusal of a `state`, `out` or `words` that is too short: the C interface's own number, none of document 01's.
pub const SHORT_BUFFER: u64 = 255;

/// The refusal of a `map` that is none: its length is no multiple of 3, or it has a kind above 2 in one of its first 16 ranges.
pub const NO_MAP: u64 = SHORT_BUFFER;

unsafe extern "C" {
    fn cp1610_reset(state: *mut u16, state_length: usize) -> u64;
    fn cp1610_step(
        state: *mut u16,
        state_length: usize,
        mem: *mut u16,
        mem_length: usize,
        map: *const u16,
        map_length: usize,
        lines: u32,
    ) -> u64;
    fn cp1610_run(
        state: *mut u16,
        state_length: usize,
        mem: *mut u16,
        mem_length: usize,
        map: *const u16,
        map_length: usize,
        lines: u32,
        budget: u32,
        out: *mut u32,
        out_length: usize,
    ) -> u64;
    fn cp1610_wait(
        mem: *const u16,
        mem_length: usize,
        map: *const u16,
        map_length: usize,
        address: u16,
        limit: u16,
    ) -> u64;
    fn cp1610_region(
        mem: *const u16,
        mem_length: usize,
        map: *const u16,
        map_length: usize,
        first: u16,
        last: u16,
        limit: u16,
        out: *mut u32,
        out_length: usize,
    ) -> u64;
    fn cp1610_list(
        mem: *const u16,
        mem_length: usize,
        map: *const u16,
        map_length: usize,
        address: u16,
        d: u8,
        text: *mut u8,
        text_length: usize,
        out: *mut u32,
        out_length: usize,
    ) -> u64;
    fn cp1610_assemble(line: *const u8, line_length: usize, d: u8, words: *mut u16, words_length: usize) -> u64;
    fn cp1610_load(board: u16, mem: *mut u16, mem_length: usize, file: *const u8, file_length: usize) -> u64;
    fn cp1610_write(
        board: u16,
        mem: *const u16,
        mem_length: usize,
        first: u16,
        last: u16,
        room: *mut u8,
        room_length: usize,
    ) -> u64;
    fn cp1610_load_pair(
        mem: *mut u16,
        mem_length: usize,
        bin: *const u8,
        bin_length: usize,
        cfg: *const u8,
        cfg_length: usize,
    ) -> u64;
    fn cp1610_write_pair(
        mem: *const u16,
        mem_length: usize,
        first: u16,
        last: u16,
        bin: *mut u8,
        bin_length: usize,
        cfg: *mut u8,
        cfg_length: usize,
        out: *mut u32,
        out_length: usize,
    ) -> u64;
    fn cp1610_reach(
        mem: *const u16,
        mem_length: usize,
        map: *const u16,
        map_length: usize,
        entries: *const u16,
        entries_length: usize,
        clear: *mut u64,
        clear_length: usize,
        set: *mut u64,
        set_length: usize,
        out: *mut u32,
        out_length: usize,
    ) -> u64;
    fn cp1610_region_reached(
        mem: *const u16,
        mem_length: usize,
        map: *const u16,
        map_length: usize,
        first: u16,
        last: u16,
        limit: u16,
        clear: *const u64,
        clear_length: usize,
        set: *const u64,
        set_length: usize,
        out: *mut u32,
        out_length: usize,
    ) -> u64;
}

// SAFETY, for every call below: the library's functions are total as long as each pointer is valid for its length and no buffer
// that is written overlaps another. A slice's pointer is valid for its length, and a `&mut` overlaps nothing.

/// `cp1610_reset`.
#[inline]
pub fn reset(state: &mut [u16]) -> u64 {
    // SAFETY: as above.
    unsafe { cp1610_reset(state.as_mut_ptr(), state.len()) }
}

/// `cp1610_step`.
#[inline]
pub fn step(state: &mut [u16], memory: &mut [u16], map: &[u16], lines: u32) -> u64 {
    // SAFETY: as above.
    unsafe {
        cp1610_step(state.as_mut_ptr(), state.len(), memory.as_mut_ptr(), memory.len(), map.as_ptr(), map.len(), lines)
    }
}

/// `cp1610_run`.
#[inline]
pub fn run(state: &mut [u16], memory: &mut [u16], map: &[u16], lines: u32, budget: u32, out: &mut [u32]) -> u64 {
    // SAFETY: as above.
    unsafe {
        cp1610_run(
            state.as_mut_ptr(),
            state.len(),
            memory.as_mut_ptr(),
            memory.len(),
            map.as_ptr(),
            map.len(),
            lines,
            budget,
            out.as_mut_ptr(),
            out.len(),
        )
    }
}

/// `cp1610_wait`.
#[inline]
pub fn wait(memory: &[u16], map: &[u16], address: u16, limit: u16) -> u64 {
    // SAFETY: as above.
    unsafe { cp1610_wait(memory.as_ptr(), memory.len(), map.as_ptr(), map.len(), address, limit) }
}

/// `cp1610_region`.
#[inline]
pub fn region(memory: &[u16], map: &[u16], first: u16, last: u16, limit: u16, out: &mut [u32]) -> u64 {
    // SAFETY: as above.
    unsafe {
        cp1610_region(
            memory.as_ptr(),
            memory.len(),
            map.as_ptr(),
            map.len(),
            first,
            last,
            limit,
            out.as_mut_ptr(),
            out.len(),
        )
    }
}

/// `cp1610_list`.
#[inline]
pub fn list(memory: &[u16], map: &[u16], address: u16, d: u8, text: &mut [u8], out: &mut [u32]) -> u64 {
    // SAFETY: as above.
    unsafe {
        cp1610_list(
            memory.as_ptr(),
            memory.len(),
            map.as_ptr(),
            map.len(),
            address,
            d,
            text.as_mut_ptr(),
            text.len(),
            out.as_mut_ptr(),
            out.len(),
        )
    }
}

/// `cp1610_assemble`.
#[inline]
pub fn assemble(line: &[u8], d: u8, words: &mut [u16]) -> u64 {
    // SAFETY: as above.
    unsafe { cp1610_assemble(line.as_ptr(), line.len(), d, words.as_mut_ptr(), words.len()) }
}

/// `cp1610_load`.
#[inline]
pub fn load(board: u16, memory: &mut [u16], file: &[u8]) -> u64 {
    // SAFETY: as above.
    unsafe { cp1610_load(board, memory.as_mut_ptr(), memory.len(), file.as_ptr(), file.len()) }
}

/// `cp1610_write`.
#[inline]
pub fn write(board: u16, memory: &[u16], first: u16, last: u16, room: &mut [u8]) -> u64 {
    // SAFETY: as above.
    unsafe { cp1610_write(board, memory.as_ptr(), memory.len(), first, last, room.as_mut_ptr(), room.len()) }
}

/// `cp1610_load_pair`.
#[inline]
pub fn load_pair(memory: &mut [u16], bin: &[u8], cfg: &[u8]) -> u64 {
    // SAFETY: as above.
    unsafe { cp1610_load_pair(memory.as_mut_ptr(), memory.len(), bin.as_ptr(), bin.len(), cfg.as_ptr(), cfg.len()) }
}

/// `cp1610_write_pair`.
#[inline]
pub fn write_pair(memory: &[u16], first: u16, last: u16, bin: &mut [u8], cfg: &mut [u8], out: &mut [u32]) -> u64 {
    // SAFETY: as above.
    unsafe {
        cp1610_write_pair(
            memory.as_ptr(),
            memory.len(),
            first,
            last,
            bin.as_mut_ptr(),
            bin.len(),
            cfg.as_mut_ptr(),
            cfg.len(),
            out.as_mut_ptr(),
            out.len(),
        )
    }
}

/// `cp1610_reach`.
#[inline]
pub fn reach(memory: &[u16], map: &[u16], entries: &[u16], clear: &mut [u64], set: &mut [u64], out: &mut [u32]) -> u64 {
    // SAFETY: as above.
    unsafe {
        cp1610_reach(
            memory.as_ptr(),
            memory.len(),
            map.as_ptr(),
            map.len(),
            entries.as_ptr(),
            entries.len(),
            clear.as_mut_ptr(),
            clear.len(),
            set.as_mut_ptr(),
            set.len(),
            out.as_mut_ptr(),
            out.len(),
        )
    }
}

/// `cp1610_region_reached`.
#[inline]
#[expect(clippy::too_many_arguments, reason = "they are the C function's")]
pub fn region_reached(
    memory: &[u16],
    map: &[u16],
    first: u16,
    last: u16,
    limit: u16,
    clear: &[u64],
    set: &[u64],
    out: &mut [u32],
) -> u64 {
    // SAFETY: as above.
    unsafe {
        cp1610_region_reached(
            memory.as_ptr(),
            memory.len(),
            map.as_ptr(),
            map.len(),
            first,
            last,
            limit,
            clear.as_ptr(),
            clear.len(),
            set.as_ptr(),
            set.len(),
            out.as_mut_ptr(),
            out.len(),
        )
    }
}
