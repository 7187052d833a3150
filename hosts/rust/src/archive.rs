//! The one call into libjirrambeo.a. Nothing compares the declaration with the archive: it is that of hosts/c/jirrambeo.h.
use std::ffi::c_void;
use std::ptr;
use std::slice;

unsafe extern "C" {
    fn jirrambeo_run(
        line: *const u8,
        line_length: usize,
        input: *const u8,
        input_length: usize,
        room: *mut u8,
        room_size: usize,
        text_length: *mut usize,
    ) -> u8;
    fn mmap(
        near: *mut c_void,
        size: usize,
        access: i32,
        flags: i32,
        file: i32,
        offset: i64,
    ) -> *mut c_void;
    fn munmap(at: *mut c_void, size: usize) -> i32;
}

/// The status of a run for which memory ran out.
const MEMORY: u8 = 10;

/// Room as addresses alone, of which the system gives memory only to what is written, which is the text. So a text that is no longer than this is
/// computed once.
struct Room {
    at: *mut c_void,
}

impl Room {
    const SIZE: usize = 1 << 30;

    /// None where the process may not have so many addresses.
    fn new() -> Option<Room> {
        // As Linux has them on x86-64, for which alone the archive is made: what may be read and written, of this process alone, of no file, and
        // without memory that is kept for it.
        let (access, flags) = (0x1 | 0x2, 0x2 | 0x20 | 0x4000);
        // SAFETY: it takes addresses that nothing else has.
        let at = unsafe { mmap(ptr::null_mut(), Room::SIZE, access, flags, -1, 0) };
        (at.addr() != usize::MAX).then_some(Room { at })
    }

    fn bytes(&mut self) -> &mut [u8] {
        // SAFETY: the addresses are this value's until it is dropped, may be read and written, and hold zero bytes where nothing was written.
        unsafe { slice::from_raw_parts_mut(self.at.cast(), Room::SIZE) }
    }
}

impl Drop for Room {
    fn drop(&mut self) {
        // SAFETY: the addresses are those of `new`, and no reference to them is left.
        unsafe { munmap(self.at, Room::SIZE) };
    }
}

/// Does what the words of a line ask for on an input: the status, and the length of the text, which is put into the room for it, or as much of it as
/// there is room for.
fn run_into(line: &[u8], input: &[u8], room: &mut [u8]) -> (u8, usize) {
    let mut text_length = 0;
    // SAFETY: each pointer is that of one slice and has that slice's length; the slices are lent for the call, `room` and `text_length` alone for
    // writing, so that they overlap with nothing. The export has no `requires`. It takes memory from the C library's heap, and gives back all of it.
    let status = unsafe {
        jirrambeo_run(
            line.as_ptr(),
            line.len(),
            input.as_ptr(),
            input.len(),
            room.as_mut_ptr(),
            room.len(),
            &raw mut text_length,
        )
    };
    (status, text_length)
}

/// A copy of the bytes, or none where there is no memory for it.
fn copied(bytes: &[u8]) -> Option<Vec<u8>> {
    let mut copy = Vec::new();
    copy.try_reserve_exact(bytes.len()).ok()?;
    copy.extend_from_slice(bytes);
    Some(copy)
}

/// The status and the text, where room for texts of this size may be had on the heap; one that is longer is computed anew.
fn run_on_heap(line: &[u8], input: &[u8], mut size: usize) -> Option<(u8, Vec<u8>)> {
    loop {
        let mut room = Vec::new();
        room.try_reserve_exact(size).ok()?;
        room.resize(size, 0);
        let (status, text_length) = run_into(line, input, &mut room);
        if text_length <= size {
            room.truncate(text_length);
            return Some((status, room));
        }
        size = text_length;
    }
}

/// The status and the text of what the words of a line ask for on an input. The text is empty where memory ran out.
pub(crate) fn run(line: &[u8], input: &[u8]) -> (u8, Vec<u8>) {
    let answer = match Room::new() {
        Some(mut room) => {
            let (status, text_length) = run_into(line, input, room.bytes());
            match room.bytes().get(..text_length) {
                Some(text) => copied(text).map(|text| (status, text)),
                None => run_on_heap(line, input, text_length),
            }
        }
        None => run_on_heap(line, input, 4096 + 2 * input.len()),
    };
    answer.unwrap_or((MEMORY, Vec::new()))
}
