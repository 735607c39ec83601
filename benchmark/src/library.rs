//! The proved functions, on slices: `bench_steps` of crates/bench, and the
//! calls for hosts of crates/host_calls. A lent slice is a pointer and a length.

use darthog_host::raw::{
    darthog_backlog, darthog_begin_insert, darthog_calls, darthog_markers, darthog_step, Reply,
};

extern "C" {
    fn bench_steps(image: *mut u8, length: usize, who: *const u32, who_length: usize) -> u32;
}

// Safe, each of them: the slices are lent for the call, so that nobody else
// reads or writes them, and their pointers are not null.

/// A test of the bytes, then a bare step of each of these processors. 0 or 21.
pub fn bare_steps(image: &mut [u8], who: &[u32]) -> u32 {
    unsafe { bench_steps(image.as_mut_ptr(), image.len(), who.as_ptr(), who.len()) }
}

/// A test of the bytes, then a step.
pub fn step(image: &mut [u8], processor: u32) -> Reply {
    unsafe { darthog_step(image.as_mut_ptr(), image.len(), processor) }
}

/// A test of the bytes, then the begin of an Insert.
pub fn begin_insert(image: &mut [u8], processor: u32, due: u32, item: u32, height: u32) -> Reply {
    let (bytes, length) = (image.as_mut_ptr(), image.len());
    unsafe { darthog_begin_insert(bytes, length, processor, due, item, height) }
}

/// A test of the bytes, then Backlog.
pub fn backlog(image: &[u8]) -> Reply {
    unsafe { darthog_backlog(image.as_ptr(), image.len()) }
}

/// A test of the bytes, then markers.
pub fn markers(image: &[u8], area: &mut [u8]) -> Reply {
    let (bytes, length) = (image.as_ptr(), image.len());
    unsafe { darthog_markers(bytes, length, area.as_mut_ptr(), area.len()) }
}

/// A test of the bytes, then the calls of a list. 0 or 21.
pub fn calls(image: &mut [u8], calls: &[u32], answers: &mut [u32]) -> u32 {
    unsafe {
        darthog_calls(
            image.as_mut_ptr(),
            image.len(),
            calls.as_ptr(),
            calls.len(),
            answers.as_mut_ptr(),
            answers.len(),
        )
    }
}
