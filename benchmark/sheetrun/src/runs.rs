//! A run of a sheet by the proved function of crates/host_sheet, and by the
//! reference.

use darthog_reference::sheet::run;

/// What a run gives back: 0 and the length of the history in bytes, or the
/// number of the refusal and its line.
#[repr(C)]
#[derive(Clone, Copy, PartialEq, Eq, Debug)]
pub struct SheetReply {
    /// 0, or the number of the refusal.
    pub number: u32,
    /// The length of the history in bytes, or the line.
    pub value: usize,
}

extern "C" {
    fn darthog_run_sheet(
        sheet: *const u8,
        sheet_length: usize,
        history: *mut u8,
        history_length: usize,
    ) -> SheetReply;
}

/// One way to run a sheet.
pub type Run = fn(&[u8], &mut [u8]) -> SheetReply;

/// The proved run. A lent slice is a pointer and a length.
pub fn proved(sheet: &[u8], area: &mut [u8]) -> SheetReply {
    // Safe: the slices are lent for the call and do not overlap; only the area is written to.
    unsafe { darthog_run_sheet(sheet.as_ptr(), sheet.len(), area.as_mut_ptr(), area.len()) }
}

/// The reference's run.
pub fn reference(sheet: &[u8], area: &mut [u8]) -> SheetReply {
    match run(sheet, area) {
        Ok(length) => SheetReply {
            number: 0,
            value: length,
        },
        Err(refusal) => SheetReply {
            number: refusal.number,
            value: refusal.line,
        },
    }
}

/// The same under a name of its own, so that its instructions can be counted.
#[no_mangle]
#[inline(never)]
pub fn counted_reference(sheet: &[u8], area: &mut [u8]) -> SheetReply {
    reference(sheet, area)
}
