//! The library's four calls, as include/meter.h declares them.
//!
//! A C `bool` is taken as a byte here, so that a value besides 0 and 1 shows as a difference.

use std::mem::{align_of, offset_of, size_of};

#[repr(C)]
#[derive(Clone, Copy, Debug, PartialEq, Eq)]
pub struct CheckReply {
    pub refusal: u8,
    pub function: u8,
    pub starts: [u16; 9],
    pub at: u32,
}

#[repr(C)]
#[derive(Clone, Copy, Debug, PartialEq, Eq)]
pub struct TitleReply {
    pub from_file: u8,
    pub at: usize,
    pub len: usize,
}

#[repr(C)]
#[derive(Clone, Copy, Debug, PartialEq, Eq)]
pub struct SheetReply {
    pub refusal: u8,
    pub finished: u8,
    pub at: u32,
    pub lines: u32,
    pub bytes: usize,
}

#[repr(C)]
#[derive(Clone, Copy, Debug, PartialEq, Eq)]
pub struct SlimReply {
    pub refusal: u8,
    pub at: u32,
    pub bytes: usize,
}

extern "C" {
    fn meter_check(file: *const u8, file_len: usize) -> CheckReply;
    fn meter_title(file: *const u8, file_len: usize, label: *const u8, label_len: usize) -> TitleReply;
    fn meter_sheet(
        file: *const u8,
        file_len: usize,
        label: *const u8,
        label_len: usize,
        n: u32,
        out: *mut u8,
        out_len: usize,
    ) -> SheetReply;
    fn meter_slim(file: *const u8, file_len: usize, out: *mut u8, out_len: usize) -> SlimReply;
}

/// The library. "with length 0 any pointer may stand": `nowhere` is the one that stands then.
pub struct Meter {
    pub nowhere: usize,
}

impl Meter {
    fn lent(&self, bytes: &[u8]) -> *const u8 {
        if bytes.is_empty() {
            self.nowhere as *const u8
        } else {
            bytes.as_ptr()
        }
    }

    fn lent_mut(&self, bytes: &mut [u8]) -> *mut u8 {
        if bytes.is_empty() {
            self.nowhere as *mut u8
        } else {
            bytes.as_mut_ptr()
        }
    }

    pub fn check(&self, file: &[u8]) -> CheckReply {
        // SAFETY: the pointer is good for the length.
        unsafe { meter_check(self.lent(file), file.len()) }
    }

    pub fn title(&self, file: &[u8], label: &[u8]) -> TitleReply {
        // SAFETY: each pointer is good for its length.
        unsafe { meter_title(self.lent(file), file.len(), self.lent(label), label.len()) }
    }

    pub fn sheet(&self, file: &[u8], label: &[u8], n: u32, out: &mut [u8]) -> SheetReply {
        let (out_start, out_len) = (self.lent_mut(out), out.len());
        // SAFETY: each pointer is good for its length, and the output is lent alone.
        unsafe { meter_sheet(self.lent(file), file.len(), self.lent(label), label.len(), n, out_start, out_len) }
    }

    pub fn slim(&self, file: &[u8], out: &mut [u8]) -> SlimReply {
        let (out_start, out_len) = (self.lent_mut(out), out.len());
        // SAFETY: each pointer is good for its length, and the output is lent alone.
        unsafe { meter_slim(self.lent(file), file.len(), out_start, out_len) }
    }
}

// The layouts that C has on x86-64.
const _: () = {
    assert!(size_of::<CheckReply>() == 24 && align_of::<CheckReply>() == 4);
    assert!(offset_of!(CheckReply, refusal) == 0 && offset_of!(CheckReply, function) == 1);
    assert!(offset_of!(CheckReply, starts) == 2 && offset_of!(CheckReply, at) == 20);

    assert!(size_of::<TitleReply>() == 24 && align_of::<TitleReply>() == 8);
    assert!(offset_of!(TitleReply, from_file) == 0);
    assert!(offset_of!(TitleReply, at) == 8 && offset_of!(TitleReply, len) == 16);

    assert!(size_of::<SheetReply>() == 24 && align_of::<SheetReply>() == 8);
    assert!(offset_of!(SheetReply, refusal) == 0 && offset_of!(SheetReply, finished) == 1);
    assert!(offset_of!(SheetReply, at) == 4 && offset_of!(SheetReply, lines) == 8);
    assert!(offset_of!(SheetReply, bytes) == 16);

    assert!(size_of::<SlimReply>() == 16 && align_of::<SlimReply>() == 8);
    assert!(offset_of!(SlimReply, refusal) == 0 && offset_of!(SlimReply, at) == 4);
    assert!(offset_of!(SlimReply, bytes) == 8);
};
