//! The sheet of a meter file on standard output, or its refusal: sheet FILE [LABEL]

use std::io::Write;

/// meter_sheet_reply of include/meter.h; outside/src/meter.rs has all four.
#[repr(C)]
struct SheetReply {
    refusal: u8,
    finished: bool,
    at: u32,
    lines: u32,
    bytes: usize,
}

extern "C" {
    fn meter_sheet(file: *const u8, file_len: usize, label: *const u8, label_len: usize, n: u32, out: *mut u8, out_len: usize) -> SheetReply;
}

/// Lines n, n + 1, .. of the sheet, as many as fit into the output.
fn sheet(file: &[u8], label: &[u8], n: u32, out: &mut [u8]) -> SheetReply {
    // Slices are good for their lengths, and an exclusive one overlaps no other.
    unsafe { meter_sheet(file.as_ptr(), file.len(), label.as_ptr(), label.len(), n, out.as_mut_ptr(), out.len()) }
}

fn main() -> std::io::Result<()> {
    let names: Vec<String> = std::env::args().skip(1).collect();
    let file = std::fs::read(&names[0])?;
    let label = names.get(1).map_or("", String::as_str);
    let mut out = [0u8; 4096];
    let mut n = 0;
    loop {
        let reply = sheet(&file, label.as_bytes(), n, &mut out);
        if reply.refusal != 0 {
            println!("refused {} at {}", reply.refusal, reply.at);
            return Ok(());
        }
        std::io::stdout().write_all(&out[..reply.bytes])?;
        if reply.finished {
            return Ok(());
        }
        n += reply.lines;
    }
}
