//! Title, from the part "What the converter takes" of document 01.

use crate::check::{read, Reading};

/// "hands back a part of the file (the text before the first null) or .. the whole label, not a copy"
#[derive(Clone, Copy, Debug, PartialEq, Eq)]
pub enum TitlePart {
    /// A part of the file: its first byte and its length.
    File { at: usize, len: usize },
    /// The whole label: its length.
    Label { len: usize },
}

/// Title: "if that is empty or the file is refused, the whole label".
pub fn title(file: &[u8], label: &[u8]) -> TitlePart {
    let Ok(reading) = read(file) else {
        return TitlePart::Label { len: label.len() };
    };
    let (at, text) = text(&reading);
    match text.len() {
        0 => TitlePart::Label { len: label.len() },
        len => TitlePart::File { at, len },
    }
}

/// The first byte of the title's text in the file, and the text: all bytes of block 03 from word 1 before the first null.
pub fn text(reading: &Reading) -> (usize, Vec<u8>) {
    let block = reading.block(0x03).expect("an accepted file has a title block");
    let words = &reading.words[block.start + 1..block.start + block.length];
    // "Text is in file byte order."
    let bytes = words.iter().flat_map(|word| word.to_le_bytes());
    (2 * (block.start + 1), bytes.take_while(|byte| *byte != 0).collect())
}
