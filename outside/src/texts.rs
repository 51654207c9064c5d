//! Texts for names, titles and labels: with commas and double quotes, with bytes that may be taken for them, and with neither.

use crate::random::Random;

/// What has a line put between quotes (T-03).
const MARKS: &[u8] = b",\"";

/// Next to a mark, other separators and quotes, a mark but for one bit, and the ends of lines, which RFC 4180 puts between quotes too
/// but which print as `?` here.
#[rustfmt::skip]
const NEAR: &[u8] = &[
    0x21, 0x23, 0x2B, 0x2D, 0x3B, 0x3B, b'\'', b'`',
    0x02, 0x0C, 0x62, 0x6C, 0xA2, 0xAC, 0x0A, 0x0D, 0x09, b'?',
];

/// What texts are drawn from. The last but one has the bytes at the ends of those that print.
const ALPHABETS: [&[u8]; 11] = [
    b"Hall 7",
    b"Hall 7;",
    b",",
    b",\"",
    b"Hall, north end",
    b"say \"A\"",
    b"=\"1,2\"+1",
    b"\"\"\"\"\"\"\"\"\"\"\"a",
    NEAR,
    &[0x01, 0x0A, 0x1F, 0x20, 0x7E, 0x7F, 0x80, 0xFF, b',', b'?'],
    &[0x02, 0x0C, 0xA2, 0xAC, 0xA2, 0xAC, b',', b'"'],
];

/// A text without nulls.
pub fn text(random: &mut Random, len: usize) -> Vec<u8> {
    // Quotes alone give the longest line.
    let quotes = random.one_in(if len >= 500 { 2 } else { 12 });
    let mut text = if quotes { vec![b'"'; len] } else { drawn(random, len) };
    if len > 0 && random.one_in(3) {
        let any = random.below(len);
        text[random.pick(&[0, len - 1, any])] = random.pick(MARKS);
    }
    text
}

/// Of any bytes, of those that print, or of few that tell.
fn drawn(random: &mut Random, len: usize) -> Vec<u8> {
    match random.below(8) {
        0 => (0..len).map(|_| random.between(1, 255) as u8).collect(),
        1 | 2 => (0..len).map(|_| random.between(0x20, 0x7E) as u8).collect(),
        _ => {
            let alphabet = random.pick(&ALPHABETS);
            (0..len).map(|_| random.pick(alphabet)).collect()
        }
    }
}
