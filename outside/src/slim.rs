//! Slim, from the part "Slim copy" of document 01, with the least words of either model.

use crate::check::{least_sub, read, refusal, Block, Reading, Refusal};
use crate::title::text;

/// Slim: "writes the slim copy and answers its byte length".
pub fn slim(file: &[u8], out_len: usize) -> Result<Vec<u8>, Refusal> {
    let copy = copy(file)?;
    // "11: output .. under the slim length (Slim)"
    if out_len < copy.len() {
        return Err(refusal(11, 0, "slim", "output"));
    }
    Ok(copy)
}

/// The whole slim copy of an accepted file.
pub fn copy(file: &[u8]) -> Result<Vec<u8>, Refusal> {
    let reading = read(file)?;
    // "The listed blocks and raw contents in order .. the end marker."
    let mut words: Vec<u16> = reading.blocks.iter().flat_map(|block| cut(&reading, block)).collect();
    words.push(0xFFFF);
    Ok(words.iter().flat_map(|word| word.to_le_bytes()).collect())
}

/// "each cut to its least words (sub-blocks too) with counts set to match, all other kept words as they were"
fn cut(reading: &Reading, block: &Block) -> Vec<u16> {
    let first = |start: usize, length: usize| reading.words[start..start + length].to_vec();
    let mut words = match block.id {
        // A histogram has no more words than it needs, and no count in its first word.
        0x0B => return first(block.start, block.length),
        0x03 => title_block(reading),
        0x05 | 0x07 | 0x09 => {
            let (sub_id, sub_least) = least_sub(reading.model(), block.id).expect("a block with sub-blocks");
            let mut words = first(block.start, 2);
            for start in &block.subs {
                words.push(header(sub_id, sub_least));
                words.extend(first(start + 1, sub_least - 1));
            }
            words
        }
        _ => first(block.start, reading.least_words(block)),
    };
    words[0] = header(block.id, words.len());
    if block.id == 0x0F {
        words.extend(&reading.words[reading.contents.clone()]);
    }
    words
}

/// "the title's text with one or two nulls to fill its word"
fn title_block(reading: &Reading) -> Vec<u16> {
    let (_, mut bytes) = text(reading);
    bytes.push(0);
    if bytes.len() % 2 == 1 {
        bytes.push(0);
    }
    let mut words = vec![0];
    words.extend(bytes.chunks_exact(2).map(|pair| u16::from_le_bytes([pair[0], pair[1]])));
    words
}

/// A first word: the id low, the count high.
fn header(id: u8, count: usize) -> u16 {
    u16::from_le_bytes([id, u8::try_from(count).expect("a count of one byte")])
}
