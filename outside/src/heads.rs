//! What is worth a count in the lines of the name and of the title (T-03): what their texts hold, and where the output of an answer
//! ends near a title line between quotes.

use crate::check::{read, Model, Reading};
use crate::notes::{model_name, CALLS};
use std::ops::Range;

/// The places of both lines in the head, from 0.
const NAME_LINE: usize = 3;
pub const TITLE_LINE: usize = 5;

/// A text that a sheet shows, or a label that is not shown since the file has a title.
pub struct Text {
    model: Model,
    of: &'static str,
    line: usize,
    kinds: Vec<&'static str>,
    marked: bool,
}

/// Whether a text has its line put between quotes.
fn marked(text: &[u8]) -> bool {
    text.contains(&b',') || text.contains(&b'"')
}

fn printing(byte: &u8) -> bool {
    (0x20..=0x7E).contains(byte)
}

fn holds_any(text: &[u8], bytes: &[u8]) -> bool {
    text.iter().any(|byte| bytes.contains(byte))
}

const ANY: &[&str] = &["name", "title", "label", "label not shown"];
const IN_A_BLOCK: &[&str] = &["name", "title"];
const LONG: &[&str] = &["title", "label", "label not shown"];

/// What a text may hold, of which texts it is asked, and whether a text holds it, with the bytes behind it.
type Kind = (&'static str, &'static [&'static str], fn(&[u8], &[u8]) -> bool);

const KINDS: [Kind; 15] = [
    ("a comma, no quote", ANY, |text, _| text.contains(&b',') && !text.contains(&b'"')),
    ("a quote, no comma", ANY, |text, _| text.contains(&b'"') && !text.contains(&b',')),
    ("a comma and a quote", ANY, |text, _| text.contains(&b',') && text.contains(&b'"')),
    ("neither", ANY, |text, _| !text.is_empty() && !marked(text)),
    ("neither, but a semicolon", ANY, |text, _| !marked(text) && text.contains(&b';')),
    ("neither, but 02, 0C, A2 or AC", ANY, |text, _| !marked(text) && holds_any(text, &[0x02, 0x0C, 0xA2, 0xAC])),
    ("neither, but an end of line", ANY, |text, _| !marked(text) && holds_any(text, &[0x0A, 0x0D])),
    ("neither, but one of them behind it", IN_A_BLOCK, |text, behind| !marked(text) && marked(behind)),
    ("one of them and a byte shown as ?", ANY, |text, _| marked(text) && !text.iter().all(printing)),
    ("a quote first", ANY, |text, _| text.starts_with(b"\"")),
    ("a quote last", ANY, |text, _| text.ends_with(b"\"")),
    ("a comma first", ANY, |text, _| text.starts_with(b",")),
    ("a comma last", ANY, |text, _| text.ends_with(b",")),
    ("quotes alone", ANY, |text, _| !text.is_empty() && text.iter().all(|byte| *byte == b'"')),
    ("507 quotes", LONG, |text, _| text == [b'"'; 507]),
];

/// The texts of an accepted file and its label, none of a refused one.
pub fn texts(file: &[u8], label: &[u8]) -> Vec<Text> {
    let Ok(reading) = read(file) else {
        return Vec::new();
    };
    let model = reading.model();
    let text = |of, line, text: &[u8], behind: &[u8]| {
        let holds = |kind: &&Kind| kind.1.contains(&of) && kind.2(text, behind);
        Text { model, of, line, kinds: KINDS.iter().filter(holds).map(|kind| kind.0).collect(), marked: marked(text) }
    };
    let (name, behind_name) = split(&reading, 0x01, 8);
    let (title, behind_title) = split(&reading, 0x03, usize::MAX);
    let mut texts = vec![text("name", NAME_LINE, &name, &behind_name)];
    if title.is_empty() {
        texts.push(text("label", TITLE_LINE, label, &[]));
    } else {
        texts.push(text("title", TITLE_LINE, &title, &behind_title));
        texts.push(text("label not shown", TITLE_LINE, label, &[]));
    }
    texts
}

/// The text of a block, which has at most so many bytes from word 1 on: those before the first null, and those behind.
fn split(reading: &Reading, id: u8, most: usize) -> (Vec<u8>, Vec<u8>) {
    let block = reading.block(id).expect("an accepted file has a name and a title");
    let words = &reading.words[block.start + 1..block.start + block.length];
    let mut text: Vec<u8> = words.iter().flat_map(|word| word.to_le_bytes()).collect();
    text.truncate(most);
    let null = text.iter().position(|byte| *byte == 0).unwrap_or(text.len());
    let behind = text.split_off(null);
    (text, behind)
}

/// Where an output ends, by the first line that was asked for, the bytes from it to the end of the title line, and the room.
type Edge = (&'static str, fn(usize, usize, usize) -> bool);

const EDGES: [Edge; 6] = [
    ("is cut before it", |n, end, room| n < TITLE_LINE && room < end),
    ("is a byte too short for it", |_, end, room| room + 1 == end),
    ("is full with it", |_, end, room| room == end),
    ("is full with it but for a byte", |_, end, room| room == end + 1),
    ("begins with it", |n, _, _| n == TITLE_LINE),
    ("begins with it, 1,023 of 1,024 bytes", |n, end, room| (n, end, room) == (TITLE_LINE, 1_023, 1_024)),
];

/// The counts of where an output of `room` bytes, asked for from line n on, ends near a title line between quotes.
pub fn edges(texts: &[Text], lines: &[Vec<u8>], n: usize, room: usize) -> Vec<String> {
    let title = texts.iter().find(|text| text.line == TITLE_LINE && text.of != "label not shown");
    let Some(title) = title.filter(|title| title.marked && n <= TITLE_LINE) else {
        return Vec::new();
    };
    let end = lines[n..=TITLE_LINE].iter().map(Vec::len).sum();
    let met = EDGES.iter().filter(|(_, holds)| holds(n, end, room));
    met.map(|(edge, _)| edge_name(title.model, title.of, edge)).collect()
}

/// The counts of the texts in these lines of a sheet, which a call was compared in.
pub fn compared(call: &str, texts: &[Text], lines: Range<usize>) -> Vec<String> {
    let among = texts.iter().filter(|text| lines.contains(&text.line));
    among.flat_map(|text| text.kinds.iter().map(|kind| kind_name(text.model, text.of, kind, call))).collect()
}

fn kind_name(model: Model, of: &str, kind: &str, call: &str) -> String {
    format!("{}, {of} with {kind}: {call}", model_name(model))
}

fn edge_name(model: Model, of: &str, edge: &str) -> String {
    format!("{}, {of} line between quotes: the output {edge}", model_name(model))
}

/// All that a long run must have met.
pub fn due() -> Vec<String> {
    let mut due = Vec::new();
    for model in [Model::Svan945, Model::Svan953] {
        for (kind, of, _) in KINDS {
            due.extend(of.iter().flat_map(|of| CALLS.map(|call| kind_name(model, of, kind, call))));
        }
        for of in ["title", "label"] {
            due.extend(EDGES.map(|(edge, _)| edge_name(model, of, edge)));
        }
    }
    due
}
