//! The figures of a run, and the list of what a long run must have met.

use crate::check::{read, Model, Reading};
use crate::heads::{self, Text};
use crate::notes;
use crate::reading::{Answer, Refusal};
use std::collections::BTreeMap;
use std::ops::Range;

/// A refusal as the figures count it: number, model if it was known, place, cause.
pub type Fault = (u8, Option<Model>, &'static str, &'static str);

#[derive(Default)]
pub struct Tally {
    pub files: u64,
    pub calls: u64,
    pub bytes: u64,
    walked: u64,
    accepted: BTreeMap<&'static str, u64>,
    additions: BTreeMap<&'static str, u64>,
    refused: BTreeMap<Fault, u64>,
    answers: BTreeMap<&'static str, u64>,
    notes: BTreeMap<String, u64>,
}

/// The kinds of accepted files.
const KINDS: [&str; 17] = [
    "945, function 1",
    "945, function 1, statistics",
    "945, function 1, buffer",
    "945, function 2",
    "945, function 2, statistics",
    "945, function 2, buffer",
    "945, function 2, buffer with bands",
    "945, function 3",
    "945, function 3, statistics",
    "945, function 3, buffer",
    "945, function 3, buffer with bands",
    "953, function 1",
    "953, function 1, statistics",
    "953, function 2",
    "953, function 2, statistics",
    "953, function 4",
    "953, function 4, statistics",
];

/// The answers of Sheet and Slim that are no refusals of the file.
const ANSWERS: [&str; 7] = [
    "file of 65,536 bytes",
    "sheet finished",
    "sheet finished, from a later line",
    "sheet finished, no lines left",
    "sheet cut by the output",
    "sheet cut by the output, from a later line",
    "slim copy written",
];

fn kind(reading: &Reading) -> &'static str {
    let place = match (reading.block(0x0F).is_some(), reading.block(0x09).is_some()) {
        (true, _) if reading.buffered_bands() != 0 => 3,
        (true, _) => 2,
        (_, true) => 1,
        _ => 0,
    };
    match (reading.model(), reading.function()) {
        (Model::Svan945, 1) => KINDS[place],
        (Model::Svan945, 2) => KINDS[3 + place],
        (Model::Svan945, _) => KINDS[7 + place],
        (Model::Svan953, 1) => KINDS[11 + place],
        (Model::Svan953, 2) => KINDS[13 + place],
        (Model::Svan953, _) => KINDS[15 + place],
    }
}

impl Tally {
    /// Counts a file by what the reading says of it.
    pub fn file(&mut self, file: &[u8]) {
        self.files += 1;
        let names = match read(file) {
            Ok(reading) => {
                *self.accepted.entry(kind(&reading)).or_default() += 1;
                if file.len() == 65_536 {
                    self.answer("file of 65,536 bytes");
                }
                notes::accepted(file, &reading)
            }
            Err(refusal) => {
                self.refusal(&refusal);
                notes::refused(file, &refusal)
            }
        };
        self.note(names);
    }

    fn note(&mut self, names: Vec<String>) {
        for name in names {
            *self.notes.entry(name).or_default() += 1;
        }
    }

    /// Counts a file whose additions were compared with it, and the lines of both.
    pub fn addition(&mut self, file: &[u8], texts: &[Text], lines: &[Vec<u8>]) {
        if let Ok(reading) = read(file) {
            *self.additions.entry(kind(&reading)).or_default() += 1;
        }
        self.compared("sheet, additions", texts, lines, 0..lines.len());
    }

    /// Counts a sheet that was walked, of these lines.
    pub fn walk(&mut self, texts: &[Text], lines: &[Vec<u8>]) {
        self.walked += 1;
        self.compared("sheet, walked", texts, lines, 0..lines.len());
    }

    /// Counts what these lines of a sheet show.
    fn compared(&mut self, call: &str, texts: &[Text], lines: &[Vec<u8>], shown: Range<usize>) {
        self.note(notes::compared(call, &lines[shown.clone()]));
        self.note(heads::compared(call, texts, shown));
    }

    fn refusal(&mut self, refusal: &Refusal) {
        *self.refused.entry((refusal.number, refusal.model, refusal.place, refusal.cause)).or_default() += 1;
    }

    fn answer(&mut self, name: &'static str) {
        *self.answers.entry(name).or_default() += 1;
    }

    /// Counts an answer of Sheet to an output of `room` bytes; refusals of the file are counted with the file.
    pub fn sheet(&mut self, texts: &[Text], lines: &[Vec<u8>], n: u32, room: usize, answer: &Result<Answer, Refusal>) {
        let first = n as usize;
        match answer {
            Ok(_) if first >= lines.len() => self.answer("sheet finished, no lines left"),
            Ok(answer) => {
                self.answer(match (answer.finished, n) {
                    (true, 0) => "sheet finished",
                    (true, _) => "sheet finished, from a later line",
                    (false, 0) => "sheet cut by the output",
                    (false, _) => "sheet cut by the output, from a later line",
                });
                let call = if n == 0 { "sheet" } else { "sheet, from a later line" };
                self.compared(call, texts, lines, first..first + answer.lines as usize);
                self.note(heads::edges(texts, lines, first, room));
            }
            Err(refusal) if refusal.number >= 10 => self.refusal(refusal),
            Err(_) => {}
        }
    }

    pub fn slim(&mut self, answer: &Result<Vec<u8>, Refusal>) {
        match answer {
            Ok(_) => self.answer("slim copy written"),
            Err(refusal) if refusal.number >= 10 => self.refusal(refusal),
            Err(_) => {}
        }
    }

    pub fn add(&mut self, other: Tally) {
        self.files += other.files;
        self.calls += other.calls;
        self.bytes += other.bytes;
        self.walked += other.walked;
        for (name, count) in other.accepted {
            *self.accepted.entry(name).or_default() += count;
        }
        for (name, count) in other.additions {
            *self.additions.entry(name).or_default() += count;
        }
        for (fault, count) in other.refused {
            *self.refused.entry(fault).or_default() += count;
        }
        for (name, count) in other.answers {
            *self.answers.entry(name).or_default() += count;
        }
        for (name, count) in other.notes {
            *self.notes.entry(name).or_default() += count;
        }
    }

    pub fn print(&self, seconds: f64) {
        println!("files {}", self.files);
        let accepted: u64 = self.accepted.values().sum();
        println!("accepted {accepted}");
        for (name, count) in &self.accepted {
            let additions = self.additions.get(name).copied().unwrap_or(0);
            println!("  {name}: {count}, with additions {additions}");
        }
        println!("refused {}", self.files - accepted);
        for number in 1..=11 {
            let of_953 = self.number(number, |model| model == Some(Model::Svan953));
            println!("  {number}: {}, of a 953 {of_953}", self.number(number, |_| true));
        }
        for (name, count) in &self.answers {
            println!("{name}: {count}");
        }
        println!("sheets walked {}", self.walked);
        println!("additions compared {}", self.additions.values().sum::<u64>());
        println!("calls made {}", self.calls);
        println!("output bytes compared {}", self.bytes);
        println!("seconds {seconds:.1}");
    }

    pub fn print_faults(&self) {
        for ((number, model, place, cause), count) in &self.refused {
            let model = model.map_or("any", notes::model_name);
            println!("  {number} {model} {place}, {cause}: {count}");
        }
        for (name, count) in &self.notes {
            println!("  {name}: {count}");
        }
    }

    /// The refusals with this number, of these models.
    fn number(&self, number: u8, of: impl Fn(Option<Model>) -> bool) -> u64 {
        self.refused.iter().filter(|(fault, _)| fault.0 == number && of(fault.1)).map(|(_, count)| count).sum()
    }

    fn fault(&self, fault: Fault) -> u64 {
        self.refused.get(&fault).copied().unwrap_or(0)
    }

    /// What a long run should have met and did not meet often enough.
    pub fn missing(&self) -> Vec<String> {
        let mut missing = Vec::new();
        let mut need = |name: String, found: u64, least: u64| {
            if found < least {
                missing.push(format!("{name}: {found}, at least {least} are due"));
            }
        };
        for number in 1..=11 {
            need(format!("refusal {number}"), self.number(number, |model| model != Some(Model::Svan953)), 100);
        }
        for number in [2, 3, 4, 6, 7, 8, 9] {
            let found = self.number(number, |model| model == Some(Model::Svan953));
            need(format!("refusal {number} of a 953"), found, 100);
        }
        for name in KINDS {
            need(name.to_string(), self.accepted.get(name).copied().unwrap_or(0), 100);
            need(format!("{name}, with additions"), self.additions.get(name).copied().unwrap_or(0), 100);
        }
        for name in ANSWERS {
            let least = if name == "file of 65,536 bytes" { 10 } else { 100 };
            need(name.to_string(), self.answers.get(name).copied().unwrap_or(0), least);
        }
        for (number, cause, places) in POSSIBLE {
            for place in *places {
                let found = [None, Some(Model::Svan945)].map(|model| self.fault((*number, model, *place, *cause)));
                need(format!("refusal {number} at {place}, {cause}"), found.iter().sum(), 10);
            }
        }
        for (number, cause, places) in POSSIBLE_953 {
            for place in *places {
                let found = self.fault((*number, Some(Model::Svan953), *place, *cause));
                need(format!("refusal {number} of a 953 at {place}, {cause}"), found, 10);
            }
        }
        for name in notes::due().into_iter().chain(heads::due()) {
            let found = self.notes.get(&name).copied().unwrap_or(0);
            need(name, found, 10);
        }
        missing
    }
}

/// The blocks that may not be in the long form.
const SHORT: &[&str] = &["01", "02", "03", "04", "05", "07", "09", "0E", "0F", "10"];
const ANY: &[&str] = &["01", "02", "03", "04", "05", "07", "09", "0B", "0E", "0F", "10", "14", "other"];
const LISTED: &[&str] = &["01", "02", "03", "04", "05", "07", "09", "0B", "0E", "0F", "10"];
const WITH_SUBS: &[&str] = &["05", "07", "09"];
const WITH_BANDS: &[&str] = &["0E", "0F", "10"];

/// The faults that document 01 makes possible, in files of the 945 and in those that end before the model is known, with what T-01
/// adds to block 02.
#[rustfmt::skip]
const POSSIBLE: &[(u8, &str, &[&str])] = &[
    (1, "odd length", &["file"]),
    (1, "too long", &["file"]),
    (2, "words run out", &["file"]),
    (2, "no length word", ANY),
    (2, "passes the last word", ANY),
    (2, "contents pass the last word", &["0F"]),
    (3, "long form under 2", ANY),
    (3, "long form not allowed", SHORT),
    (3, "below the table", SHORT),
    (3, "below the table of the 953", &["02"]),
    (3, "not exact", &["0B"]),
    (3, "title without null", &["03"]),
    (4, "order", LISTED),
    (4, "order", &["end"]),
    (4, "another nn", &["0B"]),
    (5, "unit type", &["02"]),
    (6, "word 1", &["05", "07", "09", "0E", "10"]),
    (7, "sub-block outside", WITH_SUBS),
    (7, "sub-block id", WITH_SUBS),
    (7, "sub-block length", WITH_SUBS),
    (7, "sub-block past its block", WITH_SUBS),
    (8, "function", &["04"]),
    (8, "spectrum filter", &["04"]),
    (8, "buffering", &["04"]),
    (8, "profile filter", &["05"]),
    (8, "buffer code", &["05"]),
    (8, "lowest frequency", WITH_BANDS),
    (8, "bands", WITH_BANDS),
    (8, "totals", WITH_BANDS),
    (8, "BuffLength odd", &["0F"]),
    (8, "BuffLength not 0", &["0F"]),
    (8, "BuffLength not whole", &["0F"]),
    (9, "word after it", &["end"]),
    (10, "label", &["sheet"]),
    (11, "output", &["sheet", "slim"]),
];

/// The blocks of a 953 behind its 02, in their order.
const BEHIND_02: &[&str] = &["03", "04", "05", "07", "09", "0E"];

/// The faults that T-01 makes possible in a file whose 02 told a 953.
#[rustfmt::skip]
const POSSIBLE_953: &[(u8, &str, &[&str])] = &[
    (2, "words run out", &["file"]),
    (2, "no length word", ANY),
    (2, "passes the last word", ANY),
    (3, "long form under 2", ANY),
    (3, "long form not allowed", BEHIND_02),
    (3, "below the table", BEHIND_02),
    (3, "below its counts", &["0E"]),
    (3, "not exact", &["0B"]),
    (3, "title without null", &["03"]),
    (4, "order", LISTED),
    (4, "order", &["end"]),
    (4, "in the place of 07", &["0F"]),
    (4, "another nn", &["0B"]),
    (6, "word 1", &["05", "07", "09", "0E"]),
    (7, "sub-block outside", WITH_SUBS),
    (7, "sub-block id", WITH_SUBS),
    (7, "sub-block length", WITH_SUBS),
    (7, "sub-block past its block", WITH_SUBS),
    (8, "function", &["04"]),
    (8, "spectrum filter", &["04"]),
    (8, "buffering", &["04"]),
    (8, "profile filter", &["05"]),
    (8, "buffer code", &["05"]),
    (8, "lowest frequency", &["0E"]),
    (8, "bands", &["0E"]),
    (8, "totals", &["0E"]),
    (9, "word after it", &["end"]),
];
