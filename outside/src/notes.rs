//! What is worth a count in a file besides its kind and its fault: what the models do not share, faults that compete, and the row N.

use crate::check::{first_band, octave_words, read, Model, Reading, Refusal, LOWEST};

/// The unlisted ids that a 953 writes.
const UNLISTED: [u8; 7] = [0x2B, 0x2C, 0x2E, 0x21, 0x17, 0x26, 0x27];

/// Words that one model has and the other has not, or next to what a model has: the model, the cause of the refusal, the word.
const VALUES: [(Model, &str, u16); 18] = [
    (Model::Svan945, "function", 0),
    (Model::Svan945, "function", 4),
    (Model::Svan953, "function", 0),
    (Model::Svan953, "function", 3),
    (Model::Svan953, "function", 5),
    (Model::Svan945, "spectrum filter", 4),
    (Model::Svan953, "spectrum filter", 1),
    (Model::Svan953, "spectrum filter", 4),
    (Model::Svan945, "profile filter", 0),
    (Model::Svan945, "profile filter", 5),
    (Model::Svan953, "profile filter", 1),
    (Model::Svan953, "profile filter", 4),
    (Model::Svan945, "buffer code", 5),
    (Model::Svan945, "buffer code", 15),
    (Model::Svan953, "buffer code", 16),
    (Model::Svan953, "buffer code", 17),
    (Model::Svan953, "bands", 0),
    (Model::Svan953, "totals", 4),
];

/// The counts that do not come from one of the lists.
const OTHERS: [&str; 27] = [
    "953, 65,536 bytes",
    "945, good as a 953 too",
    "953, good as a 945 too",
    "945, its 07 as long as a 953's",
    "945, function 1, 21 or 22 off the list",
    "945, function 2, 14 or 15 that a 953 refuses",
    "953, function 1, 14 or 15 off the list",
    "953, function 4, 14 or 15 off the list",
    "953, function 2, 21 or 22 that a 945 refuses",
    "953, a buffer code over 4",
    "953, one band",
    "953, all bands left",
    "953, some bands",
    "953, 0E longer than its counts",
    "02 under 6 words, unit type neither: 3",
    "02 of 6 to 9 words, unit type neither: 5",
    "953, word 14 and word 15 off: 8 at 14",
    "953, 0E under 5 words, word 1 off: 3",
    "953, 0E of 5 words, one of them off: 6 or 8",
    "953, 0E under its counts, word 1 off: 6",
    "953, 0E under its counts, lowest frequency off: 8",
    "953, 0E under its counts, bands off: 8",
    "953, 0E under its counts, totals off: 8",
    "953, 0E long enough, bands off: 8",
    "953, 0E long enough, totals off: 8",
    "953, bands that the list has, but not from here: 8",
    "953, lowest frequency of 1000 Hz or more, cut to a word: 8",
];

/// The comparisons of lines. The last one is of the library with itself.
pub const CALLS: [&str; 4] = ["sheet", "sheet, from a later line", "sheet, walked", "sheet, additions"];

/// What the three numbers of a row N may be, so that another reading of the row shows.
type Numbers = (&'static str, fn(&[u16]) -> bool);

const N_ROWS: [Numbers; 4] = [
    ("an N of 32,768 or more", |row| row.iter().any(|number| *number >= 32_768)),
    ("an N of 65,535", |row| row.contains(&65_535)),
    ("an N under 10", |row| row.iter().any(|number| *number < 10)),
    ("three different N", |row| row[0] != row[1] && row[1] != row[2] && row[0] != row[2]),
];

/// All that a long run must have met.
pub fn due() -> Vec<String> {
    let mut due: Vec<String> = OTHERS.iter().map(|name| name.to_string()).collect();
    due.extend(LOWEST.map(lowest_name));
    due.extend((0..=3).map(totals_name));
    due.extend(UNLISTED.map(unlisted_name));
    due.extend(VALUES.map(|(model, cause, value)| value_name(model, cause, value)));
    due.extend(N_ROWS.iter().flat_map(|(numbers, _)| CALLS.map(|call| n_name(numbers, call))));
    due
}

pub fn model_name(model: Model) -> &'static str {
    match model {
        Model::Svan945 => "945",
        Model::Svan953 => "953",
    }
}

fn lowest_name(lowest: u16) -> String {
    format!("953, lowest frequency {lowest}")
}

fn totals_name(totals: u16) -> String {
    format!("953, totals {totals}")
}

fn unlisted_name(id: u8) -> String {
    format!("953, with a block {id:02X}")
}

fn value_name(model: Model, cause: &str, value: u16) -> String {
    format!("{}, {cause} {value}: 8", model_name(model))
}

fn n_name(numbers: &str, call: &str) -> String {
    format!("945, {numbers}: {call}")
}

/// The counts of the lines that a call was compared in: of the row N, if it is among them.
pub fn compared(call: &str, lines: &[Vec<u8>]) -> Vec<String> {
    let Some(row) = lines.iter().find_map(|line| line.strip_prefix(b"N,%,")) else {
        return Vec::new();
    };
    let row = String::from_utf8_lossy(row);
    let row: Vec<u16> = row.trim_end().split(',').map(|number| number.parse().expect("a word")).collect();
    N_ROWS.iter().filter(|(_, holds)| holds(&row)).map(|(numbers, _)| n_name(numbers, call)).collect()
}

/// The counts of an accepted file.
pub fn accepted(file: &[u8], reading: &Reading) -> Vec<String> {
    let mut names = Vec::new();
    let mut note = |met: bool, name: &str| names.extend(met.then(|| name.to_string()));
    let word = |offset: usize| reading.word(0x04, offset);
    let off_945 = word(21) > 3 || word(22) > 1;
    let off_953 = ![0, 2, 3].contains(&word(14)) || word(15) > 1;
    let kind = (reading.model(), reading.function());
    note(kind == (Model::Svan945, 1) && off_945, "945, function 1, 21 or 22 off the list");
    note(kind == (Model::Svan945, 2) && off_953, "945, function 2, 14 or 15 that a 953 refuses");
    note(kind == (Model::Svan953, 1) && off_953, "953, function 1, 14 or 15 off the list");
    note(kind == (Model::Svan953, 4) && off_953, "953, function 4, 14 or 15 off the list");
    note(kind == (Model::Svan953, 2) && off_945, "953, function 2, 21 or 22 that a 945 refuses");
    let both = read(&switched(file, reading)).is_ok();
    match reading.model() {
        Model::Svan945 => {
            note(both, "945, good as a 953 too");
            let subs = reading.block(0x07).map_or(&[][..], |block| &block.subs);
            let long = subs.iter().all(|start| reading.words[*start] >> 8 >= 15);
            note(!subs.is_empty() && long, "945, its 07 as long as a 953's");
        }
        Model::Svan953 => {
            note(file.len() == 65_536, "953, 65,536 bytes");
            note(both, "953, good as a 945 too");
            note(reading.sub_words(0x05, 3).iter().any(|code| *code > 4), "953, a buffer code over 4");
            names.extend(UNLISTED.iter().filter(|id| reading.others.contains(id)).map(|id| unlisted_name(*id)));
            names.extend(octaves(reading));
        }
    }
    names
}

/// The file with the other unit type.
fn switched(file: &[u8], reading: &Reading) -> Vec<u8> {
    let mut other = file.to_vec();
    let at = 2 * (reading.block(0x02).expect("an accepted file has a block 02").start + 2);
    let unit_type: u16 = if reading.model() == Model::Svan945 { 953 } else { 945 };
    other[at..at + 2].copy_from_slice(&unit_type.to_le_bytes());
    other
}

/// The counts of a 953's 0E.
fn octaves(reading: &Reading) -> Vec<String> {
    let Some(block) = reading.block(0x0E) else {
        return Vec::new();
    };
    let [lowest, bands, totals] = [2, 3, 4].map(|offset| reading.words[block.start + offset]);
    let left = first_band(lowest).map_or(0, |first| 15 - first);
    let share = match usize::from(bands) {
        1 => "953, one band",
        bands if bands == left => "953, all bands left",
        _ => "953, some bands",
    };
    let mut names = vec![lowest_name(lowest), totals_name(totals), share.to_string()];
    if block.length > octave_words(&reading.words, block) {
        names.push("953, 0E longer than its counts".to_string());
    }
    names
}

/// The counts of a refused file.
pub fn refused(file: &[u8], refusal: &Refusal) -> Vec<String> {
    let word = |at: usize| file.get(2 * at..2 * at + 2).map_or(0, |pair| u16::from_le_bytes([pair[0], pair[1]]));
    let found = (refusal.number, refusal.model, refusal.cause, word(refusal.at as usize));
    let mut names: Vec<String> = VALUES
        .iter()
        .filter(|(model, cause, value)| found == (8, Some(*model), *cause, *value))
        .map(|(model, cause, value)| value_name(*model, cause, *value))
        .collect();
    names.extend(competing(refusal, word).iter().map(|name| name.to_string()));
    names
}

/// The other fault that a refused file has in the same block, in the order that decides.
fn competing(refusal: &Refusal, word: impl Fn(usize) -> u16) -> Vec<&'static str> {
    let at = refusal.at as usize;
    let mut names = Vec::new();
    let mut note = |met: bool, name| names.extend(met.then_some(name));
    let count = |start: usize| usize::from(word(start) >> 8);
    let under = |start: usize| count(start) < 5 + usize::from(word(start + 3)) + usize::from(word(start + 4));
    if (refusal.model, refusal.place) == (Some(Model::Svan953), "0E") && matches!(refusal.number, 6 | 8) {
        // The refused word is one of words 1 to 4.
        let of_5 = (1..=4).any(|offset| word(at - offset) == 0x050E);
        note(of_5, "953, 0E of 5 words, one of them off: 6 or 8");
    }
    match (refusal.model, refusal.number, refusal.place, refusal.cause) {
        (None, 3, "02", "below the table") => {
            let neither = ![945, 953].contains(&word(at + 2));
            note(count(at) >= 3 && neither, "02 under 6 words, unit type neither: 3");
        }
        (None, 5, "02", _) => note(count(at - 2) < 10, "02 of 6 to 9 words, unit type neither: 5"),
        (Some(Model::Svan953), 8, "04", "spectrum filter") => {
            note(word(at + 1) > 1, "953, word 14 and word 15 off: 8 at 14");
        }
        (Some(Model::Svan953), 3, "0E", "below the table") => {
            note(count(at) >= 2 && word(at + 1) != 0x0101, "953, 0E under 5 words, word 1 off: 3");
        }
        (Some(Model::Svan953), 6, "0E", _) => note(under(at - 1), "953, 0E under its counts, word 1 off: 6"),
        (Some(Model::Svan953), 8, "0E", "lowest frequency") => {
            note(under(at - 2), "953, 0E under its counts, lowest frequency off: 8");
            // 1000 to 16000 Hz in hundredths of a hertz, in one word.
            let cut = (0..5).any(|power| 100_000_u32 << power & 0xFFFF == u32::from(word(at)));
            note(cut, "953, lowest frequency of 1000 Hz or more, cut to a word: 8");
        }
        (Some(Model::Svan953), 8, "0E", "bands") => {
            note(under(at - 3), "953, 0E under its counts, bands off: 8");
            note(!under(at - 3), "953, 0E long enough, bands off: 8");
            note((1..=15).contains(&word(at)), "953, bands that the list has, but not from here: 8");
        }
        (Some(Model::Svan953), 8, "0E", "totals") => {
            note(under(at - 4), "953, 0E under its counts, totals off: 8");
            note(!under(at - 4), "953, 0E long enough, totals off: 8");
        }
        _ => {}
    }
    names
}
