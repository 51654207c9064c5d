//! What one index of a run compares: a file, and the labels, outputs and line numbers it is asked with.

use crate::damage::{damaged, junk, too_long};
use crate::files::{accepted, bytes, lengthen, MOST_WORDS};
use crate::random::Random;
use crate::texts::text;

pub struct Case {
    pub file: Vec<u8>,
    /// Made to be accepted.
    pub sound: bool,
    /// The same file with additions.
    pub longer: Option<Vec<u8>>,
}

pub fn case(random: &mut Random) -> Case {
    let refused = |file| Case { file, sound: false, longer: None };
    match random.below(500) {
        0 => {
            let draft = accepted(random, 20);
            refused(too_long(random, draft))
        }
        1..=15 => refused(junk(random)),
        16..=240 => sound_case(random),
        _ => {
            let draft = accepted(random, 200);
            refused(damaged(random, draft))
        }
    }
}

fn sound_case(random: &mut Random) -> Case {
    let draft = accepted(random, 100);
    let file = bytes(&draft.words());
    let mut longer = None;
    if random.one_in(3) {
        let mut draft = draft;
        let large = random.one_in(100);
        lengthen(random, &mut draft, MOST_WORDS, large);
        longer = Some(bytes(&draft.words()));
    }
    Case { file, sound: true, longer }
}

/// A label: mostly short or empty, at times around the longest one.
pub fn label(random: &mut Random) -> Vec<u8> {
    let len = match random.below(40) {
        0..=9 => 0,
        10 => 506,
        11..=14 => 507,
        15 => 508,
        16 => random.pick(&[509, 600, 1_024, 65_536, 65_540]),
        17 => random.between(100, 507),
        _ => random.between(1, 30),
    };
    // Nulls are bytes of a label like any other.
    if len > 1_024 || random.one_in(4) {
        return random.bytes(len);
    }
    text(random, len)
}

/// The first line to ask for, of a sheet with so many lines.
pub fn line_number(random: &mut Random, lines: usize) -> u32 {
    let lines = lines as u32;
    match random.below(14) {
        0..=5 => 0,
        6 | 7 => random.below(lines as usize + 1) as u32,
        8 => lines.saturating_sub(1),
        9 => lines,
        10 => lines + 1,
        // In the head, and the title line, which is the last of it.
        11 => random.between(1, 5) as u32,
        12 => 5,
        _ => random.pick(&[u32::MAX, 1 << 31, 65_536, lines + 65_536, u32::MAX - lines]),
    }
}

/// The bytes of these lines up to the end of the title line, 0 if it is not among them.
fn title_end(lines: &[Vec<u8>]) -> usize {
    let is_title = |line: &Vec<u8>| line.starts_with(b"title=") || line.starts_with(b"\"title=");
    let through = lines.iter().take(6).position(is_title).map_or(0, |place| place + 1);
    lines[..through].iter().map(Vec::len).sum()
}

/// The length of an output for these lines.
pub fn sheet_room(random: &mut Random, lines: &[Vec<u8>]) -> usize {
    let total: usize = lines.iter().map(Vec::len).sum();
    let near = |random: &mut Random, len: usize| (len + random.below(3)).saturating_sub(1);
    // A title line that an output may be too short for: the text has hundreds of quotes.
    let title_end = title_end(lines);
    if title_end >= 1_023 && random.one_in(2) {
        return near(random, title_end);
    }
    match random.below(16) {
        0 => random.pick(&[0, 1, 2, 512, 1_022]),
        1 => random.below(1_024),
        2..=4 => near(random, 1_024),
        5..=8 if total >= 1_024 => near(random, total),
        // Some whole lines, and a byte less or more.
        9 | 10 if total >= 1_024 => {
            let count = random.between(0, lines.len());
            near(random, lines[..count].iter().map(Vec::len).sum())
        }
        11 => random.below(70_000),
        12 => 65_536 + random.below(1_024),
        _ => random.between(1_024, 3_000),
    }
}

/// The length of an output for a slim copy of this length.
pub fn slim_room(random: &mut Random, slim: usize) -> usize {
    match random.below(10) {
        0 => 0,
        1 => random.below(slim + 1),
        2 => random.below(70_000),
        3 => slim + random.between(2, 200),
        _ => (slim + random.below(3)).saturating_sub(1),
    }
}

/// The pointer of what has no bytes.
pub fn nowhere(random: &mut Random) -> usize {
    random.pick(&[0, 1, 4_096, usize::MAX])
}
