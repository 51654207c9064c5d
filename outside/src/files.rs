//! Accepted files of both models and all kinds, and additions to them.

use crate::check::{first_band, least, least_sub, Model, LISTED, LOWEST};
use crate::random::Random;
use crate::texts::text;

/// "A meter file is 16-bit words, 32,768 at most".
pub const MOST_WORDS: usize = 32_768;

/// What a piece of a file is.
#[derive(Clone, Copy, Debug, PartialEq, Eq)]
pub enum Kind {
    /// A block of a listed id.
    Listed(u8),
    /// A block of another id.
    Other,
    /// The raw words after an 0F block.
    Contents,
    End,
}

#[derive(Clone, Debug)]
pub struct Piece {
    pub kind: Kind,
    pub words: Vec<u16>,
}

/// A file in pieces.
#[derive(Clone, Debug)]
pub struct Draft {
    /// The model it was made for.
    pub model: Model,
    pub pieces: Vec<Piece>,
}

impl Draft {
    pub fn len(&self) -> usize {
        self.pieces.iter().map(|piece| piece.words.len()).sum()
    }

    pub fn words(&self) -> Vec<u16> {
        self.pieces.iter().flat_map(|piece| piece.words.iter().copied()).collect()
    }

    /// The index of the piece with this listed id.
    pub fn find(&self, id: u8) -> Option<usize> {
        self.pieces.iter().position(|piece| piece.kind == Kind::Listed(id))
    }

    fn push(&mut self, id: u8, words: Vec<u16>) {
        self.pieces.push(Piece { kind: Kind::Listed(id), words });
    }
}

pub fn bytes(words: &[u16]) -> Vec<u8> {
    words.iter().flat_map(|word| word.to_le_bytes()).collect()
}

/// What an accepted file shall hold.
struct Plan {
    model: Model,
    /// Of the 953, with such words alone that it is accepted as a 945 too.
    both: bool,
    function: u16,
    /// 07 and what follows it, else 0F.
    results: bool,
    statistics: bool,
    /// Words for classes or records; 0 lets them be few.
    room: usize,
}

/// An accepted file with additions or without. One in `rare` is large.
pub fn accepted(random: &mut Random, rare: usize) -> Draft {
    let large = random.one_in(rare);
    let plan = plan(random, large);
    let mut draft = least_file(random, &plan);
    if plan.model == Model::Svan953 && random.one_in(3) {
        unlisted(random, &mut draft);
    }
    if large {
        lengthen(random, &mut draft, MOST_WORDS, true);
        // Mostly filled to the last word that a file may have, or nearly.
        let words = random.pick(&[MOST_WORDS, MOST_WORDS, MOST_WORDS - 1, MOST_WORDS - 2, 0]);
        fill_up(random, &mut draft, words);
    } else if !random.one_in(4) {
        lengthen(random, &mut draft, MOST_WORDS, false);
    }
    if plan.both && random.one_in(2) {
        switch_unit_type(&mut draft);
    }
    draft
}

/// Two files in five are of the 953, one in six of these such that the unit type alone decides.
fn plan(random: &mut Random, large: bool) -> Plan {
    let room = if large { random.pick(&[0, 3_000, 20_000, 32_000, 32_000]) } else { 0 };
    if random.below(5) < 3 {
        let function = random.between(1, 3) as u16;
        let shape = random.below(4);
        return Plan { model: Model::Svan945, both: false, function, results: shape < 2, statistics: shape == 1, room };
    }
    let both = random.one_in(6);
    let function = if both { random.between(1, 2) as u16 } else { random.pick(&[1, 2, 2, 4]) };
    Plan { model: Model::Svan953, both, function, results: true, statistics: random.one_in(2), room }
}

/// A file with every block of its least length.
fn least_file(random: &mut Random, plan: &Plan) -> Draft {
    let mut draft = Draft { model: plan.model, pieces: Vec::new() };
    draft.push(0x01, file_header(random));
    draft.push(0x02, unit(random, plan.model));
    draft.push(0x03, title_block(random));
    draft.push(0x04, settings(random, plan));
    let profiles = profiles(random, plan);
    draft.push(0x05, profiles.clone());
    if plan.results {
        draft.push(0x07, results(random, plan.model));
        match (plan.model, plan.function) {
            (Model::Svan953, 2) => draft.push(0x0E, octaves(random, plan.both)),
            (Model::Svan945, 2) => draft.push(0x0E, spectrum(random, 0x0E)),
            (Model::Svan945, 3) => draft.push(0x10, spectrum(random, 0x10)),
            _ => {}
        }
        if plan.statistics {
            statistics(random, &mut draft, plan.room);
        }
    } else {
        buffer(random, &mut draft, &profiles, plan);
    }
    draft.pieces.push(Piece { kind: Kind::End, words: vec![0xFFFF] });
    draft
}

/// The other unit type in block 02, everything else as it was.
pub fn switch_unit_type(draft: &mut Draft) {
    let Some(index) = draft.find(0x02) else {
        return;
    };
    if let Some(unit_type) = draft.pieces[index].words.get_mut(2) {
        (*unit_type, draft.model) = match draft.model {
            Model::Svan945 => (953, Model::Svan953),
            Model::Svan953 => (945, Model::Svan945),
        };
    }
}

/// Blocks that a 953 writes and that are not listed, behind those where its files have them (parts B.3 and B.6 of document 001).
fn unlisted(random: &mut Random, draft: &mut Draft) {
    // Each is put right behind the listed one, so that the last comes first.
    for (behind, id) in
        [(0x0E, 0x27), (0x0E, 0x26), (0x07, 0x17), (0x05, 0x21), (0x04, 0x2E), (0x04, 0x2C), (0x04, 0x2B)]
    {
        let Some(index) = draft.find(behind) else {
            continue;
        };
        if random.one_in(4) {
            continue;
        }
        let mut words = match id {
            // "min. spectrum results" and "max. spectrum results" have the words of 0E.
            0x26 | 0x27 if random.one_in(2) => draft.pieces[index].words.clone(),
            0x26 | 0x27 => octaves(random, false),
            0x17 => {
                let levels = random.below(11);
                any_words(random, 3 + 4 * levels)
            }
            0x21 => any_words(random, 19),
            0x2E => any_words(random, 10),
            _ => any_words(random, 7),
        };
        words[0] = header(id, words.len());
        draft.pieces.insert(index + 1, Piece { kind: Kind::Other, words });
    }
}

/// A first word.
pub fn header(id: u8, nn: usize) -> u16 {
    u16::from_le_bytes([id, nn as u8])
}

/// Words that a reader may take for something else.
const TELLING: [u16; 32] = [
    0xFFFF, 0x8000, 0x7FFF, 0x0000, 0x0001, 0x0009, 0x000A, 0xFFFB, 0xFFF6, 0xFFF7, 0x0C01, 0x0602, 0x0203, 0x1704,
    0x1405, 0x2C07, 0x170E, 0x3510, 0x0E09, 0x010B, 0x080F, 0x0307, 0x0703, 0x0606, 0x0A02, 0x1C04, 0x2F07, 0x0F08,
    0x120E, 0x0101, 945, 953,
];

/// Any word: plain random, telling, or a usual level.
pub fn any_word(random: &mut Random) -> u16 {
    match random.below(4) {
        0 => random.pick(&TELLING),
        1 => random.between(150, 1400) as u16,
        _ => random.word(),
    }
}

pub fn any_words(random: &mut Random, count: usize) -> Vec<u16> {
    (0..count).map(|_| any_word(random)).collect()
}

/// Any number of a field: random, or one at a boundary.
fn any_number(random: &mut Random) -> u16 {
    match random.below(2) {
        0 => random.pick(&[0, 1, 9, 10, 99, 100, 999, 1000, 9999, 10_000, 32_767, 32_768, 65_535]),
        _ => random.word(),
    }
}

/// Result 10, a percentage in a 945: a number as the meter has it, one at a boundary, or any word. In a 953 it is a level.
fn any_percentage(random: &mut Random) -> u16 {
    match random.below(3) {
        0 => random.below(100) as u16,
        1 => any_number(random),
        _ => any_word(random),
    }
}

fn words_of(bytes: &[u8]) -> Vec<u16> {
    bytes.chunks_exact(2).map(|pair| u16::from_le_bytes([pair[0], pair[1]])).collect()
}

fn file_header(random: &mut Random) -> Vec<u16> {
    let len = random.pick(&[0, 1, 3, 5, 7, 8, 8]);
    let mut name = text(random, len);
    if len < 8 {
        name.push(0);
        name.extend(match random.below(4) {
            0 | 1 => vec![0; 7 - len],
            2 => random.bytes(7 - len),
            _ => text(random, 7 - len),
        });
    }
    let mut words = vec![header(0x01, 12)];
    words.extend(words_of(&name));
    words.extend(any_words(random, 7));
    words
}

fn unit(random: &mut Random, model: Model) -> Vec<u16> {
    let unit_type = match model {
        Model::Svan945 => 945,
        Model::Svan953 => 953,
    };
    let count = least(model, 0x02);
    let mut words = vec![header(0x02, count), any_number(random), unit_type, any_number(random)];
    words.extend(any_words(random, count - 4));
    words
}

/// A title: its text, a null, and a byte to fill the word, mostly a second null.
fn title_block(random: &mut Random) -> Vec<u16> {
    let len = match random.below(40) {
        0 | 1 => random.pick(&[505, 506, 507, 507]),
        2 => random.between(100, 507),
        3..=13 => 0,
        14..=18 => random.between(1, 3),
        _ => random.between(1, 40),
    };
    let mut bytes = text(random, len);
    bytes.push(0);
    if bytes.len() % 2 == 1 {
        let any = random.byte();
        bytes.push(random.pick(&[0, 0, 0, 0, any, b',', b'"']));
    }
    let mut words = vec![header(0x03, 1 + bytes.len() / 2)];
    words.extend(words_of(&bytes));
    words
}

fn settings(random: &mut Random, plan: &Plan) -> Vec<u16> {
    let count = least(plan.model, 0x04);
    let mut words = vec![header(0x04, count)];
    words.extend(any_words(random, count - 1));
    words[3] = plan.function;
    // With other functions than 2 and 3 the filter and the buffering are not checked.
    let spectrum = matches!(plan.function, 2 | 3);
    if (plan.model == Model::Svan945 || plan.both) && (spectrum || random.one_in(2)) {
        words[21] = random.below(4) as u16;
        words[22] = random.below(2) as u16;
    }
    if plan.model == Model::Svan953 && (spectrum || random.one_in(2)) {
        words[14] = random.pick(&[0, 2, 3]);
        words[15] = random.below(2) as u16;
    }
    words
}

fn profiles(random: &mut Random, plan: &Plan) -> Vec<u16> {
    let none = random.one_in(10);
    let (filters, codes): (&[u16], usize) = match plan.model {
        Model::Svan953 if plan.both => (&[2, 3], 4),
        Model::Svan953 => (&[0, 2, 3], 15),
        Model::Svan945 => (&[1, 2, 3, 4], 4),
    };
    let mut words = vec![header(0x05, 20), 0x0307];
    for _ in 0..3 {
        let code = if none { 0 } else { random.between(0, codes) as u16 };
        words.push(header(0x06, 6));
        words.push(any_word(random));
        words.push(random.pick(filters));
        words.push(code);
        words.extend(any_words(random, 2));
    }
    words
}

fn results(random: &mut Random, model: Model) -> Vec<u16> {
    let sub = match model {
        Model::Svan945 => 14,
        Model::Svan953 => 15,
    };
    let mut words = vec![header(0x07, 2 + 3 * sub), 0x0307];
    for _ in 0..3 {
        words.push(header(0x08, sub));
        words.extend([any_number(random), if random.one_in(2) { 0 } else { any_number(random) }]);
        words.extend(any_words(random, 9));
        words.push(any_percentage(random));
        words.extend(any_words(random, sub - 13));
    }
    words
}

/// The 945's 0E or 10.
fn spectrum(random: &mut Random, id: u8) -> Vec<u16> {
    let (lowest, bands) = if id == 0x0E { (100, 15) } else { (80, 45) };
    spectrum_of(random, id, lowest, bands, 3)
}

/// The 953's 0E: as the meter has it, as the 945 has it, or of any bands and totals.
fn octaves(random: &mut Random, both: bool) -> Vec<u16> {
    let lowest = random.pick(&LOWEST);
    let left = bands_left(lowest).expect("a frequency of the list");
    let some = random.between(1, usize::from(left)) as u16;
    let bands = random.pick(&[1, left, some, some]);
    let totals = random.below(4) as u16;
    match random.below(12) {
        _ if both => spectrum_of(random, 0x0E, 100, 15, 3),
        0 => spectrum_of(random, 0x0E, 3_150, 10, 3),
        _ => spectrum_of(random, 0x0E, lowest, bands, totals),
    }
}

/// "the bands left from there": the list has 15.
pub fn bands_left(lowest: u16) -> Option<u16> {
    first_band(lowest).map(|first| 15 - first as u16)
}

fn spectrum_of(random: &mut Random, id: u8, lowest: u16, bands: u16, totals: u16) -> Vec<u16> {
    let levels = usize::from(bands + totals);
    let mut words = vec![header(id, 5 + levels), 0x0101, lowest, bands, totals];
    words.extend(any_words(random, levels));
    words
}

/// A 09 block and its three histograms.
fn statistics(random: &mut Random, draft: &mut Draft, room: usize) {
    let mut words = vec![header(0x09, 14), 0x0703];
    let mut histograms = Vec::new();
    let mut left = room / 2;
    for mask in [1, 2, 4] {
        let few = random.between(3, 12);
        let many = if random.one_in(3) { left } else { random.between(0, left) };
        let classes = if room == 0 { random.pick(&[0, 1, 2, few]) } else { many };
        left = left.saturating_sub(classes);
        let bottom = if random.one_in(2) { 240 } else { any_word(random) };
        let other = random.word();
        let width = random.pick(&[0, 1, 5, 10, 65_535, 65_535, other]);
        words.extend([header(0x0A, 4), classes as u16, bottom, width]);
        let mut histogram = vec![header(0x0B, mask), 2 * classes as u16 + 2];
        for _ in 0..classes {
            let high = if random.one_in(2) { 0 } else { any_number(random) };
            histogram.extend([any_number(random), high]);
        }
        histograms.push(histogram);
    }
    draft.push(0x09, words);
    for histogram in histograms {
        draft.push(0x0B, histogram);
    }
}

/// An 0F block and its contents.
fn buffer(random: &mut Random, draft: &mut Draft, profiles: &[u16], plan: &Plan) {
    let at = draft.find(0x04).expect("the settings come earlier");
    let bands = match (plan.function, draft.pieces[at].words[22]) {
        (2, 0) => 15,
        (3, 0) => 45,
        _ => 0,
    };
    let buffered = [5, 11, 17].iter().filter(|offset| profiles[**offset] != 0).count();
    let record = buffered + if bands == 0 { 0 } else { bands + 3 };
    let records = match (record, plan.room) {
        (0, _) => 0,
        (_, 0) => few_records(random, record),
        (_, room) => random.between(room / record / 2, room / record),
    };
    let contents = any_words(random, records * record);
    let length = (2 * contents.len()) as u32;
    let mut words = vec![header(0x0F, 8), any_number(random), any_number(random)];
    words.extend(match bands {
        0 => any_words(random, 3),
        15 => vec![100, 15, 3],
        _ => vec![80, 45, 3],
    });
    words.extend([length as u16, (length >> 16) as u16]);
    draft.push(0x0F, words);
    draft.pieces.push(Piece { kind: Kind::Contents, words: contents });
}

fn few_records(random: &mut Random, record: usize) -> usize {
    match random.below(4) {
        0 => random.between(0, 2),
        1 => random.between(3, 400 / record + 3),
        _ => random.between(1, 8),
    }
}

/// The additions of the third demand, while a file has at most `most` words.
pub fn lengthen(random: &mut Random, draft: &mut Draft, most: usize, large: bool) {
    let eager = random.between(1, 6);
    for index in 0..draft.pieces.len() {
        let Kind::Listed(id) = draft.pieces[index].kind else {
            continue;
        };
        // "Histograms and logger contents stay as they are."
        if id == 0x0B {
            continue;
        }
        let room = most.saturating_sub(draft.len());
        let words = &mut draft.pieces[index].words;
        if id == 0x03 && random.one_in(2) {
            alter_title(random, words);
        }
        let subs = if least_sub(draft.model, id).is_some() { 3 } else { 0 };
        for sub in 0..subs {
            if random.one_in(eager) {
                let extra = extra_words(random, room.min(255 - words.len()) / 4);
                lengthen_sub(words, sub, &extra);
            }
        }
        if random.one_in(eager) {
            let extra = extra_words(random, room.saturating_sub(200).min(255 - words.len()));
            words.extend(extra);
            words[0] = header(id, words.len());
        }
    }
    for _ in 0..random.pick(&[0, 0, 1, 2, 3, 8]) {
        let block = other_block(random, large);
        if draft.len() + block.len() <= most {
            insert_other(random, draft, block);
        }
    }
}

/// A few words, at times all that there is room for.
fn extra_words(random: &mut Random, room: usize) -> Vec<u16> {
    let count = match random.below(20) {
        0 => room,
        1 => random.between(0, room),
        _ => random.between(1, 4).min(room),
    };
    any_words(random, count)
}

/// "alter bytes of the title block behind its first null"
fn alter_title(random: &mut Random, words: &mut [u16]) {
    let mut bytes = bytes(&words[1..]);
    let null = bytes.iter().position(|byte| *byte == 0).expect("a null in the title");
    random.fill(&mut bytes[null + 1..]);
    words[1..].copy_from_slice(&words_of(&bytes));
}

/// The start of sub-block 0, 1 or 2, found by the lengths.
pub fn sub_start(words: &[u16], sub: usize) -> usize {
    (0..sub).fold(2, |at, _| at + usize::from(words.get(at).map_or(0, |word| word >> 8)))
}

fn lengthen_sub(words: &mut Vec<u16>, sub: usize, extra: &[u16]) {
    let start = sub_start(words, sub);
    let [id, length] = words[start].to_le_bytes();
    let end = start + usize::from(length);
    words.splice(end..end, extra.iter().copied());
    words[start] = header(id, usize::from(length) + extra.len());
    words[0] = header(words[0] as u8, words.len());
}

/// Ids of band statistics and FFT, of sub-blocks, at the ends, and those that a 953 writes.
#[rustfmt::skip]
const USUAL: [u8; 18] = [
    0x14, 0x14, 0x12, 0x13, 0x15, 0x06, 0x08, 0x0A, 0x00, 0xFF, 0x99,
    0x2B, 0x2C, 0x2E, 0x21, 0x17, 0x26, 0x27,
];

/// An id that is not listed.
pub fn other_id(random: &mut Random) -> u8 {
    loop {
        let id = if random.one_in(3) { random.byte() } else { random.pick(&USUAL) };
        if !LISTED.contains(&id) {
            return id;
        }
    }
}

/// A whole block of an id that is not listed, its first word not FFFF.
pub fn other_block(random: &mut Random, large: bool) -> Vec<u16> {
    let id = other_id(random);
    let long = id == 0x14 || random.one_in(3);
    if !long {
        let most = if id == 0xFF { 254 } else { 255 };
        let length = match random.below(20) {
            0 => most,
            1 => random.between(1, most),
            2..=9 => random.between(1, 3),
            _ => random.between(1, 20),
        };
        return block_of(random, header(id, length), length, false);
    }
    let nn = if id == 0x14 { random.between(0, 255) } else { 0 };
    let hundreds = large || random.one_in(30);
    let length = match random.below(3) {
        0 if large => random.between(2, 12_000),
        1 if hundreds => random.between(256, 900),
        2 => random.between(2, 3),
        _ => random.between(2, 30),
    };
    block_of(random, header(id, nn), length, true)
}

fn block_of(random: &mut Random, first: u16, length: usize, long: bool) -> Vec<u16> {
    let mut words = any_words(random, length);
    words[0] = first;
    if long {
        words[1] = length as u16;
    }
    words
}

/// Puts a block at a boundary: "not before the file header, between a logger header and its contents, or after the end marker".
fn insert_other(random: &mut Random, draft: &mut Draft, words: Vec<u16>) {
    let places: Vec<usize> =
        (1..draft.pieces.len()).filter(|place| draft.pieces[*place].kind != Kind::Contents).collect();
    let place = random.pick(&places);
    draft.pieces.insert(place, Piece { kind: Kind::Other, words });
}

/// Brings a file to this number of words by one more block, if it is shorter.
pub fn fill_up(random: &mut Random, draft: &mut Draft, words: usize) {
    let missing = words.saturating_sub(draft.len());
    if missing == 0 {
        return;
    }
    let block = match missing {
        1 => vec![header(0x99, 1)],
        _ => block_of(random, header(0x12, 0), missing, true),
    };
    insert_other(random, draft, block);
}
