//! Damages to accepted files, and files that never were good.

use crate::check::{least, least_sub, Model, LISTED, LOWEST};
use crate::files::{
    accepted, any_words, bands_left, bytes, fill_up, header, other_block, other_id, sub_start, switch_unit_type, Draft,
    Kind, Piece, MOST_WORDS,
};
use crate::random::Random;

/// A file with one to three damages.
pub fn damaged(random: &mut Random, mut draft: Draft) -> Vec<u8> {
    let times = random.pick(&[1, 1, 1, 2, 2, 3]);
    let in_words = random.below(8) == 0;
    for _ in 0..if in_words { times - 1 } else { times } {
        damage(random, &mut draft);
    }
    let mut words = draft.words();
    if in_words {
        damage_words(random, &mut words);
    }
    let mut bytes = bytes(&words);
    if random.one_in(12) {
        damage_bytes(random, &mut bytes);
    }
    bytes
}

/// One damage to the pieces of a file.
fn damage(random: &mut Random, draft: &mut Draft) {
    if draft.pieces.is_empty() {
        return;
    }
    match random.below(48) {
        0..=5 => change_checked_word(random, draft),
        6 => remove(random, draft),
        7 => double(random, draft),
        8 => swap(random, draft),
        9 => change_id(random, draft),
        10 => change_count(random, draft),
        11..=13 => change_size(random, draft),
        14..=17 => long_form(random, draft),
        18..=21 => damage_sub(random, draft),
        22 => damage_end(random, draft),
        23 | 24 => change_buffer_length(random, draft),
        25 => damage_title(random, draft),
        26..=29 => stub(random, draft),
        30..=32 => bad_block(random, draft),
        33 => change_mask(random, draft),
        34 => foreign(random, draft),
        35 => change_contents(random, draft),
        36 => switch_unit_type(draft),
        37 => damage_unit(random, draft),
        38..=42 => damage_octaves(random, draft),
        43..=45 => damage_settings(random, draft),
        _ => never_due(random, draft),
    }
}

/// A piece that is a listed block; the later ones as often as the first five.
fn listed(random: &mut Random, draft: &Draft) -> usize {
    let is_listed = |index: &usize| matches!(draft.pieces[*index].kind, Kind::Listed(_));
    let all: Vec<usize> = (0..draft.pieces.len()).filter(is_listed).collect();
    if all.is_empty() {
        return 0;
    }
    let late = all.len().saturating_sub(5);
    if late > 0 && random.one_in(2) {
        return all[all.len() - 1 - random.below(late)];
    }
    random.pick(&all)
}

/// A word that the documents check or read the structure from, and values that one model has or its neighbours.
type Checked = (usize, &'static [u16]);

const UNIT_TYPES: &[u16] = &[944, 945, 946, 952, 953, 954, 957, 959];
const FUNCTIONS: &[u16] = &[0, 1, 2, 3, 4, 5];
const SPECTRUM_FILTERS: &[u16] = &[0, 1, 1, 4, 4];
const BUFFERINGS: &[u16] = &[0, 1, 2];
const PROFILE_FILTERS: &[u16] = &[0, 1, 4, 5];
const BUFFER_CODES: &[u16] = &[4, 5, 15, 16, 17, 0x0100];

fn checked_words(model: Model, piece: &Piece) -> Vec<Checked> {
    let id = match piece.kind {
        Kind::Listed(id) => id,
        _ => 0,
    };
    let mut checked: Vec<Checked> = match id {
        0x02 => vec![(0, &[]), (2, UNIT_TYPES), (2, UNIT_TYPES), (2, UNIT_TYPES)],
        0x04 => {
            let (filter, buffering) = if model == Model::Svan953 { (14, 15) } else { (21, 22) };
            let both = [(filter, SPECTRUM_FILTERS), (buffering, BUFFERINGS)];
            [vec![(0, &[][..]), (3, FUNCTIONS), (3, FUNCTIONS)], both.repeat(2)].concat()
        }
        0x0E | 0x10 => (0..5).map(|offset| (offset, &[][..])).collect(),
        0x0F => [0, 3, 4, 5, 6, 7].map(|offset| (offset, &[][..])).to_vec(),
        _ => vec![(0, &[]), (1, &[])],
    };
    if least_sub(model, id).is_some() {
        checked.extend([(1, &[][..]); 2]);
        for sub in 0..3 {
            let start = sub_start(&piece.words, sub);
            checked.extend([(start, &[][..]), (start + 1, &[][..])]);
            if id == 0x05 {
                checked.extend([(start + 2, PROFILE_FILTERS), (start + 3, BUFFER_CODES)].repeat(2));
            }
        }
    }
    checked.retain(|(offset, _)| *offset < piece.words.len());
    checked
}

/// Another value for a word: near, at a boundary, a small one, or any.
fn changed(random: &mut Random, word: u16) -> u16 {
    match random.below(10) {
        0 | 1 => word.wrapping_add(1),
        2 | 3 => word.wrapping_sub(1),
        4 => 0,
        5 => 0xFFFF,
        6 => word.swap_bytes(),
        7 => random.below(6) as u16,
        8 => word ^ (1 << random.below(16)),
        _ => random.word(),
    }
}

fn change_checked_word(random: &mut Random, draft: &mut Draft) {
    let index = if random.one_in(10) { random.below(draft.pieces.len()) } else { listed(random, draft) };
    let checked = checked_words(draft.model, &draft.pieces[index]);
    if checked.is_empty() {
        return;
    }
    let (offset, values) = random.pick(&checked);
    let word = &mut draft.pieces[index].words[offset];
    *word = if !values.is_empty() && random.one_in(2) { random.pick(values) } else { changed(random, *word) };
}

fn remove(random: &mut Random, draft: &mut Draft) {
    let index = if random.one_in(4) { random.below(draft.pieces.len()) } else { listed(random, draft) };
    if draft.pieces.len() > 1 {
        draft.pieces.remove(index);
    }
}

/// A piece once more, right behind itself or elsewhere.
fn double(random: &mut Random, draft: &mut Draft) {
    let piece = draft.pieces[listed(random, draft)].clone();
    let place = random.between(0, draft.pieces.len());
    draft.pieces.insert(place, piece);
}

/// Two pieces change places, or one goes elsewhere.
fn swap(random: &mut Random, draft: &mut Draft) {
    let from = listed(random, draft);
    let to = random.below(draft.pieces.len());
    if random.one_in(2) {
        draft.pieces.swap(from, to);
    } else {
        let piece = draft.pieces.remove(from);
        draft.pieces.insert(to.min(draft.pieces.len()), piece);
    }
}

fn change_id(random: &mut Random, draft: &mut Draft) {
    let index = random.below(draft.pieces.len());
    let id = match random.below(3) {
        0 => other_id(random),
        _ => random.pick(&LISTED),
    };
    if let Some(first) = draft.pieces[index].words.first_mut() {
        *first = *first & 0xFF00 | u16::from(id);
    }
}

/// Sets the count of a block, wherever it stands, and leaves the words.
fn set_count(words: &mut [u16], change: impl Fn(u16) -> u16) {
    let Some(&first) = words.first() else {
        return;
    };
    let [id, nn] = first.to_le_bytes();
    if id == 0x0B || id == 0x14 || nn == 0 {
        if let Some(count) = words.get_mut(1) {
            *count = change(*count);
        }
    } else {
        words[0] = u16::from_le_bytes([id, change(u16::from(nn)) as u8]);
    }
}

fn change_count(random: &mut Random, draft: &mut Draft) {
    let index = random.below(draft.pieces.len());
    let other = u16::from(random.byte());
    let value = random.pick(&[0, 1, 2, 255, other]);
    let words = &mut draft.pieces[index].words;
    match random.below(3) {
        0 => set_count(words, |count| count.wrapping_add(1)),
        1 => set_count(words, |count| count.wrapping_sub(1)),
        _ => set_count(words, |_| value),
    }
}

/// A block that truly has fewer or more words than it should, its count set to match.
fn change_size(random: &mut Random, draft: &mut Draft) {
    let index = listed(random, draft);
    let words = &mut draft.pieces[index].words;
    let size = match random.below(4) {
        0 => random.between(1, words.len().max(1)),
        1 => words.len() + random.between(1, 3),
        _ => words.len().saturating_sub(random.between(1, 3)).max(1),
    };
    let size = match draft.pieces[index].kind {
        Kind::Listed(id) if random.one_in(2) => least(draft.model, id) - 1,
        _ => size,
    };
    let words = &mut draft.pieces[index].words;
    words.resize(size, random.word());
    let size = words.len() as u16;
    set_count(words, |_| size);
    if random.one_in(10) {
        draft.pieces.truncate(index + 1);
    }
}

/// A block in the long form, rightly counted or with its count only taken away.
fn long_form(random: &mut Random, draft: &mut Draft) {
    let index = listed(random, draft);
    let words = &mut draft.pieces[index].words;
    if words.is_empty() {
        return;
    }
    words[0] &= 0x00FF;
    if random.one_in(2) {
        words.insert(1, 0);
    }
    let count = words.len() as u16;
    if words.len() > 1 && !random.one_in(8) {
        words[1] = random.pick(&[count, count, count, count, count, count + 1, 0, 1]);
    }
}

fn damage_sub(random: &mut Random, draft: &mut Draft) {
    let places: Vec<usize> = [0x05, 0x07, 0x09, 0x09, 0x09].iter().filter_map(|id| draft.find(*id)).collect();
    if places.is_empty() {
        return;
    }
    let index = random.pick(&places);
    // At times nothing follows: a reader must not look behind the block.
    if random.one_in(5) {
        draft.pieces.truncate(index + 1);
    }
    let words = &mut draft.pieces[index].words;
    let start = sub_start(words, random.below(3));
    let Some(first) = words.get(start).copied() else {
        return;
    };
    let [id, length] = first.to_le_bytes();
    match random.below(10) {
        0 => words[start] = first.wrapping_add(0x0100),
        1 => words[start] = first.wrapping_sub(0x0100),
        2 => words[start] = first & 0x00FF,
        3 => words[start] = first | 0xFF00,
        4 => words[start] = first & 0xFF00 | random.pick(&[0x06, 0x08, 0x0A, 0xFF, 0x00, 0x86]),
        5 => words[start] = u16::from_le_bytes([id, random.byte()]),
        // A sub-block up to the block's end leaves no room for the next one.
        6 | 7 => words[start] = header(id, words.len() - start),
        _ => {
            let end = (start + usize::from(length)).min(words.len());
            words.truncate(end);
            let count = words.len() as u16;
            set_count(words, |_| count);
        }
    }
}

fn damage_end(random: &mut Random, draft: &mut Draft) {
    let end = Piece { kind: Kind::End, words: vec![0xFFFF] };
    match random.below(6) {
        0 => {
            draft.pieces.pop();
        }
        1 => draft.pieces.insert(random.between(0, draft.pieces.len()), end),
        2 => draft.pieces.push(end),
        3 => draft.pieces.push(Piece { kind: Kind::Other, words: vec![0] }),
        4 => draft.pieces.push(Piece { kind: Kind::Other, words: other_block(random, false) }),
        _ => {
            let place = listed(random, draft);
            draft.pieces.insert(place, end);
        }
    }
}

/// A length that holds whole records of each size there is: 1, 2, 3, 18 to 21 and 48 to 51 words.
const WHOLE: u32 = 2 * (16 * 9 * 25 * 49 * 17 * 19);

fn change_buffer_length(random: &mut Random, draft: &mut Draft) {
    let Some(index) = draft.find(0x0F) else {
        return change_checked_word(random, draft);
    };
    let words = &mut draft.pieces[index].words;
    if words.len() < 8 {
        return;
    }
    let length = u32::from(words[7]) << 16 | u32::from(words[6]);
    let length = match random.below(8) {
        0 => length.wrapping_add(1),
        1 => length.wrapping_sub(1),
        2 => length.wrapping_add(2),
        3 => length.wrapping_sub(2),
        4 => length.wrapping_add(WHOLE * random.between(1, 37) as u32),
        5 => length ^ (1 << random.between(16, 31)),
        6 => length.wrapping_mul(2),
        _ => random.next() as u32,
    };
    words[6] = length as u16;
    words[7] = (length >> 16) as u16;
}

/// A title without its null, or with one in the last byte only.
fn damage_title(random: &mut Random, draft: &mut Draft) {
    let Some(index) = draft.find(0x03) else {
        return;
    };
    let words = &mut draft.pieces[index].words;
    for word in words.iter_mut().skip(1) {
        *word = u16::from_le_bytes(word.to_le_bytes().map(|byte| byte.max(0x41)));
    }
    if random.one_in(4) {
        let last = words.len() - 1;
        words[last] &= 0x00FF;
    }
}

/// A listed id, or at times 14, which has its length in word 1 too, or another.
fn any_id(random: &mut Random) -> u8 {
    match random.below(LISTED.len() + 3) {
        0 | 1 => other_id(random),
        2 => 0x14,
        _ => random.pick(&LISTED),
    }
}

/// A file that stops at a boundary, with a first word and perhaps a count left behind it.
fn stub(random: &mut Random, draft: &mut Draft) {
    let place = random.below(draft.pieces.len());
    draft.pieces.truncate(place);
    let id = any_id(random);
    let nn = if random.one_in(5) { random.below(60) } else { 0 };
    let mut words = vec![header(id, nn)];
    if random.one_in(3) {
        words.push(random.pick(&[0, 1, 2, 3, 3, 65_535]));
    }
    draft.pieces.push(Piece { kind: Kind::Other, words });
}

/// A block that is no block at a boundary: in the long form under 2, or a listed one out of its place.
fn bad_block(random: &mut Random, draft: &mut Draft) {
    let place = random.between(0, draft.pieces.len());
    let id = any_id(random);
    let words = match random.below(4) {
        0 | 1 => vec![header(id, 0), random.below(2) as u16],
        2 => vec![header(id, random.pick(&[1, 2, 4])), random.below(3) as u16],
        _ => vec![header(id, 2), 0],
    };
    draft.pieces.insert(place, Piece { kind: Kind::Other, words });
}

/// A piece of another file at a boundary or in the place of one.
fn foreign(random: &mut Random, draft: &mut Draft) {
    let other = accepted(random, usize::MAX);
    let piece = other.pieces[listed(random, &other)].clone();
    let place = listed(random, draft);
    if random.one_in(2) {
        draft.pieces[place] = piece;
    } else {
        draft.pieces.insert(place + random.below(2), piece);
    }
}

/// An 0B with another mask, or of another number of classes.
fn change_mask(random: &mut Random, draft: &mut Draft) {
    let is_histogram = |index: &usize| draft.pieces[*index].kind == Kind::Listed(0x0B);
    let histograms: Vec<usize> = (0..draft.pieces.len()).filter(is_histogram).collect();
    if histograms.is_empty() {
        return change_checked_word(random, draft);
    }
    let words = &mut draft.pieces[random.pick(&histograms)].words;
    if random.one_in(2) {
        words[0] = header(0x0B, random.pick(&[0, 1, 2, 3, 4, 7, 255]));
    } else {
        let size = words.len() + 2;
        words.resize(size, 0);
        words[1] = size as u16;
    }
}

/// Words of the raw contents taken away or put in.
fn change_contents(random: &mut Random, draft: &mut Draft) {
    let Some(piece) = draft.pieces.iter_mut().find(|piece| piece.kind == Kind::Contents) else {
        return change_checked_word(random, draft);
    };
    if random.one_in(2) {
        piece.words.pop();
    } else {
        piece.words.push(random.pick(&[0xFFFF, 0x0101, 0x0000]));
    }
}

/// One or two words of the settings, which each model reads in its own way.
fn damage_settings(random: &mut Random, draft: &mut Draft) {
    for _ in 0..random.between(1, 2) {
        let Some(index) = draft.find(random.pick(&[0x04, 0x05])) else {
            continue;
        };
        let mut checked = checked_words(draft.model, &draft.pieces[index]);
        checked.retain(|(_, values)| !values.is_empty());
        if checked.is_empty() {
            continue;
        }
        let (offset, values) = random.pick(&checked);
        draft.pieces[index].words[offset] = random.pick(values);
    }
}

/// An 02 around its least lengths with any unit type: the two compete.
fn damage_unit(random: &mut Random, draft: &mut Draft) {
    let Some(index) = draft.find(0x02) else {
        return;
    };
    let words = &mut draft.pieces[index].words;
    let size = random.between(2, 11);
    words.resize(size, random.word());
    words[0] = header(0x02, if random.one_in(10) { 0 } else { size });
    let any = random.word();
    if let Some(unit_type) = words.get_mut(2) {
        *unit_type = random.pick(&[945, 953, 953, 952, 954, 947, any]);
    }
}

/// Frequencies off the list: next to it, of the 1/3 list, and what a word holds of 1000 Hz and more.
const OFF_THE_LIST: [u16; 12] = [0, 80, 99, 101, 125, 3_149, 6_400, 34_464, 3_392, 6_784, 13_568, 27_136];

/// A 953's 0E with faults in its length and its words: one, or two that compete.
fn damage_octaves(random: &mut Random, draft: &mut Draft) {
    let index = match draft.find(0x0E) {
        Some(index) if draft.model == Model::Svan953 => index,
        _ => return change_checked_word(random, draft),
    };
    let words = &mut draft.pieces[index].words;
    // At times there is room for more levels, so that a count over the rules is the only fault.
    if random.one_in(2) {
        words.resize(words.len() + random.between(1, 12), random.word());
    }
    for _ in 0..random.between(1, 2) {
        let size = words.len();
        match random.below(13) {
            0 | 1 => words.truncate(random.between(1, 4)),
            2 => words.truncate(5),
            3 => words.truncate(random.between(5, size.max(6) - 1)),
            4 | 5 if size > 1 => words[1] = changed(random, words[1]),
            _ if size < 5 => words[size.min(2) - 1] = random.word(),
            6 => words[2] = random.pick(&LOWEST),
            7 | 8 => words[2] = random.pick(&OFF_THE_LIST),
            9 | 10 => {
                let left = bands_left(words[2]).unwrap_or(15);
                words[3] = random.pick(&[0, 0, 1, left, left + 1, left + 1, left + 1, 16, 0x0100, 0xFFFF]);
            }
            _ => words[4] = random.pick(&[0, 3, 4, 4, 4, 4, 5, 0x0100]),
        }
    }
    words[0] = header(0x0E, words.len());
}

/// An 0F or a 10 in a 953 file, where none is ever due: in the place where a 945 has it, with what follows or as all that follows, or
/// elsewhere.
fn never_due(random: &mut Random, draft: &mut Draft) {
    if draft.model == Model::Svan945 {
        return foreign(random, draft);
    }
    let (id, behind) = random.pick(&[(0x0F, 0x05), (0x10, 0x07)]);
    let count = least(Model::Svan945, id);
    let mut words = any_words(random, count);
    words[0] = header(id, count);
    // No raw contents, and the words of a 945's 10.
    let due: &[u16] = if id == 0x0F { &[1, 0, 100, 15, 3, 0, 0] } else { &[0x0101, 80, 45, 3] };
    words[1..=due.len()].copy_from_slice(due);
    let place = match draft.find(behind) {
        Some(index) if !random.one_in(4) => index + 1,
        _ => listed(random, draft),
    };
    if random.one_in(3) {
        draft.pieces.truncate(place);
        draft.pieces.push(Piece { kind: Kind::End, words: vec![0xFFFF] });
    }
    draft.pieces.insert(place, Piece { kind: Kind::Listed(id), words });
}

fn damage_words(random: &mut Random, words: &mut Vec<u16>) {
    if words.is_empty() {
        return;
    }
    let at = random.below(words.len());
    match random.below(6) {
        0 => words[at] = changed(random, words[at]),
        1 => words[at] ^= 1 << random.below(16),
        2 => words.truncate(at),
        3 => words.insert(at, random.word()),
        4 => {
            words.remove(at);
        }
        _ => {
            let count = random.between(1, 3);
            words.extend(any_words(random, count));
        }
    }
}

fn damage_bytes(random: &mut Random, bytes: &mut Vec<u8>) {
    match random.below(4) {
        0 => bytes.push(random.byte()),
        1 => bytes.truncate(random.between(0, bytes.len())),
        2 if !bytes.is_empty() => {
            let at = random.below(bytes.len());
            bytes[at] = random.byte();
        }
        _ => {
            bytes.pop();
        }
    }
}

/// A good file that is over 65,536 bytes, by few words or so much that a 16-bit length would come round to the same.
pub fn too_long(random: &mut Random, mut draft: Draft) -> Vec<u8> {
    if random.one_in(8) {
        let mut bytes = bytes(&draft.words());
        let round = bytes.len() + random.pick(&[65_536, 131_072]);
        bytes.resize(round, 0xFF);
        return bytes;
    }
    let over = random.pick(&[1, 1, 2, 100]);
    fill_up(random, &mut draft, MOST_WORDS + over);
    bytes(&draft.words())
}

/// Files that never were good.
pub fn junk(random: &mut Random) -> Vec<u8> {
    match random.below(6) {
        0 => Vec::new(),
        1 => vec![random.byte()],
        2 => {
            let count = random.between(1, 3);
            bytes(&any_words(random, count))
        }
        3 => {
            let len = random.below(600);
            random.bytes(len)
        }
        4 => {
            let count = random.between(1, 300);
            bytes(&any_words(random, count))
        }
        // Small blocks of any ids.
        _ => {
            let mut words = Vec::new();
            for _ in 0..random.between(1, 12) {
                words.extend(other_block(random, false));
            }
            bytes(&words)
        }
    }
}
