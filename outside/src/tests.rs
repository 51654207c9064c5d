//! The reading on the checked files of document 01, on files of the 953, on the row N and on texts with commas and quotes, its printers,
//! and the generator.

use crate::check::{check, first_band, least, Model, Refusal, ABSENT, LOWEST};
use crate::files::{accepted, bytes, lengthen, MOST_WORDS};
use crate::random::Random;
use crate::sheet::{level, lines, sheet, shown, tenths, wide, Answer, OCTAVES, THIRDS};
use crate::slim::{copy, slim};
use crate::title::{title, TitlePart};

/// A block of so many words: its first word, then the words that are given at offsets, else 0.
fn block_of(id: u8, count: usize, given: &[(usize, u16)]) -> Vec<u16> {
    let mut words = vec![0; count];
    words[0] = u16::from_le_bytes([id, count as u8]);
    for (offset, word) in given {
        words[*offset] = *word;
    }
    words
}

/// A block of a 945 of its least length.
fn block(id: u8, given: &[(usize, u16)]) -> Vec<u16> {
    block_of(id, least(Model::Svan945, id), given)
}

/// The first five blocks of checked file 8, with this function and title block.
fn front(function: u16, title: &[u16]) -> Vec<u16> {
    let name = [(1, 0x5542), (2, 0x4646), (3, 0x0031)];
    let subs = [(1, 0x0307), (2, 0x0606), (4, 2), (5, 4), (8, 0x0606), (10, 3), (14, 0x0606), (16, 1), (17, 1)];
    let mut words = block(0x01, &name);
    words.extend(block(0x02, &[(1, 1234), (2, 945), (3, 105)]));
    words.extend(title);
    words.extend(block(0x04, &[(3, function)]));
    words.extend(block(0x05, &subs));
    words
}

const HALL: [u16; 4] = [0x0403, 0x6148, 0x6C6C, 0x0000];

fn file_8() -> Vec<u16> {
    let mut words = front(1, &HALL);
    words.extend(block(0x0F, &[(1, 1), (6, 8)]));
    words.extend([634, 701, 0xFFFB, 698, 0xFFFF]);
    words
}

/// A file of the 1/1 octave function whose 0E block has so many words.
fn octaves(count: u16) -> Vec<u16> {
    let mut words = front(2, &HALL);
    words.extend(block(0x07, &[(1, 0x0307), (2, 0x0E08), (16, 0x0E08), (30, 0x0E08)]));
    let mut spectrum = block(0x0E, &[(0, count << 8 | 0x0E), (1, 0x0101), (2, 100), (3, 15), (4, 3), (5, 650)]);
    spectrum.resize(usize::from(count), 0);
    words.extend(spectrum);
    words.push(0xFFFF);
    words
}

const SHEET_8: &str =
    "unit=945\nnumber=1234\nversion=105\nname=BUFF1\nfunction=1\ntitle=Hall\nms,P1 RMS A,P3 PEAK Lin\n\
                       0,63.4,70.1\n1000,-0.5,69.8\n";

fn refused(words: &[u16]) -> (u8, u32) {
    refused_bytes(&bytes(words))
}

fn refused_bytes(file: &[u8]) -> (u8, u32) {
    let Refusal { number, at, .. } = check(file).expect_err("a refusal");
    (number, at)
}

fn text(file: &[u16], label: &[u8]) -> String {
    let lines = lines(&bytes(file), label).expect("an accepted file");
    String::from_utf8(lines.concat()).expect("a sheet of plain bytes")
}

#[test]
fn checked_file_1() {
    assert_eq!(refused(&[]), (2, 0));
    assert_eq!(refused_bytes(&[0]), (1, 0));
    assert_eq!(refused(&[0xFFFF]), (4, 0));
}

#[test]
fn checked_file_2() {
    assert_eq!(refused(&[0x0C01]), (2, 0));
    assert_eq!(refused(&[0x0601, 0, 0, 0, 0, 0]), (3, 0));
}

/// A 12-word 01 block, then an 02 of so many words and this unit type.
fn unit(count: usize, unit_type: u16) -> Vec<u16> {
    let mut words = block(0x01, &[]);
    words.extend(block_of(0x02, count, &[(2, unit_type)]));
    words
}

/// "Checked file 3 becomes 3 at 12" (T-01), and its neighbours.
#[test]
fn checked_file_3() {
    let mut words = block(0x01, &[]);
    words.extend([0x0602, 0, 953, 0, 0, 0]);
    assert_eq!(refused(&words), (3, 12));
    assert_eq!(words, unit(6, 953));
    // "5 is given for a unit type that is neither; an 02 under 6 words is 3 before it, a 953's 02 under 10 is 3 after it"
    assert_eq!(refused(&unit(9, 954)), (5, 14));
    assert_eq!(refused(&unit(10, 954)), (5, 14));
    assert_eq!(refused(&unit(9, 953)), (3, 12));
    assert_eq!(refused(&unit(5, 953)), (3, 12));
    assert_eq!(refused(&unit(5, 954)), (3, 12));
    // Both models go on to the next block, which is not there.
    assert_eq!(refused(&unit(10, 953)), (2, 22));
    assert_eq!(refused(&unit(6, 945)), (2, 18));
    // The fit comes before the unit type.
    let mut words = unit(10, 954);
    words.pop();
    assert_eq!(refused(&words), (2, 12));
}

#[test]
fn checked_file_4() {
    let mut words = block(0x01, &[]);
    words.extend([0x00AA, 0x0001]);
    assert_eq!(refused(&words), (3, 12));
}

#[test]
fn checked_file_5() {
    assert_eq!(level(0xFFFB), "-0.5");
    assert_eq!(level(0x8000), "-3276.8");
    assert_eq!(level(0x7FFF), "3276.7");
    assert_eq!(wide(0x0001, 0x0002), 131_073);
}

#[test]
fn checked_file_6() {
    let mut words = file_8();
    let missing = MOST_WORDS - words.len();
    let mut block = vec![0; missing];
    block[0] = 0x0012;
    block[1] = missing as u16;
    words.splice(12..12, block);
    assert_eq!(bytes(&words).len(), 65_536);
    assert!(check(&bytes(&words)).is_ok());
    assert_eq!(text(&words, b""), SHEET_8);
    words.push(0);
    assert_eq!(refused(&words), (1, 0));

    assert_eq!(refused(&octaves(22)).0, 3);
    assert!(check(&bytes(&octaves(23))).is_ok());
    assert!(check(&bytes(&octaves(24))).is_ok());
}

#[test]
fn checked_file_7() {
    let with_title = |title: u16| {
        let mut words = front(1, &[0x0203, title]);
        words.extend(block(0x0F, &[]));
        words.push(0xFFFF);
        words
    };
    let file = bytes(&with_title(0x0041));
    assert_eq!(title(&file, b"label"), TitlePart::File { at: 38, len: 1 });
    assert_eq!(file[38], b'A');
    assert_eq!(refused(&with_title(0x4241)), (3, 18));
    assert_eq!(title(&bytes(&with_title(0x4241)), b"label"), TitlePart::Label { len: 5 });
    assert_eq!(title(&bytes(&with_title(0x4100)), b"label"), TitlePart::Label { len: 5 });
    assert!(text(&with_title(0x4100), b"a\0\x7F~").contains("\ntitle=a??~\n"));
}

#[test]
fn checked_file_8() {
    let words = file_8();
    assert_eq!(words.len(), 78);
    assert_eq!(text(&words, b""), SHEET_8);
    let record = check(&bytes(&words)).expect("an accepted file");
    assert_eq!(record.function, 1);
    assert_eq!(record.starts, [0, 12, 18, 22, 45, ABSENT, ABSENT, ABSENT, 65]);
    assert_eq!(copy(&bytes(&words)), Ok(bytes(&words)));
}

#[test]
fn checked_file_9() {
    let mut words = file_8();
    words.insert(65, 0x0199);
    assert_eq!(text(&words, b""), SHEET_8);
    assert_eq!(copy(&bytes(&words)), Ok(bytes(&file_8())));
}

/// The lines behind the heading of a 945's 07 with these N and LN; result r of 1 to 9 is r tenths.
fn results_945(n: [u16; 3], ln: [u16; 3]) -> String {
    let mut words = front(1, &HALL);
    words.extend([0x2C07, 0x0307]);
    for profile in 0..3 {
        words.extend([0x0E08, 0, 0, 1, 2, 3, 4, 5, 6, 7, 8, 9, n[profile], ln[profile]]);
    }
    words.push(0xFFFF);
    let sheet = text(&words, b"");
    sheet.split_once("result,unit,P1 A,P2 C,P3 Lin\n").expect("a heading").1.to_string()
}

/// "The row becomes `N,%` with three unsigned whole numbers. Row LN stays in tenths." (T-02)
#[test]
fn the_row_n() {
    let levels = "time,s,0,0,0\nPEAK,dB,0.1,0.1,0.1\nMAX,dB,0.2,0.2,0.2\nMIN,dB,0.3,0.3,0.3\nSPL,dB,0.4,0.4,0.4\n\
                  LEQ,dB,0.5,0.5,0.5\nSEL,dB,0.6,0.6,0.6\nLex8,dB,0.7,0.7,0.7\nLtm3,dB,0.8,0.8,0.8\n\
                  Ltm5,dB,0.9,0.9,0.9\n";
    let rows = results_945([0, 10, 32_768], [0, 10, 0xFFFB]);
    assert_eq!(rows, format!("{levels}N,%,0,10,32768\nLN,dB,0.0,1.0,-0.5\n"));
    let rows = results_945([65_535, 9, 32_767], [32_768, 65_535, 32_767]);
    assert_eq!(rows, format!("{levels}N,%,65535,9,32767\nLN,dB,-3276.8,-0.1,3276.7\n"));
}

/// Checked file 8 with this name of at most 8 bytes and this title.
fn file_with_texts(name: &[u8], title: &[u8]) -> Vec<u8> {
    let mut file = bytes(&file_8());
    file[2..10].fill(0);
    file[2..2 + name.len()].copy_from_slice(name);
    // One or two nulls fill the last word.
    let mut title_block = [&[0x03, 0][..], title, &[0, 0]].concat();
    title_block.truncate(title_block.len() / 2 * 2);
    title_block[1] = (title_block.len() / 2) as u8;
    file.splice(36..44, title_block);
    file
}

/// The lines of the name and of the title, without their ends.
fn text_lines(name: &[u8], title: &[u8], label: &[u8]) -> [String; 2] {
    let lines = lines(&file_with_texts(name, title), label).expect("an accepted file");
    [3, 5].map(|line| String::from_utf8_lossy(&lines[line]).trim_end_matches('\n').to_string())
}

/// "a head line whose text holds a comma or a double quote is put as a whole between double quotes, quotes within it doubled" (T-03)
#[test]
fn commas_and_quotes_in_texts() {
    assert_eq!(file_with_texts(b"BUFF1", b"Hall"), bytes(&file_8()));
    let title_line = |title: &[u8]| {
        let of_label = text_lines(b"BUFF1", b"", title);
        assert_eq!(text_lines(b"BUFF1", title, b"a,\"b"), of_label);
        assert_eq!(of_label[0], "name=BUFF1");
        of_label[1].clone()
    };
    assert_eq!(title_line(b"Hall, north end"), r#""title=Hall, north end""#);
    assert_eq!(title_line(b"say \"A\""), r#""title=say ""A""""#);
    assert_eq!(title_line(b"Hall,=1+1"), r#""title=Hall,=1+1""#);
    assert_eq!(title_line(b"\""), r#""title=""""#);
    assert_eq!(title_line(b","), r#""title=,""#);
    // Other separators and quotes do not count, nor do bytes that print as `?`.
    assert_eq!(title_line(b"Hall; 'north' end"), "title=Hall; 'north' end");
    assert_eq!(title_line(b"\xAC\xA2\x0C\x02\r\n"), "title=??????");
    assert_eq!(title_line(b"\xAC,\x02\"\n"), r#""title=?,?""?""#);
    assert_eq!(text_lines(b"a,\"b\",\"\"", b"Hall", b""), [r#""name=a,""b"",""""""#, "title=Hall"]);
    assert_eq!(text_lines(b"1;2", b"", b"a\0,b"), ["name=1;2", r#""title=a?,b""#]);
    // What stands behind the null is not shown.
    assert_eq!(text_lines(b"A\0,\"\"\"\",", b"B\0,\"", b""), ["name=A", "title=B"]);
}

/// "507 quotes give 1,023 bytes" (T-03), from the file and from the label.
#[test]
fn the_longest_line() {
    let quotes = [b'"'; 507];
    for (in_file, label) in [(&quotes[..], &b""[..]), (&b""[..], &quotes[..])] {
        let file = file_with_texts(b"BUFF1", in_file);
        let line = [&b"\"title="[..], &[b'"'; 1_014], b"\"\n"].concat();
        assert_eq!(line.len(), 1_023);
        let answer = |n, out_len| sheet(&file, label, n, out_len).expect("an answer");
        // The five lines before it have 55 bytes.
        assert_eq!([answer(0, 1_024).lines, answer(0, 1_077).lines, answer(0, 1_078).lines], [5, 5, 6]);
        assert!(answer(0, 1_078).bytes.ends_with(&line));
        assert_eq!(answer(5, 1_024), Answer { lines: 1, bytes: line, finished: false });
        // Title and Slim hand on the bytes as they are.
        let part = if label.is_empty() { TitlePart::File { at: 38, len: 507 } } else { TitlePart::Label { len: 507 } };
        assert_eq!(title(&file, label), part);
        assert_eq!(copy(&file), Ok(file));
    }
}

/// The words of a 953's 04: the function, and the words at offsets.
fn settings_953(function: u16, given: &[(usize, u16)]) -> Vec<u16> {
    let mut words = block_of(0x04, 28, given);
    words[3] = function;
    words
}

/// A 953's 05 with these filters and buffer codes.
fn profiles_953(filters: [u16; 3], codes: [u16; 3]) -> Vec<u16> {
    let mut words = block_of(0x05, 20, &[(1, 0x0307)]);
    for (sub, (filter, code)) in filters.iter().zip(codes).enumerate() {
        let start = 2 + 6 * sub;
        words[start] = 0x0606;
        words[start + 2] = *filter;
        words[start + 3] = code;
    }
    words
}

/// A 953's 07. The pairs are 65,537, 131,074 and 196,611; result r of profile p is 100·p + r tenths, the under-range word 999.
fn results_953() -> Vec<u16> {
    let mut words = vec![0x2F07, 0x0307];
    for profile in 1..=3 {
        words.extend([0x0F08, profile, profile]);
        words.extend((1..=11).map(|result| 100 * profile + result));
        words.push(999);
    }
    words
}

/// A whole 953 file of these blocks from 04 on, and the end marker.
fn file_953(blocks: &[Vec<u16>]) -> Vec<u16> {
    let mut words = block(0x01, &[(1, 0x3539), (2, 0x0033)]);
    words.extend(block_of(0x02, 10, &[(1, 77), (2, 953), (3, 604)]));
    words.extend(HALL);
    words.extend(blocks.concat());
    words.push(0xFFFF);
    words
}

const HEAD_953: &str = "unit=953\nnumber=77\nversion=604\nname=953\n";

const ROWS_953: &str = "title=Hall\nresult,unit,P1 Z,P2 A,P3 C\ntime,s,65537,,\noverload,s,131074,,\n\
                        PEAK,dB,10.1,20.1,30.1\nMAX,dB,10.3,20.3,30.3\nMIN,dB,10.4,20.4,30.4\n\
                        SPL,dB,10.5,20.5,30.5\nLEQ,dB,10.6,20.6,30.6\nLden,dB,10.7,20.7,30.7\n\
                        Ltm3,dB,10.8,20.8,30.8\nLtm5,dB,10.9,20.9,30.9\n";

#[test]
fn level_meter_953() {
    // Words 14, 15, 21 and 22 are not asked.
    let settings = settings_953(1, &[(14, 1), (15, 2), (21, 4), (22, 2)]);
    let blocks = [settings, profiles_953([0, 2, 3], [0, 5, 15]), results_953()];
    let words = file_953(&blocks);
    assert_eq!(text(&words, b""), format!("{HEAD_953}function=1\n{ROWS_953}"));
    let record = check(&bytes(&words)).expect("an accepted file");
    assert_eq!(record.function, 1);
    assert_eq!(record.starts, [0, 12, 22, 26, 54, 74, ABSENT, ABSENT, ABSENT]);
    // Every block is of its least length.
    assert_eq!(copy(&bytes(&words)), Ok(bytes(&words)));
    // A block that is not listed, and a longer 02.
    let mut longer = words.clone();
    longer.splice(121..121, [0x0317, 0x0307, 0]);
    longer.insert(22, 0xFFFF);
    longer[12] = 0x0B02;
    assert_eq!(text(&longer, b""), text(&words, b""));
    assert_eq!(copy(&bytes(&longer)), Ok(bytes(&words)));
}

#[test]
fn dose_meter_953() {
    let statistics = [
        block_of(0x09, 14, &[(1, 0x0703), (2, 0x040A), (3, 1), (4, 240), (5, 10), (6, 0x040A), (10, 0x040A)]),
        vec![0x010B, 4, 17, 0, 0x020B, 2, 0x040B, 2],
    ];
    let front = [settings_953(4, &[(14, 9), (15, 9)]), profiles_953([0, 2, 3], [1, 2, 4]), results_953()];
    let rows = format!("{HEAD_953}function=4\n{ROWS_953}LAV,dB,11.0,21.0,31.0\nTLAV,dB,11.1,21.1,31.1\n");
    let mut words = file_953(&front);
    assert_eq!(text(&words, b""), rows);
    assert_eq!(check(&bytes(&words)).map(|record| record.function), Ok(4));
    let with_statistics = file_953(&[&front[..], &statistics].concat());
    assert_eq!(text(&with_statistics, b""), format!("{rows}profile,from dB,count\nP1,24.0,17\n"));
    assert_eq!(copy(&bytes(&with_statistics)), Ok(bytes(&with_statistics)));
    // Result 10 is a level, as it was before T-02.
    for (at, word) in [(88, 0), (103, 32_768), (118, 65_535)] {
        words[at] = word;
    }
    assert!(text(&words, b"").ends_with("LAV,dB,0.0,-3276.8,-0.1\nTLAV,dB,11.1,21.1,31.1\n"));
    // "function 4 has the block order of 1": no 0E.
    let with_octaves = file_953(&[&front[..], &[octaves_953(8, 3_150, 2, 1)]].concat());
    assert_eq!(refused(&with_octaves), (4, 121));
}

/// A 953's 0E of so many words.
fn octaves_953(count: usize, lowest: u16, bands: u16, totals: u16) -> Vec<u16> {
    let mut words: Vec<u16> = (0..count as u16).map(|index| 500 + index).collect();
    let given = [u16::from_le_bytes([0x0E, count as u8]), 0x0101, lowest, bands, totals];
    let first = count.min(5);
    words[..first].copy_from_slice(&given[..first]);
    words
}

/// A 953 file of function 2 with this 0E, which starts at word 121.
fn octave_file_953(octaves: Vec<u16>) -> Vec<u16> {
    let settings = settings_953(2, &[(14, 3), (15, 1), (21, 9), (22, 9)]);
    file_953(&[settings, profiles_953([0, 2, 3], [0; 3]), results_953(), octaves])
}

#[test]
fn octaves_of_the_953() {
    let words = octave_file_953(octaves_953(8, 3_150, 2, 1));
    let sheet = format!("{HEAD_953}function=2\n{ROWS_953}band,Hz,dB C\n1,31.5,50.5\n2,63,50.6\nT1,,50.7\n");
    assert_eq!(text(&words, b""), sheet);
    assert_eq!(check(&bytes(&words)).map(|record| record.starts[6]), Ok(121));
    assert_eq!(copy(&bytes(&words)), Ok(bytes(&words)));
    // Longer than its counts: the slim copy is not.
    let longer = octave_file_953(octaves_953(11, 3_150, 2, 1));
    assert_eq!(text(&longer, b""), sheet);
    assert_eq!(copy(&bytes(&longer)), Ok(bytes(&words)));
    // No totals, and the last bands of the list.
    let words = octave_file_953(octaves_953(11, 50_000, 6, 0));
    assert!(text(&words, b"")
        .ends_with("dB C\n1,500,50.5\n2,1000,50.6\n3,2000,50.7\n4,4000,50.8\n5,8000,50.9\n6,16000,51.0\n"));
    // As a 945 has it.
    let words = octave_file_953(octaves_953(23, 100, 15, 3));
    assert!(text(&words, b"").contains("dB C\n1,1,50.5\n2,2,50.6\n"));
    assert!(text(&words, b"").ends_with("15,16000,51.9\nT1,,52.0\nT2,,52.1\nT3,,52.2\n"));
}

/// "a 953's 0E under 5 words is 3, then a word off these rules 8, then under 5 plus both counts 3"
#[test]
fn faults_of_the_953s_octaves() {
    let refused_octaves =
        |count, lowest, bands, totals| refused(&octave_file_953(octaves_953(count, lowest, bands, totals)));
    for count in 1..5 {
        assert_eq!(refused_octaves(count, 0, 0, 9), (3, 121));
    }
    let mut octaves = octaves_953(5, 0, 0, 9);
    octaves[1] = 0x0102;
    assert_eq!(refused(&octave_file_953(octaves)), (6, 122));
    for lowest in [0, 80, 99, 101, 34_464, 3_392, 65_535] {
        assert_eq!(refused_octaves(5, lowest, 0, 9), (8, 123));
    }
    for (first, lowest) in LOWEST.into_iter().enumerate() {
        let left = 15 - first as u16;
        assert_eq!(refused_octaves(5, lowest, 0, 9), (8, 124));
        assert_eq!(refused_octaves(5, lowest, left + 1, 9), (8, 124));
        assert_eq!(refused_octaves(5, lowest, left, 4), (8, 125));
        for (bands, totals) in [(1, 0), (1, 3), (left, 0), (left, 3)] {
            let due = usize::from(5 + bands + totals);
            assert_eq!(refused_octaves(due - 1, lowest, bands, totals), (3, 121));
            assert!(check(&bytes(&octave_file_953(octaves_953(due, lowest, bands, totals)))).is_ok());
        }
    }
}

#[test]
fn faults_of_a_953() {
    let results = results_953();
    let profiles = profiles_953([0, 2, 3], [0; 3]);
    let settings =
        |function, given: &[_]| refused(&file_953(&[settings_953(function, given), profiles.clone(), results.clone()]));
    for function in [0, 3, 5] {
        assert_eq!(settings(function, &[]), (8, 29));
    }
    assert_eq!(settings(2, &[(14, 1), (15, 2)]), (8, 40));
    assert_eq!(settings(2, &[(14, 4)]), (8, 40));
    assert_eq!(settings(2, &[(15, 2)]), (8, 41));
    // "0E .. due for function 2"
    assert_eq!(settings(2, &[]), (4, 121));
    let profile =
        |filters, codes| refused(&file_953(&[settings_953(1, &[]), profiles_953(filters, codes), results.clone()]));
    assert_eq!(profile([1, 2, 3], [16; 3]), (8, 58));
    assert_eq!(profile([0, 4, 3], [15, 0, 16]), (8, 64));
    assert_eq!(profile([0, 2, 3], [15, 0, 16]), (8, 71));
    // A sub-block of 14 is a 945's.
    let mut short = results.clone();
    short[2] = 0x0E08;
    assert_eq!(refused(&file_953(&[settings_953(1, &[]), profiles.clone(), short])), (7, 76));
    let below = |id: u8, count: usize| {
        let blocks = [settings_953(1, &[]), profiles.clone(), results.clone()];
        let cut = blocks.map(|words| if words[0] as u8 == id { block_of(id, count, &[]) } else { words });
        refused(&file_953(&cut))
    };
    assert_eq!(below(0x04, 27), (3, 26));
    assert_eq!(below(0x05, 19), (3, 54));
    assert_eq!(below(0x07, 46), (3, 74));
    // "a 953 file with 0F is 4"; a 10 too.
    let buffer = block(0x0F, &[(1, 1)]);
    assert_eq!(refused(&file_953(&[settings_953(1, &[]), profiles.clone(), buffer])), (4, 74));
    let thirds = block(0x10, &[(1, 0x0101), (2, 80), (3, 45), (4, 3)]);
    assert_eq!(refused(&file_953(&[settings_953(1, &[]), profiles.clone(), results.clone(), thirds])), (4, 121));
}

/// The same words of both models but for the unit type: each is read by its own.
#[test]
fn the_model_in_block_02_decides() {
    let settings = settings_953(2, &[(14, 0), (15, 1), (21, 1), (22, 0)]);
    let blocks = [settings, profiles_953([2, 3, 2], [0; 3]), results_953(), octaves_953(23, 100, 15, 3)];
    let mut words = file_953(&blocks);
    assert!(text(&words, b"").contains("dB Z\n1,1,50.5\n"));
    assert_eq!(copy(&bytes(&words)), Ok(bytes(&words)));
    words[14] = 945;
    // A 945 with longer records: three times, eleven rows, and what is over is cut.
    let sheet = text(&words, b"");
    assert!(sheet.starts_with("unit=945\nnumber=77\n"));
    assert!(sheet.contains("P3 A\ntime,s,65537,131074,196611\nPEAK,dB,10.1,20.1,30.1\nMAX,dB,10.2,20.2,30.2\n"));
    assert!(sheet.contains("N,%,110,210,310\nLN,dB,11.1,21.1,31.1\nband,Hz,dB LIN\n"));
    let slim = copy(&bytes(&words)).expect("an accepted file");
    assert_eq!(slim.len(), bytes(&words).len() - 2 * (4 + 5 + 3));
    assert_eq!(check(&slim).map(|record| record.starts), Ok([0, 12, 18, 22, 45, 65, 109, ABSENT, ABSENT]));
    // Blocks of a 945, its 07 of 47 words with sub-blocks of 15: the same rows.
    let mut words = front(1, &HALL);
    words.extend(results_953());
    words.push(0xFFFF);
    assert!(text(&words, b"").contains("P3 Lin\ntime,s,65537,131074,196611\nPEAK,dB,10.1,20.1,30.1\nMAX,dB,10.2,"));
    assert_eq!(copy(&bytes(&words)).map(|slim| slim.len()), Ok(bytes(&words).len() - 6));
    // Filters that one model has.
    let of = |unit_type, filter| {
        let mut words = file_953(&[settings_953(1, &[]), profiles_953([filter, 2, 3], [0; 3]), results_953()]);
        words[14] = unit_type;
        check(&bytes(&words)).map(|record| record.function).map_err(|refusal| (refusal.number, refusal.at))
    };
    assert_eq!([of(945, 0), of(953, 0)], [Err((8, 58)), Ok(1)]);
    assert_eq!([of(945, 1), of(953, 1)], [Ok(1), Err((8, 58))]);
    assert_eq!([of(945, 4), of(953, 4)], [Ok(1), Err((8, 58))]);
    // Function 4 is the 953's alone.
    let mut words = file_953(&[settings_953(4, &[]), profiles_953([2; 3], [0; 3]), results_953()]);
    assert!(check(&bytes(&words)).is_ok());
    words[14] = 945;
    assert_eq!(refused(&words), (8, 29));
}

#[test]
fn lines_that_fit() {
    let file = bytes(&file_8());
    let answer = |n, out_len| sheet(&file, b"", n, out_len).expect("an answer");
    assert_eq!(answer(0, 1_024).lines, 9);
    assert_eq!(answer(8, 1_024), Answer { lines: 1, bytes: b"1000,-0.5,69.8\n".to_vec(), finished: true });
    assert_eq!(answer(9, 1_024), Answer { lines: 0, bytes: Vec::new(), finished: true });
    assert_eq!(answer(u32::MAX, 1_024).lines, 0);
    let number = |label: &[u8], out_len| sheet(&file, label, 0, out_len).expect_err("a refusal").number;
    assert_eq!(number(&[0; 508], 1_023), 10);
    assert_eq!(number(&[0; 507], 1_023), 11);
    assert_eq!(slim(&file, 155).expect_err("a refusal").number, 11);
    assert!(slim(&file, 156).is_ok());
}

#[test]
fn printers() {
    assert_eq!(tenths(0), "0.0");
    assert_eq!(tenths(-10), "-1.0");
    assert_eq!(tenths(32_767 * 65_535), "214738534.5");
    assert_eq!(shown(b"\x1F ~\x7F\x80"), "? ~??");
    assert!(text(&octaves(23), b"").contains("band,Hz,dB HP\n1,1,65.0\n2,2,0.0\n"));
    assert!(text(&octaves(23), b"").ends_with("15,16000,0.0\nT1,,0.0\nT2,,0.0\nT3,,0.0\n"));
}

/// Hundredths of a hertz, without zeros at the end of the fraction.
fn hertz(hundredths: u32) -> String {
    let text = format!("{}.{:02}", hundredths / 100, hundredths % 100);
    text.trim_end_matches('0').trim_end_matches('.').to_string()
}

#[test]
fn frequencies() {
    // "steps 1, 1.25, 1.6, 2, 2.5, 3.15, 4, 5, 6.3, 8 in each decade"
    let steps = [100, 125, 160, 200, 250, 315, 400, 500, 630, 800];
    let mut due = vec!["0.8".to_string()];
    due.extend([1, 10, 100, 1_000, 10_000].iter().flat_map(|decade| steps.map(|step| hertz(step * decade))));
    assert_eq!(THIRDS[..], due[..45]);
    assert_eq!(THIRDS[44], "20000");
    let thousands = (0..5).map(|power| format!("{}", 1_000 << power));
    assert!(OCTAVES[10..].iter().zip(thousands).all(|(octave, due)| *octave == due));
    // Each octave is a third of the same nominal frequency.
    assert!(OCTAVES.iter().all(|octave| THIRDS.contains(octave)));
    // The lowest frequencies of the 953 are those of the list that a word can hold.
    let lowest: Vec<String> = LOWEST.iter().map(|lowest| hertz(u32::from(*lowest))).collect();
    assert_eq!(lowest, OCTAVES[..10]);
    assert!(LOWEST.iter().enumerate().all(|(place, lowest)| first_band(*lowest) == Some(place)));
}

#[test]
fn random_numbers() {
    assert_eq!(Random::new(0).next(), 0xE220_A839_7B1D_CDAF);
}

#[test]
fn sound_files_are_accepted() {
    for seed in 0..2_000 {
        let mut random = Random::new(seed);
        let mut draft = accepted(&mut random, 50);
        let file = bytes(&draft.words());
        assert!(check(&file).is_ok(), "seed {seed}: {:?}", check(&file));
        lengthen(&mut random, &mut draft, MOST_WORDS, false);
        let longer = bytes(&draft.words());
        assert_eq!(lines(&file, b"label"), lines(&longer, b"label"), "seed {seed}");
        assert_eq!(copy(&file), copy(&longer), "seed {seed}");
    }
}
