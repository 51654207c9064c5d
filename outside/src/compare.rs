//! Drives the library's four calls on one file and compares all they answer and write with the reading.

use crate::buffers::{Lent, Output};
use crate::cases::{case, label, line_number, nowhere, sheet_room, slim_room};
use crate::heads::{texts, Text, TITLE_LINE};
use crate::meter::{CheckReply, Meter, SheetReply, SlimReply, TitleReply};
use crate::random::Random;
use crate::reading::{self, Answer, Refusal, TitlePart};
use crate::tally::Tally;
use std::fmt::Debug;

/// What differed, in which call, on which file.
#[derive(Debug)]
pub struct Difference {
    pub call: &'static str,
    pub what: String,
    /// None if none could be made.
    pub file: Option<Vec<u8>>,
}

/// The lines of a sheet, or the refusal of its file.
type Lines = Result<Vec<Vec<u8>>, Refusal>;

/// A file and a label, their texts, and the copies of them that are lent to the library.
struct Subject {
    file: Vec<u8>,
    label: Vec<u8>,
    texts: Vec<Text>,
    lent_file: Lent,
    lent_label: Lent,
}

struct Compare<'a> {
    random: Random,
    meter: Meter,
    exact: bool,
    tally: &'a mut Tally,
}

/// The file with this seed of its own.
pub fn compare_file(own_seed: u64, exact: bool, tally: &mut Tally) -> Result<(), Difference> {
    let mut random = Random::new(own_seed);
    let case = case(&mut random);
    let meter = Meter { nowhere: nowhere(&mut random) };
    let mut compare = Compare { random, meter, exact, tally };
    let record = reading::check(&case.file);
    compare.tally.file(&case.file);
    let label = label(&mut compare.random);
    let subject = compare.subject(case.file, label);
    if case.sound && record.is_err() {
        return Err(subject.difference("none", format!("the reading refuses a sound file: {record:?}")));
    }
    compare.calls(&subject)?;
    match case.longer {
        Some(longer) => compare.addition(subject.file, longer),
        None => Ok(()),
    }
}

impl Subject {
    fn difference(&self, call: &'static str, what: String) -> Difference {
        Difference { call, what, file: Some(self.file.clone()) }
    }

    fn same<T: PartialEq + Debug>(&self, call: &'static str, found: T, due: T) -> Result<(), Difference> {
        if found == due {
            return Ok(());
        }
        Err(self.difference(call, format!("found {found:?}, due {due:?}")))
    }

    fn same_bytes(&self, call: &'static str, found: &[u8], due: &[u8]) -> Result<(), Difference> {
        if found == due {
            return Ok(());
        }
        let at = found.iter().zip(due).take_while(|(found, due)| found == due).count();
        Err(self.difference(call, format!("{} bytes, not {}, the same up to byte {at}", found.len(), due.len())))
    }

    /// No call changes the file or the label.
    fn unchanged(&self, call: &'static str) -> Result<(), Difference> {
        if self.lent_file.bytes() == self.file && self.lent_label.bytes() == self.label {
            return Ok(());
        }
        Err(self.difference(call, "the file or the label was changed".to_string()))
    }
}

impl Compare<'_> {
    fn subject(&mut self, file: Vec<u8>, label: Vec<u8>) -> Subject {
        let lent_file = Lent::new(&mut self.random, &file, self.exact);
        let lent_label = Lent::new(&mut self.random, &label, self.exact);
        let texts = texts(&file, &label);
        Subject { file, label, texts, lent_file, lent_label }
    }

    /// All four calls.
    fn calls(&mut self, subject: &Subject) -> Result<(), Difference> {
        self.check(subject)?;
        self.title(subject)?;
        let lines = reading::lines(&subject.file, &subject.label);
        let known = lines.as_deref().unwrap_or_default();
        for _ in 0..self.random.between(1, 3) {
            let n = line_number(&mut self.random, known.len());
            let from = known.len().min(n as usize);
            let room = sheet_room(&mut self.random, &known[from..]);
            self.sheet(subject, &lines, n, room)?;
        }
        // Many lines take long; a long title line may be the first of a later answer.
        let share = match known.get(TITLE_LINE).map_or(0, Vec::len) {
            _ if known.len() > 1_000 => 20,
            1_000.. => 2,
            _ => 4,
        };
        if lines.is_ok() && subject.label.len() <= 507 && self.random.one_in(share) {
            self.walk(subject, &lines)?;
        }
        let slim_len = reading::copy(&subject.file).map_or(300, |copy| copy.len());
        for _ in 0..self.random.between(1, 2) {
            let room = slim_room(&mut self.random, slim_len);
            self.slim(subject, room)?;
        }
        Ok(())
    }

    fn check(&mut self, subject: &Subject) -> Result<(), Difference> {
        let due = match reading::check(&subject.file) {
            Ok(record) => CheckReply { refusal: 0, function: record.function, starts: record.starts, at: 0 },
            Err(Refusal { number, at, .. }) => {
                CheckReply { refusal: number, function: 0, starts: [reading::ABSENT; 9], at }
            }
        };
        self.tally.calls += 1;
        let found = self.meter.check(subject.lent_file.bytes());
        subject.same("check", found, due)?;
        subject.unchanged("check")
    }

    fn title(&mut self, subject: &Subject) -> Result<(), Difference> {
        let due = match reading::title(&subject.file, &subject.label) {
            TitlePart::File { at, len } => TitleReply { from_file: 1, at, len },
            TitlePart::Label { len } => TitleReply { from_file: 0, at: 0, len },
        };
        self.tally.calls += 1;
        let found = self.meter.title(subject.lent_file.bytes(), subject.lent_label.bytes());
        subject.same("title", found, due)?;
        subject.unchanged("title")
    }

    /// One call of Sheet; hands back what the reading has.
    fn sheet(&mut self, subject: &Subject, lines: &Lines, n: u32, room: usize) -> Result<Option<Answer>, Difference> {
        let answer = reading::answer(lines, subject.label.len(), n, room);
        self.tally.sheet(&subject.texts, lines.as_deref().unwrap_or_default(), n, room, &answer);
        let (due, written) = sheet_reply(&answer);
        let mut output = Output::new(&mut self.random, room, self.exact);
        self.tally.calls += 1;
        let found = self.meter.sheet(subject.lent_file.bytes(), subject.lent_label.bytes(), n, output.room());
        let asked = format!("line {n}, a label of {}, an output of {room}", subject.label.len());
        subject.same("sheet", (&asked, found), (&asked, due))?;
        let held = output.holds(written);
        self.tally.bytes += held.map_err(|what| subject.difference("sheet", format!("{asked}: {what}")))?;
        subject.unchanged("sheet")?;
        Ok(answer.ok())
    }

    /// The whole sheet from line 0 on, call by call, against the joined lines.
    fn walk(&mut self, subject: &Subject, lines: &Lines) -> Result<(), Difference> {
        let known = lines.as_deref().unwrap_or_default();
        let whole = known.concat();
        let most = 2_048 + whole.len() / 20;
        let mut joined = Vec::new();
        let mut n = 0;
        loop {
            let room = if self.random.one_in(2) { 1_024 } else { self.random.between(1_024, most) };
            let answer = match self.sheet(subject, lines, n, room)? {
                Some(answer) if answer.lines > 0 => answer,
                _ => return Err(subject.difference("sheet", format!("no line {n} in a walk"))),
            };
            joined.extend(answer.bytes);
            n += answer.lines;
            if answer.finished {
                break;
            }
        }
        self.tally.walk(&subject.texts, known);
        subject.same_bytes("sheet, walked", &joined, &whole)
    }

    fn slim(&mut self, subject: &Subject, room: usize) -> Result<(), Difference> {
        let answer = reading::slim(&subject.file, room);
        self.tally.slim(&answer);
        let (due, written) = match &answer {
            Ok(copy) => (SlimReply { refusal: 0, at: 0, bytes: copy.len() }, &copy[..]),
            Err(Refusal { number, at, .. }) => (SlimReply { refusal: *number, at: *at, bytes: 0 }, &[][..]),
        };
        let mut output = Output::new(&mut self.random, room, self.exact);
        self.tally.calls += 1;
        let found = self.meter.slim(subject.lent_file.bytes(), output.room());
        let asked = format!("an output of {room}");
        subject.same("slim", (&asked, found), (&asked, due))?;
        let held = output.holds(written);
        self.tally.bytes += held.map_err(|what| subject.difference("slim", format!("{asked}: {what}")))?;
        subject.unchanged("slim")
    }

    /// "the new file is accepted too, and with the same label gives the same sheet and the same slim copy, byte for byte"
    fn addition(&mut self, file: Vec<u8>, longer: Vec<u8>) -> Result<(), Difference> {
        let mut label = label(&mut self.random);
        label.truncate(507);
        let subject = self.subject(file, label.clone());
        let longer = self.subject(longer, label);
        self.calls(&longer)?;
        let lines = reading::lines(&subject.file, &subject.label).unwrap_or_default();
        let room = lines.concat().len().max(1_024);
        let (first, first_bytes) = self.whole_sheet(&subject, room);
        let (second, second_bytes) = self.whole_sheet(&longer, room);
        longer.same("sheet, additions", second, first)?;
        longer.same("sheet, additions", (first.refusal, first.finished), (0, 1))?;
        longer.same_bytes("sheet, additions", &second_bytes, &first_bytes)?;
        let room = subject.file.len();
        let (first, first_bytes) = self.whole_slim(&subject, room);
        let (second, second_bytes) = self.whole_slim(&longer, room);
        longer.same("slim, additions", second, first)?;
        longer.same("slim, additions", first.refusal, 0)?;
        longer.same_bytes("slim, additions", &second_bytes, &first_bytes)?;
        self.tally.addition(&subject.file, &subject.texts, &lines);
        Ok(())
    }

    fn whole_sheet(&mut self, subject: &Subject, room: usize) -> (SheetReply, Vec<u8>) {
        self.tally.calls += 1;
        self.tally.bytes += room as u64;
        let mut output = vec![0; room];
        let reply = self.meter.sheet(subject.lent_file.bytes(), subject.lent_label.bytes(), 0, &mut output);
        (reply, output)
    }

    fn whole_slim(&mut self, subject: &Subject, room: usize) -> (SlimReply, Vec<u8>) {
        self.tally.calls += 1;
        self.tally.bytes += room as u64;
        let mut output = vec![0; room];
        let reply = self.meter.slim(subject.lent_file.bytes(), &mut output);
        (reply, output)
    }
}

/// The reply that is due, and the bytes.
fn sheet_reply(answer: &Result<Answer, Refusal>) -> (SheetReply, &[u8]) {
    match answer {
        Ok(Answer { lines, bytes, finished }) => {
            let finished = u8::from(*finished);
            (SheetReply { refusal: 0, finished, at: 0, lines: *lines, bytes: bytes.len() }, bytes)
        }
        Err(Refusal { number, at, .. }) => {
            (SheetReply { refusal: *number, finished: 0, at: *at, lines: 0, bytes: 0 }, &[])
        }
    }
}
