//! Single calls of the model and the proved library. Compared are the number that is returned and all that was lent, with
//! what stands around it: the file, `answer` and the output, the latter two full of junk before.

use std::hint::black_box;

use harness::answer::{Answer, Refusal};
use harness::conversions::model::{Conversion, Converted, numbers};
use harness::format::{
    ANSWER_LENGTH, FLAG_AT, Format, LANGUAGE_AT, NUMBERS_PER_TOKEN, STANDARD_AT,
};
use harness::generate::random::Random;
use harness::lists::model::{LIST_ANSWER_LENGTH, numbers_in};
use harness::oracle;
use harness::profile::{ARCHIVE_STANDARD, LANGUAGES, NEWER_STANDARD};
use harness::rules::generate::table;
use harness::rules::model::{match_numbers_in, top_level};
use type_name::{
    type_name_match, type_name_narrow, type_name_read, type_name_read_list, type_name_widen,
};

use crate::notes::Notes;
use crate::{DIRT, hex};

/// Bytes or numbers before and behind those that are lent.
const MARGIN: usize = 8;

/// What a call is lent and then leaves.
#[derive(Clone, PartialEq)]
struct Lent {
    returned: u32,
    file: Vec<u8>,
    output: Vec<u8>,
    answer: Vec<u32>,
}

impl Lent {
    fn new(random: &mut Random, file: &[u8], room: usize, answer_len: usize) -> Self {
        let bytes = room + 2 * MARGIN;
        let draws = (0..bytes.div_ceil(size_of::<u64>())).flat_map(|_| random.draw().to_le_bytes());
        let output = draws.take(bytes).collect();
        let numbers = answer_len + 2 * MARGIN;
        let answer = (0..numbers).map(|_| random.draw() as u32).collect();
        Self {
            returned: DIRT,
            file: file.to_vec(),
            output,
            answer,
        }
    }

    fn after(mut self, call: impl FnOnce(&[u8], &mut [u8], &mut [u32]) -> u32) -> Self {
        let output_end = self.output.len() - MARGIN;
        let answer_end = self.answer.len() - MARGIN;
        let output = &mut self.output[MARGIN..output_end];
        let answer = &mut self.answer[MARGIN..answer_end];
        self.returned = call(&self.file, output, answer);
        // A callee that writes into the file is not to be reckoned away.
        black_box(self)
    }

    fn output(&self) -> &[u8] {
        &self.output[MARGIN..self.output.len() - MARGIN]
    }

    fn answer(&self) -> &[u32] {
        &self.answer[MARGIN..self.answer.len() - MARGIN]
    }
}

/// The library's function.
fn library(conversion: Conversion) -> fn(&[u8], &mut [u8], &mut [u32]) -> u32 {
    match conversion {
        Conversion::Widen => type_name_widen,
        Conversion::Narrow => type_name_narrow,
    }
}

#[derive(Default)]
pub struct Tally {
    pub notes: Notes,
}

impl Tally {
    /// Asks both, and the library for the file back.
    pub fn convert(
        &mut self,
        random: &mut Random,
        conversion: Conversion,
        file: &[u8],
        room: usize,
        answer_len: usize,
    ) {
        let lent = Lent::new(random, file, room, answer_len);
        let converted = conversion.convert(file, room);
        let expected = lent
            .clone()
            .after(|file, output, answer| conversion.call(file, output, answer));
        let found = lent.after(library(conversion));
        self.notes.calls += 1;
        self.note(conversion, file, &converted);
        self.hold(expected == found, conversion, file, || {
            let mut pairs = expected.output.iter().zip(&found.output);
            let place = pairs.position(|(wanted, got)| wanted != got);
            let place = place.map(|place| place as isize - MARGIN as isize);
            let wanted = numbers(&converted);
            let got = (found.returned, found.answer());
            format!("into {room}: model {wanted:?}, library {got:?}, outputs differ from {place:?}")
        });
        if let Ok(bytes) = converted {
            self.back(random, conversion, file, &found.output()[..bytes.len()]);
        }
    }

    /// Whether the inverse of what the library made is the file that it made it of, in just as many bytes; where a current
    /// head has 255, with the standard's own number in its place.
    fn back(&mut self, random: &mut Random, conversion: Conversion, file: &[u8], made: &[u8]) {
        let lent = Lent::new(random, made, file.len(), ANSWER_LENGTH);
        let found = lent.after(library(conversion.inverse()));
        self.notes.calls += 1;
        let returned = conversion.returned(file);
        self.notes.note(format!("{conversion:?}: and back"));
        if returned != file {
            let (from, to) = (file[STANDARD_AT], returned[STANDARD_AT]);
            let outcome = format!("{conversion:?}: and back, standard {from} as {to}");
            self.notes.note(outcome);
        }
        let wanted = [0, file.len() as u32, 0, 0];
        let same = found.returned == 0 && found.answer() == wanted && found.output() == returned;
        self.hold(same, conversion, file, || {
            format!("the inverse gives {:?} or another file", found.answer())
        });
    }

    /// What the library makes of a good file, `None` if it refuses it or tells of more bytes than there is room for.
    fn made(
        &mut self,
        random: &mut Random,
        conversion: Conversion,
        file: &[u8],
    ) -> Option<Vec<u8>> {
        let lent = Lent::new(random, file, 2 * file.len() + MARGIN, ANSWER_LENGTH);
        let made = lent.after(library(conversion));
        self.notes.calls += 1;
        let bytes = made.answer()[1] as usize;
        match made.returned {
            0 => made.output().get(..bytes).map(<[u8]>::to_vec),
            _ => None,
        }
    }

    /// Reads a current file under 255 and what comes of it through the old format: answer and tree are the same.
    pub fn read_back(&mut self, random: &mut Random, file: &[u8], tokens: usize) {
        // Its old form may be too long.
        let Some(old) = self.made(random, Conversion::Narrow, file) else {
            return;
        };
        let back = self.made(random, Conversion::Widen, &old);
        let tree_len = NUMBERS_PER_TOKEN * tokens;
        let expected = by_original(Format::current(), file, tree_len);
        let is_expected = |file: &[u8]| by_library(file, tree_len) == expected;
        let same = [
            is_expected(file),
            back.is_some_and(|back| back[STANDARD_AT] != NEWER_STANDARD && is_expected(&back)),
        ];
        self.notes.calls += same.len() as u64;
        self.notes.note(match expected.0[0] {
            0 => "Narrow: and back from 255 and read, ok".to_owned(),
            number => format!("Narrow: and back from 255 and read, no {number:02}"),
        });
        self.hold(same == [true; 2], Conversion::Narrow, file, || {
            format!("read as it was and as it comes back: the same {same:?}")
        });
    }

    /// A row under 255, before and now. The old file is answered by the original with the standards that 255 meant. What
    /// the library makes of it says 254 and is answered so. With 255 instead, a row accepted before is accepted with the
    /// same tree, and any other is answered as the original does with the standards that 255 means.
    pub fn newer(&mut self, random: &mut Random, old: &[u8], tokens: usize) {
        let Some(mut file) = self.made(random, Conversion::Widen, old) else {
            return self.hold(false, Conversion::Widen, old, || "refused".to_owned());
        };
        let needed = NUMBERS_PER_TOKEN * tokens;
        let tree_len = *random.pick(&[needed, needed, needed + 5]);
        let current = Format::current();
        let before = by_original(Format::old(), old, tree_len);
        let is_archive = file[STANDARD_AT] == ARCHIVE_STANDARD;
        let archive = by_library(&file, tree_len);
        let archive_original = by_original(current, &file, tree_len);
        file[STANDARD_AT] = NEWER_STANDARD;
        let now = by_library(&file, tree_len);
        let same = [
            is_archive,
            archive == before,
            archive == archive_original,
            now == by_original(current, &file, tree_len),
            now == before || before.0[0] == Refusal::NOT_AVAILABLE_IN_PROFILE,
        ];
        self.notes.calls += 2;
        let language = LANGUAGES[usize::from(file[LANGUAGE_AT])];
        let flag = file[FLAG_AT];
        let outcome = match (before.0[0], now.0[0]) {
            (0, _) => "accepted before".to_owned(),
            _ if now == before => "refused before, now alike".to_owned(),
            (number, 0) => format!("no {number} before, accepted now"),
            (number, _) => format!("no {number} before, refused otherwise now"),
        };
        let outcome = format!("Standard 255, {language:?}, flag {flag}: {outcome}");
        self.notes.note(outcome);
        self.hold(same == [true; 5], Conversion::Widen, old, || {
            let (before, now) = (before.0, now.0);
            format!("under 255 {before:?} before, {now:?} now; as wanted {same:?}")
        });
    }

    /// Reads what the library makes of an old file by its three entries: answer and tree are those that the old file would
    /// get if it were still read.
    pub fn read(&mut self, random: &mut Random, old: &[u8], tokens: usize) {
        let Some(wide) = self.made(random, Conversion::Widen, old) else {
            return self.hold(false, Conversion::Widen, old, || "refused".to_owned());
        };
        let wide = &wide;
        let needed = NUMBERS_PER_TOKEN * tokens;
        let lengths = [needed, needed, needed + 5, needed.saturating_sub(1)];
        let tree_len = *random.pick(&lengths);
        let format = Format::old();
        let mut tree = vec![DIRT; tree_len];
        let answer = oracle::answer_in(format, old, &mut tree);
        let rules = {
            let row = format.read(old).expect("a good file");
            let nodes = match answer {
                Answer::Accepted { nodes, .. } => top_level(&row, nodes, &tree),
                Answer::Refused { .. } => Vec::new(),
            };
            table(random, &nodes)
        };
        let mut list_tree = vec![DIRT; tree_len];
        let list = numbers_in(format, old, &mut list_tree);
        let mut match_tree = vec![DIRT; tree_len];
        let matched = match_numbers_in(format, old, &rules, &mut match_tree);
        let same = [
            left::<ANSWER_LENGTH>(tree_len, |tree, answer| type_name_read(wide, tree, answer))
                == (answer.numbers(), tree),
            left::<LIST_ANSWER_LENGTH>(tree_len, |tree, answer| {
                type_name_read_list(wide, tree, answer)
            }) == (list, list_tree),
            left::<ANSWER_LENGTH>(tree_len, |tree, answer| {
                type_name_match(wide, &rules, tree, answer)
            }) == (matched, match_tree),
        ];
        self.notes.calls += same.len() as u64;
        self.notes.note(match answer.refusal() {
            None => "Widen: and read, ok".to_owned(),
            Some(number) => format!("Widen: and read, no {number:02}"),
        });
        self.hold(same == [true; 3], Conversion::Widen, old, || {
            format!("read, read_list and match of the widened file: the same {same:?}")
        });
    }

    fn note(&mut self, conversion: Conversion, file: &[u8], converted: &Converted) {
        let source = conversion.source();
        if let Some(&standard @ 253..) = file.get(STANDARD_AT) {
            let known_language = usize::from(file[LANGUAGE_AT]) < LANGUAGES.len();
            match converted {
                Ok(bytes) => {
                    let to = bytes[STANDARD_AT];
                    self.notes
                        .note(format!("{conversion:?}: ok, standard {standard} to {to}"));
                }
                Err(refusal) if known_language && refusal.number == Refusal::UNKNOWN_PROFILE => {
                    self.notes
                        .note(format!("{conversion:?}: no 03, standard {standard}"));
                }
                Err(_) => {}
            }
        }
        self.notes.note(match converted {
            Ok(_) => format!("{conversion:?}: ok"),
            Err(refusal) if refusal.number == 1 && file.len() <= source.most_bytes => {
                format!("{conversion:?}: no 01, of the old form")
            }
            Err(refusal) => format!("{conversion:?}: no {:02}", refusal.number),
        });
    }

    fn hold(
        &mut self,
        same: bool,
        conversion: Conversion,
        file: &[u8],
        how: impl FnOnce() -> String,
    ) {
        self.notes.hold(same, file.len(), || {
            format!("{conversion:?}, file {}: {}", hex(file), how())
        });
    }
}

/// What the original leaves for a file of a format.
fn by_original(format: Format, file: &[u8], tree_len: usize) -> ([u32; ANSWER_LENGTH], Vec<u32>) {
    let mut tree = vec![DIRT; tree_len];
    let answer = oracle::answer_in(format, file, &mut tree);
    (answer.numbers(), tree)
}

/// What the library leaves for a current one.
fn by_library(file: &[u8], tree_len: usize) -> ([u32; ANSWER_LENGTH], Vec<u32>) {
    left(tree_len, |tree, answer| type_name_read(file, tree, answer))
}

/// The answer and the tree buffer that a reading leaves.
fn left<const N: usize>(
    tree_len: usize,
    read: impl FnOnce(&mut [u32], &mut [u32]) -> u32,
) -> ([u32; N], Vec<u32>) {
    let mut tree = vec![DIRT; tree_len];
    let mut answer = [DIRT; N];
    let returned = read(&mut tree, &mut answer);
    assert_eq!(returned, answer[0], "the first number is returned");
    (answer, tree)
}
