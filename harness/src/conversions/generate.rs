//! Files of either format, good, damaged and about the limits: the same source
//! of random numbers gives the same files.

use super::model::Conversion;
use crate::format::{
    FLAG_AT, Format, HEAD_LENGTH, Head, LANGUAGE_AT, MOST_TOKENS, Row, STANDARD_AT, Token,
    WORD_LENGTHS,
};
use crate::generate::malformed;
use crate::generate::random::Random;
use crate::kind::Kind;
use crate::profile::{self, ARCHIVE_STANDARD, LANGUAGES};

/// Offsets about the ends of bytes, of halves and of a sign.
#[rustfmt::skip]
const OFFSETS: [u64; 18] = [
    0, 1, 0xff, 0x100, 0xffff, 0x1_0000, 0x7fff_ffff, 0x8000_0000, 0xffff_fffe, 0xffff_ffff,
    0x1_0000_0000, 0x1_0000_0001, 0x1_ffff_ffff, 0x100_0000_0000, 0x7fff_ffff_ffff_ffff, 0x8000_0000_0000_0000,
    0xffff_ffff_0000_0000, 0xffff_ffff_ffff_ffff,
];

/// How many of them 32 bits hold.
const NARROW: usize = 10;

/// One row in so many has such an offset that a wide span alone may hold.
const BEYOND: usize = 3;

/// The offsets that a format's spans can hold.
fn offsets(format: Format) -> &'static [u64] {
    if format == Format::old() {
        &OFFSETS[..NARROW]
    } else {
        &OFFSETS
    }
}

fn span(random: &mut Random, offsets: &[u64]) -> (u64, u64) {
    let (one, other) = (*random.pick(offsets), *random.pick(offsets));
    (one.min(other), one.max(other))
}

/// A file of a row with another standard, other spans and another allowance.
pub fn file(random: &mut Random, format: Format, mut row: Row) -> Vec<u8> {
    row.head.standard = standard(random, format, row.head.language);
    row.head.allowance = random.draw() as u32;
    draw_spans(random, format, &mut row.tokens);
    format.write(&row)
}

/// The same, damaged.
pub fn damaged(random: &mut Random, format: Format, mut row: Row) -> Vec<u8> {
    row.tokens.truncate(malformed::LONGEST);
    if row.tokens.is_empty() {
        row.tokens.push(Token::word("int"));
    }
    let mut file = file(random, format, row);
    malformed::damage(random, format, &mut file);
    file
}

/// Any standard that the format knows, every second time one beyond those
/// that the language declares.
fn standard(random: &mut Random, format: Format, language: u8) -> u8 {
    let known = profile::standards_in(format, LANGUAGES[usize::from(language)]);
    let (beyond, declared): (Vec<u8>, Vec<u8>) =
        known.partition(|&standard| standard >= ARCHIVE_STANDARD);
    if random.one_in(2) {
        *random.pick(&beyond)
    } else {
        *random.pick(&declared)
    }
}

/// Spans as a lexer would number them or at the edges of 32 bits; at times one
/// that may go beyond these.
fn draw_spans(random: &mut Random, format: Format, tokens: &mut [Token]) {
    let is_lexed = random.one_in(2);
    for (number, token) in (0..).zip(&mut *tokens) {
        (token.start, token.end) = if is_lexed {
            (2 * number, 2 * number + 1)
        } else {
            span(random, &OFFSETS[..NARROW])
        };
    }
    if random.one_in(BEYOND) && !tokens.is_empty() {
        let token = random.below(tokens.len());
        let token = &mut tokens[token];
        (token.start, token.end) = span(random, offsets(format));
    }
}

/// Of any language, with either flag; `file` draws the rest.
fn head(random: &mut Random) -> Head {
    Head {
        language: profile::language_number(*random.pick(&LANGUAGES)),
        flag: random.below(2) as u8,
        ..small().head
    }
}

/// A file at a limit: its own length, that of its old form or how many records
/// it has, with another fault at times.
pub fn long(random: &mut Random, conversion: Conversion) -> Vec<u8> {
    let source = conversion.source();
    let measured = match random.below(4) {
        0 | 1 => Some(Format::old()),
        2 => Some(source),
        _ => None,
    };
    let head = head(random);
    let tokens = match measured {
        Some(format) => {
            let length = format.most_bytes - 2 + random.below(5);
            let least = fewest(format, length);
            let count = least + random.below(MOST_TOKENS - least + 1);
            words(format, count, length)
        }
        None => {
            let count = MOST_TOKENS - 1 + random.below(4);
            vec![Token::plain(Kind::Star); count]
        }
    };
    let mut file = file(random, source, Row { head, tokens });
    spoil(random, &mut file);
    file
}

/// A fault at times: a byte more or less, another one, a wrong flag.
fn spoil(random: &mut Random, file: &mut Vec<u8>) {
    let byte = random.draw() as u8;
    match random.below(10) {
        0 => file.push(byte),
        1 => drop(file.pop()),
        2 => {
            let place = random.below(file.len());
            file[place] = byte;
        }
        3 => file[FLAG_AT] = 2,
        _ => {}
    }
}

/// The fewest words with which a file can be so long.
fn fewest(format: Format, length: usize) -> usize {
    (length - HEAD_LENGTH).div_ceil(format.token_length + WORD_LENGTHS.end())
}

/// So many words, such that the file is so long in a format.
pub fn words(format: Format, count: usize, length: usize) -> Vec<Token> {
    let bytes = length - HEAD_LENGTH - format.token_length * count;
    let (each, more) = (bytes / count, bytes % count);
    let word = |number| Token::word(&"w".repeat(each + usize::from(number < more)));
    (0..count).map(word).collect()
}

/// The row of document 02's worked example and two tokens more.
fn small() -> Row {
    let tokens = vec![
        Token::word("int"),
        Token::plain(Kind::Star),
        Token::word("w"),
    ];
    Row {
        head: Head {
            language: 0,
            // Both formats know it, each with a meaning of its own.
            standard: 255,
            flag: 1,
            allowance: 1_000,
        },
        tokens,
    }
}

/// Files that are the same in every run: a small one with each byte changed to
/// every other and cut off everywhere, each standard number in every language
/// and in an unknown one, each span of the offsets in either of two records,
/// and those of `limits`.
pub fn chosen(conversion: Conversion) -> Vec<Vec<u8>> {
    let format = conversion.source();
    let good = format.write(&small());
    let mut files: Vec<_> = (0..=good.len()).map(|end| good[..end].to_vec()).collect();
    for place in 0..good.len() {
        files.extend((0..=u8::MAX).map(|byte| {
            let mut file = good.clone();
            file[place] = byte;
            file
        }));
    }
    for language in 0..=LANGUAGES.len() as u8 {
        files.extend((0..=u8::MAX).map(|standard| {
            let mut file = good.clone();
            file[LANGUAGE_AT] = language;
            file[STANDARD_AT] = standard;
            file
        }));
    }
    for &start in offsets(format) {
        for &end in offsets(format) {
            files.extend((0..2).map(|place| with_span(format, place, start, end)));
        }
    }
    files.extend(limits(conversion));
    files
}

fn with_span(format: Format, place: usize, start: u64, end: u64) -> Vec<u8> {
    let mut row = small();
    let token = &mut row.tokens[place];
    (token.start, token.end) = (start, end);
    format.write(&row)
}

/// Files as long as their format allows, with as long an old form as that
/// allows or with as many records, one less and one more; then each with an
/// offset beyond 32 bits, where there is one, with a malformed record before
/// or behind it, with a byte more and with a bad head.
fn limits(conversion: Conversion) -> Vec<Vec<u8>> {
    let source = conversion.source();
    let mut measured = vec![Format::old(), source];
    measured.dedup();
    let mut files = Vec::new();
    for format in measured {
        for length in format.most_bytes - 1..=format.most_bytes + 1 {
            for count in [fewest(format, length), MOST_TOKENS] {
                files.extend(faults(source, words(format, count, length)));
            }
        }
    }
    for count in MOST_TOKENS - 1..=MOST_TOKENS + 1 {
        files.extend(faults(source, vec![Token::plain(Kind::Star); count]));
    }
    files
}

fn faults(format: Format, tokens: Vec<Token>) -> Vec<Vec<u8>> {
    let head = small().head;
    let mut row = Row { head, tokens };
    let last = row.tokens.len() - 1;
    let mut files = Vec::new();
    for beyond in [false, true] {
        row.tokens[last / 2].end = if beyond { 1 << 32 } else { 1 };
        let good = format.write(&row);
        let last_at = good.len() - row.tokens[last].length(format);
        let with = |place: usize| {
            let mut file = good.clone();
            file[place] = u8::MAX;
            file
        };
        // The kinds of the first and of the last record, behind two bytes.
        files.extend([HEAD_LENGTH + 2, last_at + 2, FLAG_AT].map(with));
        files.push([&good[..], &[0]].concat());
        files.push(good);
    }
    files
}
