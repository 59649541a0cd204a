//! Broken files.

// All damages share one type, so that one can be picked.
#![allow(clippy::ptr_arg)]

use super::random::Random;
use super::{Case, DEFAULT_ALLOWANCE, dressed, grammatical};
use crate::format::{
    ALLOWANCE_AT, FLAG_AT, Format, HEAD_LENGTH, LANGUAGE_AT, MOST_TOKENS, Row, STANDARD_AT, Token,
    WORD_LENGTHS,
};
use crate::kind::Kind;
use crate::profile::LANGUAGES;

// Where a record has its fields; a head has its kind there, too. A span's end
// stands behind its start.
const KIND: usize = 2;
const SPAN_START: usize = 4;

/// The most tokens of the row that is broken.
pub const LONGEST: usize = 64;

type Damage = fn(&mut Random, Format, &mut Vec<u8>);

const DAMAGES: [Damage; 24] = [
    cut_off,
    head_length,
    head_kind,
    flag,
    language,
    standard,
    flag_and_language,
    other_format,
    other_head,
    other_records,
    record_length,
    record_cut_off,
    kind_unknown,
    span_reversed,
    span_far,
    word_byte,
    word_missing,
    word_too_long,
    word_at_other_kind,
    tail,
    row_too_long,
    file_too_long,
    noise,
    one_byte,
];

pub fn malformed(random: &mut Random) -> Case {
    let mut draft = grammatical(random);
    // A whole file to begin with, and room for what is appended.
    draft.tokens.truncate(LONGEST);
    let Case {
        mut file,
        mut tree_len,
    } = dressed(draft, random);
    damage(random, Format::current(), &mut file);
    if random.one_in(4) {
        tree_len = random.below(64);
    }
    Case { file, tree_len }
}

/// Breaks a good file of 1 to `LONGEST` tokens.
pub fn damage(random: &mut Random, format: Format, file: &mut Vec<u8>) {
    let damage = *random.pick(&DAMAGES);
    damage(random, format, file);
    limit_allowance(file);
}

/// Keeps a file that is a good one after all from running for long.
fn limit_allowance(file: &mut [u8]) {
    let Some(field) = file.get_mut(ALLOWANCE_AT..HEAD_LENGTH) else {
        return;
    };
    let bytes = field.try_into().expect("an allowance has four bytes");
    let limited = u32::from_le_bytes(bytes).min(DEFAULT_ALLOWANCE);
    field.copy_from_slice(&limited.to_le_bytes());
}

fn byte(random: &mut Random) -> u8 {
    random.draw() as u8
}

/// The row of a file that is not broken yet.
fn whole(format: Format, file: &[u8]) -> Row {
    format.read(file).expect("the file is still whole")
}

/// The offset of one of the file's token records.
fn record(random: &mut Random, format: Format, file: &[u8]) -> usize {
    let row = whole(format, file);
    let before = random.below(row.tokens.len());
    let lengths = row.tokens[..before]
        .iter()
        .map(|token| token.length(format));
    HEAD_LENGTH + lengths.sum::<usize>()
}

fn set(file: &mut [u8], place: usize, bytes: &[u8]) {
    file[place..place + bytes.len()].copy_from_slice(bytes);
}

fn cut_off(random: &mut Random, _format: Format, file: &mut Vec<u8>) {
    file.truncate(random.below(file.len()));
}

fn head_length(random: &mut Random, _format: Format, file: &mut Vec<u8>) {
    let length = *random.pick(&[0, 10, 12, 11 + 256, u16::MAX]);
    set(file, 0, &length.to_le_bytes());
}

/// Next to either format's, or with one of its bytes missing or elsewhere.
fn head_kind(random: &mut Random, _format: Format, file: &mut Vec<u8>) {
    let kind = *random.pick(&[0, 1, 5, 255, 257, 260, 262, 5 << 8, u16::MAX]);
    set(file, KIND, &kind.to_le_bytes());
}

fn flag(random: &mut Random, _format: Format, file: &mut Vec<u8>) {
    file[FLAG_AT] = *random.pick(&[2, 3, 128, 255]);
}

fn language(random: &mut Random, _format: Format, file: &mut Vec<u8>) {
    let unknown = LANGUAGES.len() as u8;
    file[LANGUAGE_AT] = *random.pick(&[unknown, unknown + 1, 255]);
}

/// About the last standards that the languages declare, and about those beyond
/// them; some of these are known after all.
fn standard(random: &mut Random, _format: Format, file: &mut Vec<u8>) {
    file[STANDARD_AT] = *random.pick(&[4, 5, 6, 7, 8, 128, 252, 253, 254]);
}

fn flag_and_language(random: &mut Random, format: Format, file: &mut Vec<u8>) {
    flag(random, format, file);
    language(random, format, file);
}

/// The format that this one is not.
fn other(format: Format) -> Format {
    let current = Format::current();
    if format == current {
        Format::old()
    } else {
        current
    }
}

/// The row as the other format lays it out.
fn other_format(_random: &mut Random, format: Format, file: &mut Vec<u8>) {
    *file = other(format).write(&whole(format, file));
}

/// The other format's head before this one's records.
fn other_head(_random: &mut Random, format: Format, file: &mut Vec<u8>) {
    set(file, KIND, &other(format).head_kind.to_le_bytes());
}

/// This format's head before the other one's records.
fn other_records(random: &mut Random, format: Format, file: &mut Vec<u8>) {
    other_format(random, format, file);
    set(file, KIND, &format.head_kind.to_le_bytes());
}

/// About that of no word and of the longest, in either format.
fn record_length(random: &mut Random, format: Format, file: &mut Vec<u8>) {
    let place = record(random, format, file);
    let [this, that] = [format, other(format)].map(|format| format.token_length as u16);
    let longest = this + *WORD_LENGTHS.end() as u16;
    let lengths = [
        0,
        1,
        this - 1,
        this,
        this + 1,
        this + 2,
        that,
        that + 1,
        longest,
        longest + 1,
        u16::MAX,
    ];
    set(file, place, &random.pick(&lengths).to_le_bytes());
}

fn record_cut_off(random: &mut Random, format: Format, file: &mut Vec<u8>) {
    let place = record(random, format, file);
    file.truncate(place + 1 + random.below(format.token_length));
}

fn kind_unknown(random: &mut Random, format: Format, file: &mut Vec<u8>) {
    let place = record(random, format, file);
    let unknown = Kind::ALL.len() as u16;
    let kind = *random.pick(&[unknown, unknown + 1, 256, u16::MAX]);
    set(file, place + KIND, &kind.to_le_bytes());
}

/// The least offset of a span's upper half, the least with the highest bit,
/// and the greatest.
fn outermost(format: Format) -> [u64; 3] {
    let bits = 8 * format.span_width();
    let highest = 1 << (bits - 1);
    [1 << (bits / 2), highest, highest - 1 + highest]
}

fn set_span(random: &mut Random, format: Format, file: &mut [u8], (start, end): (u64, u64)) {
    let place = record(random, format, file) + SPAN_START;
    let width = format.span_width();
    set(file, place, &start.to_le_bytes()[..width]);
    set(file, place + width, &end.to_le_bytes()[..width]);
}

/// The end before the start, by its lower half, its upper half or the highest
/// bit.
fn span_reversed(random: &mut Random, format: Format, file: &mut Vec<u8>) {
    let [upper, highest, greatest] = outermost(format);
    let small = random.below(4) as u64;
    let spans = [
        (small + 1, small),
        (upper, small),
        (upper, upper - 1),
        (upper + small + 1, upper + small),
        (2 * upper, upper + small),
        (highest, small),
        (highest, highest - 1),
        (greatest, greatest - 1),
        (greatest, 0),
    ];
    let span = *random.pick(&spans);
    set_span(random, format, file, span);
}

/// Passes, though the end's lower half or, with a sign, the end is less than
/// the start's.
fn span_far(random: &mut Random, format: Format, file: &mut Vec<u8>) {
    let [upper, highest, greatest] = outermost(format);
    let small = random.below(4) as u64;
    let spans = [
        (upper - 1, upper),
        (small + 1, upper),
        (upper + small + 1, 2 * upper),
        (highest - 1, highest),
        (small, highest),
        (0, greatest),
        (greatest, greatest),
    ];
    let span = *random.pick(&spans);
    set_span(random, format, file, span);
}

/// Appends a token whose word has one byte out of range, or just within it.
fn word_byte(random: &mut Random, format: Format, file: &mut Vec<u8>) {
    Token::word("word").write(format, file);
    let place = file.len() - 1 - random.below(4);
    file[place] = *random.pick(&[0, 31, 32, 33, 126, 127, 128, 255]);
}

fn word_missing(_random: &mut Random, format: Format, file: &mut Vec<u8>) {
    Token::word("").write(format, file);
}

fn word_too_long(random: &mut Random, format: Format, file: &mut Vec<u8>) {
    let length = WORD_LENGTHS.end() + random.below(3);
    Token::word(&"x".repeat(length)).write(format, file);
}

fn word_at_other_kind(random: &mut Random, format: Format, file: &mut Vec<u8>) {
    let kind = *random.pick(&Kind::ALL[1..]);
    let word = "w".to_owned();
    Token {
        word,
        ..Token::plain(kind)
    }
    .write(format, file);
}

fn tail(random: &mut Random, format: Format, file: &mut Vec<u8>) {
    for _ in 0..=random.below(format.token_length) {
        file.push(byte(random));
    }
}

/// 1,024 records or one more; then nothing, a byte or a malformed record.
fn row_too_long(random: &mut Random, format: Format, file: &mut Vec<u8>) {
    let row = whole(format, file);
    let records = MOST_TOKENS + random.below(2);
    for _ in row.tokens.len()..records {
        Token::plain(Kind::Star).write(format, file);
    }
    match random.below(3) {
        0 => {}
        1 => file.push(byte(random)),
        _ => Token::word("").write(format, file),
    }
}

/// Whole records to the file limit or one byte more, the head bad at times.
fn file_too_long(random: &mut Random, format: Format, file: &mut Vec<u8>) {
    let length = format.most_bytes + random.below(2);
    fill(format, file, length);
    if random.one_in(3) {
        flag(random, format, file);
    }
}

/// Appends words until a file is that long.
fn fill(format: Format, file: &mut Vec<u8>, length: usize) {
    let longest = format.token_length + WORD_LENGTHS.end();
    while file.len() < length {
        // Two records share the end, so that neither is too short for a word.
        let next = match length - file.len() {
            rest if rest > 2 * longest => longest,
            rest if rest > longest => rest / 2,
            rest => rest,
        };
        Token::word(&"x".repeat(next - format.token_length)).write(format, file);
    }
}

fn noise(random: &mut Random, _format: Format, file: &mut Vec<u8>) {
    let kept = *random.pick(&[0, HEAD_LENGTH]);
    file.truncate(kept);
    for _ in 0..random.below(64) {
        file.push(byte(random));
    }
}

fn one_byte(random: &mut Random, _format: Format, file: &mut Vec<u8>) {
    let place = random.below(file.len());
    file[place] = byte(random);
}
