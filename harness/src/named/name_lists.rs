//! Name lists: of words of a row or others, about the limits, and damaged. The
//! same source of random numbers gives the same lists.

use std::collections::HashSet;

use super::names::MOST_NAMES;
use crate::format::{Format, HEAD_LENGTH, Row, TOKEN_LENGTH, Token, WORD_LENGTHS};
use crate::generate::random::Random;
use crate::generate::words;
use crate::kind::Kind;

/// A name list, and of what sort it is.
pub struct NameList {
    pub sort: &'static str,
    pub file: Vec<u8>,
}

/// The bytes of a list of these words.
pub fn file_of(words: &[&str]) -> Vec<u8> {
    laid_out(words.iter().map(|word| Token::word(word)))
}

fn laid_out(records: impl IntoIterator<Item = Token>) -> Vec<u8> {
    let mut file = Vec::new();
    for record in records {
        record.write(Format::current(), &mut file);
    }
    file
}

/// One list in so many is damaged, and one in so many is about the limits.
const DAMAGED: usize = 10;
const AT_LIMITS: usize = 80;

/// A list for a row.
pub fn name_list(random: &mut Random, row: &Row) -> NameList {
    let mut records: Vec<Token> = words_for(random, row)
        .into_iter()
        .map(|word| record(random, &word))
        .collect();
    if random.one_in(DAMAGED) {
        let &(sort, damage) = random.pick(&DAMAGES);
        let file = damage(random, records);
        return NameList { sort, file };
    }
    let sort = if random.one_in(AT_LIMITS) {
        let &(sort, extend) = random.pick(&LIMITS);
        extend(random, &mut records);
        sort
    } else {
        "good"
    };
    let file = laid_out(records);
    NameList { sort, file }
}

/// Where a word stands does not matter, so that any span may be given.
fn record(random: &mut Random, word: &str) -> Token {
    let [one, other] = [random.draw(), random.draw()];
    let (start, end) = match random.below(4) {
        0 => (0, u64::MAX),
        1 => (one.min(other), one.max(other)),
        _ => (0, 0),
    };
    let token = Token::word(word);
    Token {
        start,
        end,
        ..token
    }
}

/// One to a few words, all different.
fn words_for(random: &mut Random, row: &Row) -> Vec<String> {
    let (mut inside, mut before_angle) = (Vec::new(), Vec::new());
    for (place, token) in row.tokens.iter().enumerate() {
        if token.kind == Kind::Identifier && inside.len() < MOST_NAMES {
            inside.push(token.word.as_str());
            if row
                .tokens
                .get(place + 1)
                .is_some_and(|next| next.kind == Kind::Less)
            {
                before_angle.push(token.word.as_str());
            }
        }
    }
    inside.push("A");
    let mut words = match random.below(8) {
        0..3 => before_angle.iter().map(|&word| word.to_owned()).collect(),
        3 | 4 => few(random, &before_angle),
        5 | 6 => few(random, &inside),
        _ => Vec::new(),
    };
    if words.is_empty() || random.one_in(4) {
        let word = *random.pick(&inside);
        words.push(match random.below(4) {
            // Nearly a word of the row: the case counts.
            0 => words::mixed(word),
            1 => format!("{word}_"),
            2 => words::known(random).to_owned(),
            _ => word[..word.len() - 1].to_owned() + "x",
        });
    }
    let mut seen = HashSet::new();
    words.retain(|word| WORD_LENGTHS.contains(&word.len()) && seen.insert(word.clone()));
    if words.is_empty() {
        words.push("A".to_owned());
    }
    shuffle(random, &mut words);
    words
}

fn few(random: &mut Random, words: &[&str]) -> Vec<String> {
    if words.is_empty() {
        return Vec::new();
    }
    let count = 1 + random.below(3);
    let one = |_| (*random.pick(words)).to_owned();
    (0..count).map(one).collect()
}

fn shuffle<T>(random: &mut Random, items: &mut [T]) {
    for place in (1..items.len()).rev() {
        items.swap(place, random.below(place + 1));
    }
}

type Limit = fn(&mut Random, &mut Vec<Token>);

const LIMITS: [(&str, Limit); 4] = [
    ("good, 512 names", |random, records| {
        fill(random, records, MOST_NAMES, 2)
    }),
    ("good, 511 names", |random, records| {
        fill(random, records, MOST_NAMES - 1, 3)
    }),
    (
        "good, 512 names of 255 bytes and a few",
        |random, records| {
            fill(random, records, MOST_NAMES, *WORD_LENGTHS.end());
        },
    ),
    (
        "good, words of 255 bytes and of all bytes",
        |random, records| {
            let all: String = (33..=126_u8).map(char::from).collect();
            records.extend([record(random, &all), record(random, &"x".repeat(255))]);
            shuffle(random, records);
        },
    ),
];

/// Adds words of at least that length that no row has, until there are so many.
fn fill(random: &mut Random, records: &mut Vec<Token>, count: usize, length: usize) {
    records.truncate(count);
    for number in records.len()..count {
        let word = format!("{number:@>length$}");
        records.push(record(random, &word));
    }
    shuffle(random, records);
}

type Damage = fn(&mut Random, Vec<Token>) -> Vec<u8>;

/// Each makes the list malformed, but for the last two: a byte changed may leave a
/// good one, and a record of the old format with a long word may be one of the
/// current format.
const DAMAGES: [(&str, Damage); 18] = [
    ("bad, empty", |_, _| Vec::new()),
    ("bad, cut off", cut_off),
    ("bad, bytes too many", bytes_too_many),
    ("bad, another kind with its word", other_kind_with_word),
    ("bad, another kind", other_kind),
    ("bad, kind over 57", kind_over_57),
    ("bad, record's length", record_length),
    ("bad, span reversed", span_reversed),
    ("bad, byte of a word", byte_of_word),
    ("bad, no word", |random, records| {
        with_word(random, records, 0)
    }),
    ("bad, word of 256 bytes", |random, records| {
        with_word(random, records, 256)
    }),
    ("bad, 513 names", |random, mut records| {
        fill(random, &mut records, MOST_NAMES + 1, 2);
        laid_out(records)
    }),
    ("bad, a word twice", word_twice),
    ("bad, a word twice among 512", |random, mut records| {
        fill(random, &mut records, MOST_NAMES - 1, 2);
        word_twice(random, records)
    }),
    ("bad, a head before", head_before),
    ("bad, noise", noise),
    ("a byte changed", one_byte),
    ("records of the old format", old_format),
];

/// Lays records out of which one is another.
fn with_other(
    random: &mut Random,
    mut records: Vec<Token>,
    change: impl FnOnce(&mut Random, &mut Token),
) -> Vec<u8> {
    let place = random.below(records.len());
    change(random, &mut records[place]);
    laid_out(records)
}

/// Changes the bytes of one record.
fn with_bytes(
    random: &mut Random,
    records: Vec<Token>,
    change: impl FnOnce(&mut Random, &mut [u8]),
) -> Vec<u8> {
    let place = random.below(records.len());
    let begin = laid_out(records[..place].iter().cloned()).len();
    let length = records[place].length(Format::current());
    let mut file = laid_out(records);
    change(random, &mut file[begin..begin + length]);
    file
}

/// Anywhere within the last record.
fn cut_off(random: &mut Random, records: Vec<Token>) -> Vec<u8> {
    let last = records
        .last()
        .map_or(0, |record| record.length(Format::current()));
    let mut file = laid_out(records);
    file.truncate(file.len() - 1 - random.below(last - 1));
    file
}

fn bytes_too_many(random: &mut Random, records: Vec<Token>) -> Vec<u8> {
    let mut file = laid_out(records);
    for _ in 0..=random.below(TOKEN_LENGTH) {
        file.push(random.draw() as u8);
    }
    file
}

fn any_other_kind(random: &mut Random) -> Kind {
    *random.pick(&Kind::ALL[1..])
}

fn other_kind_with_word(random: &mut Random, records: Vec<Token>) -> Vec<u8> {
    with_other(random, records, |random, record| {
        record.kind = any_other_kind(random)
    })
}

fn other_kind(random: &mut Random, records: Vec<Token>) -> Vec<u8> {
    with_other(random, records, |random, record| {
        *record = Token::plain(any_other_kind(random));
    })
}

fn kind_over_57(random: &mut Random, records: Vec<Token>) -> Vec<u8> {
    with_bytes(random, records, |random, record| {
        let kind = *random.pick(&[58_u16, 59, 256, 261, 272, u16::MAX]);
        record[2..4].copy_from_slice(&kind.to_le_bytes());
    })
}

/// Always other than it is.
fn record_length(random: &mut Random, records: Vec<Token>) -> Vec<u8> {
    with_bytes(random, records, |random, record| {
        let length = record.len() as u16;
        let others = [
            0,
            1,
            19,
            20,
            length - 1,
            length + 1,
            length + 256,
            276,
            u16::MAX,
        ];
        let other = *random.pick(&others);
        record[..2].copy_from_slice(&other.to_le_bytes());
    })
}

fn span_reversed(random: &mut Random, records: Vec<Token>) -> Vec<u8> {
    with_other(random, records, |random, record| {
        let spans = [
            (1, 0),
            (1 << 32, 1),
            (u64::MAX, u64::MAX - 1),
            (1 << 63, 0),
            (2, 1),
        ];
        (record.start, record.end) = *random.pick(&spans);
    })
}

fn byte_of_word(random: &mut Random, records: Vec<Token>) -> Vec<u8> {
    with_bytes(random, records, |random, record| {
        let place = TOKEN_LENGTH + random.below(record.len() - TOKEN_LENGTH);
        record[place] = *random.pick(&[0, 10, 31, 32, 127, 128, 160, 255]);
    })
}

fn with_word(random: &mut Random, records: Vec<Token>, length: usize) -> Vec<u8> {
    with_other(random, records, |_, record| {
        record.word = "x".repeat(length)
    })
}

/// One word again, anywhere and with another span.
fn word_twice(random: &mut Random, mut records: Vec<Token>) -> Vec<u8> {
    let word = random.pick(&records).word.clone();
    records.push(record(random, &word));
    shuffle(random, &mut records);
    laid_out(records)
}

fn head_before(_random: &mut Random, records: Vec<Token>) -> Vec<u8> {
    let mut file = vec![HEAD_LENGTH as u8, 0, 5, 1, 1, 255, 1, 255, 255, 0, 0];
    file.extend(laid_out(records));
    file
}

fn old_format(_random: &mut Random, records: Vec<Token>) -> Vec<u8> {
    let mut file = Vec::new();
    for record in records {
        record.write(Format::old(), &mut file);
    }
    file
}

fn noise(random: &mut Random, _records: Vec<Token>) -> Vec<u8> {
    (0..=random.below(64))
        .map(|_| random.draw() as u8)
        .collect()
}

fn one_byte(random: &mut Random, records: Vec<Token>) -> Vec<u8> {
    let mut file = laid_out(records);
    let place = random.below(file.len());
    file[place] = random.draw() as u8;
    file
}
