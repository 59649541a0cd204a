//! The replay list: cases with the original's answers, for a program that
//! replays them. docs/PROOFS.md, "Replayed answers", describes the format.

use std::collections::{BTreeMap, BTreeSet};

use crate::answer::{Answer, Refusal};
use crate::chosen_rows;
use crate::format::{
    FLAG_AT, GREATEST_FLAG, HEAD_LENGTH, Head, MOST_BYTES, MOST_TOKENS, NUMBERS_PER_TOKEN, Row,
    TOKEN_LENGTH, Token,
};
use crate::generate::random::Random;
use crate::generate::{self, Case, DEFAULT_ALLOWANCE};
use crate::kind::Kind;
use crate::oracle;
use crate::profile::NEWER_STANDARD;
use crate::worked_rows::WORKED_ROWS;

const SEED: u64 = 20_261_120;

/// How many cases the generator draws, to choose from.
const DRAWN: usize = 400_000;

/// The longest file of a drawn case that is chosen: short ones say as much.
const LONGEST: usize = 400;

/// The same for refusal 20, which takes 65 brackets.
const LONGEST_NESTED: usize = 2_800;

/// Of each so many chosen cases one is also taken with other allowances and
/// buffers.
const VARIED: usize = 24;

/// The cases of the list, in order.
pub fn cases() -> Vec<Case> {
    let mut cases = worked();
    cases.extend(outermost());
    cases.extend(chosen_rows::cases());
    let chosen = chosen();
    let varied = chosen.iter().step_by(VARIED).flat_map(generate::around);
    let varied: Vec<Case> = varied.collect();
    cases.extend(chosen);
    cases.extend(varied);
    cases
}

/// Document 01's rows worked out, under each profile that they are worked out
/// for, the buffer exact.
fn worked() -> Vec<Case> {
    let rows = WORKED_ROWS.iter().flat_map(|worked| worked.rows());
    rows.map(|row| exact(&row)).collect()
}

fn exact(row: &Row) -> Case {
    Case {
        file: row.write(),
        tree_len: NUMBERS_PER_TOKEN * row.tokens.len(),
    }
}

/// The longest file and the longest row that pass, and one byte and one record
/// more: well-formed, and with a fault that would be refused otherwise.
fn outermost() -> Vec<Case> {
    let head = Head {
        language: 0,
        standard: NEWER_STANDARD,
        flag: 0,
        allowance: DEFAULT_ALLOWANCE,
    };
    let row = |tokens| exact(&Row { head, tokens });
    let words: Vec<Token> = (0..MOST_TOKENS)
        .map(|number| Token::word(&"w".repeat(longest_word(number))))
        .collect();
    let mut longer = words.clone();
    longer[0].word.push('w');
    let mut stars = vec![Token::plain(Kind::Star); MOST_TOKENS];
    stars[0] = Token::word("int");
    let mut more = stars.clone();
    more.push(Token::plain(Kind::Star));
    let mut bad_head = row(longer.clone());
    bad_head.file[FLAG_AT] = GREATEST_FLAG + 1;
    let mut cut_record = row(more.clone());
    cut_record.file.pop();
    let passing_and_more = [words, longer, stars, more].map(row);
    passing_and_more
        .into_iter()
        .chain([bad_head, cut_record])
        .collect()
}

/// The length of a word, so that as many words as a row can have fill a file.
fn longest_word(number: usize) -> usize {
    let bytes = MOST_BYTES - HEAD_LENGTH - MOST_TOKENS * TOKEN_LENGTH;
    bytes / MOST_TOKENS + usize::from(number < bytes % MOST_TOKENS)
}

/// What makes two cases alike: the answer's number and detail, and the head.
type Likeness = (Option<u32>, u32, u8, u8, u8);

fn likeness(case: &Case) -> Likeness {
    let answer = oracle::answer(&case.file, &mut vec![0; case.tree_len]);
    let detail = match answer {
        // The details of 4 are offsets.
        Answer::Refused { number, detail, .. } if number != Refusal::INVALID_RECORD => detail,
        _ => 0,
    };
    let head = match Row::read(&case.file) {
        Ok(row) => (row.head.language, row.head.standard, row.head.flag),
        Err(_) => (0, 0, 0),
    };
    (answer.refusal(), detail, head.0, head.1, head.2)
}

/// How many cases of a likeness are chosen: more where more rules decide.
fn most((refusal, _, _, _, flag): Likeness) -> usize {
    match refusal {
        None if flag == 1 => 30,
        None => 10,
        Some(Refusal::FILE_TOO_LONG..=Refusal::TOO_MANY_RECORDS) => 150,
        Some(Refusal::NESTING_LIMIT_EXCEEDED) => 1,
        Some(Refusal::UNTERMINATED_GROUP | Refusal::MISMATCHED_CLOSING_DELIMITER) => 7,
        Some(Refusal::NO_TYPE_NAME) => 20,
        Some(_) => 3,
    }
}

fn is_short(case: &Case, refusal: Option<u32>) -> bool {
    let longest = match refusal {
        Some(Refusal::NESTING_LIMIT_EXCEEDED) => LONGEST_NESTED,
        _ => LONGEST,
    };
    case.file.len() <= longest
}

/// Drawn cases, so many of each likeness, no file twice.
fn chosen() -> Vec<Case> {
    let mut counts: BTreeMap<Likeness, usize> = BTreeMap::new();
    let mut files = BTreeSet::new();
    let drawn = generate::cases(SEED, None).expect("all styles").take(DRAWN);
    let short = drawn.filter(|case| case.file.len() <= LONGEST_NESTED);
    let chosen = short.filter(|case| {
        let likeness = likeness(case);
        let count = counts.entry(likeness).or_default();
        let is_chosen = *count < most(likeness)
            && is_short(case, likeness.0)
            && files.insert(case.file.clone());
        *count += usize::from(is_chosen);
        is_chosen
    });
    chosen.collect()
}

/// The list: each case with the original's answer and the buffer it leaves.
pub fn list() -> Vec<u8> {
    let mut random = Random::new(SEED);
    let mut list = Vec::new();
    for case in cases() {
        let fill = 1 + random.below(u32::MAX as usize) as u32;
        write(&case, fill, &mut list);
    }
    list
}

fn write(case: &Case, fill: u32, list: &mut Vec<u8>) {
    let mut tree = vec![fill; case.tree_len];
    let answer = oracle::answer(&case.file, &mut tree);
    let behind = tree.last().copied().unwrap_or(0);
    let stored = tree.iter().rposition(|&number| number != behind);
    let stored = &tree[..stored.map_or(0, |last| last + 1)];
    let head = [case.file.len() as u32, case.tree_len as u32, fill];
    let end = [stored.len() as u32, behind];
    put(list, head.into_iter().chain(answer.numbers()).chain(end));
    list.extend(&case.file);
    put(list, stored.iter().copied());
}

fn put(list: &mut Vec<u8>, numbers: impl Iterator<Item = u32>) {
    list.extend(numbers.flat_map(u32::to_le_bytes));
}
