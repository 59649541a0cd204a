//! Files, records and their refusals, as document 01 has them with document
//! 02's C-14 and C-16.

use harness::answer::{NO_TOKEN, Refusal};
use harness::format::{FLAG_AT, Format, Head, MOST_TOKENS, Row, STANDARD_AT, Token};
use harness::kind::Kind;

const C89: Head = Head {
    language: 0,
    standard: 0,
    flag: 1,
    allowance: 0x0403_0201,
};

const STAR: u8 = Kind::Star as u8;
const WORD: u8 = Kind::Identifier as u8;
const UNKNOWN: u8 = Kind::End as u8 + 1;

fn head_bytes() -> Vec<u8> {
    vec![11, 0, 5, 1, 0, 0, 1, 1, 2, 3, 4]
}

fn file(tokens: &[Token]) -> Vec<u8> {
    let tokens = tokens.to_vec();
    Row { head: C89, tokens }.write()
}

fn refusal(file: &[u8]) -> (u32, u32) {
    let refusal = Row::read(file).unwrap_err();
    assert_eq!(refusal.token, NO_TOKEN);
    (refusal.number, refusal.detail)
}

/// The head with one byte changed.
fn changed(place: usize, byte: u8) -> Vec<u8> {
    let mut file = head_bytes();
    file[place] = byte;
    file
}

#[test]
fn records_are_laid_out_as_written() {
    assert_eq!(file(&[]), head_bytes());
    let mut word = Token::word("int");
    (word.start, word.end) = (0x0102, 0x0807_0605_0403_0201);
    let mut bytes = head_bytes();
    bytes.extend([23, 0, WORD, 0]);
    bytes.extend([2, 1, 0, 0, 0, 0, 0, 0]);
    bytes.extend([1, 2, 3, 4, 5, 6, 7, 8]);
    bytes.extend(b"int");
    bytes.extend([20, 0, 57, 0]);
    bytes.extend([0; 16]);
    let tokens = vec![word, Token::plain(Kind::End)];
    assert_eq!(file(&tokens), bytes);
    assert_eq!(Row::read(&bytes), Ok(Row { head: C89, tokens }));
}

#[test]
fn old_records_are_laid_out_as_written() {
    let mut word = Token::word("int");
    (word.start, word.end) = (0x0102, 0x0403_0201);
    let mut bytes = vec![11, 0, 0, 1, 0, 0, 1, 1, 2, 3, 4];
    bytes.extend([15, 0, WORD, 0, 2, 1, 0, 0, 1, 2, 3, 4, b'i', b'n', b't']);
    bytes.extend([12, 0, 57, 0, 0, 0, 0, 0, 0, 0, 0, 0]);
    let tokens = vec![word, Token::plain(Kind::End)];
    let row = Row { head: C89, tokens };
    let old = Format::old();
    assert_eq!(old.write(&row), bytes);
    assert_eq!(old.read(&bytes), Ok(row.clone()));
    // Neither format's files are the other's.
    assert_eq!(refusal(&bytes), (Refusal::INVALID_HEAD, 0));
    let current = row.write();
    assert_eq!(
        old.read(&current).unwrap_err().number,
        Refusal::INVALID_HEAD
    );
    let mixed = [&current[..11], &bytes[11..]].concat();
    assert_eq!(refusal(&mixed), (Refusal::INVALID_RECORD, 11));
}

#[test]
fn heads_are_refused() {
    for length in 0..head_bytes().len() {
        assert_eq!(refusal(&head_bytes()[..length]), (Refusal::INVALID_HEAD, 0));
    }
    for (place, byte) in [
        (0, 10),
        (0, 12),
        (1, 1),
        (2, 0),
        (2, 4),
        (3, 0),
        (6, 2),
        (6, 255),
    ] {
        assert_eq!(refusal(&changed(place, byte)), (Refusal::INVALID_HEAD, 0));
    }
    let mut flag_and_language = changed(4, 3);
    flag_and_language[FLAG_AT] = 2;
    assert_eq!(refusal(&flag_and_language), (Refusal::INVALID_HEAD, 0));
    assert_eq!(refusal(&changed(4, 3)), (Refusal::UNKNOWN_PROFILE, 0));
}

#[test]
fn each_language_knows_its_standards() {
    for (language, count) in [(0, 5), (1, 6), (2, 7)] {
        for standard in 0..=255 {
            let mut file = changed(4, language);
            file[STANDARD_AT] = standard;
            if standard < count || standard >= 254 {
                assert!(Row::read(&file).is_ok());
            } else {
                assert_eq!(refusal(&file), (Refusal::UNKNOWN_PROFILE, 0));
            }
            // An old file's 254 is no standard.
            let old = Format::old();
            file[2..4].copy_from_slice(&old.head_kind.to_le_bytes());
            match old.read(&file) {
                Ok(row) => assert!(row.head.standard < count || row.head.standard == 255),
                Err(refusal) => {
                    assert_eq!(refusal, Refusal::plain(Refusal::UNKNOWN_PROFILE));
                    assert!((count..255).contains(&standard));
                }
            }
        }
    }
}

#[test]
fn long_files_are_refused_before_their_heads() {
    for (format, most) in [(Format::current(), 131_072), (Format::old(), 65_536)] {
        let refusal = |length: usize| format.read(&vec![0; length]).unwrap_err();
        assert_eq!(refusal(most), Refusal::plain(Refusal::INVALID_HEAD));
        assert_eq!(refusal(most + 1), Refusal::plain(Refusal::FILE_TOO_LONG));
    }
}

#[test]
fn a_row_has_so_many_records_at_most() {
    let mut file = file(&vec![Token::plain(Kind::Star); MOST_TOKENS]);
    assert_eq!(Row::read(&file).unwrap().tokens.len(), MOST_TOKENS);
    file.push(0);
    assert_eq!(refusal(&file), (Refusal::TOO_MANY_RECORDS, 0));
    // A record before that is found first, whatever follows.
    file[11] = 13;
    assert_eq!(refusal(&file), (Refusal::INVALID_RECORD, 11));
}

#[test]
fn malformed_records_are_refused_at_their_first_byte() {
    let good = file(&[Token::word("a")]);
    let place = good.len();
    let record = |length: u8, kind: u8, start: u64, end: u64| {
        let fields = [vec![length, 0, kind, 0], start.to_le_bytes().to_vec()];
        [fields.concat(), end.to_le_bytes().to_vec()].concat()
    };
    let mut records = vec![
        record(12, STAR, 0, 0),
        record(19, STAR, 0, 0),
        record(21, STAR, 0, 0),
        record(20, UNKNOWN, 0, 0),
        record(20, STAR, 1, 0),
        record(20, STAR, 1 << 32, u32::MAX.into()),
        record(20, STAR, 1 << 63, (1 << 63) - 1),
        record(20, STAR, u64::MAX, u64::MAX - 1),
        record(20, WORD, 0, 0),
        record(21, WORD, 0, 0),
    ];
    records.extend((1..20).map(|length| record(20, STAR, 0, 0)[..length].to_vec()));
    for record in records {
        let file = [good.clone(), record].concat();
        assert_eq!(
            refusal(&file),
            (Refusal::INVALID_RECORD, place as u32),
            "{file:?}"
        );
    }
    let spans = [
        (1, 1),
        (1, 1 << 32),
        ((1 << 63) - 1, 1 << 63),
        (0, u64::MAX),
    ];
    for (start, end) in spans {
        let whole = [good.clone(), record(20, STAR, start, end)].concat();
        assert!(Row::read(&whole).is_ok());
    }
}

#[test]
fn words_have_1_to_255_bytes_from_33_to_126() {
    for byte in 0..=255u8 {
        let mut file = file(&[Token::word("a")]);
        *file.last_mut().unwrap() = byte;
        assert_eq!(Row::read(&file).is_ok(), (33..=126).contains(&byte));
    }
    for length in [0, 1, 2, 254, 255, 256, 257] {
        let file = file(&[Token::word(&"x".repeat(length))]);
        assert_eq!(Row::read(&file).is_ok(), (1..=255).contains(&length));
    }
}
