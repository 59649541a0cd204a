//! Files brought over from the old format and back. Files are laid out here byte by byte, and the expected answers are worked
//! out from document 02, C-14 and, of standards 254 and 255, C-16.

mod support;

use support::{AMPLE, c, checked, cpp, row, unchecked};
use type_name::{
    ANSWER_LENGTH, CStandard, Conversion, ConversionRefusal, CppStandard, HEAD_LENGTH,
    LONGEST_WORD, MOST_BYTES, MOST_TOKENS, MOST_WIDENED, NO_TOKEN, OLD_MOST_BYTES,
    OLD_TOKEN_LENGTH, Refusal, Row, TOKEN_LENGTH, Table, Tokens, TypeNameError, narrow,
    narrow_into, parse_type_list, parse_type_name, tree_for, type_name_narrow, type_name_read,
    type_name_widen, widen, widen_into,
};

const DIRT: u8 = 0xa5;

/// The least offset that the old format cannot hold.
const OVER: u64 = 1 << 32;

/// What tells a format from the other.
#[derive(Clone, Copy)]
struct Format {
    head_kind: [u8; 2],
    /// Bytes of a span's start, and of its end.
    width: usize,
    /// The standard number that means C18, C++17 or Fortran 2018.
    archive: u8,
}

const OLD: Format = Format {
    head_kind: [0, 1],
    width: 4,
    archive: 255,
};

const NEW: Format = Format {
    head_kind: [5, 1],
    width: 8,
    archive: 254,
};

/// Language, standard, structure flag; all with an allowance of 1,000.
type HeadFields = [u8; 3];

const C89: HeadFields = [0, 0, 1];

/// Kind, start, end, word.
type Record<'a> = (u16, u64, u64, &'a str);

fn file(format: Format, head: HeadFields, records: &[Record]) -> Vec<u8> {
    let mut file = vec![11, 0];
    file.extend(format.head_kind);
    file.extend(head);
    file.extend([0xe8, 3, 0, 0]);
    for record in records {
        put(format, *record, &mut file);
    }
    file
}

fn put(format: Format, (kind, start, end, word): Record, file: &mut Vec<u8>) {
    let length = 4 + 2 * format.width + word.len();
    file.extend((length as u16).to_le_bytes());
    file.extend(kind.to_le_bytes());
    file.extend(&start.to_le_bytes()[..format.width]);
    file.extend(&end.to_le_bytes()[..format.width]);
    file.extend(word.as_bytes());
}

/// Number and detail of the refusal, by the vector and with buffers of every sort, which stay.
fn refused(conversion: Conversion, file: &[u8]) -> (u32, u32) {
    let (whole, into) = functions(conversion);
    let refusal = whole(file).unwrap_err();
    let Refusal { error, detail, .. } = refusal.refusal;
    let expected = ConversionRefusal {
        refusal: Refusal {
            error,
            token: None,
            detail,
            steps: 0,
        },
        conversion,
    };
    assert_eq!(refusal, expected);
    for room in [0, 1, 25, MOST_BYTES] {
        let mut output = vec![DIRT; room];
        assert_eq!(into(file, &mut output), Err(refusal), "{room}");
        assert!(output.iter().all(|&byte| byte == DIRT));
    }
    (error.number(), detail)
}

type Whole = fn(&[u8]) -> Result<Vec<u8>, ConversionRefusal>;
type Into = for<'a> fn(&[u8], &'a mut [u8]) -> Result<&'a [u8], ConversionRefusal>;

fn functions(conversion: Conversion) -> (Whole, Into) {
    match conversion {
        Conversion::Widen => (widen, widen_into),
        Conversion::Narrow => (narrow, narrow_into),
    }
}

fn not_widened(file: &[u8]) -> (u32, u32) {
    refused(Conversion::Widen, file)
}

fn not_narrowed(file: &[u8]) -> (u32, u32) {
    refused(Conversion::Narrow, file)
}

/// One is the other, widened; the other is the one, narrowed. With a byte too few of room it is 6, with more than enough the
/// bytes behind stay.
fn converts(old: &[u8], new: &[u8]) {
    let ways = [
        (Conversion::Widen, old, new),
        (Conversion::Narrow, new, old),
    ];
    for (conversion, from, to) in ways {
        let (whole, into) = functions(conversion);
        assert_eq!(whole(from).as_deref(), Ok(to));
        let mut output = vec![DIRT; to.len() + 3];
        let short = into(from, &mut output[..to.len() - 1]).unwrap_err();
        assert_eq!(short.refusal.error, TypeNameError::ShortBuffer);
        assert!(output.iter().all(|&byte| byte == DIRT));
        assert_eq!(into(from, &mut output), Ok(to));
        assert_eq!(output[to.len()..], [DIRT; 3]);
    }
}

#[rustfmt::skip]
const OLD_INT: [u8; 26] = [
    11, 0, 0, 1, 0, 0, 1, 0xe8, 3, 0, 0,
    15, 0, 0, 0, 0, 0, 0, 0, 3, 0, 0, 0, b'i', b'n', b't',
];

#[rustfmt::skip]
const NEW_INT: [u8; 34] = [
    11, 0, 5, 1, 0, 0, 1, 0xe8, 3, 0, 0,
    23, 0, 0, 0, 0, 0, 0, 0, 0, 0, 0, 0, 3, 0, 0, 0, 0, 0, 0, 0, b'i', b'n', b't',
];

#[test]
fn a_file_is_converted_byte_by_byte() {
    converts(&OLD_INT, &NEW_INT);
    let int = [(0, 0, 3, "int")];
    assert_eq!(file(OLD, C89, &int), OLD_INT);
    assert_eq!(file(NEW, C89, &int), NEW_INT);
    let short = |error| Err((error, 0));
    let into = |room: usize| {
        let mut output = [DIRT; 40];
        let done = widen_into(&OLD_INT, &mut output[..room]).map(<[u8]>::len);
        done.map_err(|refused| (refused.refusal.error, refused.refusal.detail))
    };
    assert_eq!(into(33), short(TypeNameError::ShortBuffer));
    assert_eq!(into(34), Ok(34));
}

#[test]
fn a_format_s_files_are_none_of_the_other() {
    let mut tree = tree_for(&NEW_INT);
    assert_eq!(
        parse_type_name(&NEW_INT, &mut tree).unwrap().node_count(),
        1
    );
    let of_name = parse_type_name(&OLD_INT, &mut tree).unwrap_err();
    let of_list = parse_type_list(&OLD_INT, &mut tree).unwrap_err().refusal;
    let of_match = Table::new().winner(&OLD_INT, &mut tree).unwrap_err();
    for refusal in [of_name, of_list, of_match] {
        assert_eq!(refusal.error, TypeNameError::InvalidHead);
    }
    assert_eq!(not_widened(&NEW_INT), (2, 0));
    assert_eq!(not_narrowed(&OLD_INT), (2, 0));
    // The head of one with the records of the other.
    let [mut new_head, mut old_head] = [OLD_INT.to_vec(), NEW_INT.to_vec()];
    new_head[2] = 5;
    old_head[2] = 0;
    assert_eq!(not_narrowed(&new_head), (4, 11));
    assert_eq!(not_widened(&old_head), (4, 11));
}

/// How many standards each language has.
const STANDARDS: [u8; 3] = [5, 6, 7];

#[test]
fn a_head_is_carried_over_as_it_stands() {
    for (language, count) in (0..).zip(STANDARDS) {
        for standard in 0..count {
            for flag in [0, 1] {
                let head = [language, standard, flag];
                converts(&file(OLD, head, &[]), &file(NEW, head, &[]));
            }
        }
        for standard in [count, 253] {
            let head = [language, standard, 0];
            assert_eq!(not_widened(&file(OLD, head, &[])), (3, 0));
            assert_eq!(not_narrowed(&file(NEW, head, &[])), (3, 0));
        }
    }
    let bare = file(OLD, C89, &[]);
    assert_eq!(not_widened(&file(OLD, [3, 0, 0], &[])), (3, 0));
    // A flag over 1 comes before an unknown language.
    assert_eq!(not_widened(&file(OLD, [3, 0, 2], &[])), (2, 0));
    assert_eq!(not_narrowed(&file(NEW, [0, 0, 2], &[])), (2, 0));
    assert_eq!(not_widened(&bare[..10]), (2, 0));
    assert_eq!((not_widened(&[]), not_narrowed(&[])), ((2, 0), (2, 0)));
    let mut head = bare;
    head[HEAD_LENGTH - 4..].copy_from_slice(&[1, 2, 3, 0xff]);
    let mut new = head.clone();
    new[2] = 5;
    converts(&head, &new);
}

/// Where the formats have different numbers for a standard, the number changes and the standard stays.
#[test]
fn a_standard_keeps_its_meaning() {
    let head = |format, language, standard| file(format, [language, standard, 1], &[]);
    for (language, newest) in (0..).zip([4, 5, 6]) {
        // The archive's: 255 as it was, 254 as it is.
        converts(&head(OLD, language, 255), &head(NEW, language, 254));
        // The default of today has no such number there: it becomes the standard's own, and stays so.
        let narrowed = narrow(&head(NEW, language, 255)).unwrap();
        assert_eq!(narrowed, head(OLD, language, newest));
        let widened = widen(&narrowed).unwrap();
        assert_eq!(widened, head(NEW, language, newest));
        assert_eq!(narrow(&widened).unwrap(), narrowed);
        // An old file has no 254.
        assert_eq!(not_widened(&head(OLD, language, 254)), (3, 0));
    }
    // There is no language 3, and so no standard that these mean.
    for standard in [254, 255] {
        assert_eq!(not_widened(&head(OLD, 3, standard)), (3, 0));
        assert_eq!(not_narrowed(&head(NEW, 3, standard)), (3, 0));
    }
}

/// There and back, of every standard that a head may have: to the byte from the old format; from the new one, too, save where
/// it has 255.
#[test]
fn what_comes_back() {
    let records = [(0, 0, 3, "int"), (21, 3, 4, "")];
    for (language, count) in (0..).zip(STANDARDS) {
        for standard in (0..count).chain([255]) {
            let old = file(OLD, [language, standard, 0], &records);
            assert_eq!(narrow(&widen(&old).unwrap()).unwrap(), old);
        }
        for standard in (0..count).chain([254, 255]) {
            let new = file(NEW, [language, standard, 0], &records);
            let back = if standard == 255 { count - 1 } else { standard };
            let expected = file(NEW, [language, back, 0], &records);
            assert_eq!(widen(&narrow(&new).unwrap()).unwrap(), expected);
        }
    }
}

#[test]
fn an_archive_s_file_keeps_its_answer() {
    let records = [
        (0, 0, 7, "_BitInt"),
        (8, 7, 8, ""),
        (2, 8, 9, ""),
        (9, 9, 10, ""),
    ];
    let answer = |file: &[u8]| {
        let mut answer = [AMPLE; ANSWER_LENGTH];
        type_name_read(file, &mut tree_for(file), &mut answer);
        answer
    };
    let old = file(OLD, [0, 255, 1], &records);
    let widened = widen(&old).unwrap();
    assert_eq!(widened, file(NEW, [0, 254, 1], &records));
    assert_eq!(answer(&widened), [40, NO_TOKEN, 3, 5]);
    // The same row by the default of today, there and back.
    let new = file(NEW, [0, 255, 1], &records);
    assert_eq!(answer(&new), [0, 3, 5, 0]);
    let back = widen(&narrow(&new).unwrap()).unwrap();
    assert_eq!(back, file(NEW, [0, 4, 1], &records));
    assert_eq!(answer(&back), [0, 3, 5, 0]);
}

/// Neither conversion looks at the row: rows that are refused are converted.
#[test]
fn kinds_spans_and_words_are_carried_over() {
    let word: String = (33..=126).map(char::from).collect();
    let mut records: Vec<Record> = (1..58).map(|kind| (kind, 7, 0xffff_ffff, "")).collect();
    records.push((0, 0x0403_0201, 0x0807_0605, &word));
    records.push((0, 0xffff_ffff, 0xffff_ffff, "a"));
    records.push((57, 0, 0, ""));
    let [old, new] = [OLD, NEW].map(|format| file(format, [1, format.archive, 0], &records));
    assert_eq!(old.len(), 11 + 60 * 12 + 94 + 1);
    assert_eq!(new.len(), old.len() + 60 * 8);
    converts(&old, &new);
}

/// The old file of a row.
fn old_of(row: &Row) -> Vec<u8> {
    let mut old = row.bytes()[..HEAD_LENGTH].to_vec();
    old[2..4].copy_from_slice(&OLD.head_kind);
    for token in Tokens::new(row.bytes()) {
        let kind = token.kind.number() as u16;
        put(OLD, (kind, token.start, token.end, token.word), &mut old);
    }
    old
}

#[test]
fn rows_of_texts_are_converted() {
    let texts = [
        "",
        "int",
        "const std::map<Key, Lane<8>> *",
        "Lane<(Key<8>>2)>",
        "A<B<C<d>>,e>",
        "int, Lane<Key>",
        "A)",
        "A $",
        "decltype(x) (*)[8]",
    ];
    for text in texts {
        for profile in [c(CStandard::C89), cpp(CppStandard::Cpp17)] {
            for head in [checked(profile), unchecked(profile)] {
                let row = row(head, text);
                converts(&old_of(&row), row.bytes());
            }
        }
    }
}

/// Numbers that look like chance, by Knuth's constants.
struct Chance(u64);

impl Chance {
    fn below(&mut self, count: u64) -> u64 {
        self.0 = self.0.wrapping_mul(6_364_136_223_846_793_005);
        self.0 = self.0.wrapping_add(1_442_695_040_888_963_407);
        (self.0 >> 33) % count
    }

    /// Any 32 bits, often near an end.
    fn offset(&mut self) -> u64 {
        match self.below(4) {
            0 => self.below(3),
            1 => 0xffff_ffff - self.below(3),
            _ => (self.below(1 << 16) << 16) + self.below(1 << 16),
        }
    }
}

#[test]
fn many_files_go_both_ways() {
    let longest: String = ('!'..='~').cycle().take(LONGEST_WORD).collect();
    let mut chance = Chance(14);
    for _ in 0..2_000 {
        let count = chance.below(30);
        let records: Vec<Record> = (0..count)
            .map(|_| {
                let kind = chance.below(2) * chance.below(58);
                let length = match kind {
                    0 if chance.below(8) == 0 => LONGEST_WORD,
                    0 => 1 + chance.below(9) as usize,
                    _ => 0,
                };
                let (one, other) = (chance.offset(), chance.offset());
                let (start, end) = (one.min(other), one.max(other));
                (kind as u16, start, end, &longest[LONGEST_WORD - length..])
            })
            .collect();
        let (language, flag) = (chance.below(3) as u8, chance.below(2) as u8);
        let head = |format: Format| [language, format.archive, flag];
        let [old, new] = [OLD, NEW].map(|format| file(format, head(format), &records));
        converts(&old, &new);
        // One end beyond, in any record.
        if count > 0 {
            let mut beyond = records.clone();
            beyond[chance.below(count) as usize].2 += OVER;
            assert_eq!(not_narrowed(&file(NEW, head(NEW), &beyond)), (7, 0));
        }
    }
}

#[test]
fn an_end_over_32_bits_is_told() {
    let of = |start, end| file(NEW, C89, &[(21, start, end, "")]);
    let last = OVER - 1;
    converts(&file(OLD, C89, &[(21, last, last, "")]), &of(last, last));
    let ends = [OVER, OVER + 5, OVER << 8, 1 << 63, u64::MAX];
    for end in ends {
        for start in [0, last, end - 1, end] {
            assert_eq!(not_narrowed(&of(start, end)), (7, 0), "{start} {end}");
        }
    }
    // Unsigned numbers of 64 bits: these spans end before they start.
    for (start, end) in [(OVER, last), (u64::MAX, OVER), (1 << 63, (1 << 63) - 1)] {
        assert_eq!(not_narrowed(&of(start, end)), (4, 11), "{start} {end}");
    }
    // The row is read as with any span.
    let far = file(NEW, C89, &[(0, OVER, OVER + 3, "int")]);
    let mut tree = tree_for(&far);
    let tree = parse_type_name(&far, &mut tree).unwrap();
    let token = tree.top_level().next().unwrap().token;
    assert_eq!(token.span(), OVER..OVER + 3);
}

#[test]
fn malformed_records_come_before_offsets() {
    let far = (0, 0, OVER, "int");
    let second = 11 + TOKEN_LENGTH as u32 + 3;
    let with = |record: Record| file(NEW, C89, &[far, record]);
    assert_eq!(not_narrowed(&with((21, 0, 1, ""))), (7, 0));
    // No such kind, a word where none is, no word, a byte of no word, an end before its start.
    let wrong = [
        (58, 0, 1, ""),
        (21, 0, 1, "a"),
        (0, 0, 1, ""),
        (0, 0, 1, " "),
        (0, 0, 1, "\u{7f}"),
        (21, 1, 0, ""),
    ];
    for record in wrong {
        assert_eq!(not_narrowed(&with(record)), (4, second), "{record:?}");
        let old = file(OLD, C89, &[(0, 0, 3, "int"), record]);
        assert_eq!(not_widened(&old), (4, 26), "{record:?}");
    }
    // Cut off, or more than is there.
    let whole = with((21, 0, 1, ""));
    for cut in 1..TOKEN_LENGTH {
        assert_eq!(not_narrowed(&whole[..whole.len() - cut]), (4, second));
    }
    let more = [&whole[..], &[0]].concat();
    assert_eq!(not_narrowed(&more), (4, whole.len() as u32));
}

#[test]
fn a_1025th_record_comes_before_all_of_records() {
    let stars = |format, count| file(format, C89, &vec![(21, 0, 1, ""); count]);
    converts(&stars(OLD, MOST_TOKENS), &stars(NEW, MOST_TOKENS));
    for behind in [&[0][..], &[12, 0, 21], &[20; 40]] {
        let old = [&stars(OLD, MOST_TOKENS), behind].concat();
        let new = [&stars(NEW, MOST_TOKENS), behind].concat();
        assert_eq!(not_widened(&old), (5, 0));
        assert_eq!(not_narrowed(&new), (5, 0));
    }
    assert_eq!(not_widened(&stars(OLD, MOST_TOKENS + 1)), (5, 0));
    // An end beyond comes after it, a malformed record before it.
    let mut records = vec![(21, 0, 1, ""); MOST_TOKENS + 1];
    records[0].2 = OVER;
    assert_eq!(not_narrowed(&file(NEW, C89, &records)), (5, 0));
    records[MOST_TOKENS - 1].0 = 58;
    let last = 11 + (MOST_TOKENS as u32 - 1) * 20;
    assert_eq!(not_narrowed(&file(NEW, C89, &records)), (4, last));
}

/// So many words of 255 letters, and one of `last`.
fn words(format: Format, count: usize, last: usize) -> Vec<u8> {
    let letters = "w".repeat(LONGEST_WORD);
    let mut records: Vec<Record> = vec![(0, 0, 255, &letters); count];
    if last > 0 {
        records.push((0, 0, 1, &letters[..last]));
    }
    file(format, C89, &records)
}

#[test]
fn an_old_file_has_at_most_65536_bytes() {
    // 11 + 245 * 267 + 12 + 98
    let longest = words(OLD, 245, 98);
    assert_eq!(longest.len(), OLD_MOST_BYTES);
    let wide = words(NEW, 245, 98);
    assert_eq!(wide.len(), 65_536 + 8 * 246);
    converts(&longest, &wide);
    assert_eq!(not_widened(&words(OLD, 245, 99)), (1, 0));
    assert_eq!(not_narrowed(&words(NEW, 245, 99)), (1, 0));
    // Tested before all else.
    assert_eq!(not_widened(&vec![0; OLD_MOST_BYTES + 1]), (1, 0));
    assert_eq!(not_widened(&vec![0; OLD_MOST_BYTES]), (2, 0));
}

#[test]
fn an_old_form_that_is_too_long() {
    let mut long = words(NEW, 246, 0);
    assert_eq!(long.len(), 67_661);
    assert_eq!(words(OLD, 246, 0).len(), 65_693);
    assert_eq!(not_narrowed(&long), (1, 0));
    assert_eq!(type_name_narrow(&long, &mut [], &mut []), 1);
    // The file itself is short enough.
    assert!(
        parse_type_name(&long, &mut vec![0; 6 * 246])
            .is_err_and(|refusal| refusal.error.number() > 6)
    );
    // The last record ends at 2^32.
    let end = 67_661 - 255 - 8;
    long[end..][..8].copy_from_slice(&OVER.to_le_bytes());
    assert_eq!(not_narrowed(&long), (7, 0));
    long.push(0);
    assert_eq!(not_narrowed(&long), (4, 67_661));
}

#[test]
fn a_file_has_at_most_131072_bytes() {
    // 11 + 476 * 275 + 20 + 141
    let mut longest = words(NEW, 476, 141);
    assert_eq!(longest.len(), MOST_BYTES);
    assert_eq!(not_narrowed(&longest), (1, 0));
    assert_eq!(type_name_read(&longest, &mut [], &mut []), 6);
    let longer = words(NEW, 476, 142);
    assert_eq!(type_name_read(&longer, &mut [], &mut []), 1);
    // 1 of the old form comes behind 7, that of the file before all else.
    longest[MOST_BYTES - 141 - 4] = 1;
    assert_eq!(not_narrowed(&longest), (7, 0));
    let mut longer = longest;
    longer.push(0);
    assert_eq!(not_narrowed(&longer), (1, 0));
    assert_eq!(not_narrowed(&vec![0; MOST_BYTES]), (2, 0));
}

#[test]
fn the_longest_output() {
    // 1,024 words of 53,237 letters together: 1,013 of 52 and 11 of 51.
    let letters = "w".repeat(52);
    let records: Vec<Record> = (0..MOST_TOKENS)
        .map(|place| (0, 0, 1, &letters[usize::from(place >= 1_013)..]))
        .collect();
    let [old, new] = [OLD, NEW].map(|format| file(format, C89, &records));
    assert_eq!((old.len(), new.len()), (OLD_MOST_BYTES, MOST_WIDENED));
    converts(&old, &new);
    let more = TOKEN_LENGTH - OLD_TOKEN_LENGTH;
    assert_eq!(MOST_WIDENED, OLD_MOST_BYTES + more * MOST_TOKENS);
}

#[test]
fn as_many_numbers_of_the_answer_as_have_room_are_written() {
    let cut_off = &NEW_INT[..33];
    type Raw = fn(&[u8], &mut [u8], &mut [u32]) -> u32;
    let calls: [(Raw, &[u8], [u32; ANSWER_LENGTH]); 5] = [
        (type_name_widen, &OLD_INT, [0, 34, 0, 0]),
        (type_name_narrow, &NEW_INT, [0, 26, 0, 0]),
        (type_name_widen, &NEW_INT, [2, NO_TOKEN, 0, 0]),
        (type_name_narrow, cut_off, [4, NO_TOKEN, 11, 0]),
        (type_name_narrow, &OLD_INT, [2, NO_TOKEN, 0, 0]),
    ];
    for (convert, file, whole) in calls {
        for room in 0..6 {
            let mut answer = [AMPLE; 6];
            let mut output = [DIRT; 40];
            let returned = convert(file, &mut output, &mut answer[..room]);
            assert_eq!(returned, whole[0]);
            let written = room.min(ANSWER_LENGTH);
            assert_eq!(answer[..written], whole[..written]);
            assert!(answer[written..].iter().all(|&number| number == AMPLE));
        }
    }
}

#[test]
fn refusals_are_printed() {
    let printed = |done: Result<Vec<u8>, ConversionRefusal>| done.unwrap_err().to_string();
    assert_eq!(
        printed(widen(&vec![0; OLD_MOST_BYTES + 1])),
        "refusal 1: the file has more than 65536 bytes"
    );
    let limits =
        "the file has more than 131072 bytes, or would have more than 65536 in the old format";
    assert_eq!(
        printed(narrow(&words(NEW, 246, 0))),
        format!("refusal 1: {limits}")
    );
    assert_eq!(
        printed(narrow(&NEW_INT[..33])),
        "refusal 4: a token record is cut off, or its length, kind, span or word is out of range, at byte 11"
    );
    let short = widen_into(&OLD_INT, &mut []).unwrap_err();
    assert_eq!(
        short.to_string(),
        "refusal 6: the output buffer has fewer bytes than the converted file"
    );
    assert_eq!(
        printed(narrow(&file(NEW, C89, &[(21, 0, OVER, "")]))),
        "refusal 7: a span ends at 2^32 or later, which the old format cannot hold"
    );
}
