//! Examples that were worked out by hand from document 02. The expected
//! numbers and bytes come from there, none from a run.

use super::generate::words;
use crate::format::{Format, Head, Row, Token};
use crate::kind::Kind;
use crate::rules::model::Numbers;

/// One of the entries, of the model or of the proved library.
type Entry = fn(file: &[u8], output: &mut [u8], answer: &mut [u32]) -> u32;

/// The two entries.
pub struct Entries {
    pub type_name_widen: Entry,
    pub type_name_narrow: Entry,
}

const DIRT: u32 = 0xDEAD_BEEF;
const DIRTY_BYTE: u8 = 0xA5;

/// The longest `answer` that is lent.
const LONGEST_ANSWER: usize = 6;

/// More bytes than any output has.
const AMPLE: usize = 80_000;

/// `int`, C89, flag 1, allowance 1000, at 0 to 3.
const OLD: [u8; 26] = *b"\x0b\0\x00\x01\0\0\x01\xe8\x03\0\0\
\x0f\0\0\0\0\0\0\0\x03\0\0\0int";
const NEW: [u8; 34] = *b"\x0b\0\x05\x01\0\0\x01\xe8\x03\0\0\
\x17\0\0\0\0\0\0\0\0\0\0\0\x03\0\0\0\0\0\0\0int";

/// Fortran2018 by its number beyond the declared ones, 255 before and 254 now,
/// with flag 0 and the greatest allowance; kind 57 at 1 to 2^32 - 1, `>` at 258
/// twice, `~`: no row that is read.
const OLD_ROW: [u8; 48] = *b"\x0b\0\x00\x01\x02\xff\0\xff\xff\xff\xff\
\x0c\0\x39\0\x01\0\0\0\xff\xff\xff\xff\
\x0c\0\x29\0\x02\x01\0\0\x02\x01\0\0\
\x0d\0\0\0\0\0\0\0\0\0\0\0~";
const NEW_ROW: [u8; 72] = *b"\x0b\0\x05\x01\x02\xfe\0\xff\xff\xff\xff\
\x14\0\x39\0\x01\0\0\0\0\0\0\0\xff\xff\xff\xff\0\0\0\0\
\x14\0\x29\0\x02\x01\0\0\0\0\0\0\x02\x01\0\0\0\0\0\0\
\x15\0\0\0\0\0\0\0\0\0\0\0\0\0\0\0\0\0\0\0~";

// Places of `OLD` and `NEW`: the head's language, standard and flag, and the
// record's first byte.
const LANGUAGE: usize = 4;
const STANDARD: usize = 5;
const FLAG: usize = 6;
const RECORD: usize = 11;

const fn accepted(bytes: u32) -> Numbers {
    [0, bytes, 0, 0]
}

const fn refused(number: u32) -> Numbers {
    [number, 65_535, 0, 0]
}

const fn malformed(offset: u32) -> Numbers {
    [4, 65_535, offset, 0]
}

/// A file with a byte changed.
fn with(file: &[u8], place: usize, byte: u8) -> Vec<u8> {
    let mut file = file.to_vec();
    file[place] = byte;
    file
}

/// A file with bytes behind it.
fn behind(file: &[u8], bytes: &[u8]) -> Vec<u8> {
    [file, bytes].concat()
}

/// `NEW` with another span.
fn spanning(start: u64, end: u64) -> Vec<u8> {
    let mut file = NEW.to_vec();
    file[RECORD + 4..][..8].copy_from_slice(&start.to_le_bytes());
    file[RECORD + 12..][..8].copy_from_slice(&end.to_le_bytes());
    file
}

/// `NEW`'s record with kind 58, which there is not.
fn kind_58() -> Vec<u8> {
    with(&NEW[RECORD..], 2, 58)
}

/// A row of C89 in a format.
fn file_of(format: Format, tokens: Vec<Token>) -> Vec<u8> {
    let head = Head {
        language: 0,
        standard: 0,
        flag: 1,
        allowance: 1_000,
    };
    format.write(&Row { head, tokens })
}

const BEYOND: u64 = 1 << 32;

impl Entries {
    /// Asserts all examples.
    pub fn assert_worked(&self) {
        self.assert_converted();
        self.assert_heads();
        self.assert_standards();
        self.assert_records();
        self.assert_offsets();
        self.assert_long_words();
        self.assert_limits();
    }

    fn widen(&self, file: &[u8], room: usize, numbers: Numbers, bytes: &[u8]) {
        assert_call(self.type_name_widen, file, room, numbers, bytes);
    }

    fn narrow(&self, file: &[u8], room: usize, numbers: Numbers, bytes: &[u8]) {
        assert_call(self.type_name_narrow, file, room, numbers, bytes);
    }

    /// Refused with every output alike.
    fn widen_refuses(&self, file: &[u8], numbers: Numbers) {
        for room in [0, 34, AMPLE] {
            self.widen(file, room, numbers, &[]);
        }
    }

    fn narrow_refuses(&self, file: &[u8], numbers: Numbers) {
        for room in [0, 26, AMPLE] {
            self.narrow(file, room, numbers, &[]);
        }
    }

    fn assert_converted(&self) {
        self.widen(&OLD, 34, accepted(34), &NEW);
        self.widen(&OLD, 33, refused(6), &[]);
        self.widen(&OLD, 0, refused(6), &[]);
        self.widen(&OLD, AMPLE, accepted(34), &NEW);
        self.narrow(&NEW, 26, accepted(26), &OLD);
        self.narrow(&NEW, 25, refused(6), &[]);
        self.narrow(&NEW, 0, refused(6), &[]);
        self.narrow(&NEW, AMPLE, accepted(26), &OLD);
        self.widen(&OLD_ROW, 72, accepted(72), &NEW_ROW);
        self.narrow(&NEW_ROW, 48, accepted(48), &OLD_ROW);
        // A head alone.
        self.widen(&OLD[..11], 11, accepted(11), &NEW[..11]);
        self.widen(&OLD[..11], 10, refused(6), &[]);
        self.narrow(&NEW[..11], 11, accepted(11), &OLD[..11]);
        self.narrow(&NEW[..11], 10, refused(6), &[]);
    }

    fn assert_heads(&self) {
        // Neither reads what the other does.
        self.widen_refuses(&NEW, refused(2));
        self.narrow_refuses(&OLD, refused(2));
        for length in 0..11 {
            self.widen_refuses(&OLD[..length], refused(2));
            self.narrow_refuses(&NEW[..length], refused(2));
        }
        // A wrong length, a flag over 1, an unknown language, standards that C
        // does not declare.
        let faults = [
            (0, 12, 2),
            (1, 1, 2),
            (FLAG, 2, 2),
            (LANGUAGE, 3, 3),
            (STANDARD, 5, 3),
            (STANDARD, 253, 3),
        ];
        for (place, byte, number) in faults {
            self.widen_refuses(&with(&OLD, place, byte), refused(number));
            self.narrow_refuses(&with(&NEW, place, byte), refused(number));
        }
        // The flag is tested first, and both before the records.
        let both = |file: &[u8]| with(&with(file, FLAG, 2), LANGUAGE, 3);
        self.widen_refuses(&both(&OLD), refused(2));
        self.narrow_refuses(&both(&NEW), refused(2));
        let and_record = |file: &[u8]| with(&with(file, STANDARD, 5), RECORD + 2, 58);
        self.widen_refuses(&and_record(&OLD), refused(3));
        self.narrow_refuses(&and_record(&NEW), refused(3));
    }

    /// What C-16 says of heads, one number after the other.
    fn assert_standards(&self) {
        let head = |file: &[u8], language, standard| {
            with(&with(file, LANGUAGE, language), STANDARD, standard)
        };
        let old = |language, standard| head(&OLD, language, standard);
        let new = |language, standard| head(&NEW, language, standard);
        let widens = |from: &[u8], to: &[u8]| self.widen(from, 34, accepted(34), to);
        let narrows = |from: &[u8], to: &[u8]| self.narrow(from, 26, accepted(26), to);
        // C, C++ and Fortran: how many standards they declare, and which of
        // them 255 means now.
        for (language, declared, own) in [(0, 5, 4), (1, 6, 5), (2, 7, 6)] {
            for standard in 0..declared {
                widens(&old(language, standard), &new(language, standard));
                narrows(&new(language, standard), &old(language, standard));
            }
            // There and back, and back and there.
            widens(&old(language, 255), &new(language, 254));
            narrows(&new(language, 254), &old(language, 255));
            // Only there: what comes back names the standard itself.
            narrows(&new(language, 255), &old(language, own));
            widens(&old(language, own), &new(language, own));
            for standard in [declared, 252, 253] {
                self.widen_refuses(&old(language, standard), refused(3));
                self.narrow_refuses(&new(language, standard), refused(3));
            }
            self.widen_refuses(&old(language, 254), refused(3));
            // The standard comes before the records: 254 is at fault in an old
            // file alone.
            let and_record = |file: &[u8]| with(file, RECORD + 2, 58);
            self.widen_refuses(&and_record(&old(language, 254)), refused(3));
            self.widen_refuses(&and_record(&old(language, 255)), malformed(11));
            for standard in [254, 255] {
                self.narrow_refuses(&and_record(&new(language, standard)), malformed(11));
            }
            // A head alone, and too little room for it.
            self.widen(
                &old(language, 255)[..11],
                11,
                accepted(11),
                &new(language, 254)[..11],
            );
            self.narrow(
                &new(language, 254)[..11],
                11,
                accepted(11),
                &old(language, 255)[..11],
            );
            self.narrow(
                &new(language, 255)[..11],
                11,
                accepted(11),
                &old(language, own)[..11],
            );
            self.widen(&old(language, 255), 33, refused(6), &[]);
            self.narrow(&new(language, 254), 25, refused(6), &[]);
            self.narrow(&new(language, 255), 25, refused(6), &[]);
        }
        // No language, whatever its standard.
        for standard in [0, 4, 5, 6, 253, 254, 255] {
            for language in [3, 255] {
                self.widen_refuses(&old(language, standard), refused(3));
                self.narrow_refuses(&new(language, standard), refused(3));
            }
        }
    }

    fn assert_records(&self) {
        // A record's length, an unknown kind, a reversed span, a word's byte.
        for (place, byte) in [(0, 12), (0, 16), (1, 1), (2, 58), (3, 1), (4, 4), (14, 32)] {
            self.widen_refuses(&with(&OLD, RECORD + place, byte), malformed(11));
        }
        for (place, byte) in [(0, 20), (0, 24), (1, 1), (2, 58), (3, 1), (4, 4), (22, 127)] {
            self.narrow_refuses(&with(&NEW, RECORD + place, byte), malformed(11));
        }
        // `in`, and `t` as a record that is cut off.
        self.widen_refuses(&with(&OLD, RECORD, 14), malformed(25));
        self.narrow_refuses(&with(&NEW, RECORD, 22), malformed(33));
        // The detail is an offset in the file handed in.
        self.widen_refuses(&behind(&OLD, &[0]), malformed(26));
        self.widen_refuses(&behind(&OLD, &OLD[RECORD..][..14]), malformed(26));
        self.narrow_refuses(&behind(&NEW, &[0]), malformed(34));
        self.narrow_refuses(&behind(&NEW, &NEW[RECORD..][..22]), malformed(34));
        // One format's records behind the other's head.
        let mixed = |head: &[u8], records: &[u8]| behind(&head[..RECORD], &records[RECORD..]);
        self.widen_refuses(&mixed(&OLD, &NEW), malformed(11));
        self.narrow_refuses(&mixed(&NEW, &OLD), malformed(11));
    }

    fn assert_offsets(&self) {
        let greatest = |start: &[u8]| behind(start, b"\xff\xff\xff\xffint");
        self.narrow(
            &spanning(3, BEYOND - 1),
            26,
            accepted(26),
            &greatest(&with(&OLD[..19], RECORD + 4, 3)),
        );
        self.widen(
            &greatest(&OLD[..19]),
            34,
            accepted(34),
            &spanning(0, BEYOND - 1),
        );
        for (start, end) in [
            (0, BEYOND),
            (BEYOND - 1, BEYOND),
            (BEYOND, BEYOND),
            (5, 1 << 33),
            (0, 1 << 63),
            (0, u64::MAX),
            (u64::MAX, u64::MAX),
        ] {
            self.narrow_refuses(&spanning(start, end), refused(7));
            // Only once all records pass.
            let later = behind(&spanning(start, end), &kind_58());
            self.narrow_refuses(&later, malformed(34));
            let cut_off = behind(&spanning(start, end), &[0]);
            self.narrow_refuses(&cut_off, malformed(34));
            let flag = with(&spanning(start, end), FLAG, 2);
            self.narrow_refuses(&flag, refused(2));
        }
        for (start, end) in [
            (BEYOND, BEYOND - 1),
            (BEYOND, 0),
            (BEYOND + 1, BEYOND),
            (1 << 63, (1 << 63) - 1),
            (u64::MAX, u64::MAX - 1),
        ] {
            self.narrow_refuses(&spanning(start, end), malformed(11));
        }
    }

    /// 246 words of 255 letters: 67,661 bytes, 65,693 in the old format.
    fn assert_long_words(&self) {
        let word = Token::word(&"w".repeat(255));
        let mut tokens = vec![word; 246];
        let current = Format::current();
        let file = file_of(current, tokens.clone());
        assert_eq!(file.len(), 67_661);
        self.narrow_refuses(&file, refused(1));
        self.narrow_refuses(&behind(&file, &[0]), malformed(67_661));
        let old = file_of(Format::old(), tokens.clone());
        assert_eq!(old.len(), 65_693);
        self.widen_refuses(&old, refused(1));
        tokens[0].end = BEYOND;
        let beyond = file_of(current, tokens);
        self.narrow_refuses(&beyond, refused(7));
        self.narrow_refuses(&behind(&beyond, &[0]), malformed(67_661));
    }

    fn assert_limits(&self) {
        let (old, current) = (Format::old(), Format::current());
        // 245 words of 255 letters and one of 98: 11 + 245 * 267 + 110.
        let mut tokens = vec![Token::word(&"w".repeat(255)); 245];
        tokens.push(Token::word(&"w".repeat(98)));
        let [longest, widened] = [old, current].map(|format| file_of(format, tokens.clone()));
        assert_eq!([longest.len(), widened.len()], [65_536, 67_504]);
        self.widen(&longest, 67_504, accepted(67_504), &widened);
        self.widen(&longest, 67_503, refused(6), &[]);
        self.narrow(&widened, 65_536, accepted(65_536), &longest);
        self.narrow(&widened, 65_535, refused(6), &[]);
        tokens[245].word.push('w');
        self.widen_refuses(&file_of(old, tokens.clone()), refused(1));
        self.narrow_refuses(&file_of(current, tokens), refused(1));
        // Nothing else is looked at in a file that is too long.
        self.widen_refuses(&[0; 65_536], refused(2));
        self.widen_refuses(&[0; 65_537], refused(1));
        self.narrow_refuses(&[0; 131_072], refused(2));
        self.narrow_refuses(&[0; 131_073], refused(1));
        // As long a file as there is, its old form too long.
        let mut tokens = words(current, 477, 131_072);
        self.narrow_refuses(&file_of(current, tokens.clone()), refused(1));
        tokens[476].end = BEYOND;
        self.narrow_refuses(&file_of(current, tokens), refused(7));
        // As many records as there may be, in as many bytes: 8 more for each.
        let tokens = words(old, 1_024, 65_536);
        let [longest, widened] = [old, current].map(|format| file_of(format, tokens.clone()));
        assert_eq!(widened.len(), 73_728);
        self.widen(&longest, 73_728, accepted(73_728), &widened);
        self.narrow(&widened, 65_536, accepted(65_536), &longest);
        self.assert_most_records();
    }

    fn assert_most_records(&self) {
        let stars = |format, count| file_of(format, vec![Token::plain(Kind::Star); count]);
        let (old, current) = (Format::old(), Format::current());
        let [most_old, most] = [old, current].map(|format| stars(format, 1_024));
        assert_eq!([most_old.len(), most.len()], [12_299, 20_491]);
        self.widen(&most_old, 20_491, accepted(20_491), &most);
        self.narrow(&most, 12_299, accepted(12_299), &most_old);
        // A 1,025th record, whole, cut off or malformed.
        self.widen_refuses(&stars(old, 1_025), refused(5));
        self.narrow_refuses(&stars(current, 1_025), refused(5));
        self.widen_refuses(&behind(&most_old, &[0]), refused(5));
        self.narrow_refuses(&behind(&most, &kind_58()), refused(5));
        // A record before it comes first, an offset after it.
        let first = |file: &[u8]| with(file, RECORD + 2, 58);
        self.widen_refuses(&first(&stars(old, 1_025)), malformed(11));
        self.narrow_refuses(&first(&stars(current, 1_025)), malformed(11));
        // The upper half of the first record's end.
        let beyond = |file: &[u8]| with(file, RECORD + 16, 1);
        self.narrow_refuses(&beyond(&most), refused(7));
        self.narrow_refuses(&beyond(&stars(current, 1_025)), refused(5));
    }
}

/// One call with an `answer` of each length and an output that is dirty.
fn assert_call(entry: Entry, file: &[u8], room: usize, numbers: Numbers, bytes: &[u8]) {
    for length in 0..=LONGEST_ANSWER {
        let mut output = vec![DIRTY_BYTE; room];
        let mut answer = vec![DIRT; length];
        let returned = entry(file, &mut output, &mut answer);
        let case = || {
            format!(
                "{} bytes {:?} into {room}",
                file.len(),
                &file[..file.len().min(80)]
            )
        };
        assert_eq!(returned, numbers[0], "{}", case());
        let given = length.min(numbers.len());
        assert_eq!(answer[..given], numbers[..given], "{}", case());
        let mut behind = answer[given..].iter();
        assert!(behind.all(|&stays| stays == DIRT), "{}", case());
        assert!(output.starts_with(bytes), "{}", case());
        let mut behind = output[bytes.len()..].iter();
        assert!(behind.all(|&stays| stays == DIRTY_BYTE), "{}", case());
    }
}
