//! What 253, 254 and 255 come to in a head, where a `Row` never has them. The expected answers are worked out from document 02,
//! C-16.

mod support;

use support::{checked, row, unchecked};
use type_name::{
    ANSWER_LENGTH, HostLanguage, HostLanguageProfile, NO_TOKEN, Names, tree_for, type_name_match,
    type_name_read, type_name_read_list, type_name_read_named,
};

/// Where a head has its standard.
const STANDARD_AT: usize = 5;

/// The file of a text in a language, with the structure check or without.
fn file(language: HostLanguage, standard: u8, text: &str, is_checked: bool) -> Vec<u8> {
    let profile = HostLanguageProfile::default_of(language);
    let head = if is_checked { checked } else { unchecked };
    let mut file = row(head(profile), text).bytes().to_vec();
    file[STANDARD_AT] = standard;
    file
}

/// The answer and the buffer.
fn read(file: &[u8]) -> ([u32; ANSWER_LENGTH], Vec<u32>) {
    let (mut answer, mut tree) = ([0; ANSWER_LENGTH], tree_for(file));
    type_name_read(file, &mut tree, &mut answer);
    (answer, tree)
}

#[test]
fn bit_int_by_each_number() {
    let answer = |standard| read(&file(HostLanguage::C, standard, "_BitInt(8)", true)).0;
    let lacking = [40, NO_TOKEN, 3, 5];
    assert_eq!(answer(255), [0, 3, 5, 0]);
    assert_eq!(answer(4), [0, 3, 5, 0]);
    assert_eq!(answer(254), lacking);
    assert_eq!(answer(3), lacking);
    assert_eq!(answer(253), [3, NO_TOKEN, 0, 0]);
}

/// Each language with the own numbers of the archive's standard and of the default.
const OWN: [(HostLanguage, u8, u8); 3] = [
    (HostLanguage::C, 3, 4),
    (HostLanguage::Cpp, 3, 5),
    (HostLanguage::Fortran, 5, 6),
];

const TEXTS: [&str; 14] = [
    "",
    "int",
    "_BitInt(8)",
    "typeof(int) *",
    "unsigned typeof_unqual(x)",
    "long long",
    "_Atomic(int)",
    "decltype(x) &&",
    "A<B<c>>",
    "Lane<(Key<8>>2)>",
    "real(kind=8)",
    "class(*)",
    "lane(..)",
    "A)",
];

#[test]
fn a_number_answers_as_the_standard_that_it_means() {
    for (language, archive, default) in OWN {
        for text in TEXTS {
            for is_checked in [false, true] {
                let read = |standard| read(&file(language, standard, text, is_checked));
                let (by_254, by_255) = (read(254), read(255));
                assert_eq!(by_254, read(archive), "{language} {text}");
                assert_eq!(by_255, read(default), "{language} {text}");
                // What 255 accepted before, it accepts with the same tree.
                if by_254.0[0] == 0 {
                    assert_eq!(by_255, by_254, "{language} {text}");
                }
            }
        }
    }
}

#[test]
fn every_function_that_reads_knows_both() {
    let names = Names::new(["A"]).unwrap();
    for (language, ..) in OWN {
        for (standard, number) in [(253, 3), (254, 0), (255, 0)] {
            let file = file(language, standard, "A", true);
            let mut tree = tree_for(&file);
            assert_eq!(type_name_read(&file, &mut tree, &mut []), number);
            assert_eq!(type_name_read_list(&file, &mut tree, &mut []), number);
            // A rule of one item, which takes any one node.
            let any = [5, 0, 16, 1, 4];
            assert_eq!(type_name_match(&file, &any, &mut tree, &mut []), number);
            // Names are for C++ alone: refusal 8.
            let by_names = if language != HostLanguage::Cpp && number == 0 {
                8
            } else {
                number
            };
            let found = type_name_read_named(&file, names.as_bytes(), &mut tree, &mut []);
            assert_eq!(found, by_names);
        }
    }
}
