//! The tool's lexer, held against the original's: both make the same tokens of a text, with the same words and spans, or both
//! turn it down. The texts are the corpus's names, those names with characters changed, pieces of the three languages put
//! together at random, and short texts over small alphabets, each under every profile or a drawn one.

use std::collections::BTreeSet;

use harness::format::Format;
use harness::generate::random::Random;
use harness::kind::Kind;
use harness::lexed;
use harness::names::names;
use harness::profile::{self, LANGUAGES};
use type_name::{Head, HostLanguageProfile, Row};
use type_name_tool::lexer;

const CORPUS: &str = include_str!("../../corpus/names.tsv");
const SMALLEST: &str = include_str!("../../corpus/smallest.tsv");

const SEED: u64 = 20_261_116;

/// Texts of each sort that is generated.
const GENERATED: usize = 250_000;

/// The most pieces of a text.
const PIECES: usize = 9;

/// The kind, the word and the span of each token; `None` if a lexer turns the text down.
type Tokens = Option<Vec<(u32, String, usize, usize)>>;

fn originals(text: &str, language: u8, standard: u8) -> Tokens {
    let profile =
        profile::numbered_in(Format::current(), language, standard).expect("a known profile");
    let tokens = lexed::tokens(text, profile).ok()?;
    let token = tokens.into_iter().map(|token| {
        let kind = token.kind.number().into();
        (kind, token.word, token.start as usize, token.end as usize)
    });
    Some(token.collect())
}

fn ours(text: &str, language: u8, standard: u8) -> Tokens {
    let numbers = (language.into(), standard.into());
    let profile = HostLanguageProfile::try_from(numbers).expect("a known profile");
    let tokens = lexer::tokens(text, profile).ok()?;
    // Words that no record can hold are turned down, too.
    lexer::push_all(&mut Row::new(Head::default()), &tokens).ok()?;
    let token = tokens.into_iter().map(|token| {
        let (start, end) = (token.span.start, token.span.end);
        (token.kind.number(), token.word, start, end)
    });
    Some(token.collect())
}

/// What was seen, so that a comparison of nothing is noticed.
#[derive(Default)]
struct Seen {
    lexed: usize,
    turned_down: usize,
    kinds: BTreeSet<u32>,
}

impl Seen {
    fn compare(&mut self, text: &str, language: u8, standard: u8) {
        let expected = originals(text, language, standard);
        let found = ours(text, language, standard);
        assert_eq!(
            found, expected,
            "{text:?}, language {language}, standard {standard}"
        );
        match expected {
            Some(tokens) => {
                self.lexed += 1;
                self.kinds.extend(tokens.iter().map(|(kind, ..)| kind));
            }
            None => self.turned_down += 1,
        }
    }

    /// Under a drawn profile.
    fn compare_drawn(&mut self, text: &str, random: &mut Random) {
        let language = *random.pick(&LANGUAGES);
        let standards: Vec<u8> = profile::standards(language).collect();
        let standard = *random.pick(&standards);
        self.compare(text, profile::language_number(language), standard);
    }
}

#[test]
fn real_names_have_the_originals_tokens() {
    let mut seen = Seen::default();
    let all = names(CORPUS).unwrap().into_iter();
    for name in all.chain(names(SMALLEST).unwrap()) {
        for language in LANGUAGES {
            for standard in profile::standards(language) {
                seen.compare(name.text, profile::language_number(language), standard);
            }
        }
    }
    assert!(seen.lexed > 90_000 && seen.turned_down > 1_000);
}

/// Parts of texts: what the three languages have, and what comes close to it.
#[rustfmt::skip]
const PARTS: &[&str] = &[
    "int", "Lane", "a", "_b1", "LONG", "Real", "true", "false", "nullptr", "and", "or", "not", "bitand", "bitor", "xor",
    "compl", "not_eq", "and_eq", "or_eq", "xor_eq", "u8", "u", "U", "L", "R", "e", "d", "E", "x",
    "(", ")", "[", "]", "{", "}", ",", ";", "?", ":", "::", ".", "..", "...", "%", "->", "+", "-", "*", "/", "**", "//", "!",
    "~", "&", "|", "^", "&&", "||", "=", "==", "!=", "/=", "<", "<=", ">", ">=", "<<", ">>", "++", "--", "+=", "-=", "*=",
    "%=", "&=", "|=", "^=", "<<=", ">>=", "<=>", "<:", "@", "#", "$", "\\", "`",
    ".true.", ".FALSE.", ".not.", ".and.", ".Or.", ".eqv.", ".neqv.", ".eq.", ".ne.", ".lt.", ".le.", ".gt.", ".ge.",
    ".mine.", ".a b.", "._x.", ".9.", ".é.",
    "0", "8", "08", "017", "123", "0x1F", "0X", "0xG", "0b101", "0B2", "0b", "1'000", "1''0", "'0", "0x1'f", "0b1'0",
    "1u", "1UL", "1lu", "1ll", "1LLU", "1z", "1uz", "1lul", "1x", "1_8", "1_wide", "1_", "1_99999999999",
    "1.", "1.5", ".5", "1e5", "1e+5", "1e-", "1d0", "1D-3", "1.5f", "1.5L", "1.5_8", "1.eq.2", "1..2", "1.5e99999999999",
    "340282366920938463463374607431768211455", "340282366920938463463374607431768211456", "0x1p3", "0x1.8",
    "'x'", "''", "'xy'", "\"\"", "\"s\"", "'''", "'it''s'", "\"a\"\"b\"", "'\\n'", "'\\?'", "'\\x41'", "'\\x'", "'\\u00e9'",
    "'\\ud800'", "'\\U0001F600'", "'\\101'", "'\\8'", "\"\\xfffffffff\"", "u8'x'", "u8\"x\"", "u'x'", "U\"x\"", "L'x'", "\"\n\"",
    "/* c */", "/*", "*/", "// c\n", "! c\n", "'", "\"",
    "é", "ß", "K", "İ", "٣", "α1", " ", "\t", "\n", "\r", "\u{a0}", "\u{2028}", "\u{7f}", "\u{0}",
];

fn part(random: &mut Random) -> &'static str {
    PARTS[random.below(PARTS.len())]
}

fn pieces(random: &mut Random) -> String {
    let mut text = String::new();
    for _ in 0..=random.below(PIECES) {
        text += part(random);
        if random.one_in(3) {
            text.push(' ');
        }
    }
    text
}

/// What numbers, literals, dotted words and symbols are made of.
const ALPHABETS: [&str; 4] = [
    "0189abfxXBeEdD.'+-uUlLzZpP_ ",
    "uUL8'\"\\nx041fd7 \n",
    ".trueandgqvl_1 T",
    "<>=+-*/%&|^!~?:.()[], ",
];

/// The most letters of a text over an alphabet.
const LETTERS: usize = 8;

fn over_an_alphabet(random: &mut Random) -> String {
    let letters = random.pick(&ALPHABETS).as_bytes();
    let length = 1 + random.below(LETTERS);
    (0..length)
        .map(|_| char::from(*random.pick(letters)))
        .collect()
}

/// A name with a part of it left out, doubled or changed for something else.
fn changed(name: &str, random: &mut Random) -> String {
    let letters: Vec<char> = name.chars().collect();
    let at = random.below(letters.len());
    let (before, behind) = letters.split_at(at);
    let [before, behind]: [String; 2] = [before, behind].map(|part| part.iter().collect());
    match random.below(3) {
        0 => before + &behind.chars().skip(1).collect::<String>(),
        1 => before + part(random) + &behind,
        _ => before + part(random) + &behind.chars().skip(1).collect::<String>(),
    }
}

#[test]
fn generated_texts_have_the_originals_tokens() {
    let mut random = Random::new(SEED);
    let mut seen = Seen::default();
    let names = names(CORPUS).unwrap();
    for _ in 0..GENERATED {
        seen.compare_drawn(&pieces(&mut random), &mut random);
        seen.compare_drawn(&over_an_alphabet(&mut random), &mut random);
        let name = random.pick(&names).text;
        seen.compare_drawn(&changed(name, &mut random), &mut random);
    }
    assert!(seen.lexed > GENERATED / 2 && seen.turned_down > GENERATED / 2);
    // All kinds but those that no lexer of type names gives, and the end, which is no token of a row.
    let never = [Kind::ReservedKeyword, Kind::End].map(|kind| u32::from(kind.number()));
    let wanted = (0..Kind::ALL.len() as u32).filter(|kind| !never.contains(kind));
    assert_eq!(seen.kinds, wanted.collect());
}
