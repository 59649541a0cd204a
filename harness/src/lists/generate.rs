//! Rows of several parts: the same source of random numbers gives the same
//! rows.

use super::text;
use crate::format::{MOST_TOKENS, Token};
use crate::generate::random::Random;
use crate::generate::writer::Writer;
use crate::generate::{Draft, angles, deep, mutated, words, written};
use crate::kind::Kind;
use crate::profile::HostLanguage;

/// The most parts of most rows, and of one in so many.
const FEW_PARTS: usize = 6;
const MORE_PARTS: usize = 40;
const MORE: usize = 16;

/// One row in so many has some 1,024 tokens.
const LONG: usize = 150;

/// One odd part in so many is deep or long.
const DEEP: usize = 60;

/// C++ is drawn most: only there do angles part anything.
const LANGUAGES: [HostLanguage; 4] = [
    HostLanguage::C,
    HostLanguage::Cpp,
    HostLanguage::Cpp,
    HostLanguage::Fortran,
];

/// Accepted in most standards.
#[rustfmt::skip]
const C_FAMILY: &[&str] = &[
    "int", "int", "long", "double", "Lane", "unsigned long", "char *", "struct Lane", "int [ 8 ]", "int ( * ) ( int , char )",
];

#[rustfmt::skip]
const CPP: &[&str] = &[
    "A < b >", "A < b , c >", "A < B < c > , d >", "A < B < c >>", "A < B < c > >", "a :: b", ":: a", "A < b > :: C < d , e >",
    "A < 8 , b > *", "A < b ( c , d ) , e > &", "int ( A < b , c > , d )",
];

#[rustfmt::skip]
const FORTRAN: &[&str] = &[
    "integer", "real", "logical", "real * 8", "double precision", "real ( 8 )", "character ( len = 8 , kind = 8 )", "type ( a )",
];

/// Each is refused, unclosed or cut in some language, or nearly so.
#[rustfmt::skip]
const ODD: &[&str] = &[
    "", "", "", ",",
    // Commas within brackets and angles.
    "A < , b >", "A < b , >", "A < , >", "a ( , )", "a [ , ]", "a ( b , c )", "a [ b , c ]", "A < ( b , c ) >", "A < [ b , c ] , d >",
    "A ( b < c , d )", "A ( b < c , d > )", "A ( < , b )", "A ( b > , c )", "A ( b >> , c )", "A < ( b < c , d ) , e >",
    // `>>` at depth 0 to 4.
    "A >> b", "A >>", "A < b >>", "A < B < c >>", "A < B < C < d >> , e >", "A < B < C < d >>", "A < B < C < D < e >> , f >>",
    "A < B < C < D < e >> >>", "A < B < C < d >> >", "A < b >> c >", "A < ( B < c >> ) , d >", "A < ( B < c >> d ) , e >",
    // Other signs with an angle in them.
    "A << b", "A >= b", "A < B < c >>= , d >",
    // Angles left open, too many, or without a name before.
    "A < b", "A < b , c", "A < B < c > , d", "A < b > :: C < d", "A < b > < c", "A < b > < c >", "A ( b ) < c , d >", "A [ b ] < c",
    "< b >", "A < < b >", ">", "A >", "A < b > >", "A * < b >", ":: < b >", "8 < 8 >",
    // Brackets.
    "(", "[", ")", "]", "( ]", "[ )", "a ( b", "a ( b , c", "a [ b , c", "a ( b [ c", "a ( b ] , c )", "a )", "A < ( b > )", "A < b ( c > , d",
    // Kind 57.
    "$", "a $", "$ a", "a ( $ )", "A < $ >", "A < b , $", "a ( b , $",
    // Ends of rows, and no word.
    "::", ":: ::", "*", "8", "( )", "[ 8 ]", "a ::", ":: a", "a &", "a &&", "a *", "* a", "a * 8", "a 8", "( a )", "a +", "& a",
    // Reading, structure and profile.
    "Slots < ( Lanes < 8 ) >", "X < ( [ A < b ] > c ) >", "Lane < ( Key < 8 >> 8 ) >", "long long", "long long long", "LONG LONG",
    "unsigned _BitInt ( 8 )", "_Atomic ( int )", "typeof ( a , b )", "decltype ( a )", "int int", "type ( * )", "class ( a )", "real real",
];

/// What rows of single tokens are made of: what cutting looks at, and words.
#[rustfmt::skip]
const SINGLE: &[&str] = &[
    "a", "A", "int", "real", ",", ",", ",", ",", "<", "<", ">", ">", ">>", "(", ")", "(", ")", "[", "]", "::", "*", "&", "8", "$",
];

/// What long rows repeat.
#[rustfmt::skip]
const REPEATED: &[&str] = &[
    ",", "a ,", "a ,", "a , ,", "int * ,", ":: a ,", "A < b > ,", "A < b , c > ,", "a ( , ) ,", "a < b >> ,", "a [ 8 ] ,", "real * 8 ,",
];

/// A row of one part, which may be empty, or of more.
pub fn list(random: &mut Random) -> Draft {
    let language = *random.pick(&LANGUAGES);
    let tokens = if random.one_in(LONG) {
        long(random)
    } else {
        let style = *random.pick(&STYLES);
        style(random, language)
    };
    Draft { language, tokens }
}

type Style = fn(&mut Random, HostLanguage) -> Vec<Token>;

const STYLES: [Style; 9] = [
    good, good, good, with_odd, with_odd, with_odd, mixed, changed, single,
];

/// How many parts.
fn count(random: &mut Random) -> usize {
    let most = if random.one_in(MORE) {
        MORE_PARTS
    } else {
        FEW_PARTS
    };
    1 + random.below(most)
}

/// Parts that are mostly accepted.
fn good(random: &mut Random, language: HostLanguage) -> Vec<Token> {
    let count = count(random);
    joined((0..count).map(|_| accepted(random, language)).collect())
}

/// One other part among them, at any place.
fn with_odd(random: &mut Random, language: HostLanguage) -> Vec<Token> {
    let count = count(random);
    let mut parts: Vec<_> = (1..count).map(|_| accepted(random, language)).collect();
    let place = random.below(count);
    parts.insert(place, odd(random));
    joined(parts)
}

/// Parts of all sorts.
fn mixed(random: &mut Random, language: HostLanguage) -> Vec<Token> {
    let part = |random: &mut Random| match random.below(2) {
        0 => accepted(random, language),
        _ => odd(random),
    };
    let count = count(random);
    joined((0..count).map(|_| part(random)).collect())
}

/// Parts that were mostly accepted, slightly damaged.
fn changed(random: &mut Random, language: HostLanguage) -> Vec<Token> {
    let mut tokens = good(random, language);
    for _ in 0..=random.below(2) {
        mutated::mutate(random, &mut tokens);
    }
    tokens
}

/// Single tokens in any order.
fn single(random: &mut Random, _language: HostLanguage) -> Vec<Token> {
    let count = random.below(16);
    (0..count).flat_map(|_| one_of(random, SINGLE)).collect()
}

/// The tokens of one of the texts.
fn one_of(random: &mut Random, texts: &[&str]) -> Vec<Token> {
    let text = *random.pick(texts);
    text::tokens(text)
}

/// Commas between the parts.
fn joined(parts: Vec<Vec<Token>>) -> Vec<Token> {
    parts.join(&Token::plain(Kind::Comma))
}

fn accepted(random: &mut Random, language: HostLanguage) -> Vec<Token> {
    let texts = match language {
        HostLanguage::C => C_FAMILY,
        HostLanguage::Cpp => *random.pick(&[C_FAMILY, CPP]),
        HostLanguage::Fortran => FORTRAN,
    };
    match random.below(4) {
        0 => grammatical(random, language),
        _ => one_of(random, texts),
    }
}

/// By the language's grammar, mostly not deep.
fn grammatical(random: &mut Random, language: HostLanguage) -> Vec<Token> {
    let depth = *random.pick(&[0, 0, 1, 1, 2, 3]);
    let write = |writer: &mut Writer| match language {
        HostLanguage::Fortran => writer.fortran_type(depth),
        _ => writer.c_family_type(depth),
    };
    written(random, language, write).tokens
}

/// Mostly one of the texts; else a row of another style, whatever its
/// language.
fn odd(random: &mut Random) -> Vec<Token> {
    if random.one_in(DEEP) {
        return deep::deep(random).tokens;
    }
    match random.below(16) {
        0 => angles::angles(random).tokens,
        1 => words::words(random).tokens,
        2 => mutated::mutated(random).tokens,
        _ => one_of(random, ODD),
    }
}

/// Some tokens over and over, 1,022 to 1,026 of them: whole parts and no more,
/// as many as that gives, or with another part somewhere.
fn long(random: &mut Random) -> Vec<Token> {
    let length = MOST_TOKENS - 2 + random.below(5);
    let repeated = one_of(random, REPEATED);
    let mut tokens: Vec<Token> = repeated.iter().cycle().take(length).cloned().collect();
    match random.below(3) {
        0 => tokens.truncate(length - length % repeated.len() - 1),
        1 => {
            let place = random.below(length);
            tokens.splice(place..place, odd(random));
            tokens.truncate(length);
        }
        _ => {}
    }
    tokens
}
