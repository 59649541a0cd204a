//! Rows chosen by hand, so that a change of any one rule is noticed:
//! `harness/mutations` found most of them missing. The rows of the crates'
//! examples are among them. Only rows stand here: the answers are the
//! original's.

use HostLanguage::{C, Cpp, Fortran};

use crate::format::{
    FLAG_AT, Format, HEAD_LENGTH, Head, LANGUAGE_AT, NUMBERS_PER_TOKEN, Row, STANDARD_AT,
    TOKEN_LENGTH, Token, WORD_BYTES, WORD_LENGTHS,
};
use crate::generate::words::{BUILTIN, KNOWN_WORDS};
use crate::generate::{Case, DEFAULT_ALLOWANCE};
use crate::kind::Kind;
use crate::lexed;
use crate::oracle;
use crate::profile::{
    self, ARCHIVE_STANDARD, HostLanguage, LANGUAGES, NEWER_STANDARD, language_number,
};

/// Read in C++, without and with the structure check: what brackets and
/// angles come to.
#[rustfmt::skip]
const TREES: &[&str] = &[
    // What may stand before `<`.
    "A(b)<c>", "A[b]<c>", "A<b><c>", "A<B<c>><d>", "A*<b>",
    // A half of a `>>`: past a bracket, where a list begins, before a comma.
    "A<(B<c>>d)>", "A<(B<c>>D<e>)>", "A<(B<c>>),d>", "A<(B<c>>d),e>", "A<B<C<d>>,e>", "A<(A<A>>)>",
    "A[B<c>>d>]", "A(b<c,d>>e)", "A<b,c>", "A<B<c>,d>", "A<b,>", "A<,b>", "A<>", "A<B<C<d>>>",
    "A<B<C<d>> >", "A<B<c> >", "A<(b<c)>", "A>", "A<b>>", "A>>b", "A<b>::C<d", "a,b", "A)", "A(]",
    "A[)", "A([", "A<)>", "()<", "::", "*a", "a::",
];

/// Read in C and in C++, with the structure check; lexed as C++.
#[rustfmt::skip]
const C_FAMILY: &[&str] = &[
    // Declarators.
    "int&", "int&&", "int&*", "int& &", "int&& &", "int*&", "int*&&", "int*const::*", "int*::*",
    "int*const::[2]", "int*a", "int*CONST", "int(*CONST)", "int(&)", "int(&&)", "int(&*)",
    "int(& &)", "int(())", "int(*())", "int(a::*)", "int(*::*)", "int(A<b>::*)", "int(a<b>)",
    "int(*)(char,...)", "int(*)(char,)", "int(*)(,char)", "int()", "int(Lane::*)(void)const noexcept(true)",
    "int*noexcept()", "int*noexcept(1)", "int noexcept(1)", "int()noexcept", "int[]", "int[*]", "a*8", "A<b>", "int([2])", "int((*))",
    "int(*[])", "int(*[*])", "int(*[+])", "int(*+)", "int(*a::b)", "int(::a)", "int(int&)", "int&a",
    "int(A<b,c+>::*)", "int(A<c+>::*)",
    // Specifiers.
    "int", "longer", "Long", "long long", "long long long", "long double long", "long long double", "const int const",
    "LONG const LONG", "struct Lane", "class Lane", "struct const::a", "a::const b", "a::const<b>c",
    "::const a", "::struct a", "::union a", "::enum a", "::class a", "::typename a", "::Lane",
    "::INT", "const::*", "Lane::(*)", "typeof(a)::b", "a::b", "a::b::c", "a b", "struct a b", "unsigned int _BitInt(8)",
    "_BitInt(8)unsigned", "signed _BitInt(8)unsigned", "unsigned _BitInt(8)", "_BitInt(8)int",
    "unsigned unsigned _BitInt(8)", "_BitInt(8)signed", "typename a", "a struct b", "struct struct a",
    "struct int", "struct const", "int struct const", "Lane signed", "unsigned typeof(a)", "A::*", "A<b>:: ::c",
    "int int long", "_Atomic()", "decltype()", "typeof()", "typeof(int*)", "typeof(a+1)",
    // Expressions.
    "int[a::b]", "int[::a]", "int[a.(b)]", "int[a.!b]", "int[a.++b]", "int[a.-b]", "int[a!b]", "int[a++]",
    "int[a++b]", "int[?a:b]", "int[a?:b]", "int[a:b]", "int[a?b]", "int[a?b:c]", "int[a+]", "int[()]",
    "int[a()]", "int[a(b)]", "int[(a)]", "int[a[1]]", "int[a[]]", "int[[1]]", "int[a.b]", "int[a::(b)]",
    "int[-a.b[1](2)++?c:~d()]", "Lane<4+4>", "Lane<4+>", "Lane<a<b>::c>", "Lane<1<2>", "int[A<b>]", "int[a->8]",
    "int[a.::b]", "int[::8]", "int[a->8+b]", "int[A<b,c+>]",
];

/// Read in Fortran, with the structure check.
#[rustfmt::skip]
const FORTRAN: &[&str] = &[
    "real*8", "real*8*8", "real(8)*8", "real(8)(8)", "real()", "real(kind=)", "real(kind=8)", "real(a::b)",
    "real(a%b)", "real(a.b)", "real(a:b)", "double", "DOUBLE Precision", "double complex", "double a",
    "type", "class", "Type(Lane)", "CLASS(Lane)", "type Lane", "real a", "character(len=*,kind=a%b)",
    "character*(*)", "character(*)", "character(:)", "logical(a.neqv.b)", "integer(:,kind=)", "integer(,:)",
    "::a", "real*a", "real*+", "(a)", "real(a(b,c))",
];

/// Read in Fortran, with the structure check; lexed as C++, since Fortran's
/// lexer has no `?`.
const FORTRAN_AS_CPP: &[&str] = &["real(a?b:c)", "real(a?(b))", "real(a<b)"];

/// Read under each standard of a language, without the structure check.
#[rustfmt::skip]
const PROFILES: &[(HostLanguage, &str)] = &[
    (C, "long long"), (C, "LONG Long"), (C, "long a"), (C, "_Atomic(8)"), (C, "_BitInt(8)"), (C, "_bITiNT(8)"), (C, "typeof(8)"),
    (C, "typeof_unqual(8)"), (C, "typeof(long long)"), (C, "_Atomic(long long)"), (C, "decltype(8)"), (C, "_Atomic"), (C, "typeof a(8)"),
    (Cpp, "long long"), (Cpp, "decltype(8)"), (Cpp, "a&&"), (Cpp, "a&"), (Cpp, "decltype(8)&&"), (Cpp, "decltype(long long)&&"),
    (Fortran, "long long"), (Fortran, "a(b=c)"), (Fortran, "a(b==c)"), (Fortran, "type(a)"), (Fortran, "type(*)"),
    (Fortran, "class(a)"), (Fortran, "class(*)"), (Fortran, "a(..)"), (Fortran, "a(b..)"), (Fortran, "a(..b)"),
    (Fortran, "type a*8"), (Fortran, "type(a=b)"),
    (Fortran, "class(a=b)"), (Fortran, "class(..)"),
];

/// Read under 254, 255 and the number before them, with the structure check:
/// what C18 lacks and C23 has, and what the two standards that these numbers
/// mean in C++ and in Fortran, between which no feature is new, both have.
#[rustfmt::skip]
const BEYOND_DECLARED: &[(HostLanguage, &str)] = &[
    (C, "_BitInt(8)"), (C, "unsigned _BitInt(8)"), (C, "typeof(int)"), (C, "typeof_unqual(int)"), (C, "_Atomic(int)"), (C, "int"),
    (Cpp, "long long"), (Cpp, "decltype(x)&&"), (Cpp, "A<B<c>>"), (Cpp, "A<b"),
    (Fortran, "real(kind=8)"), (Fortran, "type(*)"), (Fortran, "class(*)"), (Fortran, "character*(*)"),
];

/// The same for Fortran, lexed as C++: Fortran's dots belong to operators.
const PROFILES_AS_CPP: &[&str] = &["a(b.)", "a(.b)"];

/// The words that a group may follow.
#[rustfmt::skip]
const GROUPED: [&str; 7] =
    ["decltype", "typeof", "typeof_unqual", "__typeof", "__typeof__", "_Atomic", "_BitInt"];

/// The words that qualify a declarator.
#[rustfmt::skip]
const QUALIFIERS: [&str; 8] = [
    "const", "volatile", "restrict", "_Atomic", "noexcept", "transaction_safe", "__restrict", "__restrict__",
];

pub fn cases() -> Vec<Case> {
    let texts = [
        trees(),
        c_family(),
        grouped(),
        qualified(),
        scoped(),
        fortran(),
        fortran_as_cpp(),
        profiles(),
        beyond_declared(),
    ];
    let others = [
        builtin_words(),
        kinds(),
        words(),
        spans(),
        files(),
        old_files(),
        allowances(),
    ];
    texts.into_iter().chain(others).flatten().collect()
}

fn head(language: HostLanguage, flag: u8) -> Head {
    Head {
        language: language_number(language),
        standard: NEWER_STANDARD,
        flag,
        allowance: DEFAULT_ALLOWANCE,
    }
}

fn case(head: Head, tokens: Vec<Token>) -> Case {
    let tree_len = NUMBERS_PER_TOKEN * tokens.len();
    let file = Row { head, tokens }.write();
    Case { file, tree_len }
}

/// The tokens of a text; C rows are lexed as C++, which has all their tokens.
fn lex(text: &str, language: HostLanguage) -> Vec<Token> {
    let lexing = if language == C { Cpp } else { language };
    let profile = profile::profile(lexing, NEWER_STANDARD).expect("a known standard");
    lexed::tokens(text, profile).unwrap_or_else(|error| panic!("`{text}`: {error}"))
}

fn read_in(languages: &[HostLanguage], flag: u8, text: &str) -> Vec<Case> {
    let one = |&language| case(head(language, flag), lex(text, language));
    languages.iter().map(one).collect()
}

fn trees() -> Vec<Case> {
    let both = |text: &&str| [0, 1].map(|flag| read_in(&[Cpp], flag, text)).concat();
    TREES.iter().flat_map(both).collect()
}

fn c_family() -> Vec<Case> {
    C_FAMILY
        .iter()
        .flat_map(|text| read_in(&[C, Cpp], 1, text))
        .collect()
}

fn fortran_as_cpp() -> Vec<Case> {
    let one = |text: &&str| case(head(Fortran, 1), lex(text, Cpp));
    FORTRAN_AS_CPP.iter().map(one).collect()
}

fn fortran() -> Vec<Case> {
    FORTRAN
        .iter()
        .flat_map(|text| read_in(&[Fortran], 1, text))
        .collect()
}

/// What stands before and after a word that a group follows.
fn grouped() -> Vec<Case> {
    let texts = GROUPED.iter().flat_map(|word| {
        [
            format!("{word}(8)"),
            format!("{word}(a)"),
            format!("{word}(int)"),
            format!("{word}(a)const const"),
            format!("a::{word}(b)"),
            format!("::{word}(a)b"),
            format!("struct {word}(b)"),
            format!("int {word}(b)"),
            format!("{word}(a)int"),
        ]
    });
    texts
        .flat_map(|text| read_in(&[C, Cpp], 1, &text))
        .collect()
}

/// A qualifier before and after a type, twice, and in a declarator.
fn qualified() -> Vec<Case> {
    let texts = QUALIFIERS.iter().flat_map(|word| {
        [
            format!("{word} int"),
            format!("int {word} {word}"),
            format!("int*{word}"),
            format!("int(*{word})"),
        ]
    });
    texts.flat_map(|text| read_in(&[C], 1, &text)).collect()
}

/// Each known word behind a `::`.
fn scoped() -> Vec<Case> {
    let texts = KNOWN_WORDS.iter().map(|word| format!("::{word}"));
    texts.flat_map(|text| read_in(&[Cpp], 1, &text)).collect()
}

fn profiles() -> Vec<Case> {
    let rows = PROFILES
        .iter()
        .map(|&(language, text)| (language, lex(text, language)));
    let as_cpp = PROFILES_AS_CPP.iter().map(|text| (Fortran, lex(text, Cpp)));
    let under_each = |(language, tokens): (HostLanguage, Vec<Token>)| {
        profile::standards(language).map(move |standard| {
            let head = Head {
                standard,
                ..head(language, 0)
            };
            case(head, tokens.clone())
        })
    };
    rows.chain(as_cpp).flat_map(under_each).collect()
}

fn beyond_declared() -> Vec<Case> {
    let under_each = |&(language, text): &(HostLanguage, _)| {
        [ARCHIVE_STANDARD - 1, ARCHIVE_STANDARD, NEWER_STANDARD].map(|standard| {
            let head = Head {
                standard,
                ..head(language, 1)
            };
            case(head, lex(text, language))
        })
    };
    BEYOND_DECLARED.iter().flat_map(under_each).collect()
}

/// Each builtin type word with itself and with each later one.
fn builtin_words() -> Vec<Case> {
    let builtin = &KNOWN_WORDS[..BUILTIN];
    let pairs = builtin
        .iter()
        .enumerate()
        .flat_map(|(place, first)| builtin[place..].iter().map(move |second| [first, second]));
    pairs
        .map(|pair| case(head(C, 1), pair.map(|word| Token::word(word)).to_vec()))
        .collect()
}

/// Where rules about kinds are asked: around a word, before `<`, in a
/// declarator, before, between and behind operands. `K` is the kind.
#[rustfmt::skip]
const PLACES: &[(&str, &[HostLanguage])] = &[
    ("K A", &LANGUAGES), ("A K", &LANGUAGES), ("A ( K )", &LANGUAGES), ("A K < b >", &[Cpp]),
    ("A [ K b ]", &[C, Cpp]), ("A [ b K ]", &[C, Cpp]), ("A [ b K c ]", &[C, Cpp]),
    ("A ( K b )", &[Fortran]), ("A ( b K c )", &[Fortran]),
];

/// Every kind in each of the places.
fn kinds() -> Vec<Case> {
    let mut cases = Vec::new();
    for &kind in Kind::ALL {
        for (place, languages) in PLACES {
            let tokens: Vec<Token> = place.split(' ').map(|word| token(word, kind)).collect();
            let one = |&language| case(head(language, 1), tokens.clone());
            cases.extend(languages.iter().map(one));
        }
    }
    cases
}

fn token(word: &str, kind: Kind) -> Token {
    match word {
        "K" if kind == Kind::Identifier => Token::word("k"),
        "K" => Token::plain(kind),
        "(" => Token::plain(Kind::LeftParen),
        ")" => Token::plain(Kind::RightParen),
        "[" => Token::plain(Kind::LeftBracket),
        "]" => Token::plain(Kind::RightBracket),
        "<" => Token::plain(Kind::Less),
        ">" => Token::plain(Kind::Greater),
        _ => Token::word(word),
    }
}

/// Words of the least and the greatest length and byte, and one more or less.
fn words() -> Vec<Case> {
    let longest = *WORD_LENGTHS.end();
    let lengths = [0, 1, longest - 1, longest, longest + 1];
    let (least, greatest) = (*WORD_BYTES.start(), *WORD_BYTES.end());
    let bytes = [least - 1, least, greatest, greatest + 1];
    let ends = bytes.map(|byte| format!("a{}", char::from(byte)));
    let words = lengths.map(|length| "w".repeat(length));
    let words = words
        .into_iter()
        .chain(bytes.map(|byte| char::from(byte).to_string()))
        .chain(ends);
    words
        .map(|word| case(head(C, 1), vec![Token::word(&word)]))
        .collect()
}

/// Spans about where each half of an offset, and a sign, would end.
fn spans() -> Vec<Case> {
    let half = 1 << 32;
    let sign = 1 << 63;
    let spans = [
        (0, 1),
        (1, 0),
        (1, half),
        (half, 1),
        (half - 1, half),
        (half, half - 1),
        (half, half + 1),
        (half + 1, half),
        (half + 1, 2 * half),
        (2 * half, half + 1),
        (sign - 1, sign),
        (sign, sign - 1),
        (0, u64::MAX),
        (u64::MAX, 0),
        (u64::MAX, u64::MAX),
        (u64::MAX, u64::MAX - 1),
    ];
    let with = |(start, end)| {
        let word = Token::word("int");
        case(head(C, 1), vec![Token { start, end, ..word }])
    };
    spans.into_iter().map(with).collect()
}

/// What the old format makes of a row, whole and behind the current head.
fn old_files() -> Vec<Case> {
    let tokens = vec![Token::word("int"), Token::plain(Kind::Star)];
    let row = Row {
        head: head(C, 1),
        tokens,
    };
    let tree_len = NUMBERS_PER_TOKEN * row.tokens.len();
    let [old, current] = [Format::old(), Format::current()].map(|format| format.write(&row));
    let mixed = [&current[..HEAD_LENGTH], &old[HEAD_LENGTH..]].concat();
    [old, mixed].map(|file| Case { file, tree_len }).to_vec()
}

/// Files and buffers at the edge of being well-formed, one fault each.
#[rustfmt::skip]
fn files() -> Vec<Case> {
    let whole = case(head(C, 1), vec![Token::word("int"), Token::plain(Kind::Star)]);
    let last = whole.file.len() - TOKEN_LENGTH;
    let with = |at: usize, byte: u8| {
        let mut case = whole.clone();
        case.file[at] = byte;
        case
    };
    let cut = |length: usize| Case { file: whole.file[..length].to_vec(), ..whole.clone() };
    let room = |tree_len: usize| Case { tree_len, ..whole.clone() };
    let mut cases = vec![cut(0), cut(HEAD_LENGTH - 1), cut(HEAD_LENGTH), cut(whole.file.len() - 1)];
    // The head's length, kind, language, standard, flag; a record's length and kind.
    let faults = [
        (0, 10), (0, 12), (1, 1), (2, 0), (2, 4), (2, 6), (3, 0), (3, 2), (LANGUAGE_AT, 3), (STANDARD_AT, 4), (STANDARD_AT, 5),
        (STANDARD_AT, 253), (FLAG_AT, 2), (last, 12), (last, 19), (last, 21), (last + 1, 1), (last + 2, 57), (last + 2, 58),
        (last + 3, 1),
    ];
    cases.extend(faults.map(|(at, byte)| with(at, byte)));
    // Each byte of a span.
    cases.extend((last + 4..last + TOKEN_LENGTH).map(|at| with(at, 1)));
    cases.extend([0, 11, 12, 13].map(room));
    cases.push(Case { tree_len: 0, ..cut(whole.file.len() - 1) });
    cases.push(Case { tree_len: 0, ..cut(HEAD_LENGTH) });
    let standards = [(Cpp, 5), (Cpp, 6), (Fortran, 6), (Fortran, 7)];
    cases.extend(standards.map(|(language, standard)| {
        case(Head { standard, ..head(language, 1) }, vec![Token::word("real")])
    }));
    cases
}

/// Every allowance up to all steps, so that 25 ends tries that would close
/// and tries that would fail at each of their steps.
fn allowances() -> Vec<Case> {
    let texts = ["A<B<c>>", "Slots<(Lanes<8)>", "A<(B<c>>D<e>)>"];
    let rows = texts.into_iter().flat_map(|text| {
        let whole = case(head(Cpp, 1), lex(text, Cpp));
        let (answer, _) = oracle::answer_with_tree(&whole.file);
        (0..=answer.steps()).map(move |allowance| {
            case(
                Head {
                    allowance,
                    ..head(Cpp, 1)
                },
                lex(text, Cpp),
            )
        })
    });
    rows.collect()
}
