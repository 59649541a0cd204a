//! Spellings that the reader accepts in place of ones that it refuses: the rules of docs/DIFFERENCES.md, "Real type names".

use std::ops::Range;

use type_name::TokenKind::{
    self, Comma, Greater, Identifier, Integer, LeftBracket, LeftParen, Less, RightBracket,
    RightParen, Scope, ShiftRight, Star,
};

use crate::lexer::Lexed;
use crate::source::Text;

/// A part of the text, and what to write in its place.
type Edit = (Range<usize>, String);

pub struct Rule {
    pub sentence: &'static str,
    /// Whether the new text names the same type. If not, it only shows that this rule is what refuses the text.
    pub is_same_type: bool,
    /// Whether it is about a list that is tried.
    pub is_about_tries: bool,
    edits: fn(&Text) -> Vec<Edit>,
}

pub const RULES: [Rule; 10] = [
    Rule {
        sentence: "before a comma `>>` is not taken for two closing angles; write `> >`:",
        is_same_type: true,
        is_about_tries: true,
        edits: split_shifts,
    },
    Rule {
        sentence: "a pointer to member stands in parentheses:",
        is_same_type: true,
        is_about_tries: false,
        edits: parenthesized_members,
    },
    Rule {
        sentence: "a cast is read with its type before the parentheses:",
        is_same_type: true,
        is_about_tries: false,
        edits: functional_casts,
    },
    Rule {
        sentence: "`<` behind a name is tried as a list; if no template is meant, put the name in parentheses:",
        is_same_type: true,
        is_about_tries: true,
        edits: parenthesized_operands,
    },
    Rule {
        sentence: "a function that returns a pointer is read without the outer parentheses:",
        is_same_type: true,
        is_about_tries: false,
        edits: bare_function_declarators,
    },
    Rule {
        sentence: "`complex` is a name like any other; write `_Complex`:",
        is_same_type: true,
        is_about_tries: false,
        edits: complex_keywords,
    },
    Rule {
        sentence: "a length in parentheses behind `*` is not read; write it as a selector:",
        is_same_type: true,
        is_about_tries: false,
        edits: lengths_as_selectors,
    },
    Rule {
        sentence: "`__int128` is a name like any other, and none may follow `unsigned`; this is not read",
        is_same_type: false,
        is_about_tries: false,
        edits: plain_integers,
    },
    Rule {
        sentence: "an empty template argument list is not read",
        is_same_type: false,
        is_about_tries: false,
        edits: filled_lists,
    },
    Rule {
        sentence: "two or more parameters with a `::` and a `*` among them are taken for a declarator; this is not read",
        is_same_type: false,
        is_about_tries: false,
        edits: unqualified_parameters,
    },
];

/// The text with a rule's edits, `None` if it has none to make.
pub fn apply(rule: &Rule, text: &Text) -> Option<String> {
    let mut edits = (rule.edits)(text);
    if edits.is_empty() {
        return None;
    }
    edits.sort_by_key(|(place, _)| place.start);
    let mut written = String::new();
    let mut at = 0;
    for (place, instead) in edits {
        written += &text.text[at..place.start];
        written += &instead;
        at = place.end;
    }
    Some(written + &text.text[at..])
}

fn kinds(text: &Text) -> Vec<TokenKind> {
    text.tokens.iter().map(|token| token.kind).collect()
}

fn replace(token: &Lexed, instead: &str) -> Edit {
    (token.span.clone(), instead.to_owned())
}

fn before(token: &Lexed, what: &str) -> Edit {
    (token.span.start..token.span.start, what.to_owned())
}

fn behind(token: &Lexed, what: &str) -> Edit {
    (token.span.end..token.span.end, what.to_owned())
}

/// The token that closes the bracket at a place.
fn closer(kinds: &[TokenKind], opener: usize) -> Option<usize> {
    let mut depth = 0_usize;
    for (place, kind) in kinds.iter().enumerate().skip(opener) {
        match kind {
            LeftParen | LeftBracket => depth += 1,
            RightParen | RightBracket => depth = depth.checked_sub(1)?,
            _ => {}
        }
        if depth == 0 {
            return Some(place);
        }
    }
    None
}

/// Places of the tokens at which a pattern of kinds begins.
fn places<'k>(
    kinds: &'k [TokenKind],
    pattern: &'k [TokenKind],
) -> impl Iterator<Item = usize> + 'k {
    let windows = kinds.windows(pattern.len()).enumerate();
    windows.filter_map(move |(place, window)| (window == pattern).then_some(place))
}

/// The first token of the name, with what `::` puts before it, that ends before a place.
fn first_of_name(kinds: &[TokenKind], end: usize) -> Option<usize> {
    let mut first = end.checked_sub(1)?;
    if kinds[first] != Identifier {
        return None;
    }
    while first >= 2 && kinds[first - 2..first] == [Identifier, Scope] {
        first -= 2;
    }
    if first >= 1 && kinds[first - 1] == Scope {
        first -= 1;
    }
    Some(first)
}

fn split_shifts(text: &Text) -> Vec<Edit> {
    places(&kinds(text), &[ShiftRight, Comma])
        .map(|place| replace(&text.tokens[place], "> >"))
        .collect()
}

/// `a b::*` as `a (b::*)`.
fn parenthesized_members(text: &Text) -> Vec<Edit> {
    let kinds = kinds(text);
    let members = places(&kinds, &[Scope, Star]);
    let edits = members.filter_map(|scope| {
        let first = first_of_name(&kinds, scope)?;
        let is_bare = first > 0 && kinds[first - 1] != LeftParen;
        let (open, close) = (&text.tokens[first], &text.tokens[scope + 1]);
        is_bare.then(|| [before(open, "("), behind(close, ")")])
    });
    edits.flatten().collect()
}

/// `<(a::b)2` as `<a::b(2)`.
fn functional_casts(text: &Text) -> Vec<Edit> {
    let kinds = kinds(text);
    let casts = places(&kinds, &[RightParen, Integer]);
    let edits = casts.filter_map(|close| {
        let open = first_of_name(&kinds, close)?.checked_sub(1)?;
        let begins = open > 0 && matches!(kinds[open - 1], Less | Comma);
        let is_cast = begins && kinds[open] == LeftParen;
        let tokens = &text.tokens;
        is_cast.then(|| {
            [
                replace(&tokens[open], ""),
                replace(&tokens[close], "("),
                behind(&tokens[close + 1], ")"),
            ]
        })
    });
    edits.flatten().collect()
}

/// `(a < 8)` as `((a) < 8)`, for each `<` inside brackets.
fn parenthesized_operands(text: &Text) -> Vec<Edit> {
    let kinds = kinds(text);
    let is_inside = |place: usize| {
        let opened = |opener: usize| closer(&kinds, opener).is_some_and(|end| end > place);
        (0..place).any(|opener| kinds[opener] == LeftParen && opened(opener))
    };
    places(&kinds, &[Identifier, Less])
        .filter(|&place| is_inside(place))
        .filter_map(|place| {
            let first = &text.tokens[first_of_name(&kinds, place + 1)?];
            Some([before(first, "("), behind(&text.tokens[place], ")")])
        })
        .flatten()
        .collect()
}

/// `a (*(b))` as `a *(b)`.
fn bare_function_declarators(text: &Text) -> Vec<Edit> {
    let kinds = kinds(text);
    let found = places(&kinds, &[LeftParen, Star, LeftParen]);
    let edits = found.filter_map(|open| {
        let close = closer(&kinds, open)?;
        let is_whole = closer(&kinds, open + 2)? + 1 == close;
        let (open, close) = (&text.tokens[open], &text.tokens[close]);
        is_whole.then(|| [replace(open, ""), replace(close, "")])
    });
    edits.flatten().collect()
}

fn complex_keywords(text: &Text) -> Vec<Edit> {
    let words = text.tokens.iter().filter(|token| token.word == "complex");
    words.map(|token| replace(token, "_Complex")).collect()
}

/// `character*(8)` as `character(8)`.
fn lengths_as_selectors(text: &Text) -> Vec<Edit> {
    places(&kinds(text), &[Identifier, Star, LeftParen])
        .filter(|&place| text.tokens[place].word == "character")
        .map(|place| replace(&text.tokens[place + 1], ""))
        .collect()
}

fn plain_integers(text: &Text) -> Vec<Edit> {
    let words = text.tokens.iter().filter(|token| token.word == "__int128");
    words.map(|token| replace(token, "int")).collect()
}

fn filled_lists(text: &Text) -> Vec<Edit> {
    places(&kinds(text), &[Less, Greater])
        .map(|place| behind(&text.tokens[place], "int"))
        .collect()
}

/// Leaves `a::` out of parameters.
fn unqualified_parameters(text: &Text) -> Vec<Edit> {
    let kinds = kinds(text);
    let Some(open) = kinds.iter().position(|kind| *kind == LeftParen) else {
        return Vec::new();
    };
    places(&kinds, &[Identifier, Scope])
        .filter(|&place| place > open)
        .flat_map(|place| {
            let [name, scope] = [&text.tokens[place], &text.tokens[place + 1]];
            [replace(name, ""), replace(scope, "")]
        })
        .collect()
}
