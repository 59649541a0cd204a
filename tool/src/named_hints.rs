//! What to do about a type name that is refused where the names of its templates are given.

use std::collections::BTreeSet;

use type_name::{
    Names, Refusal, TokenKind, Tokens, TypeNameError, parse_named_type_name, tree_for,
};

use crate::hints::{
    ALONE, Hint, Reading, file_hint, greater_allowance, later_standard, plain, rewritten,
};
use crate::source::Source;

pub fn named_hint(source: &Source, names: &Names, refusal: Refusal) -> Option<Hint> {
    match refusal.error {
        TypeNameError::InvalidNameList => of_language(source),
        TypeNameError::ShiftWithoutList => of_names(source, names).or_else(|| {
            plain(
                "a `>>` that closes a list closes two; in an argument a shift stands in parentheses"
                    .into(),
            )
        }),
        TypeNameError::EmptyOrUnclosedList => of_names(source, names).or_else(|| {
            plain(
                "each argument of a list has a token, and a list closes before the bracket that it stands in"
                    .into(),
            )
        }),
        TypeNameError::NoTypeName => of_names(source, names),
        error => match &source.text {
            None => file_hint(&source.file, refusal),
            Some(_) if error == TypeNameError::AllowancePassed => greater_allowance(),
            Some(_) if error == TypeNameError::TopLevelComma => plain(ALONE.to_owned()),
            Some(text) => later_standard(text, Reading::Named(names)),
        },
    }
}

/// Of a row file, which is in another language than C++: of a text that is wrong use.
fn of_language(source: &Source) -> Option<Hint> {
    let language = source.profile()?.language();
    plain(format!(
        "names are given for C++ alone, and the row is in {language}; it is read without --names"
    ))
}

/// What to write instead, or a name that is missing or too many.
fn of_names(source: &Source, names: &Names) -> Option<Hint> {
    let text = source.text.as_ref();
    let instead = text.and_then(|text| rewritten(text, Reading::Named(names)));
    instead.or_else(|| other_name(source, names))
}

/// A word before a `<` with which among the names, or without which, the reader accepts the row.
fn other_name(source: &Source, names: &Names) -> Option<Hint> {
    let given: BTreeSet<&str> = names.iter().collect();
    let words = before_angles(source);
    let (known, unknown): (Vec<&str>, Vec<&str>) =
        words.into_iter().partition(|word| given.contains(word));
    let more = unknown.into_iter().find_map(|word| {
        let others = names.iter().chain([word]);
        let said = format!("it is accepted with `{word}` among the names");
        accepts(source, others).then_some(said)
    });
    let fewer = || {
        known.into_iter().find_map(|word| {
            let others = names.iter().filter(|name| *name != word);
            let said = format!("it is accepted without `{word}` among the names");
            accepts(source, others).then_some(said)
        })
    };
    more.or_else(fewer).and_then(plain)
}

/// The different words right before a `<`, in order.
fn before_angles(source: &Source) -> Vec<&str> {
    let tokens: Vec<_> = Tokens::new(&source.file).collect();
    let mut seen = BTreeSet::new();
    let pairs = tokens.windows(2);
    pairs
        .filter(|pair| pair[0].kind == TokenKind::Identifier && pair[1].kind == TokenKind::Less)
        .map(|pair| pair[0].word)
        .filter(|word| seen.insert(*word))
        .collect()
}

fn accepts<'a>(source: &Source, names: impl Iterator<Item = &'a str>) -> bool {
    let Ok(names) = Names::new(names) else {
        return false;
    };
    let mut buffer = tree_for(&source.file);
    parse_named_type_name(&source.file, &names, &mut buffer).is_ok()
}
