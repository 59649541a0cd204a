//! What to write instead of a text that is refused, which was tried before it is given: the proved reader accepts what it
//! leads to. And a rule for a type name that no rule matches, and what a file is that has another format than was asked for.

use std::fmt;

use type_name::{
    Conversion, ConversionRefusal, Head, HostLanguage, HostLanguageProfile, Item, ListRefusal,
    MOST_ITEMS, Names, Node, NodeKind, PartPlace, Refusal, TokenKind, TypeNameError,
    parse_named_type_name, parse_type_list, parse_type_name, tree_for, widen,
};

use crate::item_text::items_text;
use crate::profiles::{language_option, option_name};
use crate::rewrites::{self, RULES};
use crate::source::{Source, Text};

/// What is known of a refusal, and a text that is accepted.
pub struct Hint {
    sentence: String,
    instead: Option<String>,
}

impl fmt::Display for Hint {
    fn fmt(&self, to: &mut fmt::Formatter<'_>) -> fmt::Result {
        write!(to, "hint: {}", self.sentence)?;
        match &self.instead {
            Some(text) => write!(to, "\n    {text}"),
            None => Ok(()),
        }
    }
}

pub fn plain(sentence: String) -> Option<Hint> {
    let instead = None;
    Some(Hint { sentence, instead })
}

/// What a text is read as.
#[derive(Clone, Copy)]
pub enum Reading<'a> {
    TypeName,
    /// By the names of its templates.
    Named(&'a Names),
    List,
}

/// Of what was made of a text, or of a row file.
pub fn hint(source: &Source, refusal: Refusal) -> Option<Hint> {
    match &source.text {
        Some(text) => text_hint(text, refusal),
        None => file_hint(&source.file, refusal),
    }
}

fn text_hint(text: &Text, refusal: Refusal) -> Option<Hint> {
    match refusal.error {
        TypeNameError::AllowancePassed => greater_allowance(),
        TypeNameError::TopLevelComma if rewritten(text, Reading::TypeName).is_none() => alone(text),
        _ => rewritten(text, Reading::TypeName).or_else(|| other_profile(text, Reading::TypeName)),
    }
}

/// The same of a list.
pub fn list_hint(source: &Source, refused: &ListRefusal) -> Option<Hint> {
    match &source.text {
        Some(text) => list_text_hint(text, refused),
        None => file_hint(&source.file, refused.refusal),
    }
}

pub fn file_hint(file: &[u8], refusal: Refusal) -> Option<Hint> {
    if refusal.error == TypeNameError::InvalidHead && is_old(file) {
        return plain("the file is in the old format; `type-name widen` brings it over".into());
    }
    None
}

/// Of a file that is in the format that it was to be brought to.
pub fn conversion_hint(file: &[u8], refused: ConversionRefusal) -> Option<Hint> {
    let is_there = match refused.conversion {
        Conversion::Widen => is_current,
        Conversion::Narrow => is_old,
    };
    if refused.refusal.error == TypeNameError::InvalidHead && is_there(file) {
        return plain("the file is in that format already".into());
    }
    None
}

fn is_old(file: &[u8]) -> bool {
    widen(file).is_ok()
}

/// Whether the reader finds no fault in file and records. Without a buffer it stops there.
fn is_current(file: &[u8]) -> bool {
    parse_type_name(file, &mut []).is_err_and(|refusal| refusal.error.number() > 5)
}

/// Of a list what to write for the part that is refused, or a profile that accepts the whole.
fn list_text_hint(text: &Text, refused: &ListRefusal) -> Option<Hint> {
    if refused.refusal.error == TypeNameError::AllowancePassed {
        return greater_allowance();
    }
    let part = refused.part.and_then(|part| text_of(text, part));
    let rewritten = part.and_then(|part| rewritten(&part, Reading::TypeName));
    rewritten.or_else(|| other_profile(text, Reading::List))
}

pub fn greater_allowance() -> Option<Hint> {
    plain(format!(
        "--allowance takes a number up to {}; a step takes some 15 ns",
        u32::MAX
    ))
}

/// Of a text with a comma that would cut it.
fn alone(text: &Text) -> Option<Hint> {
    let instead = match is_accepted(&text.text, text.head, Reading::List) {
        true => "a type name is read alone; `type-name read --list` accepts this as a list of them",
        false => ALONE,
    };
    plain(instead.to_owned())
}

pub const ALONE: &str = "a type name is read alone, without those beside it";

/// A part of a list by itself.
fn text_of(list: &Text, part: PartPlace) -> Option<Text> {
    let place = list.place_of(part)?;
    Text::new(&list.text[place], list.head).ok()
}

fn other_profile(text: &Text, reading: Reading) -> Option<Hint> {
    later_standard(text, reading).or_else(|| other_language(text, reading))
}

/// A rule that matches a row which no rule of a table matches.
pub fn matching_rule(source: &Source) -> Option<Hint> {
    let mut buffer = tree_for(&source.file);
    let tree = parse_type_name(&source.file, &mut buffer).ok()?;
    let mut items: Vec<Item> = tree.top_level().map(|node| of_node(&node)).collect();
    if items.len() > MOST_ITEMS {
        items.truncate(MOST_ITEMS - 1);
        items.push(Item::Rest);
    }
    Some(Hint {
        sentence: "this rule matches it:".to_owned(),
        instead: Some(items_text(items)),
    })
}

/// The item that takes such nodes alone.
fn of_node<'a>(node: &Node<'a>) -> Item<'a> {
    match (node.kind, node.token.kind) {
        (NodeKind::Token, TokenKind::Identifier) => Item::Word(node.token.word),
        (NodeKind::Token, kind) => Item::Kind(kind),
        (NodeKind::Parentheses | NodeKind::Brackets, _) => Item::Group,
        // Arguments stand below lists alone.
        (NodeKind::List | NodeKind::Argument, _) => Item::List,
    }
}

/// A rule of `rewrites` whose text is accepted. Where names are given, no list is tried.
pub fn rewritten(text: &Text, reading: Reading) -> Option<Hint> {
    let tries = !matches!(reading, Reading::Named(_));
    let mut rules = RULES.iter().filter(|rule| tries || !rule.is_about_tries);
    rules.find_map(|rule| {
        let instead = rewrites::apply(rule, text)?;
        is_accepted(&instead, text.head, reading).then(|| Hint {
            sentence: rule.sentence.to_owned(),
            instead: rule.is_same_type.then_some(instead),
        })
    })
}

/// The first later standard of the language that accepts the text.
pub fn later_standard(text: &Text, reading: Reading) -> Option<Hint> {
    let now = text.head.profile;
    let mut later = HostLanguageProfile::all().filter(|profile| {
        profile.language() == now.language() && profile.standard() > now.standard()
    });
    let accepting = later.find(|&profile| accepts(profile, text, reading))?;
    let option = option_name(accepting);
    plain(format!("{accepting} accepts it: --standard {option}"))
}

/// Another language whose default standard accepts the text. Where the archive's standard was asked for, which goes with every
/// language, that of the other accepts it, too.
fn other_language(text: &Text, reading: Reading) -> Option<Hint> {
    let profile = text.head.profile;
    let now = profile.language();
    let is_archive = profile == HostLanguageProfile::archive_of(now);
    let mut others = HostLanguage::ALL.into_iter().filter(|&other| other != now);
    let accepting = others.find(|&other| {
        let is_accepting = |of: HostLanguageProfile| accepts(of, text, reading);
        is_accepting(HostLanguageProfile::default_of(other))
            && (!is_archive || is_accepting(HostLanguageProfile::archive_of(other)))
    })?;
    let option = language_option(accepting);
    plain(format!(
        "it is read as {now}; {accepting} accepts it: --language {option}"
    ))
}

fn accepts(profile: HostLanguageProfile, text: &Text, reading: Reading) -> bool {
    let head = Head {
        profile,
        ..text.head
    };
    is_accepted(&text.text, head, reading)
}

fn is_accepted(text: &str, head: Head, reading: Reading) -> bool {
    let Ok(row) = Text::new(text, head).and_then(|text| text.row()) else {
        return false;
    };
    let mut buffer = tree_for(row.bytes());
    match reading {
        Reading::TypeName => parse_type_name(row.bytes(), &mut buffer).is_ok(),
        Reading::Named(names) => parse_named_type_name(row.bytes(), names, &mut buffer).is_ok(),
        Reading::List => parse_type_list(row.bytes(), &mut buffer).is_ok(),
    }
}
