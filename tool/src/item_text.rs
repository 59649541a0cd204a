//! Items of rules as text: docs/FORMAT.md, "Rule tables as text".

use type_name::{Item, TokenKind};

use crate::lexer;

const KEYWORDS: [(&str, Item); 4] = [
    ("group", Item::Group),
    ("list", Item::List),
    ("any", Item::Any),
    ("rest", Item::Rest),
];

/// Stands before a token kind's number.
const KIND: &str = "kind:";

/// The greatest of these numbers; the least is 1.
const LAST_KIND: u32 = TokenKind::End.number();

/// How an item is written; reading it gives the same item.
pub fn item_text(item: Item) -> String {
    match item {
        Item::Word(word) if is_name(word) && keyword(word).is_none() => word.to_owned(),
        Item::Word(word) => quoted(word),
        Item::Kind(kind) => kind_text(kind),
        _ => {
            let mut keywords = KEYWORDS.iter();
            let found = keywords.find_map(|(text, known)| (*known == item).then_some(*text));
            found.unwrap_or_default().to_owned()
        }
    }
}

/// How items are written that stand beside each other.
pub fn items_text<'a>(items: impl IntoIterator<Item = Item<'a>>) -> String {
    let texts: Vec<String> = items.into_iter().map(item_text).collect();
    texts.join(" ")
}

fn quoted(word: &str) -> String {
    let escaped = word.replace('\\', "\\\\").replace('"', "\\\"");
    format!("\"{escaped}\"")
}

/// By its spelling, if that is no other kind's in another language.
fn kind_text(kind: TokenKind) -> String {
    match lexer::spelling(kind) {
        Some(text) if lexer::spelled(text) == [kind] => text.to_owned(),
        _ => format!("{KIND}{}", kind.number()),
    }
}

/// The item that stands there without quotes, or what is wrong.
pub fn unquoted(text: &str) -> Result<Item<'_>, String> {
    if let Some(number) = text.strip_prefix(KIND) {
        return of_number(number);
    }
    if let Some(item) = keyword(text) {
        return Ok(item);
    }
    if is_name(text) {
        return Ok(Item::Word(text));
    }
    match lexer::spelled(text)[..] {
        [kind] => Ok(Item::Kind(kind)),
        [] => Err(format!(
            "`{text}` is no item: expected a name, a word in double quotes, a token's spelling, {KIND}1 to {KIND}{LAST_KIND}, group, \
             list, any or rest, with a blank before the next"
        )),
        [..] => Err(shared(text)),
    }
}

/// What is wrong with a spelling that stands for several kinds.
fn shared(text: &str) -> String {
    let kinds = lexer::spelled(text);
    let kinds: Vec<String> = kinds.into_iter().map(kind_text).collect();
    format!(
        "`{text}` is one token in Fortran and another in C and C++: expected {}",
        kinds.join(" or ")
    )
}

fn keyword(text: &str) -> Option<Item<'static>> {
    let mut keywords = KEYWORDS.iter();
    keywords.find_map(|(known, item)| (*known == text).then_some(*item))
}

fn of_number(number: &str) -> Result<Item<'static>, String> {
    let of_number = |number: u32| TokenKind::try_from(number).ok();
    // Digits alone: `parse` would take a sign.
    let digits = number.bytes().all(|byte| byte.is_ascii_digit());
    let kind = number.parse().ok().filter(|_| digits).and_then(of_number);
    match kind {
        Some(TokenKind::Identifier) => Err(format!(
            "{KIND}0 is the kind of words: expected the word itself"
        )),
        Some(kind) => Ok(Item::Kind(kind)),
        None => Err(format!(
            "no kind `{number}`: expected {KIND}1 to {KIND}{LAST_KIND}"
        )),
    }
}

/// Whether a word stands without quotes, unless it is a keyword.
fn is_name(text: &str) -> bool {
    let is_letter = |byte: u8| byte.is_ascii_alphabetic() || byte == b'_';
    let mut bytes = text.bytes();
    bytes.next().is_some_and(is_letter)
        && bytes.all(|byte| is_letter(byte) || byte.is_ascii_digit())
}
