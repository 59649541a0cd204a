//! A line of a text, with a place in it marked.

use std::ops::Range;

/// The line in which a place begins, and below it a caret for each of the place's characters on that line; without a place,
/// the text's lines.
pub fn excerpt(text: &str, place: Option<Range<usize>>) -> String {
    let Some(place) = place else {
        return text
            .lines()
            .map(|line| format!("    {}\n", visible(line)))
            .collect();
    };
    let begin = text[..place.start].rfind('\n').map_or(0, |end| end + 1);
    let end = text[begin..]
        .find('\n')
        .map_or(text.len(), |length| begin + length);
    let before = &text[begin..place.start.min(end)];
    let marked = &text[place.start.min(end)..place.end.min(end)];
    let carets = "^".repeat(marked.chars().count().max(1));
    let blanks: String = before
        .chars()
        .map(|one| if one == '\t' { '\t' } else { ' ' })
        .collect();
    let line = visible(&text[begin..end]);
    format!("    {line}\n    {blanks}{carets}\n")
}

/// A text without control characters that a terminal would obey.
pub fn visible(text: &str) -> String {
    let shown = |one: char| match one {
        '\t' => one,
        _ if one.is_control() => char::REPLACEMENT_CHARACTER,
        _ => one,
    };
    text.chars().map(shown).collect()
}
