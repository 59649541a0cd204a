//! What can stand in a row file, and what a tree's nodes lead to.

mod support;

use support::{c, checked, row};
use type_name::{
    CStandard, Head, LONGEST_WORD, NodeKind, Offset, RecordError, Row, Token, TokenKind, Tokens,
    parse_type_name, tree_for,
};

fn pushed(text: &str, span: std::ops::Range<Offset>) -> Result<(), RecordError> {
    let mut row = Row::new(Head::default());
    let before = row.clone();
    let done = row.push(TokenKind::Identifier, text, span);
    assert_eq!(done.is_err(), row == before);
    done
}

#[test]
fn what_cannot_stand_is_reported() {
    assert_eq!(pushed("", 0..0), Err(RecordError::WordLength(0)));
    assert_eq!(pushed("a b", 0..3), Err(RecordError::WordByte(1)));
    assert_eq!(pushed("caf\u{e9}", 0..5), Err(RecordError::WordByte(3)));
    let longest = "a".repeat(LONGEST_WORD);
    assert_eq!(pushed(&longest, 0..1), Ok(()));
    let longer = longest + "a";
    let length = longer.len();
    assert_eq!(pushed(&longer, 0..1), Err(RecordError::WordLength(length)));
    #[expect(
        clippy::reversed_empty_ranges,
        reason = "a span that ends before it starts"
    )]
    // The second in the upper halves of its offsets alone.
    let reversed = [1..0, 1 << 32..0];
    for span in reversed {
        assert_eq!(pushed("a", span), Err(RecordError::SpanReversed));
    }
    assert_eq!(pushed("a", 7..Offset::MAX), Ok(()));
    assert_eq!(pushed("a", 0xffff_ffff..1 << 32), Ok(()));
}

#[test]
fn a_node_leads_to_its_token() {
    let text = "const Lane (*)[8]";
    let row = row(checked(c(CStandard::C18)), text);
    let mut buffer = tree_for(row.bytes());
    let tree = parse_type_name(row.bytes(), &mut buffer).unwrap();
    let shown: Vec<_> = tree
        .with_levels()
        .map(|(level, node)| {
            let span = node.token.start as usize..node.token.end as usize;
            (level, node.kind, &text[span], node.token.word)
        })
        .collect();
    let expected = [
        (0, NodeKind::Token, "const", "const"),
        (0, NodeKind::Token, "Lane", "Lane"),
        (0, NodeKind::Parentheses, "(", ""),
        (1, NodeKind::Token, "*", ""),
        (0, NodeKind::Brackets, "[", ""),
        (1, NodeKind::Token, "8", ""),
    ];
    assert_eq!(shown, expected);
    let below: Vec<_> = tree
        .top_level()
        .map(|node| node.children().count())
        .collect();
    assert_eq!(below, [0, 0, 1, 1]);
}

#[test]
fn tokens_end_at_a_malformed_record() {
    let row = row(checked(c(CStandard::C18)), "int * *");
    let whole: Vec<Token> = Tokens::new(row.bytes()).collect();
    assert_eq!(whole.len(), 3);
    assert_eq!((whole[0].word, whole[0].span()), ("int", 0..3));
    assert_eq!((whole[2].kind, whole[2].number), (TokenKind::Star, 2));
    let cut_off = &row.bytes()[..row.bytes().len() - 1];
    assert!(Tokens::new(cut_off).eq(whole[..2].iter().copied()));
    assert_eq!(Tokens::new(&[]).count(), 0);
}
