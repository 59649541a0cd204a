use std::error::Error;

use type_name::{Head, Row, TokenKind, parse_type_list, tree_for};

fn main() -> Result<(), Box<dyn Error>> {
    // `int, Lane<Key>`
    let mut row = Row::new(Head::default());
    row.push(TokenKind::Identifier, "int", 0..3)?;
    row.push(TokenKind::Comma, ",", 3..4)?;
    row.push(TokenKind::Identifier, "Lane", 5..9)?;
    row.push(TokenKind::Less, "<", 9..10)?;
    row.push(TokenKind::Identifier, "Key", 10..13)?;
    row.push(TokenKind::Greater, ">", 13..14)?;

    let mut buffer = tree_for(row.bytes());
    for part in parse_type_list(row.bytes(), &mut buffer)?.parts() {
        let place = part.place;
        println!("part {}, from token {} on", place.number, place.first_token);
        for (level, node) in part.with_levels() {
            let token = node.token;
            println!("{level} {:?} {} {:?}", node.kind, token.number, token.word);
        }
    }
    Ok(())
}
