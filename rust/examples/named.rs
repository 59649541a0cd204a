use std::error::Error;

use type_name::{Head, Names, Row, TokenKind, parse_named_type_name, parse_type_name, tree_for};

fn main() -> Result<(), Box<dyn Error>> {
    // `Slots<(Lanes<8)>`, where `Lanes` is a number and no template.
    let mut row = Row::new(Head::default());
    row.push(TokenKind::Identifier, "Slots", 0..5)?;
    row.push(TokenKind::Less, "<", 5..6)?;
    row.push(TokenKind::LeftParen, "(", 6..7)?;
    row.push(TokenKind::Identifier, "Lanes", 7..12)?;
    row.push(TokenKind::Less, "<", 12..13)?;
    row.push(TokenKind::Integer, "8", 13..14)?;
    row.push(TokenKind::RightParen, ")", 14..15)?;
    row.push(TokenKind::Greater, ">", 15..16)?;

    let mut buffer = tree_for(row.bytes());
    if let Err(refusal) = parse_type_name(row.bytes(), &mut buffer) {
        println!("without names: refusal {}", refusal.error.number());
    }
    let names = Names::new(["Slots"])?;
    let tree = parse_named_type_name(row.bytes(), &names, &mut buffer)?;
    for (level, node) in tree.with_levels() {
        let token = node.token;
        println!("{level} {:?} {} {:?}", node.kind, token.number, token.word);
    }
    Ok(())
}
