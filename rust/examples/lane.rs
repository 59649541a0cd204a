use std::error::Error;

use type_name::{Head, Row, TokenKind, parse_type_name, tree_for};

fn main() -> Result<(), Box<dyn Error>> {
    // C++23 with the structure check and an ample allowance.
    let mut row = Row::new(Head::default());
    row.push(TokenKind::Identifier, "Lane", 0..4)?;
    row.push(TokenKind::Less, "<", 4..5)?;
    row.push(TokenKind::Identifier, "Key", 5..8)?;
    row.push(TokenKind::Greater, ">", 8..9)?;

    let mut buffer = tree_for(row.bytes());
    let tree = parse_type_name(row.bytes(), &mut buffer)?;
    for (level, node) in tree.with_levels() {
        let token = node.token;
        println!("{level} {:?} {} {:?}", node.kind, token.number, token.word);
    }
    Ok(())
}
