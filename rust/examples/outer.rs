use std::error::Error;

use type_name::{Head, Row, TokenKind, parse_type_name, tree_for};

fn main() -> Result<(), Box<dyn Error>> {
    // `Lane<8, Key>`
    let mut row = Row::new(Head::default());
    row.push(TokenKind::Identifier, "Lane", 0..4)?;
    row.push(TokenKind::Less, "<", 4..5)?;
    row.push(TokenKind::Integer, "8", 5..6)?;
    row.push(TokenKind::Comma, ",", 6..7)?;
    row.push(TokenKind::Identifier, "Key", 8..11)?;
    row.push(TokenKind::Greater, ">", 11..12)?;

    let mut buffer = tree_for(row.bytes());
    let tree = parse_type_name(row.bytes(), &mut buffer)?;
    match tree.outer_arguments() {
        Some(arguments) => println!("{arguments} arguments"),
        None => println!("no outer template"),
    }
    Ok(())
}
