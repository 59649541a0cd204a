use std::error::Error;

use type_name::{Head, Item, Row, Table, TokenKind, tree_for};

fn main() -> Result<(), Box<dyn Error>> {
    let mut table = Table::new();
    table.push(&[Item::Word("Lane"), Item::List])?;
    table.push(&[Item::Any, Item::List, Item::Rest])?;

    let mut row = Row::new(Head::default());
    row.push(TokenKind::Identifier, "Lane", 0..4)?;
    row.push(TokenKind::Less, "<", 4..5)?;
    row.push(TokenKind::Integer, "8", 5..6)?;
    row.push(TokenKind::Greater, ">", 6..7)?;
    let mut buffer = tree_for(row.bytes());
    let winner = table.winner(row.bytes(), &mut buffer)?;
    println!("rule {} wins", winner.place);

    for overlap in table.overlaps() {
        let both: Vec<Item> = overlap.sequence().collect();
        println!("rules {} and {}: {both:?}", overlap.earlier, overlap.later);
    }
    Ok(())
}
