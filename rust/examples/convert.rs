use std::error::Error;

use type_name::{narrow, parse_type_name, tree_for, widen};

fn main() -> Result<(), Box<dyn Error>> {
    // `int` in the old format: C89 with the structure check and an allowance of 1,000; the token from 0 to 3.
    let old = [
        &[11, 0, 0, 1, 0, 0, 1, 0xe8, 3, 0, 0][..],
        &[15, 0, 0, 0, 0, 0, 0, 0, 3, 0, 0, 0, b'i', b'n', b't'],
    ]
    .concat();

    let file = widen(&old)?;
    let mut buffer = tree_for(&file);
    let tree = parse_type_name(&file, &mut buffer)?;
    println!("{} bytes for {}", file.len(), old.len());
    println!("{} node after {} steps", tree.node_count(), tree.steps());
    println!("the same again: {}", narrow(&file)? == old);
    Ok(())
}
