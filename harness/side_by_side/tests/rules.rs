//! The examples of rule tables that were worked out by hand, asked of the proved library.

use harness::rules::worked::Entries;
use type_name::{type_name_match, type_name_overlap};

#[test]
fn the_worked_examples() {
    let library = Entries {
        type_name_match,
        type_name_overlap,
    };
    library.assert_worked();
}
