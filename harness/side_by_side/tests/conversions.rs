//! The examples of conversions that were worked out by hand, asked of the proved library.

use harness::conversions::worked::Entries;
use type_name::{type_name_narrow, type_name_widen};

#[test]
fn the_worked_examples() {
    let library = Entries {
        type_name_widen,
        type_name_narrow,
    };
    library.assert_worked();
}
