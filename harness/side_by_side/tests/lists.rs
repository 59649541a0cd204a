//! The examples of several types in one row that were worked out by hand, asked of the proved library.

use harness::lists::worked::assert_worked;
use type_name::type_name_read_list;

#[test]
fn the_worked_examples() {
    assert_worked(type_name_read_list);
}
