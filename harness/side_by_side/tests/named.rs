//! The examples of named templates that were worked out by hand, asked of the proved library.

use harness::named::worked::assert_worked;
use type_name::type_name_read_named;

#[test]
fn the_worked_examples() {
    assert_worked(type_name_read_named);
}
