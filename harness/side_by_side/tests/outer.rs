//! The examples of the outer template that were worked out by hand, asked of the proved library.

use harness::outer::worked::assert_worked;
use type_name::type_name_outer;

#[test]
fn the_worked_examples() {
    assert_worked(type_name_outer);
}
