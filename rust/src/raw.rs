//! The C functions, safe to call.

/// The C function, with slices for its pointers and lengths: returns 0 if accepted, else the refusal's number, and writes as
/// many of the answer's [`ANSWER_LENGTH`](crate::ANSWER_LENGTH) numbers as there is room for.
///
/// For those who want the numbers themselves; all others call [`parse_type_name`](crate::parse_type_name).
pub fn type_name_read(file: &[u8], tree: &mut [u32], answer: &mut [u32]) -> u32 {
    // SAFETY: as slices, the three are aligned, valid for as long as they say and not null; two are `&mut`, so that none
    // overlaps another and nobody else writes them meanwhile.
    unsafe {
        c::type_name_read(
            file.as_ptr(),
            file.len(),
            tree.as_mut_ptr(),
            tree.len(),
            answer.as_mut_ptr(),
            answer.len(),
        )
    }
}

/// The C function that reads a type name of C++ whose template names are given: returns and writes what [`type_name_read`]
/// does. `names` is a name list, token records without a head.
///
/// For those who want the numbers themselves; all others call
/// [`parse_named_type_name`](crate::parse_named_type_name).
pub fn type_name_read_named(
    file: &[u8],
    names: &[u8],
    tree: &mut [u32],
    answer: &mut [u32],
) -> u32 {
    // SAFETY: as in `type_name_read`; `file` and `names` may overlap each other, since both are only read.
    unsafe {
        c::type_name_read_named(
            file.as_ptr(),
            file.len(),
            names.as_ptr(),
            names.len(),
            tree.as_mut_ptr(),
            tree.len(),
            answer.as_mut_ptr(),
            answer.len(),
        )
    }
}

/// The C function that reads a comma list of type names: returns and writes what [`type_name_read`] does, the trees one behind
/// the other, and a fifth number of the answer's [`LIST_ANSWER_LENGTH`](crate::LIST_ANSWER_LENGTH): how many parts there are,
/// or which is refused.
///
/// For those who want the numbers themselves; all others call [`parse_type_list`](crate::parse_type_list).
pub fn type_name_read_list(file: &[u8], tree: &mut [u32], answer: &mut [u32]) -> u32 {
    // SAFETY: as in `type_name_read`.
    unsafe {
        c::type_name_read_list(
            file.as_ptr(),
            file.len(),
            tree.as_mut_ptr(),
            tree.len(),
            answer.as_mut_ptr(),
            answer.len(),
        )
    }
}

/// The C function that counts the arguments of the outer template: of the list that follows the word with which a tree begins,
/// 0 if the numbers begin otherwise. Any numbers may be handed in, and nothing is written.
///
/// For those who have the numbers themselves; all others call [`Tree::outer_arguments`](crate::Tree::outer_arguments).
#[must_use]
pub fn type_name_outer(tree: &[u32]) -> u32 {
    // SAFETY: as a slice, `tree` is aligned, valid for as long as it says and not null, and nobody writes it meanwhile.
    unsafe { c::type_name_outer(tree.as_ptr(), tree.len()) }
}

/// The C function that also finds the rule that wins: returns and writes what [`type_name_read`] does, with the rule's place
/// as the answer's last number.
///
/// For those who want the numbers themselves; all others call [`Table::winner`](crate::Table::winner).
pub fn type_name_match(file: &[u8], rules: &[u8], tree: &mut [u32], answer: &mut [u32]) -> u32 {
    // SAFETY: as in `type_name_read`; `file` and `rules` may overlap each other, since both are only read.
    unsafe {
        c::type_name_match(
            file.as_ptr(),
            file.len(),
            rules.as_ptr(),
            rules.len(),
            tree.as_mut_ptr(),
            tree.len(),
            answer.as_mut_ptr(),
            answer.len(),
        )
    }
}

/// The C function that finds the first pair of rules that overlap after the pair handed in: the answer is 0, the pair's
/// places and how many bytes are shown in `sequence`, all 0 if there is no further pair, or a refusal.
///
/// For those who want the numbers themselves; all others call [`Table::overlaps`](crate::Table::overlaps).
pub fn type_name_overlap(
    rules: &[u8],
    earlier: u32,
    later: u32,
    sequence: &mut [u8],
    answer: &mut [u32],
) -> u32 {
    // SAFETY: as in `type_name_read`.
    unsafe {
        c::type_name_overlap(
            rules.as_ptr(),
            rules.len(),
            earlier,
            later,
            sequence.as_mut_ptr(),
            sequence.len(),
            answer.as_mut_ptr(),
            answer.len(),
        )
    }
}

/// The C function that brings a file of the old format over to the one that is read: the answer is 0 and how many bytes stand
/// in front of `output`, or a refusal, which leaves `output` as it was.
///
/// For those who want the numbers themselves; all others call [`widen`](crate::widen).
pub fn type_name_widen(file: &[u8], output: &mut [u8], answer: &mut [u32]) -> u32 {
    // SAFETY: as in `type_name_read`.
    unsafe {
        c::type_name_widen(
            file.as_ptr(),
            file.len(),
            output.as_mut_ptr(),
            output.len(),
            answer.as_mut_ptr(),
            answer.len(),
        )
    }
}

/// The C function that brings a file back to the old format: returns and writes what [`type_name_widen`] does.
///
/// For those who want the numbers themselves; all others call [`narrow`](crate::narrow).
pub fn type_name_narrow(file: &[u8], output: &mut [u8], answer: &mut [u32]) -> u32 {
    // SAFETY: as in `type_name_read`.
    unsafe {
        c::type_name_narrow(
            file.as_ptr(),
            file.len(),
            output.as_mut_ptr(),
            output.len(),
            answer.as_mut_ptr(),
            answer.len(),
        )
    }
}

/// As `include/type_name.h` declares them.
mod c {
    unsafe extern "C" {
        pub fn type_name_read(
            file: *const u8,
            file_len: usize,
            tree: *mut u32,
            tree_len: usize,
            answer: *mut u32,
            answer_len: usize,
        ) -> u32;

        pub fn type_name_read_named(
            file: *const u8,
            file_len: usize,
            names: *const u8,
            names_len: usize,
            tree: *mut u32,
            tree_len: usize,
            answer: *mut u32,
            answer_len: usize,
        ) -> u32;

        pub fn type_name_read_list(
            file: *const u8,
            file_len: usize,
            tree: *mut u32,
            tree_len: usize,
            answer: *mut u32,
            answer_len: usize,
        ) -> u32;

        pub fn type_name_outer(tree: *const u32, tree_len: usize) -> u32;

        pub fn type_name_match(
            file: *const u8,
            file_len: usize,
            rules: *const u8,
            rules_len: usize,
            tree: *mut u32,
            tree_len: usize,
            answer: *mut u32,
            answer_len: usize,
        ) -> u32;

        pub fn type_name_overlap(
            rules: *const u8,
            rules_len: usize,
            earlier: u32,
            later: u32,
            sequence: *mut u8,
            sequence_len: usize,
            answer: *mut u32,
            answer_len: usize,
        ) -> u32;

        pub fn type_name_widen(
            file: *const u8,
            file_len: usize,
            output: *mut u8,
            output_len: usize,
            answer: *mut u32,
            answer_len: usize,
        ) -> u32;

        pub fn type_name_narrow(
            file: *const u8,
            file_len: usize,
            output: *mut u8,
            output_len: usize,
            answer: *mut u32,
            answer_len: usize,
        ) -> u32;
    }
}
