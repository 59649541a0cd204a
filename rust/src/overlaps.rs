//! The pairs of rules that overlap.

use alloc::vec;
use alloc::vec::Vec;
use core::iter::FusedIterator;

use crate::answer::Refusal;
use crate::limits::{ANSWER_LENGTH, LONGEST_SEQUENCE};
use crate::raw::type_name_overlap;
use crate::rule::Items;

/// Two rules of a table that some sequence of top-level nodes matches together, and one such sequence.
#[derive(Debug, Clone, PartialEq, Eq)]
pub struct Overlap {
    /// The place of the earlier rule, from 0.
    pub earlier: usize,
    /// The place of the later one, which does not win where the earlier matches.
    pub later: usize,
    sequence: Vec<u8>,
}

impl Overlap {
    /// A sequence that both rules match, as items that take one node each: none is [`Item::Rest`](crate::Item::Rest), and
    /// for [`Item::Any`](crate::Item::Any) any node stands. It is as long as the longer rule without its rest, so that it
    /// may be empty.
    #[must_use]
    pub fn sequence(&self) -> Items<'_> {
        Items::new(&self.sequence)
    }

    /// The sequence's bytes.
    #[must_use]
    pub fn as_bytes(&self) -> &[u8] {
        &self.sequence
    }
}

/// The pairs of rules of a table that overlap, by the earlier rule's place, then the later's.
///
/// It ends by itself: each pair comes after the one before, and of 256 rules there are 32,640 pairs.
///
/// With the proved library it cannot panic. The table is of its form, as every [`Table`](crate::Table) is, so that refusal
/// 50 does not come; the buffer has room for the longest sequence, so that refusal 6 does not come; there is no other, and
/// the bytes shown are at most as many as the buffer has.
#[derive(Debug, Clone)]
pub struct Overlaps<'a> {
    rules: &'a [u8],
    /// The last pair, `None` behind the last of all.
    last: Option<(u32, u32)>,
    buffer: Vec<u8>,
}

impl<'a> Overlaps<'a> {
    /// Those of a table that is of its form.
    pub(crate) fn new(rules: &'a [u8]) -> Self {
        Self {
            rules,
            // No pair: each has a later place of 1 or more.
            last: Some((0, 0)),
            buffer: vec![0; LONGEST_SEQUENCE],
        }
    }
}

impl Iterator for Overlaps<'_> {
    type Item = Overlap;

    fn next(&mut self) -> Option<Overlap> {
        let (earlier, later) = self.last?;
        let mut answer = [0; ANSWER_LENGTH];
        type_name_overlap(self.rules, earlier, later, &mut self.buffer, &mut answer);
        let found = Refusal::of_answer(answer);
        let [earlier, later, bytes] =
            found.expect("a table of its form, and room for its sequences");
        // No pair has these places: the later's is the greater.
        self.last = (later > 0).then_some((earlier, later));
        self.last.map(|_| Overlap {
            earlier: earlier as usize,
            later: later as usize,
            sequence: self.buffer[..bytes as usize].to_vec(),
        })
    }
}

impl FusedIterator for Overlaps<'_> {}
