//! Rule tables: which rule wins for a type name, and which rules overlap.

use alloc::vec::Vec;

use crate::answer::Refusal;
use crate::limits::{ANSWER_LENGTH, MOST_RULES};
use crate::overlaps::Overlaps;
use crate::raw::{type_name_match, type_name_overlap};
use crate::rule::{Item, Items, RuleError, read_rule, write_rule};
use crate::tree::Tree;

/// A rule table: of its rules, each of 1 to 16 items, the first wins that matches all top-level nodes of a type name.
///
#[doc = "```"]
#[doc = include_str!("../examples/rules.rs")]
#[doc = "```"]
///
/// Its bytes are always of the form that `docs/FORMAT.md` describes: [`Table::push`] writes nothing else, and
/// [`Table::from_bytes`] takes nothing else.
#[derive(Debug, Clone, PartialEq, Eq, Default)]
pub struct Table {
    bytes: Vec<u8>,
    rules: usize,
}

/// The tree of a type name, and the rule that wins for it.
#[derive(Debug, Clone, Copy)]
pub struct Winner<'a> {
    /// The tree, as [`parse_type_name`](crate::parse_type_name) would give it.
    pub tree: Tree<'a>,
    /// The rule's place in the table, from 0.
    pub place: usize,
}

impl Table {
    /// The table without rules.
    #[must_use]
    pub const fn new() -> Self {
        Self {
            bytes: Vec::new(),
            rules: 0,
        }
    }

    /// Adds a rule behind the others.
    ///
    /// # Errors
    ///
    /// If no record can hold it, or the table is full. The table stays as it was.
    pub fn push(&mut self, items: &[Item<'_>]) -> Result<(), RuleError> {
        if self.rules == MOST_RULES {
            return Err(RuleError::TableFull);
        }
        write_rule(items, &mut self.bytes)?;
        self.rules += 1;
        Ok(())
    }

    /// The table of a file.
    ///
    /// # Errors
    ///
    /// [`InvalidRuleTable`](crate::TypeNameError::InvalidRuleTable), if the file is none: what is proved of
    /// [`type_name_overlap`] decides.
    ///
    /// # Panics
    ///
    /// Only if the library that is linked is not the proved one: its refusals have other numbers.
    pub fn from_bytes(bytes: impl Into<Vec<u8>>) -> Result<Self, Refusal> {
        let bytes = bytes.into();
        let mut answer = [0; ANSWER_LENGTH];
        // No pair comes after these places, so that nothing is looked at but the form.
        type_name_overlap(&bytes, u32::MAX, u32::MAX, &mut [], &mut answer);
        Refusal::of_answer(answer)?;
        let rules = Rules { bytes: &bytes }.count();
        Ok(Self { bytes, rules })
    }

    /// The file.
    #[must_use]
    pub fn as_bytes(&self) -> &[u8] {
        &self.bytes
    }

    /// How many rules it has.
    #[must_use]
    pub const fn len(&self) -> usize {
        self.rules
    }

    /// Whether it has no rule.
    #[must_use]
    pub const fn is_empty(&self) -> bool {
        self.rules == 0
    }

    /// Its rules, in order, each as its items.
    #[must_use]
    pub fn rules(&self) -> Rules<'_> {
        Rules { bytes: &self.bytes }
    }

    /// Reads a row file into the tree buffer, as [`parse_type_name`](crate::parse_type_name) does, and finds the rule that
    /// wins.
    ///
    /// # Errors
    ///
    /// If the type name is refused, or if no rule matches: [`NoRuleMatches`](crate::TypeNameError::NoRuleMatches), which
    /// fills the buffer with zeros, too.
    ///
    /// # Panics
    ///
    /// Only if the library that is linked is not the proved one: its refusals have other numbers.
    pub fn winner<'a>(&self, file: &'a [u8], buffer: &'a mut [u32]) -> Result<Winner<'a>, Refusal> {
        let mut answer = [0; ANSWER_LENGTH];
        type_name_match(file, &self.bytes, buffer, &mut answer);
        let [nodes, steps, place] = Refusal::of_answer(answer)?;
        Ok(Winner {
            tree: Tree::new(file, buffer, nodes, steps),
            place: place as usize,
        })
    }

    /// The pairs of rules that some sequence of top-level nodes matches together, by the earlier rule's place, then the
    /// later's; such a sequence may be one that no row has.
    #[must_use]
    pub fn overlaps(&self) -> Overlaps<'_> {
        Overlaps::new(&self.bytes)
    }
}

/// The rules of a table, in order, each as its items.
#[derive(Debug, Clone, PartialEq, Eq)]
pub struct Rules<'a> {
    bytes: &'a [u8],
}

impl<'a> Iterator for Rules<'a> {
    type Item = Items<'a>;

    fn next(&mut self) -> Option<Items<'a>> {
        let (items, after) = read_rule(self.bytes)?;
        self.bytes = after;
        Some(items)
    }
}
