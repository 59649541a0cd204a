//! What a comparison has seen: how often each outcome, how many inputs differ and the smallest of them.

use std::collections::BTreeMap;
use std::process::ExitCode;

use crate::verdict;

#[derive(Default)]
pub struct Notes {
    pub calls: u64,
    differ: u64,
    /// How often each outcome was seen, by its name.
    seen: BTreeMap<String, u64>,
    /// The smallest input that differs, with its length.
    smallest: Option<(usize, String)>,
}

impl Notes {
    pub fn note(&mut self, outcome: impl Into<String>) {
        self.note_times(outcome, 1);
    }

    pub fn note_times(&mut self, outcome: impl Into<String>, times: u64) {
        *self.seen.entry(outcome.into()).or_default() += times;
    }

    /// Counts a difference unless all is the same.
    pub fn hold(&mut self, same: bool, size: usize, input: impl FnOnce() -> String) {
        if same {
            return;
        }
        self.differ += 1;
        if self
            .smallest
            .as_ref()
            .is_none_or(|(least, _)| size < *least)
        {
            self.smallest = Some((size, input()));
        }
    }

    pub fn report(&self) -> ExitCode {
        for (outcome, times) in &self.seen {
            println!("{outcome}: {times}");
        }
        if let Some((_, input)) = &self.smallest {
            println!("the smallest that differs: {input}");
        }
        println!("{} calls, {} differ", self.calls, self.differ);
        verdict(self.differ)
    }
}
