//! Type names by the grammar of Fortran.

use super::writer::Writer;
use crate::kind::Kind;

const INTRINSIC: [&str; 6] = [
    "integer",
    "real",
    "complex",
    "logical",
    "character",
    "doublecomplex",
];

impl Writer<'_> {
    pub fn fortran_type(&mut self, depth: usize) {
        match self.random.below(10) {
            0 => {
                self.word_in_any_case("double");
                let second = *self.random.pick(&["precision", "complex"]);
                self.word_in_any_case(second);
            }
            1 | 2 => self.derived(depth),
            3 => {
                self.intrinsic();
                self.put_all(&[Kind::Star, Kind::Integer]);
            }
            4 => {
                self.intrinsic();
                self.put(Kind::Star);
                self.parentheses(|w| w.selector_value(depth));
            }
            5 => {
                self.name();
                self.parentheses(|w| w.put_all(&[Kind::Dot, Kind::Dot]));
            }
            6 => self.name(),
            _ => {
                self.intrinsic();
                self.parentheses(|w| w.comma_separated(2, |w| w.selector(depth)));
            }
        }
    }

    fn intrinsic(&mut self) {
        let word = *self.random.pick(&INTRINSIC);
        self.word_in_any_case(word);
    }

    fn derived(&mut self, depth: usize) {
        let head = *self.random.pick(&["type", "class"]);
        self.word_in_any_case(head);
        self.parentheses(|w| match w.random.below(5) {
            0 => w.put(Kind::Star),
            1 => {
                w.name();
                w.parentheses(|w| w.comma_separated(2, |w| w.selector(depth)));
            }
            _ => w.name(),
        });
    }

    /// As in `kind=8`, `len=*`, `len=:` or `8`.
    fn selector(&mut self, depth: usize) {
        if self.random.below(3) > 0 {
            let keyword = *self.random.pick(&["kind", "len"]);
            self.word_in_any_case(keyword);
            self.put(Kind::Equal);
        }
        self.selector_value(depth);
    }

    fn selector_value(&mut self, depth: usize) {
        match self.random.below(6) {
            0 => self.put(Kind::Star),
            1 => self.put(Kind::Colon),
            2 | 3 => self.put(Kind::Integer),
            _ => self.expression(depth.saturating_sub(1)),
        }
    }
}
