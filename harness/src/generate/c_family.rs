//! Type names by the grammars of C and C++.

use super::writer::Writer;
use crate::kind::Kind;

/// Combinations that name a type; their words may stand in any order.
const BUILTIN: [&[&str]; 21] = [
    &["void"],
    &["bool"],
    &["_Bool"],
    &["char"],
    &["unsigned", "char"],
    &["wchar_t"],
    &["char8_t"],
    &["char16_t"],
    &["char32_t"],
    &["short"],
    &["short", "unsigned", "int"],
    &["int"],
    &["unsigned"],
    &["signed", "long"],
    &["long", "long"],
    &["unsigned", "long", "long", "int"],
    &["float"],
    &["long", "double"],
    &["double", "_Complex"],
    &["float", "_Imaginary"],
    &["_Decimal64"],
];

const QUALIFIERS: [&str; 7] = [
    "const",
    "volatile",
    "restrict",
    "__restrict",
    "__restrict__",
    "_Atomic",
    "transaction_safe",
];

const TYPEOF: [&str; 4] = ["typeof", "typeof_unqual", "__typeof", "__typeof__"];

impl Writer<'_> {
    pub fn c_family_type(&mut self, depth: usize) {
        let leading = self.random.one_in(5);
        if leading {
            self.word("const");
        }
        self.base(depth);
        if !leading && self.random.one_in(5) {
            self.word_of(&QUALIFIERS);
        }
        self.declarator(depth);
    }

    fn base(&mut self, depth: usize) {
        match self.random.below(if depth == 0 { 6 } else { 10 }) {
            0..3 => self.builtin(),
            3 => self.elaborated(depth),
            4 | 5 => self.qualified_name(depth),
            6 => self.typeof_type(depth - 1),
            7 if self.is_cpp() => self.decltype(depth - 1),
            7 => self.bit_int(depth - 1),
            8 if !self.is_cpp() => {
                self.word("_Atomic");
                self.parentheses(|w| w.c_family_type(depth - 1));
            }
            _ => self.qualified_name(depth),
        }
    }

    fn builtin(&mut self) {
        let mut words = self.random.pick(&BUILTIN).to_vec();
        let turn = self.random.below(words.len());
        words.rotate_left(turn);
        for word in words {
            self.word(word);
        }
    }

    fn elaborated(&mut self, depth: usize) {
        if self.is_cpp() {
            self.word_of(&["struct", "union", "enum", "class", "typename"]);
        } else {
            self.word_of(&["struct", "union", "enum"]);
        }
        self.qualified_name(depth);
    }

    /// A name; in C++ with scopes and template lists.
    fn qualified_name(&mut self, depth: usize) {
        if self.is_cpp() && self.random.one_in(8) {
            self.put(Kind::Scope);
        }
        self.segment(depth);
        while self.is_cpp() && self.random.one_in(4) {
            self.put(Kind::Scope);
            self.segment(depth);
        }
    }

    fn segment(&mut self, depth: usize) {
        self.name();
        if self.is_cpp() && depth > 0 && self.random.one_in(2) {
            self.template_list(depth - 1);
        }
    }

    pub fn template_list(&mut self, depth: usize) {
        self.list(|w| w.comma_separated(3, |w| w.template_argument(depth)));
    }

    fn template_argument(&mut self, depth: usize) {
        match self.random.below(6) {
            0 => self.parentheses(|w| w.expression(depth)),
            1 => self.expression(depth),
            2 => self.put(Kind::Integer),
            _ => self.c_family_type(depth),
        }
    }

    fn typeof_type(&mut self, depth: usize) {
        self.word_of(&TYPEOF);
        if self.random.one_in(2) {
            self.parentheses(|w| w.c_family_type(depth));
        } else {
            self.parentheses(|w| w.expression(depth));
        }
    }

    fn decltype(&mut self, depth: usize) {
        self.word("decltype");
        self.parentheses(|w| w.expression(depth));
    }

    fn bit_int(&mut self, depth: usize) {
        let sign = self.random.below(4);
        if sign == 0 {
            self.word_of(&["signed", "unsigned"]);
        }
        self.word("_BitInt");
        self.parentheses(|w| w.expression(depth));
        if sign == 1 {
            self.word_of(&["signed", "unsigned"]);
        }
    }

    fn declarator(&mut self, depth: usize) {
        self.pointers();
        if depth == 0 {
            return;
        }
        if self.random.one_in(5) {
            self.grouped_declarator(depth - 1);
        }
        match self.random.below(8) {
            0 => self.parameters(depth - 1),
            1 => self.array(depth - 1),
            2 if self.is_cpp() => self.put_one_of(&[Kind::Ampersand, Kind::LogicalAnd]),
            _ => {}
        }
    }

    fn pointers(&mut self) {
        while self.random.one_in(4) {
            self.put(Kind::Star);
            if self.random.one_in(4) {
                self.word_of(&QUALIFIERS);
            }
        }
    }

    /// As in `(*)(int)`, `(&)[3]`, `(Lane::*)` or `(*(*)[])`.
    fn grouped_declarator(&mut self, depth: usize) {
        self.parentheses(|w| {
            match w.random.below(6) {
                0 if w.is_cpp() => w.put_one_of(&[Kind::Ampersand, Kind::LogicalAnd]),
                1 if w.is_cpp() => {
                    w.qualified_name(depth);
                    w.put_all(&[Kind::Scope, Kind::Star]);
                }
                _ => {
                    w.put(Kind::Star);
                    w.pointers();
                }
            }
            if depth > 0 && w.random.one_in(3) {
                w.grouped_declarator(depth - 1);
            }
        });
        if self.random.one_in(2) {
            self.parameters(depth);
        } else {
            self.array(depth);
        }
    }

    fn parameters(&mut self, depth: usize) {
        self.parentheses(|w| match w.random.below(4) {
            0 => {}
            1 => {
                w.c_family_type(depth);
                w.put(Kind::Comma);
                w.put_all(&[Kind::Dot; 3]);
            }
            _ => w.comma_separated(3, |w| w.c_family_type(depth)),
        });
        if self.is_cpp() && self.random.one_in(3) {
            self.word("noexcept");
            if self.random.one_in(2) {
                self.parentheses(|w| w.expression(depth));
            }
        }
    }

    fn array(&mut self, depth: usize) {
        self.brackets(|w| match w.random.below(4) {
            0 => {}
            1 => w.put(Kind::Star),
            _ => w.expression(depth),
        });
        if self.random.one_in(4) {
            self.brackets(|w| w.put(Kind::Integer));
        }
    }
}
