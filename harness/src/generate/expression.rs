//! Expressions, as array bounds, template arguments and selectors hold them.

use super::writer::Writer;
use crate::kind::Kind;
use crate::profile::HostLanguage;

const C_FAMILY_OPERATORS: [Kind; 29] = [
    Kind::Plus,
    Kind::Minus,
    Kind::Star,
    Kind::Slash,
    Kind::Remainder,
    Kind::Ampersand,
    Kind::Pipe,
    Kind::Caret,
    Kind::LogicalAnd,
    Kind::LogicalOr,
    Kind::Equal,
    Kind::EqualEqual,
    Kind::NotEqual,
    Kind::Less,
    Kind::LessEqual,
    Kind::Greater,
    Kind::GreaterEqual,
    Kind::ShiftLeft,
    Kind::ShiftRight,
    Kind::PlusEqual,
    Kind::MinusEqual,
    Kind::StarEqual,
    Kind::SlashEqual,
    Kind::RemainderEqual,
    Kind::AmpersandEqual,
    Kind::PipeEqual,
    Kind::CaretEqual,
    Kind::ShiftLeftEqual,
    Kind::ShiftRightEqual,
];

const FORTRAN_OPERATORS: [Kind; 18] = [
    Kind::Plus,
    Kind::Minus,
    Kind::Star,
    Kind::Slash,
    Kind::Power,
    Kind::Concat,
    Kind::LogicalAnd,
    Kind::LogicalOr,
    Kind::LogicalEqv,
    Kind::LogicalNeqv,
    Kind::Equal,
    Kind::EqualEqual,
    Kind::NotEqual,
    Kind::Less,
    Kind::LessEqual,
    Kind::Greater,
    Kind::GreaterEqual,
    Kind::FortranDefinedOperator,
];

const PREFIXES: [Kind; 8] = [
    Kind::LogicalNot,
    Kind::BitwiseNot,
    Kind::PlusPlus,
    Kind::MinusMinus,
    Kind::Plus,
    Kind::Minus,
    Kind::Star,
    Kind::Ampersand,
];

const LITERALS: [Kind; 6] = [
    Kind::Integer,
    Kind::Real,
    Kind::Character,
    Kind::String,
    Kind::Boolean,
    Kind::NullPointer,
];

impl Writer<'_> {
    pub fn expression(&mut self, depth: usize) {
        self.operand(depth);
        if depth == 0 {
            return;
        }
        for _ in 0..self.random.below(3) {
            self.operator();
            self.operand(depth - 1);
        }
        if self.language != HostLanguage::Fortran && self.random.one_in(6) {
            self.put(Kind::Question);
            self.expression(depth - 1);
            self.put(Kind::Colon);
            self.expression(depth - 1);
        }
    }

    fn operator(&mut self) {
        match self.language {
            HostLanguage::Fortran => self.put_one_of(&FORTRAN_OPERATORS),
            HostLanguage::C | HostLanguage::Cpp => self.put_one_of(&C_FAMILY_OPERATORS),
        }
    }

    fn operand(&mut self, depth: usize) {
        if self.random.one_in(5) {
            self.put_one_of(&PREFIXES);
        }
        match self.random.below(if depth == 0 { 4 } else { 6 }) {
            0 | 1 => self.put(Kind::Integer),
            2 => self.put_one_of(&LITERALS),
            3 => self.name(),
            4 => self.parentheses(|w| w.expression(depth - 1)),
            _ => self.designator(depth - 1),
        }
    }

    /// A name with what may follow it: members, calls, subscripts, scopes.
    fn designator(&mut self, depth: usize) {
        if self.is_cpp() && self.random.one_in(6) {
            self.put(Kind::Scope);
        }
        self.name();
        for _ in 0..self.random.below(3) {
            match self.random.below(6) {
                0 | 1 => self.member(),
                2 => self.parentheses(|w| w.call_arguments(depth)),
                3 => self.brackets(|w| w.expression(depth)),
                4 if self.is_cpp() => self.template_list(depth),
                _ => self.put_one_of(&[Kind::PlusPlus, Kind::MinusMinus]),
            }
        }
    }

    fn call_arguments(&mut self, depth: usize) {
        if self.random.below(3) > 0 {
            self.comma_separated(3, |w| w.expression(depth));
        }
    }

    fn member(&mut self) {
        match self.language {
            HostLanguage::C => self.put_one_of(&[Kind::Dot, Kind::Arrow]),
            HostLanguage::Cpp => self.put_one_of(&[Kind::Dot, Kind::Arrow, Kind::Scope]),
            HostLanguage::Fortran => self.put(Kind::Percent),
        }
        self.name();
    }
}
