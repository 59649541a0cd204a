//! Which kinds the original takes for operators between two operands.

use std::ops::RangeInclusive;

use HostLanguage::{C, Cpp, Fortran};

use harness::format::Token;
use harness::generate::operators;
use harness::kind::Kind;
use harness::oracle;
use harness::profile::HostLanguage;

fn accepts(language: HostLanguage, kind: Kind) -> bool {
    let token = match kind {
        Kind::Identifier => Token::word("a"),
        _ => Token::plain(kind),
    };
    let row = operators::between_operands(language, &[token]);
    oracle::answer_with_tree(&row.write()).0.refusal().is_none()
}

/// The runs of neighbouring kinds in `is_binary_or_assignment_operator`, counted by hand in its text by the places of
/// `TokenKind`.
const C_FAMILY: &[RangeInclusive<u16>] = &[12..=12, 19..=22, 25..=25, 28..=32, 36..=44, 47..=56];
const IN_FORTRAN: &[RangeInclusive<u16>] = &[12..=12, 19..=24, 31..=34, 36..=42];

/// Beside them what a name may follow: `.` and `->`, `::` in C++, `%` in Fortran.
const LANGUAGES: [(HostLanguage, &[RangeInclusive<u16>], &[Kind]); 3] = [
    (C, C_FAMILY, &[Kind::Dot, Kind::Arrow]),
    (Cpp, C_FAMILY, &[Kind::Scope, Kind::Dot, Kind::Arrow]),
    (Fortran, IN_FORTRAN, &[Kind::Percent]),
];

#[test]
fn operators_are_the_runs_counted_by_hand() {
    for (language, runs, before_names) in LANGUAGES {
        for &kind in Kind::ALL {
            let operator = runs.iter().any(|run| run.contains(&kind.number()));
            let wanted = operator || before_names.contains(&kind);
            assert_eq!(accepts(language, kind), wanted, "{language:?} {kind:?}");
        }
    }
}
