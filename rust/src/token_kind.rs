//! Token kinds, in the original's names and order.

use crate::numbered::numbered;

numbered! {
    /// What sort of token it is; the number is the one in its record.
    ///
    /// Literals come without their value. `<`, `>` and `>>` are `Less`, `Greater` and `ShiftRight`, whatever they turn out to be.
    TokenKind {
        /// A name or a keyword: `Lane`, `int`, `const`. The original's lexer of type names makes every keyword one, and hands
        /// on Fortran's in lower case.
        Identifier = 0,
        /// None of the original's lexer of type names.
        ReservedKeyword = 1,
        /// An integer literal.
        Integer = 2,
        /// A real literal.
        Real = 3,
        /// A character literal of C or C++.
        Character = 4,
        /// A string literal, and every character literal of Fortran.
        String = 5,
        /// `true`, `false`; Fortran: `.true.`, `.false.`
        Boolean = 6,
        /// `nullptr`
        NullPointer = 7,
        /// `(`
        LeftParen = 8,
        /// `)`
        RightParen = 9,
        /// `[`
        LeftBracket = 10,
        /// `]`
        RightBracket = 11,
        /// `,`
        Comma = 12,
        /// `?`
        Question = 13,
        /// `:`
        Colon = 14,
        /// `::`
        Scope = 15,
        /// `.`
        Dot = 16,
        /// Fortran's `%`; that of C and C++ is `Remainder`.
        Percent = 17,
        /// `->`
        Arrow = 18,
        /// `+`
        Plus = 19,
        /// `-`
        Minus = 20,
        /// `*`
        Star = 21,
        /// `/`
        Slash = 22,
        /// Fortran's `**`
        Power = 23,
        /// Fortran's `//`
        Concat = 24,
        /// `%` of C and C++
        Remainder = 25,
        /// `!`; Fortran: `.not.`
        LogicalNot = 26,
        /// `~`
        BitwiseNot = 27,
        /// `&`
        Ampersand = 28,
        /// `|`
        Pipe = 29,
        /// `^`
        Caret = 30,
        /// `&&`; Fortran: `.and.`
        LogicalAnd = 31,
        /// `||`; Fortran: `.or.`
        LogicalOr = 32,
        /// Fortran's `.eqv.`
        LogicalEqv = 33,
        /// Fortran's `.neqv.`
        LogicalNeqv = 34,
        /// Fortran's `.name.`
        FortranDefinedOperator = 35,
        /// `=`
        Equal = 36,
        /// `==`; Fortran also: `.eq.`
        EqualEqual = 37,
        /// `!=`; Fortran: `/=`, `.ne.`
        NotEqual = 38,
        /// `<`; Fortran also: `.lt.`
        Less = 39,
        /// `<=`; Fortran also: `.le.`
        LessEqual = 40,
        /// `>`; Fortran also: `.gt.`
        Greater = 41,
        /// `>=`; Fortran also: `.ge.`
        GreaterEqual = 42,
        /// `<<`
        ShiftLeft = 43,
        /// `>>`
        ShiftRight = 44,
        /// `++`
        PlusPlus = 45,
        /// `--`
        MinusMinus = 46,
        /// `+=`
        PlusEqual = 47,
        /// `-=`
        MinusEqual = 48,
        /// `*=`
        StarEqual = 49,
        /// `/=` of C and C++
        SlashEqual = 50,
        /// `%=`
        RemainderEqual = 51,
        /// `&=`
        AmpersandEqual = 52,
        /// `|=`
        PipeEqual = 53,
        /// `^=`
        CaretEqual = 54,
        /// `<<=`
        ShiftLeftEqual = 55,
        /// `>>=`
        ShiftRightEqual = 56,
        /// The end of the text. Lexers add it; a row must not have it.
        End = 57,
    }
}
