"""The entries of docs/DIFFERENCES.md: where ISO C, C++ or Fortran decides otherwise than the reader. One entry a rule.

What ISO says is written here; what the reader and the compilers say is measured (iso.tsv). A new entry needs a line here, a rule in
iso_rules.py if the search meets it, and `iso --write`.
"""

REFUSED_TEXT = """
Names that ISO accepts and the reader refuses, with structure flag 1. Shares are of the language's names in `harness/corpus/names.tsv`, with `>>` for every
`> >` as C++11 and later write it; each entry says in which standards it holds.
"""
# entry, language, what is refused, a row, what to write instead, a row that is accepted (none: no one row stands for it)
REFUSED = [
    ('A12', 'cpp', '`>>` closes two lists and a comma follows', 'A<B<C<d>>,e>', '`> >` before the comma', 'A<B<C<d> >,e>'),
    ('E2', 'cpp', 'a cast in a template argument or a bound', 'N<(int)2>', 'the operand in parentheses', 'N<(int)(2)>'),
    ('F3', 'cpp', 'parameters with a `::` and a `*` among them (one `B::C *` alone passes)', 'int (A, B::C *)', 'an alias for the qualified type', 'int (A, C *)'),
    ('D8', 'c', 'a function that returns a pointer, with the `*` in parentheses; a returned pointer to function', 'int (*(int))', 'the `*` before the parentheses; an alias for a returned pointer to function', 'int *(int)'),
    ('R6', 'fortran', 'a length in parentheses after `*`', 'character*(*)', 'the length as a selector', 'character(*)'),
    ('D7', 'cpp', 'a pointer to member without parentheses', 'int C::*', 'parentheses', 'int (C::*)'),
    ('A3', 'cpp', 'an empty list', 'A<>', 'the default argument written out, or an alias', 'A<int>'),
    ('F1', 'c', 'named parameters', 'int (int a)', 'the types alone', 'int (int)'),
    ('A5', 'cpp', 'a comparison with `<` in a template argument', 'N<(b<c)>', 'the other order', 'N<(c>b)>'),
    ('E3', 'c', '`sizeof` of a type name of several words', 'int [sizeof(struct A)]', 'an alias', 'int [sizeof(A)]'),
]
INDEX_TEXT = """
Direction: who accepts. A row marked * is as small as the smallest that the search met (below, "The search"): no row over its alphabets with fewer
tokens differs by that rule. Any other is the shortest of the entry's rows: with one or two of its tokens left out no row differs by that rule (`harness/iso --smaller`;
not tried for trees, L1 and L2). Standards: those in which some row of the entry differs.
"""
INTRODUCTION = """
Here the reader, with structure flag 1 unless said, is held against the standards. C is ISO/IEC 9899 (C17 clause numbers; in C23 the clause of the same title), C++ is
ISO/IEC 14882 (N4950's section tags in brackets; for an earlier standard the section of that name), Fortran is ISO/IEC 1539-1 (rule numbers of Fortran 2018).
The standards' texts were not at hand: what ISO says and the clauses are written from knowledge of them; the compilers check the first, and nothing checks the second.

Each entry is one rule, with some of its rows. "Differs in" names the standards in which reader and ISO differ on the row, of those in which it was tried. "Here" is the answer of the proved reader: accepted, or the refusal's
number; "no such token" means that the original's lexer makes no row of the text. ISO's answer is for names declared so that the row makes sense, if there is
such a declaration: the reader knows no declarations. Where the tree is what differs, the tokens that open lists are named.

`harness/iso` asks the reader and the compilers again and compares everything below, which `harness/iso --write` makes; rows and reasons are in
`harness/iso_table.py`, measured answers in `harness/iso.tsv`. `./test` runs `harness/iso --quick`: the reader on every row in every standard, the compilers on one row an entry. Compilers run with `-pedantic-errors` and the `-std` of each
standard (C23 `c2x`, C++23 `c++2b`); no compiler at hand has an option for Fortran 77, 90 and 2023, where the column "ISO" stands alone. The type name stands in C in
`__builtin_types_compatible_p(TYPE, int)`, in C++ in `Use< TYPE > *use;`, in Fortran in `TYPE :: x` with `x` a dummy argument; where a row stands in
another place, that is said beside it (`harness/iso --units ID` prints the units). No compiler option makes ISO's answer certain; where one of them differs from
ISO, the entry says why.
"""
SEARCH_TEXT = """
All rows over an alphabet, up to a length, whose brackets pair, were given to the reader in every standard and to compilers (clang 22.1.8 and gcc 12.2.0 in C and C++,
gfortran 12.2.0); where nothing stands before them, those that begin with a word or `::`, as every type name does. `...` is one letter and three tokens. To the
reader all words that it does not know are one, so the rows are fewer to it; ISO is taken to accept such a row if a compiler accepts one of the rows that are the same to the
reader. For that the alphabets have names of each kind: in C `A` is a type and a tag, `a` a constant, `q` a pointer, `i` an object, `s` a structure, `f` a function; in C++
`A` and `B` are classes, `I` is an arithmetic type, `T` and `N` are templates over types and over integers, `V` is a variable template, `a` a constant, `r` a constant array,
`s` an object, `g` a function, `k` a constant function; in Fortran `lane`, `bag` and `tray` are derived types (without, with a length and with a kind parameter), `a` is a
constant, `v` a constant array, `w` a string, `int` the function (`harness/iso_searches.py`). Keywords, intrinsic types and `kind` and `len` are no names in this.

clang and gfortran were asked about all rows in the first standard that they have, in the one that 254 means (C18, C++17, Fortran 2018) and in the last; in the standards between, and gcc in all
of them, about the rows that the reader or a compiler accepts. The first place named is that of a type name (an argument list between `A <` and `>`); the other places, in which ISO may accept more, got
the rows of up to four letters in the standard that 254 means. One error can hide another, or make one, so rows without an error were compiled again without the others until
none was left, and in C and C++, in the standard that 254 means, rows with one a second time, in the other order. Fortran rows that begin with `type` and no parenthesis were
not given to the compiler, where they would begin a definition; the reader refuses them all.

A row differs in a standard if the reader accepts it and a compiler does not, or the reader refuses it and a compiler accepts it; "Differ" counts rows to the reader, once for each
standard. `harness/iso_rules.py` names an entry for each difference, by what the row has: none is left without one. `harness/iso_search` runs all this again. Counted apart ("Set aside") are rows on which
one compiler alone stands against the reader, and rows for which the alphabet lacks a name that makes them valid:
"""
LETTERS = [
    ('W', 'builtin type words'), ('Q', 'qualifiers'), ('N', 'names'), ('P', '`typeof`, `decltype`, `_BitInt`, and words that the profile check looks for'),
    ('D', 'declarators'), ('F', 'parameters of functions'), ('A', 'angles: `<`, `>`, `>>` and commas'), ('E', 'expressions and literals'),
    ('O', 'what an older standard lacks'), ('L', 'limits'), ('R', 'Fortran'),
]

PREAMBLE = {
    'c': '''typedef int A; typedef int B; typedef int Lane; typedef int Key; typedef int Route;
struct Tray { int weight; }; struct Lane { int key; }; typedef struct Tray Tray; struct A { int m; };
enum { a = 2, b = 3, c = 4, lanes = 8, trays = 4, keys = 16 }; int count(int);''',
    'cpp': '''template<class> struct Use;
struct A { struct B {}; int m; static const int v = 3; }; struct B {}; struct C {}; struct Key {}; struct Route {};
struct Tray { struct Slot {}; int weight; };
namespace post { struct Tray; struct Lane; struct Route; }
template<class> struct T {}; template<int> struct N {}; template<class> struct Lane {}; template<int> struct Slots {};
const int a = 2, b = 3, c = 4, d = 1, lanes = 8, trays = 4, keys = 16;''',
    'fortran': '''subroutine sort(x)
  implicit none
  integer, parameter :: a = 4, b = 4, c = 8, lanes = 8, slots(3) = (/ 4, 4, 8 /)
  character(*), parameter :: label = 'north'
  type lane
    integer :: keys
  end type
  type tray
    integer :: weight
  end type''',
}
# the text, and how the page calls the place; the first of a language is the one that is not named
UNITS = {
    'c-name': ('int use(void) { return __builtin_types_compatible_p(TYPE, int); }', ''),
    'c-parameter': ('void use(TYPE);', 'as a parameter'),
    'c-sizeof': ('unsigned long use(void) { return sizeof(TYPE); }', 'in `sizeof`'),
    'c-literal': ('void use(void) { (void) (TYPE) { 0 }; }', 'in a compound literal'),
    'cpp-argument': ('Use< TYPE > *use;', ''),
    'cpp-parameter': ('void use(TYPE);', 'as a parameter'),
    'cpp-alias': ('using use = TYPE;', 'in an alias'),
    'cpp-in-template': ('template<class U, class... V> struct In { Use< TYPE > *use; };', 'in a template with a pack `V`'),
    'fortran-dummy': ('  TYPE :: x\nend subroutine', ''),
    'fortran-allocatable': ('  TYPE, allocatable :: x\nend subroutine', 'allocatable'),
    'fortran-pointer': ('  TYPE, pointer :: x\nend subroutine', 'pointer'),
    'fortran-allocate': ('  class(*), allocatable :: x\n  allocate(TYPE :: x)\nend subroutine', 'in ALLOCATE'),
    'fortran-old': ('  TYPE x\nend subroutine', 'without `::`'),
}
DEFAULT_UNIT = {'c': 'c-name', 'cpp': 'cpp-argument', 'fortran': 'fortran-dummy'}

GROUPS = []
ENTRIES = []


def group(title):
    GROUPS.append(title)


def entry(id, direction, title, rule, iso, rows, note=None, instead=None):
    ENTRIES.append(dict(id=id, group=GROUPS[-1], direction=direction, title=title, rule=rule, iso=iso, rows=rows, note=note, instead=instead))


def row(language, text, iso, pre=None, unit=None, only=None, lists=None, flag=1):
    """iso: the standards in which ISO accepts (`no`, `yes`, `C99+` from it on, `C++14-` up to it). only: those in which the row is tried.
    lists: the tokens at which ISO has a list, where the tree is what differs. pre: the names' declarations."""
    return dict(language=language, text=text, iso=iso, pre=pre, unit=unit or DEFAULT_UNIT[language], only=only or 'yes', lists=lists, flag=flag)


def c(text, iso='no', **more):
    return row('c', text, iso, **more)


def cpp(text, iso='no', **more):
    return row('cpp', text, iso, **more)


def f(text, iso='no', **more):
    return row('fortran', text, iso, **more)


USE = 'template<class> struct Use; '

# ---------------------------------------------------------------------------------------------------------------------
group('C and C++: builtin type words')

entry('W1', 'accept', 'Sign and length with a type that has none.',
      '`short`, `long`, `signed` and `unsigned` are tested against `void`, `float`, `double` and `char` only, so they pass with `bool`, `_Bool`, `wchar_t`, '
      '`char8_t`, `char16_t`, `char32_t`.',
      'the listed sets of type specifiers have no such set (C17 6.7.2 p2; [dcl.type.simple]); in C `wchar_t` and its like are typedef names, which stand alone.',
      [c('long _Bool'), c('long wchar_t', pre='typedef int wchar_t;'), c('unsigned bool (*)(struct Tray *)', pre='#include <stdbool.h>\nstruct Tray;', only='C99+'),
       cpp('long bool'), cpp('Lane<unsigned wchar_t>')])
entry('W2', 'accept', 'Sign and length with a decimal type.',
      'The same for `_Decimal32`, `_Decimal64`, `_Decimal128`.', 'C23 lists the three alone (6.7.2 p2, Type specifiers); before C23 there are none.',
      [c('long _Decimal32'), c('unsigned _Decimal64 [lanes]', unit='c-sizeof')])
entry('W3', 'accept', '`_Complex` without a floating type.',
      '`_Complex` is tested against no word but `void`.', 'only with `float`, `double` and `long double` (C17 6.7.2 p2); C89 has no `_Complex`.',
      [c('_Complex'), c('_Complex int'), c('unsigned _Complex'), c('char _Complex (*)(Lane)')])
entry('W4', 'accept', '`_Imaginary` without a floating type, or twice complex.',
      '`_Imaginary` is tested against no word but `void`.', 'only with `float`, `double` and `long double`, where the implementation has Annex G.',
      [c('_Imaginary'), c('float _Complex _Imaginary *')],
      'neither has imaginary types, with a floating type or without.')
entry('W5', 'accept', "C's words in C++.",
      'One set of builtin words serves both languages.', 'C++ has no `_Bool`, `_Complex`, `_Imaginary`, `_Decimal32`, `_Decimal64`, `_Decimal128` ([dcl.type.simple], [lex.key]).',
      [cpp('_Bool'), cpp('Lane<double _Complex>'), cpp('_Decimal64 (*)(Tray)')],
      'g++ takes `_Complex` as an extension without a word.')
entry('W6', 'accept', '`long` twice, not side by side, in C89 and C++98.',
      'The profile check looks for `long` followed directly by `long`.', 'C89 and C++98 have no `long long`, in any order (C89 3.5.2 as ANSI numbers it; C++98 7.1.5.2).',
      [c('long int long', 'C99+'), c('long const long *', 'C99+'), cpp('Lane<long unsigned long>', 'C++11+')])
entry('W7', 'refuse', 'A builtin word that the language has not reserved, as a tag or a member.',
      'The set of builtin words does not depend on language or standard.',
      'in C `wchar_t`, `char8_t`, `char16_t`, `char32_t`, and before C23 `bool`, are ordinary identifiers (C17 6.4.1); so are `char16_t` in C++98 and `char8_t` before C++20 ([lex.key]).',
      [c('struct bool', 'C18-', pre='struct bool { int lane; };'), c('struct wchar_t *', 'yes', pre='struct wchar_t { int lane; };'),
       cpp('A::char16_t', 'C++98-', pre=USE + 'struct A { struct char16_t {}; };', only='C++98-'),
       cpp('post::char8_t *', 'C++17-', pre=USE + 'namespace post { struct char8_t {}; }', only='C++17-')],
      'gcc 12 and clang 14 have no keyword `bool` in C23.', 'another name')
entry('W8', 'refuse', 'Interchange and extended floating types with `_Complex`.',
      '`_Float64` is a name like any other, and no name stands beside a builtin word.', 'C23 Annex H (optional) has `_Float64 _Complex` and its like.',
      [c('_Float64 _Complex', 'C23+'), c('_Complex _Float32x *', 'C23+')],
      'gcc has the types and rejects them under `-pedantic-errors`; clang has none of them.', 'a typedef')

# ---------------------------------------------------------------------------------------------------------------------
group('C and C++: qualifiers')

entry('Q1', 'refuse', 'The same qualifier twice before the declarator.',
      'A second one is refused.', 'in C the repetition has no effect since C99 (C17 6.7.3 p5; a constraint in C89). C++ agrees with us ([dcl.type.cv]).',
      [c('const const int', 'C99+'), c('const volatile const struct Tray *', 'C99+')], None, 'the qualifier once')
entry('Q2', 'accept', 'The same qualifier twice after the declarator began.',
      'There repetitions are not looked for.', 'C++ forbids redundant cv-qualifiers ([dcl.type.cv]), and so does C89 (3.5.3); C99 and later agree with us.',
      [c('int * const const', 'C99+'), cpp('int * const const'), cpp('Lane<Tray *const const>')])
entry('Q3', 'accept', '`restrict` without a pointer to an object.',
      '`restrict` is one of the qualifiers.', 'only pointers to object types may be restrict-qualified (C17 6.7.3 p2).',
      [c('restrict int'), c('A restrict', pre='typedef double A;'), c('struct Tray restrict *')])
entry('Q4', 'accept', "C's qualifiers in C++.",
      'One set of qualifiers serves both languages: `restrict`, `_Atomic`, `__restrict`, `__restrict__`, `transaction_safe`.',
      'cv-qualifiers are `const` and `volatile` ([dcl.type.cv]); `transaction_safe` is of a technical specification (ISO/IEC TS 19841), and no standard has it.',
      [cpp('int *restrict'), cpp('int *__restrict'), cpp('_Atomic int'), cpp('Lane<Tray *restrict>'), cpp('int () transaction_safe')],
      'all take `__restrict` as an extension without a word.')
entry('Q5', 'accept', '`noexcept` and `transaction_safe` as qualifiers anywhere, in C too; `noexcept()`.',
      'Both stand in the set of qualifiers; the parentheses after `noexcept` may be empty.',
      'C has neither; in C++ `noexcept` follows the parameters of a function type, with a constant expression if it has parentheses ([dcl.decl.general], [except.spec]).',
      [c('noexcept int'), cpp('noexcept int'), cpp('int *noexcept'), cpp('int () noexcept()'), cpp('Lane<noexcept Tray *>')])
entry('Q6', 'accept', 'Qualifiers after a reference, an array or, in C, parameters, or first in a declarator in parentheses.',
      'After the declarator began a qualifier may stand anywhere.',
      'qualifiers follow a `*` (C17 6.7.7; [dcl.decl.general], ptr-operator); a reference operator has none, nothing follows an array bound, and C has no qualifiers after parameters.',
      [c('int ((const *))', 'C89-'), cpp('int & const'), cpp('int [3] const'), c('int () const'), c('int [] const'), cpp('void (*)(Tray & const)'), c('Lane (Tray *) const')])
entry('Q7', 'accept', 'Qualifiers and `&` after the parameters of a pointer or reference to function, and of a parameter.',
      'As Q6.', 'a cv-qualifier-seq or ref-qualifier is for the function type of a member, of a pointer to member, of a typedef or of a type argument ([dcl.fct]).',
      [cpp('int (*)() const'), cpp('int (*)() &'), cpp('int (int () const)'), cpp('Lane<void (*)(Tray) const>')])
entry('Q8', 'accept', '`_Atomic( )` of a type that cannot be atomic.',
      'Any type name may stand inside.', 'no array, function, atomic or qualified type (C17 6.7.2.4 p3).',
      [c('_Atomic(const A)'), c('_Atomic(int [3])'), c('_Atomic(const Lane) *')])
entry('Q9', 'refuse', 'C89: qualifiers or a storage class without a type.',
      'Some word must name a type.', 'C89 takes a missing type specifier for `int` (3.5.2 as ANSI numbers it); C99 removed this.',
      [c('const', 'C89-'), c('const *', 'C89-'), c('volatile (*)(const)', 'C89-')], 'clang has implicit `int` in declarations and not in type names.', '`int` beside it')
entry('Q10', 'accept', '`__restrict` and `__restrict__` in C.',
      'Both stand in the set of qualifiers.', 'no standard has them (C17 6.7.3).',
      [c('int * __restrict'), c('struct Tray * __restrict__')], 'all take them as extensions without a word.')
entry('Q11', 'accept', '`_Atomic( )` after the declarator began.',
      'There `_Atomic` is a qualifier, and a type name in parentheses may follow it.', '`_Atomic` before a parenthesis is always a type specifier (C17 6.7.2.4 p4), which stands before the declarator.',
      [c('A * _Atomic (A)'), c('struct Tray * _Atomic (Lane)')],
      'all read it as a qualifier and a parameter list.')
entry('Q12', 'refuse', 'A qualifier word that is an ordinary name, as the type.',
      'The set of qualifiers does not depend on language or standard, and a qualifier names no type.',
      '`restrict` is an ordinary identifier in C89 and C++, `noexcept` in C and C++98, `transaction_safe` everywhere (C17 6.4.1; [lex.key]).',
      [c('restrict', 'C89-', pre='typedef int restrict;', only='C89-'), cpp('restrict', 'yes', pre=USE + 'struct restrict {};'), c('noexcept', 'yes', pre='typedef int noexcept;'),
       cpp('noexcept *', 'C++98-', pre=USE + 'struct noexcept {};', only='C++98-'), c('transaction_safe', 'yes', pre='typedef int transaction_safe;'),
       cpp('transaction_safe', 'yes', pre=USE + 'struct transaction_safe {};')], None, 'another name')

# ---------------------------------------------------------------------------------------------------------------------
group('C and C++: names')

entry('N1', 'accept', 'Any keyword is a name.',
      'A word that is none of the listed ones counts as a type name.', 'a keyword is no typedef name or class name (C17 6.4.1; [lex.key]).',
      [c('static'), c('return *'), cpp('this'), cpp('Lane<switch>')])
entry('N2', 'accept', 'More names after an elaborated name.',
      'After `struct`, `union`, `enum`, `class` or `typename` any number of names may follow.',
      'one tag (C17 6.7.2.3; [dcl.type.elab]).',
      [c('struct Lane Lane'), c('struct Lane Key Route *'), cpp('struct Tray Key')])
entry('N3', 'accept', 'A qualifier instead of the tag, or before it.',
      'After `struct` and its like only a word is asked for.', 'the tag follows directly (C17 6.7.2.1, 6.7.2.3; [dcl.type.elab]).',
      [c('struct const'), c('struct const Tray *'), cpp('Lane<class volatile Tray>')])
entry('N4', 'refuse', 'A global name after `struct` and its like.',
      'After these words an identifier is asked for, not `::` (as a template argument such a row passes, by E1).', 'a nested-name-specifier may be `::` ([dcl.type.elab]; [temp.res.general] for `typename`).',
      [cpp('struct ::A', 'yes'), cpp('typename ::A::B', 'C++11+'), cpp('struct ::Tray *', 'yes')],
      'g++ accepts `typename` outside a template in C++98 (N6).', 'the name without `::`')
entry('N5', 'accept', '`typename` before an unqualified name.',
      '`typename` is read like `struct`.', 'a typename-specifier has a nested-name-specifier ([temp.res.general]).',
      [cpp('typename A'), cpp('Lane<typename Tray *>')])
entry('N6', 'accept', '`typename` outside a template in C++98.',
      'Where the type name stands is not known.', 'C++98 14.6 allows `typename` in templates only; C++11 lifted this.',
      [cpp('typename A::B', 'C++11+'), cpp('Lane<typename Tray::Slot>', 'C++11+')],
      'g++ accepts it in C++98.')
entry('N7', 'refuse', '`template` before a name.',
      '`template` counts as a name, and no second name may follow (after `typename` it may: N2).', '`template` may precede a simple-template-id in a qualified name and after `.` and `->` ([expr.prim.id.qual], [temp.names]).',
      [cpp('A::template B<c>', 'C++11+', pre=USE + 'struct A { template<int> struct B {}; }; const int c = 4;'),
       cpp('decltype(s.template f<c>())', 'C++11+', pre=USE + 'struct S { template<int> int f(); }; extern S s; const int c = 4;', only='C++11+'),
       cpp('post::Sorter::template Lane<Tray> *', 'C++11+', pre=USE + 'struct Tray; namespace post { struct Sorter { template<class> struct Lane {}; }; }')],
      None, 'the name without `template`, or an alias')
entry('N8', 'refuse', "C++'s words as names in C.",
      '`class`, `typename` and `decltype` before parentheses are refused in C.', 'these are ordinary identifiers in C (C17 6.4.1).',
      [c('class', 'yes', pre='typedef int class;'), c('typename', 'yes', pre='typedef int typename;'), c('decltype (int)', 'yes', pre='typedef int decltype;'), c('struct class *', 'yes', pre='struct class { int lane; };')],
      None, 'another name')
entry('N9', 'refuse', 'A definition in the type name, and every other use of braces.',
      'The token kinds have no braces.', 'a type name may define a struct, union or enum in C (C17 6.7.7, 6.7.2.1); compound literals (C17 6.5.2.5) and brace initialisation ([expr.type.conv]) are expressions.',
      [c('struct { int a; }', 'yes'), c('int [(int){3}]', 'C99+', unit='c-sizeof'), cpp('N<int{3}>', 'C++11+'), cpp('Slots<lanes + int{1}>', 'C++11+')],
      None, 'a tag or an alias declared before')
entry('N10', 'refuse', 'Attributes.',
      '`[[` is read as an array bound that holds an array bound.', 'an attribute-specifier-sequence may follow specifiers and declarators (C23 6.7.13, Attributes; [dcl.attr.grammar]).',
      [c('int [[]]', 'C23+'), cpp('int [[]]', 'C++11+'), c('int *[[post::sorted]]', 'C23+'), cpp('Tray *[[post::sorted]]', 'C++11+')],
      'an attribute they do not know is warned of and ignored.', 'the type name without it')
entry('N11', 'accept', '`auto` and `decltype(auto)` where no placeholder may stand.',
      '`auto` is a name, and an operand of `decltype`.', 'a placeholder type stands in the places listed ([dcl.spec.auto]); a type argument is none of them.',
      [cpp('auto'), cpp('decltype(auto)'), cpp('Lane<auto *>')])
entry('N12', 'refuse', 'A concept before `auto`.',
      'Two names in a row are refused.', 'a type-constraint may precede `auto` since C++20 ([dcl.spec.auto]); it stands in parameters.',
      [cpp('S auto', 'C++20+', pre='template<class> concept S = true;', unit='cpp-parameter', only='C++20+'),
       cpp('Sorted auto &', 'C++20+', pre='template<class> concept Sorted = true;', unit='cpp-parameter', only='C++20+')], None, '`auto` alone')
entry('N13', 'accept', 'A qualifier inside a qualified name.',
      'A qualifier leaves it open that a name must follow `::`.', 'after `::` comes a name ([expr.prim.id.qual]).',
      [cpp('A::const B'), cpp('Tray::volatile Slot *')])
entry('N14', 'refuse', 'Alignment specifiers.',
      '`_Alignas` is a name like any other.', 'a specifier-qualifier-list may hold one since C17, in the type name of a compound literal (C17 6.7.2.1, 6.7.5 p2).',
      [c('_Alignas(8) int', 'C18+', unit='c-literal', only='C99+'), c('_Alignas(16) Lane', 'C18+', unit='c-literal', only='C99+')],
      'gcc 12 takes it from C11 on, as a correction of C11; clang does not take it.', 'an alias')

# ---------------------------------------------------------------------------------------------------------------------
group('C and C++: `typeof`, `decltype`, `_BitInt`, and words that the profile check looks for')

entry('P1', 'accept', '`typeof` in C++ and `__typeof__` everywhere.',
      '`typeof`, `typeof_unqual`, `__typeof` and `__typeof__` are read in both languages; the profile check asks for C23 only for the first two, only in C.',
      'C++ has no `typeof`; `__typeof__` stands in no standard.',
      [cpp('typeof(1)'), c('__typeof__(1)'), cpp('typeof(1 + 2)'), c('__typeof__(1 + 2)'), cpp('Lane<__typeof__(trays + 1)>')],
      'all take `__typeof__` without a word, as an extension.')
entry('P2', 'refuse', 'A word that differs from a later keyword in case only.',
      'The profile check ignores case, also in C and C++.', 'identifiers that differ in case are different (C17 6.4.2.1; [lex.name]); `Typeof` is an ordinary name.',
      [c('Typeof()', 'yes', pre='typedef int Typeof;'), c('Typeof(int)', 'yes', pre='typedef int Typeof;'), c('Typeof (*)(struct Tray *)', 'yes', pre='struct Tray; typedef int Typeof;'),
       cpp('DeclType(Tray)', 'yes', pre=USE + 'struct Tray; struct DeclType;')], None, 'another name, or a later standard in the head')
entry('P3', 'refuse', '`typeof (` before C23 and `decltype (` in C++98 with an ordinary name.',
      'The profile check takes the word and a parenthesis after it for the later feature.', 'the word is an ordinary identifier there (C17 6.4.1; C++98 2.11), and the row a function type.',
      [c('typeof ()', 'C18-', pre='typedef int typeof;', only='C18-'), c('typeof (int)', 'C18-', pre='typedef int typeof;', only='C18-'), cpp('decltype (Tray)', 'C++98-', pre=USE + 'struct Tray; struct decltype {};', only='C++98-')],
      None, 'another name')
entry('P4', 'refuse', '`decltype( )` before `::`.',
      '`::` must follow a word or a list (as a template argument such a row passes as an expression: E9).', 'a nested-name-specifier may begin with a decltype-specifier ([expr.prim.id.qual]).',
      [cpp('decltype(a)::B', 'C++11+', pre=USE + 'struct S { struct B {}; }; extern S a;'),
       cpp('decltype(tray)::Slot *', 'C++11+', pre=USE + 'struct Tray { struct Slot {}; }; extern Tray tray;')], None, 'an alias')
entry('P5', 'accept', 'A constant whose value ISO restricts.',
      'Literals are kinds without a value.', '`_BitInt` needs a width of 1 or more, of 2 or more if signed (C23 6.7.2, Type specifiers); an array bound is greater than 0 (C17 6.7.6.2 p1; [dcl.array]).',
      [c('int [0]'), c('_BitInt(0)'), c('_BitInt(1)'), c('struct Tray [-1]'), cpp('Lane<Tray [0]>')],
      'gcc 12 and, before C23, clang 14 reject `_BitInt` for want of it.')

# ---------------------------------------------------------------------------------------------------------------------
group('C and C++: declarators')

entry('D1', 'accept', 'A function that returns a function or an array, an array of functions.',
      'Parentheses and brackets follow one another freely.', 'a function declarator returns no function and no array type (C17 6.7.6.3 p1), array elements are no functions (C17 6.7.6.2 p1; [dcl.fct], [dcl.array]).',
      [c('int ()()'), c('int ()[3]'), c('int []()'), cpp('Lane<Tray (Key)[4]>')])
entry('D2', 'accept', 'An array of references, a pointer to a reference, a reference to a reference.',
      'One chain of operators is tested; brackets and a group after it are not.', 'there are none ([dcl.ref] p5).',
      [cpp('int & []'), cpp('int & (*)'), cpp('int & (&)'), cpp('Lane<Tray &[8]>')],
      'clang++ accepts the reference to a reference.')
entry('D3', 'accept', '`void` as element, as referent, and with others among the parameters.',
      '`void` is a type like any other.', 'array elements are complete (C17 6.7.6.2 p1), no reference to `void` ([dcl.ref] p1), `void` is the only parameter or none, unqualified and unnamed (C17 6.7.6.3 p10; [dcl.fct]).',
      [c('void []'), cpp('void &'), c('int (void, int)'), c('int (*)(void, int)'), cpp('Lane<Route (Tray, void)>')])
entry('D4', 'accept', 'A bound left open inside another array.',
      'Each `[ ]` may be empty.', 'only the outermost array may be incomplete (C17 6.7.6.2 p1; [dcl.array]).',
      [c('int [][]'), cpp('int [][]'), c('int [3][]'), cpp('Lane<Tray [4][]>')])
entry('D5', 'accept', '`[*]` outside the parameters of a prototype, and in C++.',
      '`*` may stand in any brackets.', 'only with function prototype scope, since C99 (C17 6.7.6.2 p4); C++ has none ([dcl.array]).',
      [c('int [*]', unit='c-sizeof'), cpp('int [*]'), cpp('void (*)(Tray [*])')])
entry('D6', 'refuse', "`static` and qualifiers in a parameter's brackets.",
      'Brackets hold `*`, nothing or an expression.', 'both are in the grammar of abstract declarators, for the outermost brackets of a parameter, since C99 (C17 6.7.6.2 p1, 6.7.6.3 p7): no type name by themselves, but in a parameter.',
      [c('int (int [static 3])', 'C99+'), c('int (int [const 3])', 'C99+'), c('int [static 3]', 'C99+', unit='c-parameter'), c('Lane (*)(struct Tray [static 8])', 'C99+')],
      None, '`int (int *)`')
entry('D7', 'refuse', 'A pointer to member that is not in parentheses.',
      'A name after the type name ends the specifiers with a refusal; in parentheses it is a declarator, so `int (A::*)` passes.', '`nested-name-specifier *` is a ptr-operator ([dcl.mptr]).',
      [cpp('int A::*', 'yes'), cpp('Lane<int Tray::*>', 'yes'), cpp('Key (*)(int Tray::*)', 'yes')], None, '`int (A::*)`')
entry('D8', 'refuse', 'Parameters inside the parentheses of a declarator.',
      'A group inside a declarator must be a declarator again, and an empty one is none.', 'a declarator in parentheses may end with parameters (C17 6.7.7; [dcl.name]): functions that return pointers, pointers to functions that return pointers to functions.',
      [c('int (())', 'yes'), c('int (*(int))', 'yes'), c('int ((A))', 'yes'), cpp('int (*())', 'yes'), c('Lane (*(*)(struct Tray *))(Key)', 'yes'), cpp('Lane<Route (*(*)(Tray))(Key)>', 'yes')],
      None, '`int *(int)`; an alias for the inner type')
entry('D9', 'refuse', 'Exception specifications with `throw`.',
      '`throw` is no qualifier.', 'C++98 15.4: an exception-specification may follow parameters, in a parameter or a declaration and in no type argument; C++17 removed it but for `throw()`, C++20 that too.',
      [cpp('void () throw()', 'C++17-', unit='cpp-parameter'), cpp('void (*)() throw()', 'C++17-', unit='cpp-parameter'), cpp('Route (*)(Tray) throw(Key)', 'C++14-', unit='cpp-parameter')],
      'all take `throw()` in C++20 and later.', 'the type name without it')
entry('D10', 'refuse', 'A return type after the parameters.',
      '`->` is no part of a type name (as a template argument such a row passes as an expression).', 'trailing-return-type since C++11 ([dcl.fct]).',
      [cpp('auto () -> int', 'C++11+'), cpp('auto (Tray) -> Route', 'C++11+')], None, '`int ()`')
entry('D11', 'accept', 'Names in a declarator that belong to no pointer to member.',
      'In a declarator a word passes beside `::` or before a list; `::` may follow a qualifier and stand before `*` without a class.',
      'only a nested-name-specifier before `*` ([dcl.mptr]); an abstract declarator has no declarator-id ([dcl.name]).',
      [cpp('int (::*)'), cpp('int (*A::B)'), cpp('int *const::*'), cpp('Route (*Tray::weight)(Key)')])
entry('D12', 'accept', '`*`, `&` or a declarator in parentheses after brackets or parameters.',
      'Operators, brackets and groups may follow one another in any order.', 'pointer operators precede what they apply to, and one declarator in parentheses stands before brackets and parameters (C17 6.7.7; [dcl.name]).',
      [c('int [] *'), c('int () *'), c('int [] (*)'), c('int (*)(*)'), c('Lane (*)(struct Tray *) *'), cpp('Lane<Tray [8] &>')],
      'clang 22 takes `(*)` for parameters in C89.')
entry('D13', 'accept', 'A template argument list after a qualifier.',
      'A list may follow any word, before and after the declarator began.', 'a list follows a template-name ([temp.names]).',
      [cpp('A const<int>'), cpp('int *const<a>'), cpp('Lane<Tray *const<lanes>>')])
entry('D14', 'refuse', 'A ref-qualifier after the parameters of a function that returns a reference.',
      'A second `&` is refused in a chain of operators, and the ref-qualifier counts as one.', 'the function type has its own ref-qualifier, since C++11 ([dcl.fct]).',
      [cpp('int & () &', 'C++11+'), cpp('Lane<Tray & (Key) const &>', 'C++11+')], None, 'an alias for the returned reference')

# ---------------------------------------------------------------------------------------------------------------------
group('C and C++: parameters')

entry('F1', 'refuse', 'Named parameters and `register`.',
      'A parameter is a type name.', 'a parameter declaration may have a declarator with a name, and `register`, in C++ up to C++14 (C17 6.7.6, 6.7.6.3 p2; [dcl.fct], [dcl.stc]).',
      [c('int (int a)', 'yes'), c('int (register int)', 'yes'), cpp('int (register int)', 'C++14-'), c('Lane (*)(struct Tray *tray, Key key)', 'yes'), cpp('Lane<Route (Tray tray)>', 'yes')],
      None, 'the type without the name')
entry('F2', 'refuse', 'A global name as the first parameter.',
      'A group that begins with `::` is taken for a declarator (as a template argument `int (::A)` passes as an expression).', 'parameters may begin with `::` ([dcl.fct]).',
      [cpp('int (::A)', 'yes'), cpp('Route (::Tray, Key)', 'yes')], None, 'the name without `::`')
entry('F3', 'refuse', 'Parameters with a `::` and a `*` directly among them.',
      'A group with `::` and `*` directly in it is taken for a declarator, which has no commas and where names stand beside `::` alone.',
      'nothing forbids such parameters ([dcl.fct]).',
      [cpp('int (A, A::B *)', 'yes'), cpp('int (struct A::B *)', 'yes'), cpp('int (A::B *(*)(int))', 'yes'), cpp('int (typename A::B *)', 'C++11+'),
       cpp('int (A::B, C *)', 'yes'), cpp('int (C *, A::B)', 'yes'), cpp('void (*)(post::Tray, Key *)', 'yes')],
      'g++ accepts `typename` outside a template in C++98 (N6).', 'an alias for the qualified type')
entry('F4', 'accept', '`...` that is not last.',
      'Any parameter may be `...`.', 'the ellipsis is last (C17 6.7.6; [dcl.fct]).',
      [c('int (..., int)'), c('int (int, ..., int)'), cpp('int (..., int)'), c('Lane (*)(..., struct Tray *)')])
entry('F5', 'accept', '`...` alone before C23.',
      'As F4.', 'C asks for a parameter before it until C23 (C17 6.7.6); C++ does not.',
      [c('int (...)', 'C23+'), c('Lane (*)(...)', 'C23+')], 'gcc 12 and clang 14 do not have the C23 rule.')
entry('F6', 'refuse', '`...` without a comma.',
      'Dots are no part of a type name.', 'C++ has the comma before the ellipsis optional ([dcl.fct]).',
      [cpp('int (int ...)', 'yes'), cpp('Lane<Route (Tray...)>', 'yes')], None, '`int (int, ...)`')
entry('F7', 'refuse', 'Pack expansions.',
      'As F6, in template arguments and expressions too.', 'a pattern followed by `...` is expanded in template arguments, parameters and `sizeof...` ([temp.variadic]) since C++11.',
      [cpp('T<V...>', 'C++11+', pre=USE + 'template<class...> struct T {};', unit='cpp-in-template', only='C++11+'),
       cpp('N<sizeof...(V)>', 'C++11+', unit='cpp-in-template', only='C++11+'),
       cpp('Lane<int, Tray, V...>', 'C++11+', pre=USE + 'template<class...> struct Lane {}; struct Tray {};', unit='cpp-in-template', only='C++11+')], None, 'an alias')

# ---------------------------------------------------------------------------------------------------------------------
group('C++: readings of `<`, `>`, `>>` and `,`')

FOUR = USE + 'template<class, class = int> struct A {}; template<class> struct B {}; template<class> struct C {}; struct d {}; struct e {};'
VARIABLE = USE + 'template<int> struct N {}; template<int> const int B = 3; const int d = 1;'
entry('A1', 'accept', '`>>` as two closers in C++98.',
      'The reader splits `>>` in every standard.', 'C++98 14.2: `>>` is one token, a shift; the split came with C++11 ([temp.names]).',
      [cpp('T<T<int>>', 'C++11+'), cpp('Lane<Lane<Tray>>', 'C++11+')])
entry('A2', 'refuse', '`>>` as a shift in an argument of C++98.',
      'At depth 1 the prescan refuses `>>`.', 'C++98 14.2: the shift of two constants.',
      [cpp('N<b>>d>', 'C++98-'), cpp('Slots<keys>>d>', 'C++98-')], None, 'parentheses: `N<(b>>d)>`')
entry('A3', 'refuse', 'An empty list.',
      'An empty argument makes the try fail, and `<` becomes a token.', 'a template-argument-list is optional ([temp.names]).',
      [cpp('T<>', 'yes', pre=USE + 'template<class = int> struct T {};'), cpp('Lane<Sorter<>>', 'C++11+', pre=USE + 'template<class> struct Lane {}; template<class = int> struct Sorter {};')],
      None, 'the default argument, or an alias')
entry('A4', 'refuse', '`<` as less-than directly in an argument.',
      'The prescan counts every `<` outside brackets as an opener, and refuses one that follows no name.', '`<` after a name that is no template, or after a literal, is less-than ([temp.names], [expr.rel]).',
      [cpp('N<b<c>', 'yes'), cpp('N<3<b>', 'yes'), cpp('Slots<lanes<8>', 'yes')], None, 'parentheses and the other order: `N<(c>b)>`')
entry('A5', 'refuse', '`<` as less-than in parentheses or brackets in an argument.',
      'Directly in an argument of the tried list `)` and `]` are tokens, so the try takes the closers from outside.', 'parentheses and brackets end the expression; after a name that is no template `<` is less-than ([temp.names]).',
      [cpp('N<(b<c)>', 'yes'), cpp('T<int[b<c]>', 'yes'), cpp('Slots<(lanes<8)>', 'yes')], None, 'the other order: `N<(c>b)>`')
entry('A6', 'refuse', '`a<b>c` and `a<b>>c` as comparisons, and `B<b>>c` with a variable template.',
      'After a name the list is tried first, whatever the name is; what follows the list is then no expression. `Lane<(Key<8>>2)>` of the README is such a row.',
      'two comparisons, or one and a shift, if the name is no template; if it is a variable template (C++14), a list and `>`; if it is a class template, the row is ill-formed ([temp.names], [expr.rel], [expr.shift]).',
      [cpp('N<(b<c>d)>', 'yes'), cpp('N<(b<c>>d)>', 'yes'), cpp('int [(b<c>d)+1]', 'yes'), cpp('N<(B<3>>d)>', 'C++14+', pre=VARIABLE, only='C++14+'),
       cpp('Slots<(keys<8>>2)>', 'yes')], None, 'parentheses: `N<((b<c)>d)>` does not help (A5); a named constant does')
entry('A7', 'tree', '`a<b>(c)` as two comparisons.',
      'The list is tried first, and the tree has L.', 'for a name that is no template the same row has two comparisons ([temp.names]).',
      [cpp('N<(b<c>(d))>', 'yes', lists=[1]), cpp('Slots<(keys<8>(lanes))>', 'yes', lists=[1])])
entry('A8', 'tree', '`f(a<b, c>(d))`: one argument or two.',
      'The comma belongs to the list, and the call has one argument.', 'for a name that is no template the comma parts two arguments ([temp.names], [expr.call]).',
      [cpp('decltype(f(a<b, c>(d)))', 'C++11+', pre=USE + 'int f(bool, bool); const int a = 2, b = 3, c = 4, d = 1;', only='C++11+', lists=[]),
       cpp('Lane<decltype(sort(keys<8, trays>(lanes)))>', 'C++11+', pre=USE + 'template<class> struct Lane; int sort(bool, bool); const int keys = 16, trays = 4, lanes = 8;', only='C++11+', lists=[1])])
entry('A9', 'refuse', '`&&` as logical and in C++98.',
      'The profile check refuses every `&&` before C++11.', '`&&` is logical and in C++98 5.14.',
      [cpp('N<a && b>', 'yes'), cpp('Slots<(lanes && keys)>', 'yes')], None, 'a named constant')
entry('A10', 'refuse', '`<=>`.',
      'The lexer makes `<=` and `>` of it.', 'one token since C++20 ([lex.operators], [expr.spaceship]).',
      [cpp('decltype(b <=> c)', 'C++20+', pre='#include <compare>\n' + USE + 'const int b = 3, c = 4;', only='C++20+'),
       cpp('N<(b <=> c) == 0>', 'C++20+', pre='#include <compare>\n' + USE + 'template<int> struct N {}; const int b = 3, c = 4;', only='C++20+'),
       cpp('Lane<decltype(keys <=> lanes)>', 'C++20+', pre='#include <compare>\n' + USE + 'template<class> struct Lane {}; const int keys = 16, lanes = 8;', only='C++20+')],
      None, 'a named constant or an alias')
entry('A11', 'accept', 'An assignment as an argument, a string literal as an argument.',
      'An argument is any expression the reader knows.',
      'an argument is a constant-expression, which is no assignment ([temp.names], [expr.const]); a string literal is none before C++20, and since then only of a parameter of class type ([temp.arg.nontype]).',
      [cpp('T<"a">', pre=USE + 'template<const char *> struct T {};'), cpp('N<a = b>'), cpp('Lane<"north">', pre=USE + 'template<const char *> struct Lane {};')])
entry('A12', 'refuse', '`>>` closes two lists and a comma follows.',
      "After the inner list took half of `>>`, the next list looks for a comma before it takes the other half, finds the one that belongs to the list around it, and fails.",
      'since C++11 `>>` closes two lists wherever `> >` does, and the comma is the outer list\'s ([temp.names]); in C++98 it is a shift.',
      [cpp('A<B<C<d>>,e>', 'C++11+', pre=FOUR), cpp('Lane<Sorter<Slot<Tray>>, Key>', 'C++11+', pre=USE + 'template<class, class> struct Lane {}; template<class> struct Sorter {}; template<class> struct Slot {}; struct Tray {}; struct Key {};')],
      None, '`> >` before the comma: `A<B<C<d> >,e>`')
entry('A13', 'tree', 'A variable template in brackets before `>>`.',
      '`>>` at depth 1 closes nothing, so the try fails and `<` becomes a token: a comparison and a shift.', 'if the name is a variable template (C++14), a list and `>` ([temp.names]); if it is no template, as here.',
      [cpp('int [B<3>>1]', 'C++14+', pre=USE + 'template<int> const int B = 3;', unit='cpp-alias', only='C++14+', lists=[3]),
       cpp('char [Trays<8>>2]', 'C++14+', pre=USE + 'template<int> const int Trays = 8;', unit='cpp-alias', only='C++14+', lists=[3])])
entry('A14', 'tree', 'Flag 0: the trees of the rows that flag 1 refuses above.',
      'With flag 0 these rows are accepted with the tree that the tries leave: `>>` and a comma make the outer `<` tokens, an empty list makes `<` and `>` tokens, a comparison becomes a list and a `>` outside its parentheses closes the list around.',
      'the lists are those of A3, A6, A12 and L2.',
      [cpp('T<>', 'yes', pre=USE + 'template<class = int> struct T {};', lists=[1], flag=0), cpp('N<(b<c>d)>', 'yes', lists=[1], flag=0),
       cpp('A<B<C<d>>,e>', 'C++11+', pre=FOUR, lists=[1, 3, 5], flag=0, only='C++11+'),
       cpp('Lane<(Key<8>>2)>', 'yes', pre=USE + 'template<int> struct Lane {}; const int Key = 3;', lists=[1], flag=0),
       cpp(65 * 'A<' + 'b' + 65 * ' >', 'yes', pre=USE + 'template<class> struct A {}; struct b {};', lists=list(range(1, 131, 2)), flag=0)])

# ---------------------------------------------------------------------------------------------------------------------
group('C and C++: expressions')

entry('E1', 'accept', 'Any word is an operand.',
      'Keywords and type words are operands like names.', 'primary expressions are identifiers, constants, strings and parenthesised expressions (C17 6.5.1; [expr.prim]).',
      [c('int [char]', unit='c-sizeof'), cpp('N<const>'), cpp('decltype(int)'), c('_BitInt(int)'), cpp('Slots<Tray + return>')],
      'gcc 12 and, before C23, clang 14 reject `_BitInt` for want of it.')
entry('E2', 'refuse', 'Casts before an operand.',
      'After `)` no operand may follow, so `(char)a` is refused and `(char)+a` and `(char)(a)` pass.', 'cast-expression (C17 6.5.4; [expr.cast]).',
      [c('int [(char)a]', 'yes', unit='c-sizeof'), cpp('N<(int)a>', 'yes'), cpp('N<(A)1>', 'yes', pre=USE + 'enum A { north, west }; template<A> struct N {};'), c('struct Tray [(unsigned char)lanes]', 'yes', unit='c-sizeof')],
      None, '`(char)(a)`')
entry('E3', 'refuse', 'A type name of several tokens in an expression.',
      'Parentheses in an expression hold an expression: `sizeof(int)` passes as a call, and `N<sizeof(int *)>` since the argument is taken for a function type.', '`sizeof`, `alignof` and casts take any type name (C17 6.5.3.4; [expr.sizeof], [expr.alignof]).',
      [c('int [sizeof(int *)]', 'yes', unit='c-sizeof'), cpp('int [sizeof(unsigned long)]', 'yes'), c('char [sizeof(struct Tray)]', 'yes', unit='c-sizeof'), cpp('Slots<2 + alignof(Tray *)>', 'C++11+')],
      None, 'an alias')
entry('E4', 'refuse', '`sizeof`, `new`, `throw` and their like before an operand.',
      'Two words in a row are refused.', 'unary operators spelled as words (C17 6.5.3; [expr.unary], [expr.new], [expr.throw], [expr.await]).',
      [c('int [sizeof a]', 'yes', unit='c-sizeof'), cpp('decltype(new A)', 'C++11+'), cpp('N<sizeof a>', 'yes'), cpp('Lane<decltype(new Tray)>', 'C++11+')], None, '`sizeof(a)`')
entry('E5', 'refuse', '`_Generic`.',
      'A colon belongs to `?`.', 'generic selection since C11 (C17 6.5.1.1).',
      [c('int [_Generic(a, int: 1)]', 'C11+', unit='c-sizeof'), c('char [_Generic(lanes, int: 8, default: 16)]', 'C11+', unit='c-sizeof')], None, 'a named constant')
entry('E6', 'refuse', '`.*` and `->*`.',
      '`.` and `->` ask for a name.', 'pointer-to-member operators ([expr.mptr.oper]).',
      [cpp('decltype(s.*m)', 'C++11+', pre=USE + 'struct S { int v; }; extern S s; extern int S::*m;'),
       cpp('Lane<decltype(tray->*weight)>', 'C++11+', pre=USE + 'template<class> struct Lane {}; struct Tray { int v; }; extern Tray *tray; extern int Tray::*weight;')], None, 'an alias')
entry('E7', 'accept', 'A comma in an array bound, an assignment in one in C++.',
      '`,` and assignment are operators like others.', 'C: assignment-expression, no comma outside parentheses (C17 6.7.6); C++: constant-expression, neither ([dcl.array]).',
      [c('int [a, b]', unit='c-sizeof'), cpp('int [a = b]'), c('struct Tray [lanes, trays]', unit='c-sizeof')])
entry('E8', 'accept', 'Operands that the operator cannot have.',
      'Values, types and lvalues are not told apart.', 'the left operand of `=` and the operand of `++` are lvalues, a call has a function, `*` a pointer, `.` a structure (C17 6.5.16, 6.5.2.4, 6.5.2.2, 6.5.3.2; [expr.ass], [expr.post.incr], [expr.call], [expr.unary.op]).',
      [c('int [1++]', unit='c-sizeof'), c('int [*1]', unit='c-sizeof'), c('int [1 = 2]', unit='c-sizeof'), c('int [3(4)]', unit='c-sizeof'), cpp('int [*1]'), cpp('N<3()>'), c('struct Tray [lanes++ + 8(trays)]', unit='c-sizeof')])
entry('E9', 'accept', '`::` after any operand.',
      'In an expression `::` may follow a literal, a call or parentheses.', 'a nested-name-specifier is made of names and decltype-specifiers ([expr.prim.id.qual]).',
      [cpp('N<3::a>'), cpp('N<(a)::b>'), cpp('Slots<8::lanes>')])
entry('E10', 'refuse', 'Literals with a suffix of the user.',
      'The lexer refuses them.', 'user-defined-literal since C++11 ([lex.ext]).',
      [cpp('N<3_k>', 'C++11+', pre=USE + 'template<int> struct N {}; constexpr int operator""_k(unsigned long long k) { return k; }', only='C++11+'),
       cpp('Slots<8_lanes>', 'C++11+', pre=USE + 'template<int> struct Slots {}; constexpr int operator""_lanes(unsigned long long k) { return k; }', only='C++11+')], None, 'a named constant')
entry('E11', 'refuse', 'Digraphs.',
      'The lexer makes other tokens of `<:` and `:>`.', 'alternative tokens (C17 6.4.6 p3, since C95; [lex.digraph]).',
      [c('int <:3:>', 'C99+'), cpp('Lane<Tray <:8:>>', 'yes')], None, '`[` and `]`')
entry('E12', 'refuse', 'An empty subscript in C++23.',
      'Brackets in an expression are not empty.', 'the expression-list of a subscript is optional since C++23 ([expr.sub]).',
      [cpp('decltype(t[])', 'C++23+', pre=USE + 'struct S { int operator[](); }; extern S t;', only='C++23+'),
       cpp('Lane<decltype(tray[])>', 'C++23+', pre=USE + 'template<class> struct Lane; struct Tray { int operator[](); }; extern Tray tray;', only='C++23+')],
      'clang++ 14 does not have it.', 'an alias')
entry('E13', 'refuse', 'String literals side by side.',
      'Two operands in a row are refused.', 'they are joined before the tokens are read as an expression (C17 5.1.1.2, phase 6; [lex.phases]).',
      [c('char [sizeof("a" "b")]', 'yes', unit='c-sizeof'), cpp('char [sizeof("north" "west")]', 'yes')], None, 'one string')
entry('E14', 'refuse', 'Some forms of literals.',
      'The lexer refuses several characters between quotes, hexadecimal floating literals and the suffix `wb`, and makes a word and a string of a raw string.',
      'multi-character constants (C17 6.4.4.4 p10), hexadecimal floating constants (C17 6.4.4.2, since C99; [lex.fcon] since C++17), `wb` since C23 (6.4.4.1, Integer constants), raw strings since C++11 ([lex.string]).',
      [c("int ['ab']", 'yes', unit='c-sizeof'), cpp('N<int(0x1p3)>', 'C++17+'), cpp('char [sizeof(R"(a)")]', 'C++11+'), c('struct Tray [8wb]', 'C23+', unit='c-sizeof')],
      'gcc 12 and clang 14 do not have `wb`.', 'another form of the literal')
entry('E15', 'accept', 'A bound that is no integer.',
      'A literal of any kind is an operand.', 'an array bound has integer type (C17 6.7.6.2 p1; [dcl.array]).',
      [c('int [1.5]', unit='c-sizeof'), c('int ["a"]', unit='c-sizeof'), cpp('Lane<Tray ["north"]>')])
entry('E16', 'refuse', 'Names of operator functions.',
      '`operator` is a word like any other, and what follows it an operator that lacks an operand; `<` and `>` of such a name count as angles.', 'operator-function-id and conversion-function-id are names ([over.oper.general], [class.conv.fct]).',
      [cpp('N<&K::operator+>', 'yes', pre=USE + 'struct K { void operator+(int); }; template<void (K::*)(int)> struct N {};'),
       cpp('N<&K::operator< >', 'yes', pre=USE + 'struct K { void operator<(int); }; template<void (K::*)(int)> struct N {};'),
       cpp('decltype(tray.operator int())', 'C++11+', pre=USE + 'struct Tray { operator int(); }; extern Tray tray;')], None, 'a function with a plain name')
entry('E17', 'refuse', '`typename` in an expression.',
      'Two words in a row are refused.', 'a typename-specifier may begin a conversion and stand in `sizeof` ([expr.type.conv], [temp.res.general]).',
      [cpp('decltype(typename A::B())', 'C++11+'), cpp('Lane<decltype(typename Tray::Slot())>', 'C++11+')], None, 'the name without `typename`')
entry('E18', 'refuse', 'Destructor calls.',
      'After `.` and `->` a name is asked for, not `~`.', 'an id-expression may be `~` and a type name ([expr.prim.id.dtor]).',
      [cpp('decltype(s.~A())', 'C++11+', pre=USE + 'struct A {}; extern A s;'), cpp('Lane<decltype(tray->~Tray())>', 'C++11+', pre=USE + 'template<class> struct Lane; struct Tray {}; extern Tray *tray;')], None, '`void`, which it is')
entry('E19', 'refuse', 'Identifiers beyond ASCII.',
      "A token record holds words of bytes 33 to 126.", 'identifiers may have letters beyond the basic character set, since C99 and C++98 (C17 6.4.2.1, Annex D; [lex.name]).',
      [c('Gr\u00f6\u00dfe', 'C99+', pre='typedef int Gr\u00f6\u00dfe;', only='C99+'), cpp('post::Gr\u00f6\u00dfe', 'C++11+', pre=USE + 'namespace post { struct Gr\u00f6\u00dfe {}; }', only='C++11+')], None, 'the name spelled in ASCII')
entry('E20', 'accept', '`<::` in C++98.',
      'The lexer makes `<` and `::` of it.', '`<:` is `[` in C++98 (2.5); C++11 made an exception for `<::` ([lex.pptoken]).',
      [cpp('T<::A>', 'C++11+'), cpp('Lane<::Tray *>', 'C++11+')])

# ---------------------------------------------------------------------------------------------------------------------
group('C and C++: what an earlier standard lacks and nothing here tests')

entry('O1', 'accept', 'C89: `_Bool`, `_Complex`, `restrict`.',
      'The profile check knows `long long` (C99), `_Atomic( )` (C11), `_BitInt`, `typeof`, `typeof_unqual` (C23).', 'all three came with C99 (C17 6.4.1).',
      [c('_Bool', 'C99+'), c('double _Complex', 'C99+'), c('int *restrict', 'C99+'), c('void (*)(struct Tray *restrict, _Bool)', 'C99+')])
entry('O2', 'accept', 'C89: arrays whose bound is no constant.',
      'Whether an expression is constant is not looked at.', 'C89 3.5.4.2 as ANSI numbers it: a constant expression; variable length arrays came with C99.',
      [c('int [a()]', 'C99+', pre='int a(void);', unit='c-sizeof'), c('int (*)[a()]', 'C99+', pre='int a(void);', unit='c-sizeof'), c('int (int [*])', 'C99+'), c('struct Tray (*)[count(8)]', 'C99+', unit='c-sizeof')])
entry('O3', 'accept', 'C89 and C99: `_Atomic` as a qualifier.',
      'The profile check looks for `_Atomic` and a parenthesis.', 'both forms came with C11 (6.7.2.4, 6.7.3).',
      [c('_Atomic int', 'C11+'), c('Lane *_Atomic', 'C11+'), c('struct Tray *_Atomic', 'C11+')])
entry('O4', 'accept', 'Before C23: decimal types.',
      'They are builtin words in every standard.', '`_Decimal32` and its like came with C23 (before, a technical report).',
      [c('_Decimal32', 'C23+'), c('_Decimal64 [lanes]', 'C23+', unit='c-sizeof')], 'clang has no decimal types.')
entry('O5', 'accept', 'C++98: reference qualifiers, `noexcept`.',
      'The profile check knows `long long`, `decltype` and `&&` (C++11).', 'both came with C++11 ([dcl.fct], [except.spec], [expr.unary.noexcept]).',
      [cpp('int () &', 'C++11+'), cpp('N<noexcept(3 + 4)>', 'C++11+'), cpp('Lane<Route (Tray) const &>', 'C++11+')])
entry('O6', 'accept', 'Before C++17: `noexcept` in a type argument.',
      '`noexcept` may follow parameters anywhere.', 'until C++17 an exception-specification is no part of a type and stands only at the top level of a declaration or on its parameters and result (C++11 15.4 p2); C++98 has no `noexcept`.',
      [cpp('int () noexcept', 'C++17+'), cpp('Lane<Route (Tray) noexcept>', 'C++17+')],
      'all accept it from C++11 on.')
entry('O7', 'accept', 'Before C++20: a floating argument.',
      'A literal of any kind is an argument.', 'floating non-type arguments came with C++20 ([temp.param]).',
      [cpp('N<3.5>', 'C++20+', pre=USE + 'template<double> struct N {};', only='C++17-'), cpp('Slots<0.5>', 'C++20+', pre=USE + 'template<double> struct Slots {};', only='C++17-')])
entry('O8', 'accept', 'C++98: a call, a comma or an element of an array where a constant is asked for.',
      'Whether an expression is constant is not looked at.', 'C++98 5.19: no function calls, no comma operators and no elements of arrays in a constant expression, whatever the names mean; `constexpr` came with C++11.',
      [cpp('N<(3, 4)>', 'C++11+'), cpp('N<k()>', 'C++11+', pre=USE + 'template<int> struct N {}; int k();', only='C++98-'), cpp('int [k(3)]', 'C++11+', pre=USE + 'int k(int);', only='C++98-')])

entry('O9', 'accept', 'Before C++14: a list as an operand.',
      'In an expression a list may follow any name.', 'variable templates came with C++14 ([temp.pre]); before, a template-id names a class or a function, which is no operand of a bound.',
      [cpp('int [B<3>]', 'C++14+', pre=USE + 'template<int> struct B {};', only='C++11-'), cpp('Tray [lanes<8> + 1]', 'C++14+', pre=USE + 'struct Tray {}; template<int> struct lanes {};', only='C++11-')])

# ---------------------------------------------------------------------------------------------------------------------
group('All languages: limits')

DEEP = 65 * '(' + '*' + 65 * ')'
entry('L1', 'refuse', 'Brackets nested deeper than 64, more than 1,024 tokens, words of more than 255 bytes.',
      'Refusals 20, 5 and 4.', 'the grammars have no limit. What an implementation must take at least is within ours in C: 63 levels of parenthesised declarators and expressions, 63 characters of a name (C17 5.2.4.1). '
      'What [implimits] recommends for C++ is above ours: 256 levels of parenthesised expressions, 1,024 characters of a name. Fortran: names of 63 characters (C601).',
      [c('int ' + DEEP, 'yes'), cpp('Tray ' + DEEP + '(Key)', 'yes'), c('A' * 256, 'yes', pre='typedef int ' + 'A' * 256 + ';')], None, 'an alias for an inner part')
entry('L2', 'refuse', 'Lists nested deeper than 64.',
      'The 65th `<` becomes a token, and the structure check refuses the row; with flag 0 it is accepted with another tree (A14).', '[implimits] recommends 1,024 nested template instantiations.',
      [cpp(65 * 'A<' + 'b' + 65 * ' >', 'yes', pre=USE + 'template<class> struct A {}; struct b {};'),
       cpp(65 * 'Lane<' + 'Tray' + 65 * '>', 'C++11+', pre=USE + 'template<class> struct Lane {}; struct Tray {};')], None, 'an alias for an inner part')

# ---------------------------------------------------------------------------------------------------------------------
group('Fortran: heads')

entry('R1', 'accept', 'Any word is a type.',
      'Only `type`, `class` and `double` ask for something after them.',
      'declaration-type-spec (R703) is an intrinsic type, `TYPE( )` or `CLASS( )` (and since 2023 `TYPEOF( )`, `CLASSOF( )`). A bare derived type is a type-spec (R702) since Fortran 2003: in ALLOCATE (R927), an array constructor (R770) and TYPE IS (R1152).',
      [f('byte'), f('sorter', 'no'), f('sorter(8)')])
entry('R2', 'accept', 'Words after the type.',
      'After the head any number of words passes.', 'nothing follows the selector in declaration-type-spec (R703).',
      [f('type(lane) q'), f('integer(4) q'), f('double precision route'), f('type(lane) route')])
entry('R3', 'accept', '`double complex`.',
      'It stands beside `double precision`.', 'intrinsic-type-spec (R704) has `DOUBLE PRECISION` only.',
      [f('double complex')])
entry('R4', 'accept', 'A selector or a length after `double precision`.',
      'Parentheses may follow any head.', '`DOUBLE PRECISION` has no selector (R704).',
      [f('double precision*8'), f('double precision(8)'), f('double precision(kind=lanes)')])
entry('R5', 'accept', '`*` and a number after any type.',
      'Any head may be followed by `*` and an integer.', 'only `CHARACTER` has such a length (R721, R722), in Fortran 77 too.',
      [f('real*8'), f('integer(4)*8'), f('character(4)*8'), f('type(lane)*8')])
entry('R6', 'refuse', '`character*( )`.',
      'After `*` an integer is asked for.', 'char-length (R723) may be a type-param-value in parentheses, `*` included; obsolescent since Fortran 95, not deleted.',
      [f('character*(*)', 'yes'), f('character*(4)', 'yes'), f('character*(lanes)', 'yes')], None, '`character(*)`')
entry('R25', 'refuse', 'Words that are names because nothing is reserved.',
      'The words `type`, `class` and `double` are known wherever they stand first; before Fortran 2003 `class (` and before Fortran 90 `type (` anywhere.',
      'Fortran has no reserved words (6.2.1): a derived type may be called `double`, a constant array `class`.',
      [f('double', 'Fortran 2003+', pre='subroutine sort(x)\n  type double\n    integer :: k\n  end type', unit='fortran-allocate', only='Fortran 2003+'),
       f('integer(class(1))', 'Fortran 90+', pre='subroutine sort(x)\n  implicit none\n  integer, parameter :: class(2) = (/ 4, 8 /)')],
      None, 'another name')
entry('R26', 'accept', 'Names that begin with `_`, names that are too long.',
      'A word is 1 to 255 bytes.', 'a name (R603) begins with a letter and has at most 63 characters (C601), 31 before Fortran 2003, 6 in Fortran 77.',
      [f('type(_q)', pre='subroutine sort(x)\n  implicit none'), f('type(' + 'q' * 64 + ')', pre='subroutine sort(x)\n  implicit none')])
entry('R27', 'refuse', 'The comma after `character*8`.',
      'The prescan refuses a comma outside brackets.', 'length-selector (R722) may end with a comma where no `::` follows; obsolescent.',
      [f('character*8,', 'yes', unit='fortran-old'), f('character*32,', 'yes', unit='fortran-old')], None, 'the length without the comma')

group('Fortran: selectors')

entry('R7', 'accept', '`*` and `:` for a kind.',
      'Each selector may be `*` or `:`.', 'a kind-selector (R706) holds a scalar-int-constant-expr.',
      [f('integer(*)'), f('integer(kind=*)'), f('logical(:)'), f('character(len=8, kind=*)')])
entry('R8', 'accept', 'Any keyword, any number of selectors, in any order.',
      'A selector is a value, with or without a word and `=`.', 'kind-selector (R706) has one value, with `KIND=` at most; char-selector (R721) has a length and a kind, each once, the one without a keyword first.',
      [f('integer(len=4)'), f('real(4, 8)'), f('character(kind=1, 8)'), f('character(len=8, len=lanes)')])
entry('R9', 'accept', 'What is no type in `type( )` and `class( )`.',
      'They hold selectors like any other.', 'one derived-type-spec (R754), since 2008 in `TYPE( )` an intrinsic type too; `*` alone for assumed and unlimited polymorphic; in `CLASS( )` an extensible type (R703, C705).',
      [f('type(3)'), f('type(:)'), f('class(:)'), f('type(lane, tray)'), f('class(integer)')])
entry('R10', 'refuse', 'An intrinsic type of several words, or with `*` or `:`, in `type( )`.',
      'The parentheses hold an expression; `type(integer(4))` passes as a call.', 'since Fortran 2008 `TYPE(intrinsic-type-spec)` (R703).',
      [f('type(double precision)', 'Fortran 2008+'), f('type(character(*))', 'Fortran 2008+'), f('type(character(len=*))', 'Fortran 2008+')],
      None, 'the intrinsic type without `type( )`')
entry('R11', 'refuse', 'Deferred and assumed parameters of a derived type.',
      'As R10: `:` and `*` are no expressions.', 'type-param-spec (R755) has a type-param-value (R701), which may be `*` or `:`, since Fortran 2003.',
      [f('type(bag(:))', 'Fortran 2003+', pre='subroutine sort(x)\n  implicit none\n  type bag(n)\n    integer, len :: n\n    integer :: keys(n)\n  end type', unit='fortran-allocatable', only='Fortran 2003+'),
       f('type(bag(n=*))', 'Fortran 2003+', pre='subroutine sort(x)\n  implicit none\n  type bag(n)\n    integer, len :: n\n    integer :: keys(n)\n  end type', only='Fortran 2003+')],
      None, 'a length that is an expression')

group('Fortran: expressions in selectors')

TWICE = 'module ops\n  interface operator(.twice.)\n    procedure twice\n  end interface\ncontains\n  pure integer function twice(p)\n    integer, intent(in) :: p\n    twice = 2 * p\n  end function\nend module\nsubroutine sort(x, lanes)\n  use ops\n  implicit none\n  integer, intent(in) :: lanes'
PLUS = 'module ops\n  interface operator(.plus.)\n    procedure plus\n  end interface\ncontains\n  pure integer function plus(p, q)\n    integer, intent(in) :: p, q\n    plus = p + q\n  end function\nend module\nsubroutine sort(x, a, b)\n  use ops\n  implicit none\n  integer, intent(in) :: a, b'
entry('R12', 'refuse', 'Operators defined by the program.',
      '`.foo.` is a token kind that no set of operators has.', 'defined-unary-op (R1003) and defined-binary-op (R1023), since Fortran 90; in a length a restricted expression may have them if a specification function defines them (10.1.11).',
      [f('character(.twice. lanes)', 'Fortran 2003+', pre=TWICE, only='Fortran 2003+'), f('character(len=a .plus. b)', 'Fortran 2003+', pre=PLUS, only='Fortran 2003+'),
       f('character(len=.twice. lanes)', 'Fortran 2003+', pre=TWICE, only='Fortran 2003+')], None, 'the function by its name')
entry('R13', 'refuse', 'Array sections and substrings.',
      '`:` is a value of its own only as a whole selector.', 'subscript-triplet (R921) and substring-range (R910).',
      [f('character(sum(slots(:)))', 'Fortran 2003+'), f('character(len=len(label(1:3)))', 'Fortran 90+'), f('integer(size(slots(1:2))*2)', 'Fortran 90+'), f('character(len=sum(slots(:2)))', 'Fortran 2003+')],
      'gfortran takes `sum` in Fortran 95 too.', 'a named constant')
entry('R14', 'refuse', 'Array constructors.',
      'Brackets follow an operand; `(/` is no bracket.', 'array-constructor (R769), with brackets since Fortran 2003, with `(/ /)` since Fortran 90.',
      [f('integer(sum([4]))', 'Fortran 2003+'), f('integer(size((/ 1, 2 /))*2)', 'Fortran 90+'), f('character(len=sum([lanes, 8]))', 'Fortran 2003+')], None, 'a named constant')
entry('R15', 'refuse', 'Binary, octal and hexadecimal constants.',
      'The lexer makes a word and a string of `z"ff"`.', 'boz-literal-constant (R764), as an argument of `INT` and its like since Fortran 2003.',
      [f('integer(int(z"4"))', 'Fortran 2003+'), f("character(len=int(b'1000'))", 'Fortran 2003+')], None, 'the number in decimal')
entry('R16', 'refuse', 'Conditional expressions of Fortran 2023.',
      'The lexer has no `?` in Fortran.', 'conditional-expr, new in Fortran 2023 (10.1.2.3).',
      [f('integer((a > 4 ? 8 : 4))', 'Fortran 2023+'), f('character(len=(lanes > 4 ? lanes : 4))', 'Fortran 2023+')],
      'no compiler at hand has an option for Fortran 2023.', '`merge( )`')
entry('R17', 'accept', "C's operators.",
      'One table of prefix and postfix operators serves all languages: `*`, `++` and `--`.', 'intrinsic operators have none of these; `+ +` needs parentheses (R1006).',
      [f('integer(*a)'), f('integer(++a)'), f('character(len=lanes--)')])
entry('R18', 'accept', '`=` as an operator, a call of a literal.',
      '`=` is binary, and parentheses may follow any operand.', '`=` stands after a keyword only (R755, R1523); a literal is no function.',
      [f('integer(4(2))'), f('integer((a=4))'), f('integer(kind=a=b)'), f('character(len=(lanes=8))')])
entry('R19', 'refuse', 'A kind before a character literal or after a logical one.',
      'The lexer makes several tokens of them.', 'char-literal-constant (R724) has its kind-param first, logical-literal-constant (R725) last.',
      [f("character(len(one_'a'))", 'Fortran 90+', pre='subroutine sort(x)\n  implicit none\n  integer, parameter :: one = 1'), f('logical(kind(.true._4))', 'Fortran 90+'),
       f("character(len=len(one_'a'))", 'Fortran 90+', pre='subroutine sort(x)\n  implicit none\n  integer, parameter :: one = 1')], None, 'the literal without its kind')
entry('R28', 'accept', 'A kind or a length that is no integer, or no constant.',
      'An operand of any kind passes, and what a name means is not known.', 'a kind is a scalar-int-constant-expr (R706), a length a scalar-int-expr (R701).',
      [f('integer(4.0)'), f("integer('a')"), f('integer(.true.)'), f("character('a')"), f('character(len=4.0)')])

group('Fortran: what an earlier standard lacks and nothing here tests')

entry('R20', 'accept', 'Fortran 77: selectors in parentheses.',
      'The profile check looks for `=`, `type(` and `class(`.', 'Fortran 77 8.4: no kinds; `CHARACTER*len` only.',
      [f('real(8)', 'Fortran 90+'), f('character(8)', 'Fortran 90+'), f('character(*)', 'Fortran 90+')],
      'gfortran has no option for Fortran 77.')
entry('R21', 'accept', 'Before Fortran 2003: deferred lengths.',
      '`:` passes in every standard.', 'a type-param-value (R701) may be `:` since Fortran 2003.',
      [f('character(:)', 'Fortran 2003+', unit='fortran-pointer'), f('character(len=:)', 'Fortran 2003+', unit='fortran-pointer')])
entry('R22', 'accept', 'Before Fortran 2008: an intrinsic type in `type( )`.',
      'The parentheses may hold any expression.', '`TYPE(intrinsic-type-spec)` (R703) is of Fortran 2008.',
      [f('type(integer)', 'Fortran 2008+'), f('type(integer(4))', 'Fortran 2008+'), f('type(real(8))', 'Fortran 2008+')])
entry('R23', 'accept', 'Parameters of a derived type that has none; before Fortran 2003 of any.',
      'As R22.', 'derived-type-spec (R754) has a type-param-spec-list since Fortran 2003, for the parameters that the type has.',
      [f('type(lane(4))'), f('type(tray(n=lanes))')],
      'gfortran 12 skips the parameters of a type that has none.')
entry('R24', 'accept', 'Before Fortran 2023: `typeof( )` and `classof( )`.',
      'R1: any word with parentheses passes, in every standard.', 'new in Fortran 2023 (declaration-type-spec).',
      [f('typeof(a)', 'Fortran 2023+'), f('classof(tray)', 'Fortran 2023+')], 'no compiler at hand has an option for Fortran 2023.')

# ---------------------------------------------------------------------------------------------------------------------
# all combinations of up to three builtin type words

BUILTIN_WORDS = ['void', 'bool', '_Bool', 'char', 'wchar_t', 'char8_t', 'char16_t', 'char32_t', 'short', 'int', 'long', 'signed', 'unsigned', 'float',
                 'double', '_Complex', '_Imaginary', '_Decimal32', '_Decimal64', '_Decimal128']
WORDS_UNIT = {
    'c': '{ (void) __builtin_types_compatible_p(TYPE, struct Tray); }',
    'cpp': '{ Use< TYPE > *use; }',
}
NOT_COMPARED = '''
Structure flag 0, where only brackets, angles and boundaries are tested, but for the trees of A14: with flag 0 the reader accepts more rows that are no type names than any list could name. Combinations of four and more builtin words. What a name means: whether it is
declared, a type, a template, a constant or a pack, how many arguments it takes, whether a type is complete. Fixed source form, where blanks mean nothing. Fortran 77, 90 and 2023 by a compiler.
'''
WORDS_TEXT = '''
The 20 builtin words give 1,770 combinations of one, two or three, repetitions included; where `long` stands twice all orders are tried, since the
profile check looks at neighbours (elsewhere order means nothing, to us and to ISO). ISO's answer is computed from the list of sets in C17 6.7.2 p2 and
[dcl.type.simple], a word that the standard has not reserved counting as a declared type name. Imaginary types count as there (Annex G), and so do C23's
decimal types. "Differs from ISO" counts the compilers' answers that are not ISO's; each is of one of these: gcc and clang have no imaginary types, clang no
decimal types, g++ takes `_Complex` as an extension, with integer types too (`harness/iso` prints any other). All rows stood in one unit, a block each;
those without an error were compiled again without the others. Every row that ISO accepts is accepted here.
'''
INTEGERS = ['short', 'signed short', 'short int', 'signed short int', 'unsigned short', 'unsigned short int', 'int', 'signed', 'signed int', 'unsigned',
            'unsigned int', 'long', 'signed long', 'long int', 'signed long int', 'unsigned long', 'unsigned long int', 'char', 'signed char', 'unsigned char']
LONG_LONGS = ['long long', 'signed long long', 'long long int', 'unsigned long long']
FLOATS = ['float', 'double', 'long double']
# the standard from which a word is reserved
RESERVED_C = {'bool': 'C23', 'wchar_t': None, 'char8_t': None, 'char16_t': None, 'char32_t': None}
RESERVED_CPP = {'char8_t': 'C++20', 'char16_t': 'C++11', 'char32_t': 'C++11'}
C_ORDER = ['C89', 'C99', 'C11', 'C18', 'C23']
CPP_ORDER = ['C++98', 'C++11', 'C++14', 'C++17', 'C++20', 'C++23']


def is_cpp(standard):
    return standard in CPP_ORDER


def at_least(standard, since):
    order = CPP_ORDER if is_cpp(standard) else C_ORDER
    return since is not None and order.index(standard) >= order.index(since)


def not_reserved(standard):
    reserved = RESERVED_CPP if is_cpp(standard) else RESERVED_C
    return [word for word in reserved if not at_least(standard, reserved[word])]


def words_preamble(standard):
    lines = [f'typedef int {word};' for word in not_reserved(standard)]
    lines.append('template<class> struct Use;' if is_cpp(standard) else 'struct Tray;')
    return '\n'.join(lines)


def words_spelling(standard, words):
    """The words as the compilers get them: gcc 12 and clang 14 have no keyword `bool` in C23, where `_Bool` is the same type."""
    return ' '.join('_Bool' if standard == 'C23' and word == 'bool' else word for word in words)


def words_in_iso(standard, words):
    if len(words) == 1 and words[0] in not_reserved(standard):
        return True
    sets = INTEGERS + FLOATS + ['void']
    if is_cpp(standard):
        sets = sets + ['bool', 'wchar_t'] + [word for word in RESERVED_CPP if at_least(standard, RESERVED_CPP[word])]
        sets = sets + (LONG_LONGS if at_least(standard, 'C++11') else [])
    elif at_least(standard, 'C99'):
        sets = sets + LONG_LONGS + ['_Bool'] + [f'{x} _Complex' for x in FLOATS] + [f'{x} _Imaginary' for x in FLOATS]
        if standard == 'C23':
            sets = sets + ['bool', '_Decimal32', '_Decimal64', '_Decimal128']
    return sorted(words) in [sorted(x.split()) for x in sets]


def compiler_aside(standard, compiler, words):
    """Words that a compiler lacks, or has besides the standard."""
    if '_Imaginary' in words:
        return True
    if compiler == 'g++' and '_Complex' in words:
        return True
    return compiler == 'clang' and standard == 'C23' and any(word.startswith('_Decimal') for word in words)


def words_rule(standard, words, here):
    """The entry that explains why reader and ISO differ."""
    decimal = any(word.startswith('_Decimal') for word in words)
    if not here:
        return 'none'
    if is_cpp(standard) and (decimal or set(words) & {'_Bool', '_Complex', '_Imaginary'}):
        return "W5, C's words in C++"
    if standard == 'C89' and set(words) & {'_Bool', '_Complex', '_Imaginary'}:
        return 'O1, words that C89 lacks'
    if decimal and not at_least(standard, 'C23'):
        return 'O4, decimal types before C23'
    if '_Imaginary' in words:
        return 'W4, `_Imaginary`'
    if '_Complex' in words:
        return 'W3, `_Complex`'
    if decimal:
        return 'W2, sign and length with a decimal type'
    if set(words) & {'bool', '_Bool', 'wchar_t', 'char8_t', 'char16_t', 'char32_t'}:
        return 'W1, sign and length with a type that has none'
    if words.count('long') == 2:
        return 'W6, `long` twice'
    return 'no rule'
