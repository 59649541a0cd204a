"""The searches of harness/iso_search: all rows over an alphabet, up to a length, between a prefix and a suffix.

A letter is what a compiler is given; to the reader every word that it does not know is one and the same, so rows that differ in such
words only are one row to it. ISO accepts that row if it accepts one of them: that is the page's convention for names, and the letters
are declared so that each kind of name has one.
"""
import iso_rows

PREAMBLE = {
    'c': 'typedef int A; struct A { int a; }; enum E { a = 3 }; extern struct A s; extern int *q, i; int f();',
    'cpp98': '''template<class> struct Use;
struct B { int m; }; struct A { struct B { int m; }; static const int a = 3; int m; typedef int I; template<class> struct T { int m; }; template<int> struct N { int m; }; };
template<class, class = int> struct T { struct B { int m; }; static const int a = 3; }; template<int, int = 1> struct N { struct B { int m; }; static const int a = 3; };
const int a = 3; extern A s; int g(int); typedef int I; template<class> int f(int); template<int> int f(int); extern int A::*p;
template<class> void any(); template<int> void any(); template<class, class> void any(); template<class, int> void any(); template<int, class> void any();
template<int, int> void any(); template<class, class, class> void any(); template<class, class, int> void any(); template<class, int, class> void any();
template<class, int, int> void any(); template<int, class, class> void any(); template<int, class, int> void any(); template<int, int, class> void any();
template<int, int, int> void any(); template<int *> void any(); template<const int *> void any(); template<int A::*> void any(); template<template<class, class> class> void any();''',
    'cpp': '''template<class> struct Use;
struct B { int m; }; struct A { struct B { int m; }; static const int a = 3; int m; typedef int I; template<class> struct T { int m; }; template<int> struct N { int m; }; };
template<class...> struct T { struct B { int m; }; static const int a = 3; }; template<int...> struct N { struct B { int m; }; static const int a = 3; };
const int a = 3; extern A s; int g(int); typedef int I; template<class> int f(int); template<int> int f(int); extern int A::*p;
template<class> void any(); template<int> void any(); template<class, class> void any(); template<class, int> void any(); template<int, class> void any();
template<int, int> void any(); template<class, class, class> void any(); template<class, class, int> void any(); template<class, int, class> void any();
template<class, int, int> void any(); template<int, class, class> void any(); template<int, class, int> void any(); template<int, int, class> void any();
template<int, int, int> void any(); template<int *> void any(); template<const int *> void any(); template<int A::*> void any(); template<template<class...> class> void any();''',
    'cpp14': '\ntemplate<int> constexpr int V = 3;',
    'fortran': '''module m
implicit none
integer, parameter :: a = 4, b = 8, v(2) = (/ 4, 8 /)
character(3), parameter :: w = 'abc'
type lane
integer :: k
end type
type bag(n)
integer, len :: n
integer :: k(n)
end type
type tray(m)
integer, kind :: m
integer :: k
end type
type(lane), parameter :: t = lane(4)''',
    'fortran95': '''module m
implicit none
integer, parameter :: a = 4, b = 8, v(2) = (/ 4, 8 /)
character(3), parameter :: w = 'abc'
type lane
integer :: k
end type
type(lane), parameter :: t = lane(4)''',
}


def preamble(language, standard):
    if language == 'cpp':
        text = PREAMBLE['cpp98' if standard == 0 else 'cpp'] + (PREAMBLE['cpp14'] if standard >= 2 else '')
        text += '\nint k(int = 0, int = 0); const int r[5] = { 3, 3, 3, 3, 3 };' if standard == 0 else '\nconstexpr int k(int = 0, int = 0) { return 3; } constexpr int r[5] = { 3, 3, 3, 3, 3 };'
        return text + ('\ntemplate<double> void any();' if standard >= 4 else '')
    if language == 'fortran':
        return PREAMBLE['fortran95' if standard <= 2 else 'fortran']
    return PREAMBLE['c']


UNITS = {
    'c-name': '{ (void) __builtin_types_compatible_p(TYPE, int); }',
    'c-parameter': '{ typedef void p(TYPE); }',
    'c-cast': '{ (void) (TYPE) 0; }',
    'c-sizeof': '{ (void) sizeof(TYPE); }',
    'cpp-type-id': '{ Use< TYPE > *use; }',
    'cpp-alias': '{ using U = TYPE; }',
    'cpp-parameter': '{ typedef void p(TYPE); }',
    'cpp-cast': '{ (void) (TYPE) 0; }',
    'cpp-sizeof': '{ (void) sizeof(TYPE); }',
    'cpp-argument': '{ (any< TYPE >)(); }',
    'fortran-dummy': 'TYPE :: x',
    'fortran-allocatable': 'TYPE, allocatable :: x',
    'fortran-allocate': 'class(*), allocatable :: x\nallocate(TYPE :: x)',
}


class Search:
    def __init__(self, name, language, letters, longest, units, prefix='', suffix='', standards=None, respell=None):
        """units: the first is the place of a type name and is asked in every standard, the others are places in which more is accepted,
        asked in the standard that 254 means. respell: a word as gcc gets it."""
        self.name, self.language, self.letters, self.longest, self.units = name, language, letters.split(), longest, units
        self.prefix, self.suffix, self.standards, self.respell = prefix.split(), suffix.split(), standards, respell


ARCHIVE = {'c': 3, 'cpp': 3, 'fortran': 5}  # C18, C++17, Fortran 2018: the standards that 254 means
INNER = {'cpp-argument'}  # is given the letters alone
SEARCHES = [
    Search('C, whole rows', 'c', 'int long void const struct A a q static * , 3 ... ( ) [ ]', 5, ['c-name', 'c-parameter', 'c-cast']),
    Search('C, specifiers', 'c', 'int long unsigned double const restrict __restrict _Atomic register struct A void noexcept class * ( )', 4,
           ['c-name', 'c-parameter']),
    Search('C, array bounds', 'c', 'a q i f A int sizeof static const * + = , ++ 3 "s" ( ) [ ]', 4, ['c-name', 'c-parameter'], 'int [', ']'),
    Search('C, parameters', 'c', 'int void A a const register * , ... ( ) [ ]', 5, ['c-name'], 'int (', ')'),
    Search('C, typeof', 'c', 'a q f A s int const struct sizeof * + , . 3 ( ) [ ]', 4, ['c-name'], 'typeof (', ')', [4], ('typeof', '__typeof__')),
    Search('C, _Atomic', 'c', 'A a int const void struct _Atomic * , 3 ( ) [ ]', 4, ['c-name'], '_Atomic (', ')', [2, 3, 4]),
    Search('C++, whole rows', 'cpp', 'int const A B a T N :: * & < > >> , ( ) [ ]', 5, ['cpp-type-id', 'cpp-parameter', 'cpp-cast']),
    Search('C++, more words', 'cpp', 'int void const A B :: * & && 3 ... typename struct noexcept auto throw register restrict ( ) [ ]', 4,
           ['cpp-type-id', 'cpp-parameter', 'cpp-alias']),
    Search('C++, arguments', 'cpp', 'int A I a T N k :: * & < > , = + 3 sizeof ( )', 4, ['cpp-argument'], 'A <', '>'),
    Search('C++, angles', 'cpp', 'I a T N V k < > >> , 3 ( ) [ ]', 5, ['cpp-argument'], 'A <', '>'),
    Search('C++, array bounds', 'cpp', 'a r k I V int sizeof * + = , < > >> 3 4 ( ) [ ]', 4, ['cpp-sizeof'], 'int [', ']'),
    Search('C++, parameters', 'cpp', 'int void A B :: * & , const ( ) [ ]', 5, ['cpp-type-id'], 'int (', ')'),
    Search('C++, decltype', 'cpp', 'a A s g int sizeof new :: * + . 3 ( ) [ ]', 4, ['cpp-type-id'], 'decltype (', ')', [1, 2, 3, 4, 5]),
    Search('Fortran, whole rows', 'fortran', 'integer character type class double precision lane * : 4 ( )', 5,
           ['fortran-dummy', 'fortran-allocatable', 'fortran-allocate']),
    Search('Fortran, kinds', 'fortran', "a v lane kind len int = * : , + 4 1.5 ( ) [ ]", 4, ['fortran-dummy'], 'integer (', ')'),
    Search('Fortran, lengths', 'fortran', "a w kind len = * : , + ++ 4 's' ( )", 4, ['fortran-dummy', 'fortran-allocatable'], 'character (', ')'),
    Search('Fortran, types', 'fortran', 'lane bag tray integer double precision character n = * : , 4 ( )', 4,
           ['fortran-dummy', 'fortran-allocatable', 'fortran-allocate'], 'type (', ')'),
    Search('Fortran, after a star', 'fortran', 'a v 4 kind * : , + = ( )', 4, ['fortran-dummy'], 'character *', ''),
]


# the words that the reader compares with something; every other is to it a word like any other,
KNOWN = set('''void bool _Bool char wchar_t char8_t char16_t char32_t short int long signed unsigned float double _Complex _Imaginary _Decimal32 _Decimal64
_Decimal128 const volatile restrict _Atomic noexcept transaction_safe __restrict __restrict__ struct union enum class typename decltype typeof typeof_unqual __typeof
__typeof__ _BitInt'''.split())
# and the keywords of the alphabets, which are not the program's names
KNOWN |= set('sizeof static register new throw operator template auto'.split())
# in Fortran also the intrinsic types and the keywords of selectors, which are not the program's names
KNOWN_FORTRAN = set('type class double precision complex integer real character kind len'.split())


def seen(language, letter):
    """The letter as the reader sees it."""
    if letter[0].isalpha() or letter[0] == '_':
        kind = iso_rows.tokens(language, len(iso_rows.STANDARDS[language]) - 1, letter)[0][0]
        if kind == 0 and letter not in (KNOWN_FORTRAN if language == 'fortran' else KNOWN):
            return 'A'
    return '3' if letter.isdigit() and language != 'fortran' else letter
