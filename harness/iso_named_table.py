"""The rows of harness/iso_named: where the reading with template names (document 02, C-17) differs from C++, and where it no longer does.

What ISO says is written here; what the entries and the compilers say is measured. A row's `means` is another spelling of the same type, which the compilers
compare; `before` stands before the type name, and `unit` is what it stands in; `lists` are the tokens at which C++ has a list, which are compared with those of the tree that flag 0 gives.
"""
import collections

from iso_searches import Search

TITLE = '## Where named reading still differs from C++\n'
INTRODUCTION = """
`type_name_read_named` takes the names of the templates and tries nothing: `<` directly behind one of them opens a list, no other does. That is [temp.names]'s rule, but for three things: the
prescan, which comes first and counts every `<` outside brackets; `>>`, of which ISO takes the first half as the end of the one list that is open, and which is 26 here; and the empty list, which is
27. Lists nested deeper than 64 are 20, and in C++98, where `>>` is always a shift, A1 and A2 stay. What the structure check refuses or accepts in the tree is as before: the entries above whose letter is not A hold for both entries.

Each row under C++23 with structure flag 1, "Named": with the names in the second column. `A` and `K` are classes, `T`, `P`, `N` class templates, `V` is a variable template, `f` a function template, `D` a concept, small letters else
are constants; where another meaning decides, that is said. g++ and clang++ agree with the column "ISO" on every row, unless the row says otherwise, and on what it means (`harness/iso_named`;
rows and reasons are in `harness/iso_named_table.py`).
"""
REFUSED = 'Valid C++ that is refused because of its angles:'
STRUCTURE = 'Valid C++ that is refused though its lists are where C++ has them, by the structure check as before (the tree of flag 0 is right):'
SETTLED = 'Read as C++ means it, where `type_name_read` refuses it or has another tree:'
SAME = 'Refused here and by ISO, which ends a list at the first `>` that is not in brackets, too:'
GROUPS = [REFUSED, STRUCTURE, SAME, SETTLED]
AGREED = [SAME, SETTLED]

PREAMBLE = '''template<class, class> constexpr bool same = false; template<class U> constexpr bool same<U, U> = true;
struct A { template<int> struct B {}; int T; }; extern A s; struct K { bool operator<(K) const; int operator<=>(K) const; template<class U> bool operator>(U) const; }; extern K k;
template<class = int> struct T { template<int> struct B {}; static const K h; }; template<auto> struct N {}; template<class, class> struct P {};
template<class U, class W> concept D = true; template<int> constexpr int V = 3; template<class> constexpr int f(int) { return 3; } int g(bool); int g(bool, bool); template<int> struct Slots {}; template<int> struct Lane {};
namespace one { template<class> struct W {}; } namespace two { constexpr int W = 4; }
constexpr int a = 2, b = 3, c = 4, d = 1, Lanes = 16, r[3] = { 1, 2, 3 };'''

Row = collections.namedtuple('Row', 'group text names iso reason means before lists odd unit', defaults=(None, '', None, (), 'using type = TYPE;'))


def row(group, text, names, iso, reason, **more):
    return Row(group, text, names.split(), iso, reason, **more)


ROWS = [
    row(REFUSED, 'T<>', 'T', True, 'An empty list, all arguments by default [temp.arg.general]. 27 (A3).', means='T<int>'),
    row(REFUSED, 'P<T<>,A>', 'P T', True, 'The same within another list.', means='P<T<int>, A>'),
    row(REFUSED, 'N<b<c>', 'N', True, '`<` behind a name that is no template is less-than. The prescan counts it and finds an angle that is never closed: 16 (A4).', means='N<(b<c)>'),
    row(REFUSED, 'N<3<c>', 'N', True, 'Less-than behind a literal, where the prescan takes no `<`: 12 (A4).', means='N<(3<c)>'),
    row(REFUSED, 'int [V<3>>1]', 'V', True, 'The first half of `>>` ends the list, the second is greater-than: [temp.names] splits a `>>` whenever one list is open. 26; `type_name_read` takes it as a shift (A13).', means='int[((V<3>)>1)]'),
    row(REFUSED, 'N<(V<8>>2)>', 'N V', True, 'The same in parentheses. With `V` a constant and not named it is a shift, and accepted: see `Lane<(Key<8>>2)>` below.', means='N<((V<8>)>2)>'),
    row(REFUSED, 'P<one::W<int>,N<(two::W<8)>>', 'P N W', True, '`W` is a template in one namespace and a constant in the other. C++ looks each of them up where it stands; a name list knows words, not scopes, and with `W` the second one opens a list, over which the parenthesis closes: 27.', means='P<one::W<int>, N<(4<8)>>'),
    row(REFUSED, 'P<one::W<int>,N<(two::W<8)>>', 'P N', True, 'The same without `W`: its `>` ends the list of `P`. No name list reads this row.'),
    row(REFUSED, 'P<T<A>,A>', 'P', True, '`T` is a template and not named: its `<` is a plain token, and its `>` ends the list of `P`. With flag 0 that tree is the answer.', means='P<T<A>, A>'),
    row(REFUSED, 'decltype(s.T<3)', 'T', True, '`T` is a class template, and a member of `s`: after `.` the name is looked up in the class.', means='bool'),
    row(REFUSED, 'N<&K::operator< >', 'N', True, '`operator<` is a name (E16). The prescan counts its `<`: 16.', lists=None),
    row(REFUSED, 'decltype(&K::operator><A>)', 'operator', True, '`operator>` is a name, and a template here; its list follows a `>`, and no word is before it. (In parentheses, where the prescan looks at no angle.)'),
    row(STRUCTURE, 'T<A>::template B<3>', 'T B', True, '`template` before a name (N7).', means='T<A>::B<3>', lists=[1, 7]),
    row(STRUCTURE, 'D<A> auto', 'D', True, 'A concept before `auto` (N12), here of a variable.', unit='TYPE x = a;', lists=[1]),
    row(STRUCTURE, 'N<(int)2>', 'N', True, 'A cast (E2).', lists=[1], means='N<2>'),
    row(STRUCTURE, 'N<(&K::operator<)>', 'N', True, 'The name of an operator function (E16), its `<` in parentheses.', lists=[1]),
    row(STRUCTURE, 'decltype(k<=>k)', 'N', True, '`<=>` is two tokens here (A10), of which `>` is a plain one.', lists=[]),
    row(STRUCTURE, 'decltype(T<A>::h<=>k)', 'T', True, 'The same behind a list.', lists=[3]),
    row(SAME, 'N<b<c>d>', 'N', False, 'The first `>` ends the list of `N`: a plain `<` pairs with nothing.', lists=[1]),
    row(SAME, 'N<b<c>>', 'N', False, 'The first half of `>>` ends the list, and nothing can follow the second: 26.'),
    row(SAME, 'N<b>>c>', 'N', False, 'The same, met by the prescan: 12, not 26. (A shift in C++98: A2.)'),
    row(SAME, 'N<b>c>', 'N', False, 'The first `>` ends the list; 12.'),
    row(SAME, 'N<a ? b>c : d>', 'N', False, 'The same within `?` and `:`.'),
    row(SAME, 'P<A,>', 'P', False, 'An empty argument: 27.'),
    row(SAME, 'N<(T<A)>', 'N T', False, 'A list is open where its parenthesis closes: 27.'),
    row(SETTLED, 'Slots<(Lanes<8)>', 'Slots', True, 'Less-than in parentheses (A5).', means='Slots<0>', lists=[1]),
    row(SETTLED, 'N<r[c<d]>', 'N', True, 'Less-than in brackets (A5).', means='N<1>', lists=[1]),
    row(SETTLED, 'Lane<(Key<8>>2)>', 'Lane', True, '`Key` is a constant: a shift, then less-than (A6). With `Key` named, too: 26, as above.', before='constexpr int Key = 1;', means='Lane<(Key<(8>>2))>', lists=[1]),
    row(SETTLED, 'N<(b<c>d)>', 'N', True, 'Two comparisons (A6).', means='N<((b<c)>d)>', lists=[1]),
    row(SETTLED, 'N<(b<c>(d))>', 'N', True, 'Two comparisons, where `type_name_read` has a list (A7).', means='N<((b<c)>d)>', lists=[1]),
    row(SETTLED, 'decltype(g(a<b,c>(d)))', 'N', True, 'Two arguments of a call (A8); `a` is a constant and not named.', means='int', lists=[]),
    row(SETTLED, 'P<T<T<A>>,A>', 'P T', True, '`>>` ends two lists and a comma follows (A12).', means='P<T<T<A> >, A>', lists=[1, 3, 5]),
    row(SETTLED, 'int [d<c>>d]', 'N', True, 'A shift in brackets, then less-than; `type_name_read` has it, too.', means='int[(d<(c>>d))]', lists=[]),
    row(SETTLED, 'T<int [c>d]>', 'T', True, '`>` in brackets is no end of a list around them; `type_name_read` has it, too.', lists=[1], odd=('g++',)),
    row(SETTLED, 'N<(b>>c)>', 'N', True, 'A shift in parentheses; `type_name_read` has it, too.', means='N<0>', lists=[1]),
    row(SETTLED, 'decltype(f<A>(b)>c)', 'f', True, 'A list and greater-than; `type_name_read` has it, too.', means='bool', lists=[3]),
]

SEARCH_TITLE = '### All short rows with names\n'
SEARCH_TEXT = """
All rows over some alphabets of `harness/iso_searches.py` ("The search", above), with the names of those letters that are templates there: `T` and `N` class templates, `V` a variable template (`A <` before and `>` behind
stand for any list, and `A` is named). Structure flag 1, C++23; clang++ was asked about all rows, g++ about those that clang++ or one of the entries accepts. To `type_name_read_named` the words of the list are one and all other
words that it does not know are another, so rows that differ in such words only count once, and ISO accepts them if both compilers accept one of them. By classes: what
`type_name_read` alone differs on, the names settle. What `type_name_read_named` alone refuses is 26, `>>` behind the one list of a bracket. What it alone accepts are comparisons in which a word stands that C++ knows to be a template or to be
no function (E1, E8), and bounds that come to 0 (P5). "By both" are the entries above: refused as 12 and 16 A4, as 27 A3, as 30 those of the structure check.
"""
SEARCHES = [
    (Search('Arguments', 'cpp', 'I a T N V k < > >> , 3 ( ) [ ]', 4, ['cpp-argument'], 'A <', '>'), ['A', 'T', 'N', 'V']),
    (Search('Angles', 'cpp', 'a T V < > >> , ( )', 6, ['cpp-argument'], 'A <', '>'), ['A', 'T', 'V']),
    (Search('Array bounds', 'cpp', 'a V < > >> , 2 ( ) [ ]', 5, ['cpp-sizeof'], 'int [', ']'), ['V']),
    (Search('Whole rows', 'cpp', 'int A a T N :: * < > >> , ( )', 5, ['cpp-type-id']), ['T', 'N']),
]
