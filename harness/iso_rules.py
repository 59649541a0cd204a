"""To which entry of iso_table.py a row of the search belongs on which reader and compilers differ.

A rule is an entry, a language, a direction, the standards in which it may be the reason, and what the row has: a pattern over its tokens,
each with a blank on either side, words that the reader does not know written `A`. The first rule that fits is the row's.
"""
import re

from iso_rows import STANDARDS

RULES = []
SINCE = {name: (language, n) for language, names in STANDARDS.items() for n, name in enumerate(names)}


def rule(entry, languages, direction, pattern, standards='all', place=None):
    """standards: `all`, `C89-` (up to it), `C99+` (from it on). place: the unit in which alone it is the reason."""
    RULES.append((entry, languages.split(), direction, pattern if callable(pattern) else re.compile(pattern), standards, place))


def meant(standards, language, standard):
    if standards == 'all':
        return True
    for part in standards.split(' '):
        of, n = SINCE[part[:-1].replace('_', ' ')]
        if of == language:
            return standard <= n if part[-1] == '-' else standard >= n
    return True


def of_row(language, direction, tokens, standard, unit=None):
    """The entry, or None."""
    text = ' ' + ' '.join(tokens) + ' '
    for entry, languages, way, pattern, standards, place in RULES:
        if way == direction and language in languages and place in (None, unit) and meant(standards, language, standard) and (pattern(text) if callable(pattern) else pattern.search(text)):
            return entry
    return None


def outside(text):
    """The tokens outside parentheses and brackets."""
    depth, out = 0, []
    for token in text.split():
        depth += token in '(['
        if depth == 0:
            out.append(token)
        depth -= token in ')]'
    return out


def less_than_directly(text):
    """`<` outside brackets that no `>` closes, or after a literal."""
    tokens = outside(text)
    return tokens.count('<') != tokens.count('>') + 2 * tokens.count('>>') or re.search(r' [\d"]\S* < ', text)


ASIDES = []


def aside(why, languages, direction, pattern, standards, programs):
    """Rows on which a compiler, and not ISO, differs from the reader: these programs alone stand on the other side."""
    ASIDES.append((why, languages.split(), direction, re.compile(pattern), standards, set(programs.split())))


def is_aside(language, direction, tokens, standard, good, programs):
    text = ' ' + ' '.join(tokens) + ' '
    alone = programs - good if direction == 'accept' else good
    return any(way == direction and language in languages and alone <= those and meant(standards, language, standard) and pattern.search(text)
               for _, languages, way, pattern, standards, those in ASIDES)


WORD = r'(?:[A-Za-z_]\w*)'
BUILTIN = r'(?:int|long|short|unsigned|double|char|void|_Complex|_Bool)'
QUALIFIER = r'(?:const|volatile|restrict|__restrict|_Atomic|noexcept)'
# ---- what compilers lack or have besides the standard
aside('gcc 12 lacks `(...)` of C23', 'c', 'accept', r'\( \.\.\. \)', 'C23+', 'gcc')
aside('clang takes no atomic `void`', 'c', 'accept', r' _Atomic .*void | void .*_Atomic ', 'C11+', 'clang-22')
aside('in C23 the function of the alphabet has no parameter', 'c', 'accept', r'\[ A \( [^()]+\) \]', 'C23+', 'gcc clang-22')
aside('clang takes a parameter without any specifier in C89', 'c', 'refuse', r'[(,] [*\[(]', 'C89-', 'clang-22')
aside('the alphabet of C++ parameters has no constant for a bound', 'cpp', 'accept', r'\( (?:int|void \*|A|const| |\*|::|\[ \])*\[ (?::: |\( )*A (?:& A )?(?:\) )?\]', 'all', 'g++ clang++-22')
aside('the constants of the alphabet make a bound of 0', 'cpp', 'accept', r'\[ (?:[A3+()] )*(?:<|>|>>) (?:[A3+()] )*\]', 'all', 'g++ clang++-22')
aside('the alphabet has no object with external linkage', 'cpp', 'accept', r' < (?:.* )?& (?::: )?A (?:, |> )', 'C++98-', 'g++ clang++-22')
aside('g++ takes `typename` outside templates in C++98', 'cpp', 'refuse', r' typename ', 'C++98-', 'g++')
aside('gfortran skips the parameters of a type that has none', 'fortran', 'refuse', r'^ type \( \w+ \( ', 'Fortran_95-', 'gfortran')
# ---- C and C++: we accept, ISO does not
rule('N11', 'cpp', 'accept', r' auto ')
rule('A1', 'cpp', 'accept', r' < .*>> ', 'C++98-')
rule('O5', 'cpp', 'accept', r'\) (?:const )*noexcept (?:$|[,)>&(])', 'C++98-')
rule('W6', 'c cpp', 'accept', r' long (?:(?:int|const|unsigned|volatile|restrict|__restrict|_Atomic|noexcept) )+long ', 'C89- C++98-')
rule('W5', 'cpp', 'accept', r' (?:_Bool|_Complex) ')
rule('O1', 'c', 'accept', r' (?:_Bool|_Complex|restrict) ', 'C89-')
rule('O3', 'c', 'accept', r' _Atomic ', 'C99-')
rule('W3', 'c', 'accept', r' _Complex ')
rule('W1', 'c', 'accept', r' _Bool ')
rule('Q5', 'c cpp', 'accept', r' noexcept (?!\()|^ noexcept \(|[*&\w] noexcept \( ' + r'| noexcept \( \) ')
rule('Q10', 'c', 'accept', r' __restrict ')
rule('Q4', 'cpp', 'accept', r' (?:restrict|__restrict|_Atomic) ')
rule('N5', 'cpp', 'accept', r' typename A (?!::|<)| typename A (?:< [^<>]* > )(?!::)')
rule('N3', 'c cpp', 'accept', r' (?:struct|enum|typename|class) (?:' + QUALIFIER + r'|struct|enum|typename|throw|auto|register|static|' + BUILTIN + r') ')
rule('N2', 'c cpp', 'accept', r' (?:struct|enum|typename|class) (?:A|' + QUALIFIER + r')(?: ::| ' + QUALIFIER + r'| A| < [^<>]* >)* A ')
rule('N6', 'cpp', 'accept', r' typename ', 'C++98-')
rule('N13', 'cpp', 'accept', r' :: ' + QUALIFIER + r' | (?:A|>) ' + QUALIFIER + r' :: ')
rule('D13', 'cpp', 'accept', ' ' + QUALIFIER + r' < ')
rule('D11', 'cpp', 'accept', r' \( :: \* | [*&] (?:const )*:: (?:\*|const|A)|\( (?:[^()<>]* )?[*&] (?:const )*A (?:::|<)|\( (?:[^()<>]* )?[*&] (?:[^()<>]* )?:: A ')
rule('D11', 'cpp', 'accept', r'\( (?:[^()]* )?(?:int|void|A|const) :: (?:[^()]* )?[*)]|\( :: [^()]*[*(] ')
rule('D12', 'cpp', 'accept', r'\( \[ [^()]*\) &&? ')
rule('Q6', 'cpp', 'accept', r'\( \[ [^()]*\) const ')
rule('Q3', 'c', 'accept', r' restrict ')
rule('Q8', 'c', 'accept', r' _Atomic \( (?:.* )?(?:const|volatile|restrict|_Atomic|\[|\() ')
rule('Q6', 'c cpp', 'accept', r'\( (?:[*&] )?\( (?:const )+[*&\[]')
rule('Q6', 'c', 'accept', r'[\])] ' + QUALIFIER + ' ')
rule('Q6', 'cpp', 'accept', r' && ' + QUALIFIER + r' | & ' + QUALIFIER + r' |\] ' + QUALIFIER + ' ')
rule('Q2', 'c', 'accept', r' const (?:volatile )?const ', 'C89-')
rule('Q2', 'cpp', 'accept', r' const (?:volatile )?const ')
rule('D2', 'cpp', 'accept', r' &&? (?:const )*\[ | &&? (?:const )*\( (?:[*&\[]|&&|A ::|::) ')
rule('D3', 'c cpp', 'accept', r' void (?:const )*(?:\( )?(?:\[|&&?) | void (?:const )*&&? | void (?:const )*, |, (?:const )*void (?:const )*[,)] |\( (?:const void|void const) \)')
rule('D4', 'c cpp', 'accept', r'\] \[ \] ')
rule('F5', 'c', 'accept', r'\( \.\.\. \)', 'C18-')
rule('F4', 'c cpp', 'accept', r' \.\.\. ,')
rule('D5', 'c cpp', 'accept', r'\[ \* \]')
rule('E7', 'c cpp', 'accept', r'\[ [^()\[\]]*,')
rule('O2', 'c', 'accept', r'\[ (?:[^\]]* )?(?:\+\+|=|\(|\* [^\]]|\[ |"s")', 'C89-')
rule('E15', 'c cpp', 'accept', r'\[ (?:\( )?"s" (?:\) )?\]|\[ (?:[&( ]|::)*& ')
rule('E8', 'c', 'accept', r'\[ (?:[^\]]* )?(?:"s"|\+\+|=|\* [^\]]|\d [(\[]|A \[ |\) [(\[]|A \( )')
rule('E7', 'cpp', 'accept', r'\[ [^()\[\]]*=')
rule('E8', 'cpp', 'accept', r' [\d"]\S* [(\[] | < (?:.* )?[&*] 3 ')
rule('O9', 'cpp', 'accept', r'\[ .*A < [^<>]* > [\]+)]', 'C++11-')
rule('O8', 'cpp', 'accept', r'\[ (?:.* )?A \[ | < .*\( [^()]+ , [^()]+ \)| < .*(?:A|\)) \( (?:[A3] (?:, [A3] )?)?\)|\[ A \( [^()]*\) \]|\[ \( ', 'C++98-')
rule('D1', 'c cpp', 'accept', r'\) \( |\) \[ |\] \( ')
rule('O5', 'cpp', 'accept', r'\) (?:const )*& (?:$|[,)>])', 'C++98-')
rule('D12', 'c cpp', 'accept', r'[\])] (?:' + QUALIFIER + r' )*(?:\*|\( [*&\[]) |\] (?:' + QUALIFIER + r' )*&&? |\( (?:[*&]|&&|const|A ::|::| )*(?:[*&]|&&) (?:const )*\) &&? |\) (?:const )*& [&*] ')
rule('Q7', 'cpp', 'accept', r'\( [*&] [^()]*\) (?:\( [^()]*\) )?(?:const|&|&&) |\( [^()]* \( [^()]*\) (?:const |& |&& )+[,)]|\( \( \) const ')
# a word that is no operand: in brackets, or in a list where no type can stand
KEYWORD = r'(?:static|register|sizeof|new|throw|operator|template|typename|auto)'
rule('E1', 'c cpp', 'accept', r'\[ [^\]]*(?:int|const|void|struct|static|register|long|(?:sizeof|new|throw|operator|template|typename) [\])+*=,?:.])(?= |$)')
rule('E1', 'c cpp', 'accept', r'(?:decltype|typeof) \( (?:.* )?(?:int|const|struct|sizeof|new|operator|throw)(?: [()\[+*.=,:-]|$)')
rule('E8', 'c', 'accept', r'typeof \( .*(?:\*|\+|\.|\d \(|\[|A \(|\) \()')
rule('E1', 'cpp', 'accept', r'[<,] (?:(?:[*&+.=!,-]|::|3) )*(?:const|sizeof|typename|new|operator|throw) (?:[,>)]|[+*&=.-] )| < (?:.* )?(?:[*&+.=!-]|::) (?:int|void)(?: [,>)+*&=.-]| $)| < (?:int|void) [+=.]| < .*\( (?:[*&+!-]|::| )+(?:int|const|sizeof) \)')
rule('E1', 'cpp', 'accept', r' < (?:.*[ (])?(?:int|sizeof) (?:[*&+=<.]|::|\(|\))|(?:[*&+=]|::) (?:int|sizeof) ')
rule('A11', 'cpp', 'accept', r' < .*(?:"s"| = )')
rule('E9', 'cpp', 'accept', r'(?:\d|"s"|\)) :: ')
rule('E8', 'cpp', 'accept', r' < (?:.* )?[*&+] |\[ .*(?:"s"|\* |=|\d [(\[]|\) \(|A \()|decltype \( .*(?:\*|\.|->|\+|\d [(\[]|\) [(\[]|A [(\[])')
rule('N1', 'c cpp', 'accept', ' ' + KEYWORD + ' ')
# ---- C and C++: we refuse, ISO accepts
rule('E13', 'c cpp', 'refuse', r' "s" "s" ')
rule('N4', 'cpp', 'refuse', r' (?:struct|typename|class|enum) :: ')
rule('D9', 'cpp', 'refuse', r'\) (?:const )*throw \( ')
rule('N12', 'cpp', 'refuse', r' A (?:const )*auto | auto (?:const )*A ')
rule('E3', 'c cpp', 'refuse', r' sizeof \( (?:(?:int|A|const|struct|unsigned) )*(?:int|struct|const) |sizeof \( .*(?:int|A|const) \* ')
rule('E4', 'c cpp', 'refuse', r' (?:sizeof|new|throw) [^)\]]')
rule('A2', 'cpp', 'refuse', r' >> ', 'C++98-')
rule('A3', 'cpp', 'refuse', r' < > | < >> ')
rule('A5', 'cpp', 'refuse', r' < .*[(\[] (?:[^<>()\[\]]* )?< (?:[^<>()\[\]]* )?[)\]]')
rule('A6', 'cpp', 'refuse', r'[(\[] (?:[^<>()\[\]]* )?< [^<>()\[\]]* >>? [A\d"(]')
rule('A4', 'cpp', 'refuse', less_than_directly)
rule('N10', 'c cpp', 'refuse', r'\[ \[ ', 'C23+ C++11+')
rule('E2', 'c cpp', 'refuse', r'\) (?:A|\d\S*|"\S*) ')
rule('D7', 'cpp', 'refuse', r' (?:int|void|A|const|\*|>|auto|\)) (?::: )?A (?:< [^<>]* > )?(?::: A )*:: \* ')
rule('D14', 'cpp', 'refuse', r'&&? \( [^()]*\) (?:const )?&&? ', 'C++11+')
rule('F2', 'cpp', 'refuse', r'\( :: ')
rule('F3', 'cpp', 'refuse', r'\( [^()]*(?:::[^()]*\*|\*[^()]*::)')
rule('D8', 'c cpp', 'refuse', r'\( (?:[*&] |&& |const |\[ \] |\( )*\( ')
rule('F6', 'cpp', 'refuse', r'[\w*&>\])] \.\.\. ')
rule('Q1', 'c', 'refuse', r' (const|volatile|restrict|__restrict|_Atomic|noexcept) (?:\w+ )*\1 ', 'C99+')
rule('N8', 'c', 'refuse', r' (?:class|typename) ')
rule('D6', 'c', 'refuse', r'\[ (?:static|const|restrict)')
rule('Q9', 'c', 'refuse', r'^ (?:const|volatile|register|static|restrict|__restrict|noexcept)(?= )|[(,] (?:const|register|restrict|_Atomic)(?= )', 'C89-')
rule('F1', 'c', 'refuse', r'\( noexcept \)', 'all', 'c-parameter')
rule('F1', 'cpp', 'refuse', r'\( restrict \)', 'all', 'cpp-parameter')
rule('F1', 'c cpp', 'refuse', r' register | A A | (?:int|void|long|struct A|\*|const|&|\)) A ')
rule('F1', 'c', 'refuse', r'[\w*)] (?:A|noexcept|class|restrict)(?= )', 'all', 'c-parameter')
rule('F1', 'cpp', 'refuse', r'[\w*&>)] (?:A|restrict)(?= )|&& A ', 'all', 'cpp-parameter')
# ---- Fortran: we accept, ISO does not
rule('R3', 'fortran', 'accept', r'^ double complex ')
rule('R4', 'fortran', 'accept', r'^ double precision [(*] ')
rule('R2', 'fortran', 'accept', r'^ double precision \w|\) (?:\w+) ')
rule('R1', 'fortran', 'accept', r'^ (?:A|precision|kind|len|complex)(?= )')
rule('R5', 'fortran', 'accept', r'\) \* 4 $|^ (?:integer|real|type|class) \* 4 $')
rule('R21', 'fortran', 'accept', r'^ character \(.* : ', 'Fortran_95-')
rule('R17', 'fortran', 'accept', r' \+\+ | \+ \+ | \* \* | \* \+ |[(,=+] \* [^)]|[(=,%] \+ \*|\+ \* ')
rule('R18', 'fortran', 'accept', r' = .* = |\d \( |\( [^()]*\( [^()]*=[^()]*\)|[^ (,]+ [^ (,]+ = ')
rule('R7', 'fortran', 'accept', r'^ (?:integer|real) \( (?:\w+ = )?[*:] |kind = [*:] |^ (?:integer|real|character) \(.*, [*:] ')
rule('R22', 'fortran', 'accept', r'^ type \( (?:integer|real|character) (?:\)|\( [^()]*\) \))', 'Fortran_2003-')
rule('R23', 'fortran', 'accept', r'^ type \( A \( ')
rule('R9', 'fortran', 'accept', r'^ (?:type|class) \( ')
rule('R8', 'fortran', 'accept', r'^ integer \( (?:A|len|int) = |^ integer \( .* , |^ character \( (?:A|\w+) = |^ character \( .* , ')
rule('R28', 'fortran', 'accept', r"1\.5|'s'|[(=+,] (?:A|4|kind|len) |\) %| % |\[ ")
# ---- Fortran: we refuse, ISO accepts
rule('R6', 'fortran', 'refuse', r'^ character \* \( ')
rule('R10', 'fortran', 'refuse', r'^ type \( (?:double precision|character \( (?:len = )?[*:]) ')
rule('R11', 'fortran', 'refuse', r'^ type \( \w+ \( (?:\w+ = )?[*:] ')
rule('R14', 'fortran', 'refuse', r'\( \[ |[(,=+] (?:.* )?\[ ')
rule('R13', 'fortran', 'refuse', r'\w \( .*: ')
rule('R27', 'fortran', 'refuse', r'^ character \* 4 , $')
