"""Rows for harness/iso and harness/iso_search: the standards, a lexer, row files, the proved reader's answers.

The lexer makes the tokens that the original's lexer makes of a type name's text (harness/src/lexed.rs runs that one; `iso` compares
the two where it is built), so that rows can be asked about without the original at hand.
"""
import os
import re
import struct
import subprocess
import tempfile

HERE = os.path.dirname(os.path.abspath(__file__))
ROOT = os.path.dirname(HERE)
LIBRARY = os.path.join(os.environ.get('TYPE_NAME_LIB', os.path.join(ROOT, 'target', 'staticlib')), 'libtype_name.a')

LANGUAGES = {'c': 0, 'cpp': 1, 'fortran': 2}
# by language, in the order of the head record's numbers
STANDARDS = {
    'c': ['C89', 'C99', 'C11', 'C18', 'C23'],
    'cpp': ['C++98', 'C++11', 'C++14', 'C++17', 'C++20', 'C++23'],
    'fortran': ['Fortran 77', 'Fortran 90', 'Fortran 95', 'Fortran 2003', 'Fortran 2008', 'Fortran 2018', 'Fortran 2023'],
}

KINDS = '''Identifier ReservedKeyword Integer Real Character String Boolean NullPointer LeftParen RightParen LeftBracket RightBracket
Comma Question Colon Scope Dot Percent Arrow Plus Minus Star Slash Power Concat Remainder LogicalNot BitwiseNot Ampersand Pipe Caret
LogicalAnd LogicalOr LogicalEqv LogicalNeqv FortranDefinedOperator Equal EqualEqual NotEqual Less LessEqual Greater GreaterEqual
ShiftLeft ShiftRight PlusPlus MinusMinus PlusEqual MinusEqual StarEqual SlashEqual RemainderEqual AmpersandEqual PipeEqual CaretEqual
ShiftLeftEqual ShiftRightEqual End'''.split()
NUMBER = {name: number for number, name in enumerate(KINDS)}

# in the order in which the original tries them
SYMBOLS = [('<<=', 'ShiftLeftEqual', 'cf'), ('>>=', 'ShiftRightEqual', 'cf'), ('->', 'Arrow', 'cf'), ('++', 'PlusPlus', 'cf'), ('--', 'MinusMinus', 'cf'),
           ('**', 'Power', 'f'), ('//', 'Concat', 'f'), ('<=', 'LessEqual', 'cf'), ('>=', 'GreaterEqual', 'cf'), ('==', 'EqualEqual', 'cf'),
           ('!=', 'NotEqual', 'c'), ('/=', 'NotEqual', 'f'), ('&&', 'LogicalAnd', 'c'), ('||', 'LogicalOr', 'c'), ('+=', 'PlusEqual', 'c'),
           ('-=', 'MinusEqual', 'c'), ('*=', 'StarEqual', 'c'), ('/=', 'SlashEqual', 'c'), ('%=', 'RemainderEqual', 'c'), ('&=', 'AmpersandEqual', 'c'),
           ('|=', 'PipeEqual', 'c'), ('^=', 'CaretEqual', 'c'), ('<<', 'ShiftLeft', 'c'), ('>>', 'ShiftRight', 'c'), ('::', 'Scope', 'c'),
           ('(', 'LeftParen', 'cf'), (')', 'RightParen', 'cf'), ('[', 'LeftBracket', 'cf'), (']', 'RightBracket', 'cf'), (',', 'Comma', 'cf'),
           ('?', 'Question', 'c'), (':', 'Colon', 'cf'), ('.', 'Dot', 'cf'), ('%', 'Remainder', 'c'), ('%', 'Percent', 'f'), ('+', 'Plus', 'cf'),
           ('-', 'Minus', 'cf'), ('*', 'Star', 'cf'), ('/', 'Slash', 'cf'), ('!', 'LogicalNot', 'c'), ('~', 'BitwiseNot', 'c'), ('&', 'Ampersand', 'c'),
           ('|', 'Pipe', 'c'), ('^', 'Caret', 'c'), ('=', 'Equal', 'cf'), ('<', 'Less', 'cf'), ('>', 'Greater', 'cf')]
DOTTED = {'.true.': 'Boolean', '.false.': 'Boolean', '.not.': 'LogicalNot', '.and.': 'LogicalAnd', '.or.': 'LogicalOr', '.eqv.': 'LogicalEqv',
          '.neqv.': 'LogicalNeqv', '.eq.': 'EqualEqual', '.ne.': 'NotEqual', '.lt.': 'Less', '.le.': 'LessEqual', '.gt.': 'Greater', '.ge.': 'GreaterEqual'}
CPP_WORDS = {'true': 'Boolean', 'false': 'Boolean', 'and': 'LogicalAnd', 'or': 'LogicalOr', 'not': 'LogicalNot', 'bitand': 'Ampersand', 'bitor': 'Pipe',
             'xor': 'Caret', 'compl': 'BitwiseNot', 'not_eq': 'NotEqual', 'and_eq': 'AmpersandEqual', 'or_eq': 'PipeEqual', 'xor_eq': 'CaretEqual'}
C_NUMBER = re.compile(r'(?:(?:(?:\d+\.\d*|\.\d+)(?:[eE][-+]?\d+)?|\d+[eE][-+]?\d+)[fFlL]?|(0[xX][0-9a-fA-F]+|0[bB][01]+|\d+)((?:[uU]?(?:ll|LL|[lLzZ])?|(?:ll|LL|[lLzZ])[uU])))')
FORTRAN_NUMBER = re.compile(r'(?:(\d+\.\d*(?![A-Za-z]*\.)|\.\d+|\d+(?=[eEdD][-+]?\d))(?:[eEdD][-+]?\d+)?|(\d+))(?:_\w+)?')
C_QUOTED = re.compile(r"(?:u8|[uUL])?(?:'(?:[^'\\\n]|\\.[0-9a-fA-F]*)'|\"(?:[^\"\\\n]|\\.)*\")")
FORTRAN_QUOTED = re.compile(r"'(?:[^'\n]|'')*'|\"(?:[^\"\n]|\"\")*\"")


def tokens(language, standard, text):
    """[(kind, word, start, end)], or None if the lexer turns the text down. The standard is a number."""
    fortran, found, at = language == 'fortran', [], 0
    while True:
        while at < len(text) and text[at].isspace():
            at += 1
        if at == len(text):
            return found
        here = text[at:]
        if fortran and here[0] == '!':
            return found
        quoted = (FORTRAN_QUOTED if fortran else C_QUOTED).match(here)
        if quoted:
            kind = 'String' if fortran or quoted[0][-1] == '"' else 'Character'
            prefix = quoted[0].rstrip(quoted[0][-1]).split(quoted[0][-1])[0]
            if prefix in ('u', 'U', 'u8') and not (standard >= 2 if language == 'c' else standard >= 1):
                return None
            taken = quoted[0]
        elif here[0].isdigit() or (here[0] == '.' and here[1:2].isdigit()):
            number = (FORTRAN_NUMBER if fortran else C_NUMBER).match(here)
            if number is None or re.match(r'[\w.]', here[number.end():]) and not (fortran and here[number.end()] == '.') or re.match(r"['\"]", here[number.end():]):
                return None
            whole = number[2 if fortran else 1]
            kind, taken = 'Integer' if whole else 'Real', number[0]
            late = {'c': 1, 'cpp': 1}.get(language, 0)
            if whole and not fortran and 'll' in number[2].lower() and standard < late:
                return None
            if whole and not fortran and number[1][:2].lower() == '0b' and standard < {'c': 4, 'cpp': 2}[language]:
                return None
            if fortran and '_' in taken and standard == 0:
                return None
        elif here[0] == '_' or here[0].isalpha():
            taken = re.match(r'\w+', here)[0]
            kind = 'Identifier'
            if language == 'cpp':
                kind = CPP_WORDS.get(taken, 'Identifier')
            if language == 'c' and standard == 4 and taken in ('true', 'false'):
                kind = 'Boolean'
            if taken == 'nullptr' and (language == 'c' and standard == 4 or language == 'cpp' and standard >= 1):
                kind = 'NullPointer'
        else:
            kind = None
            if fortran and here[0] == '.' and not here.startswith('..') and '.' in here[1:]:
                taken = here[:here.index('.', 1) + 1]
                kind = DOTTED.get(taken.lower(), 'FortranDefinedOperator')
                if kind == 'FortranDefinedOperator' and not re.fullmatch(r'\.[A-Za-z_]\w*\.', taken):
                    return None
            else:
                for taken, name, languages in SYMBOLS:
                    if here.startswith(taken) and ('f' if fortran else 'c') in languages:
                        kind = name
                        break
            if kind is None or kind == 'Percent' and standard == 0:
                return None
        word = ''
        if kind == 'Identifier':
            word = taken.lower() if fortran else taken
            if len(word) > 255 or not all(33 <= ord(letter) <= 126 for letter in word):
                return None
        found.append((NUMBER[kind], word, at, at + len(taken.encode())))
        at += len(taken)


def record(kind, word='', start=0, end=0):
    return struct.pack('<HHQQ', 20 + len(word), kind, start, end) + word.encode()


def head(language, standard, flag, allowance=1000000):
    return struct.pack('<HHBBBI', 11, 261, LANGUAGES[language], standard, flag, allowance)


def row_file(language, standard, flag, found):
    return head(language, standard, flag) + b''.join(record(*token) for token in found)


def name_list(words):
    return b''.join(record(NUMBER['Identifier'], word) for word in words)


class Reader:
    """The proved reader, linked into a small program."""

    def __init__(self):
        self.folder = tempfile.TemporaryDirectory()
        self.program = os.path.join(self.folder.name, 'reader')
        subprocess.run(['gcc', '-O2', '-std=c11', '-I' + os.path.join(ROOT, 'include'), os.path.join(HERE, 'iso_reader.c'), LIBRARY, '-o', self.program], check=True)

    def answers(self, files, lists=None):
        """For each row file: the answer's four numbers, and the tree's if it is accepted. `lists`: a name list for each, by which
        it is read; an empty one: read without."""
        sent = b''.join(struct.pack('<II', len(file), len(names)) + file + names for file, names in zip(files, lists or [b''] * len(files)))
        said = memoryview(subprocess.run([self.program], input=sent, capture_output=True, check=True).stdout).cast('I')
        at, out = 0, []
        for _ in files:
            answer = tuple(said[at:at + 4])
            at += 4
            tree = ()
            if answer[0] == 0:
                tree = tuple(said[at:at + 3 * answer[1]])
                at += 3 * answer[1]
            out.append((answer, tree))
        return out
