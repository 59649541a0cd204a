"""What C++ means by the angles of a real name, for `named` beside this file: its lists, its tree, and a unit by which compilers check them.

Demanglers print an operator `<` or `>` only between operands in parentheses, in parentheses of its own, or behind `operator`. So in a name in which
every `<` stands directly behind a word, and all angles pair as brackets do, with `>>` for two of them, each `<` opens a list and the word before it is
a template's. `parsed` pairs them so, by the brackets alone: no list of names goes in. `unit_line` declares the classes, templates and values that the
name then speaks of, each template with the number and the kinds of arguments that its lists have, and nothing else. By [temp.names] the `<` behind a
name that is a template opens a list and one behind another name does not, so a compiler that takes the line has the lists where `parsed` has them.
"""
import os
import sys

sys.path.insert(0, os.path.join(os.path.dirname(os.path.abspath(__file__)), '..'))
from iso_rows import NUMBER  # noqa: E402

WORD, LESS, GREATER, SHIFT, COMMA, SCOPE, STAR, AMPERSAND, MINUS = (
    NUMBER[kind] for kind in 'Identifier Less Greater ShiftRight Comma Scope Star Ampersand Minus'.split())
LITERALS = {NUMBER[kind] for kind in 'Integer Boolean Character NullPointer'.split()}
BRACKETS = {NUMBER['LeftParen']: (NUMBER['RightParen'], 'G'), NUMBER['LeftBracket']: (NUMBER['RightBracket'], 'B')}
NODES = 'TGBLA'  # by their numbers
KEYWORDS = set('''void bool char wchar_t char8_t char16_t char32_t short int long signed unsigned float double __int128 __float128 _Float128 const volatile
__restrict decltype auto struct class enum union typename noexcept restrict _Complex'''.split())


class NotPaired(Exception):
    """The angles and brackets of a name do not pair, or a `<` has no word before it."""


class NotDeclared(Exception):
    """No declarations were found for a name."""


def parsed(row):
    """[item]: a token's number, or (letter, token, items) of a group, or ('L', token, [items of each argument]). row: (kind, word, start, end)s."""
    levels = [('', None, [])]  # closer, opener, items or arguments; an argument of a list is a level of its own
    for number, (kind, *_) in enumerate(row):
        if kind in BRACKETS:
            levels.append((BRACKETS[kind][0], number, []))
        elif kind == LESS:
            if number == 0 or row[number - 1][0] != WORD:
                raise NotPaired
            levels.append((GREATER, number, [[]]))
        elif kind in (GREATER, SHIFT) or any(kind == closer for closer, _ in BRACKETS.values()):
            for half in (GREATER, GREATER) if kind == SHIFT else (kind,):
                closer, opener, items = levels.pop()
                if closer != half:
                    raise NotPaired
                letter = 'L' if half == GREATER else BRACKETS[row[opener][0]][1]
                inner(levels).append((letter, opener, items))
        elif kind == COMMA and levels[-1][0] == GREATER:
            levels[-1][2].append([])
        else:
            inner(levels).append(number)
    if len(levels) != 1:
        raise NotPaired
    return levels[0][2]


def inner(levels):
    closer, _, items = levels[-1]
    return items[-1] if closer == GREATER else items


def first_token(items):
    return items[0] if isinstance(items[0], int) else items[0][1]


def tree(items):
    """The numbers of the tree's node records. None: a list has an empty argument, which no tree has."""
    out = []
    for item in items:
        if isinstance(item, int):
            out += [NODES.index('T'), item, 1]
            continue
        letter, opener, within = item
        below = []
        for part in within if letter == 'L' else [within]:
            if letter == 'L' and not part:
                return None
            nodes = tree(part)
            if nodes is None:
                return None
            below += [NODES.index('A'), first_token(part), 1 + len(nodes) // 3] + nodes if letter == 'L' else nodes
        out += [NODES.index(letter), opener, 1 + len(below) // 3] + below
    return out


def template_words(row):
    """The words before lists, each once."""
    return list(dict.fromkeys(row[number - 1][1] for number, (kind, *_) in enumerate(row) if kind == LESS and number and row[number - 1][0] == WORD))


# ---- the declarations

class Entity:
    def __init__(self):
        self.members, self.uses, self.roles = {}, [], set()  # the kinds of each list's arguments; what it is used as without a list


def note(entity, items, row, role='type'):
    """Puts what the items speak of into the entity, a namespace; role: what a name at their end is."""
    at = 0
    while at < len(items):
        item = items[at]
        at += 1
        if not isinstance(item, int):
            letter, _, within = item
            cast = letter == 'G' and role == 'value' and at < len(items)
            note(entity, within, row, 'enumeration' if cast else role if letter == 'G' else 'type')
            continue
        if row[item][0] != WORD or row[item][1] in KEYWORDS:
            continue
        here = entity
        while True:
            here = here.members.setdefault(row[item][1], Entity())
            listed = at < len(items) and not isinstance(items[at], int) and items[at][0] == 'L'
            if listed:
                parts = items[at][2]
                here.uses.append([] if parts == [[]] else [argument(entity, part, row) for part in parts])
                at += 1
            scope = at < len(items) and isinstance(items[at], int) and row[items[at]][0] == SCOPE
            member = scope and at + 1 < len(items) and isinstance(items[at + 1], int) and row[items[at + 1]][0] == WORD
            if not member:
                if not listed:
                    here.roles.add('type' if scope else role)  # before `::*` a class
                break
            item, at = items[at + 1], at + 2


def argument(entity, items, row):
    first = items[0]
    value = isinstance(first, int) and row[first][0] in LITERALS | {AMPERSAND, MINUS} or isinstance(first, tuple) and first[0] == 'G' and len(items) > 1
    note(entity, items, row, 'value' if value else 'type')
    return 'auto' if value else 'class'


def declarations(entity, in_namespace=True, without=None):
    """without: a template that is declared as a class."""
    return ' '.join(declaration(name, member, in_namespace, without) for name, member in entity.members.items())


def declaration(name, entity, in_namespace, without):
    if entity.uses and entity is not without:
        if entity.roles:
            raise NotDeclared  # with and without a list
        most, least = max(map(len, entity.uses)), min(map(len, entity.uses))
        parameters = []
        for place in range(max(most, 1)):
            kinds = {use[place] for use in entity.uses if place < len(use)} or {'class'}
            if len(kinds) > 1:
                raise NotDeclared
            kind = kinds.pop()
            parameters.append(kind + ('' if place < least else ' = 0' if kind == 'auto' else ' = int'))
        return f'template<{", ".join(parameters)}> struct {name} {{ {declarations(entity, False, without)} }};'
    if len(entity.roles) > 1 or entity.members and entity.roles & {'value', 'enumeration'}:
        raise NotDeclared
    if 'value' in entity.roles:
        return f'extern int {name};' if in_namespace else f'static int {name};'
    if 'enumeration' in entity.roles:
        return f'enum {name} : long long {{}};'
    if in_namespace and not entity.roles and not entity.uses:
        return f'namespace {name} {{ {declarations(entity, True, without)} }}'
    return f'struct {name} {{ {declarations(entity, False, without)} }};'


def first_template(entity):
    if entity.uses:
        return entity
    return next((found for found in map(first_template, entity.members.values()) if found), None)


def unit_line(number, text, items, row, broken=False):
    """A line that compiles if the name's lists stand where `parsed` has them. broken: one of its templates is none."""
    names = Entity()
    note(names, items, row)
    without = first_template(names) if broken else None
    return f'namespace n{number} {{ {declarations(names, True, without)} using type = {text}; }}'
