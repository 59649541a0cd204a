"""Finds the single changes that `harness/mutations` makes of a Rust source file.

A change is a set of edits of the text of one or more functions. The source is taken apart into tokens only: enough for the
layout that rustfmt gives, and no more.
"""
import bisect
import re

TOKEN = re.compile(r'''
    (?P<comment>//[^\n]*)
  | (?P<string>"(?:\\.|[^"\\])*")
  | (?P<char>'(?:\\.|[^'\\])')
  | (?P<lifetime>'[A-Za-z_]\w*)
  | (?P<number>\d[\d_]*(?:usize|u8|u16|u32|u64)?)
  | (?P<name>[A-Za-z_]\w*)
  | (?P<sign>\.\.=|<<=|>>=|::|->|=>|==|!=|<=|>=|&&|\|\||\+=|-=|\.\.|<<|>>|[^\s\w])
''', re.X)
CLOSER = {'(': ')', '[': ']', '{': '}'}
OPENER = {closer: opener for opener, closer in CLOSER.items()}
KEYWORDS = set('let return if match while for loop continue break else use const fn pub impl mod struct enum'.split())
COMPARED = {'<': '<=', '<=': '<', '>': '>=', '>=': '>', '==': '!=', '!=': '=='}
# What a name becomes where it is called.
CALLED = {
    'any': 'all', 'all': 'any', 'first': 'last', 'last': 'first', 'is_none': 'is_some', 'is_some': 'is_none',
    'get_or_insert': 'insert', 'position': 'rposition', 'from_le_bytes': 'from_be_bytes', 'eq_ignore_ascii_case': 'eq',
    'to_ascii_lowercase': 'to_owned',
}


class Token:
    def __init__(self, kind, text, start):
        self.kind, self.text, self.start, self.end = kind, text, start, start + len(text)


class Function:
    """A function's name, its parameters' names, and where its parts stand among the tokens."""

    def __init__(self, source, at, brace, end, parameters, in_trait):
        self.source, self.at, self.brace, self.end = source, at, brace, end
        self.name, self.parameters, self.in_trait = source.tokens[at + 1].text, parameters, in_trait
        self.first = brace + 1

    def body(self):
        """The tokens that may be changed."""
        return range(self.first, self.end)


class Source:
    def __init__(self, name, text):
        self.name, self.text = name, text
        self.tokens = [Token(m.lastgroup, m.group(), m.start()) for m in TOKEN.finditer(text) if m.lastgroup != 'comment']
        self.partner = self.pairs()
        self.lines = [m.start() for m in re.finditer('^', text, re.M)]
        self.functions = list(self.find_functions())

    def pairs(self):
        partner, stack = {}, []
        for at, token in enumerate(self.tokens):
            if token.kind == 'sign' and token.text in CLOSER:
                stack.append(at)
            elif token.kind == 'sign' and token.text in OPENER:
                opener = stack.pop()
                partner[opener], partner[at] = at, opener
        return partner

    def line(self, offset):
        return bisect.bisect_right(self.lines, offset)

    def said(self, at):
        return self.tokens[at].text if 0 <= at < len(self.tokens) else ''

    def is_sign(self, at, text):
        return 0 <= at < len(self.tokens) and self.tokens[at].kind == 'sign' and self.tokens[at].text == text

    def span(self, first, last):
        """The text of tokens from `first` to `last`, both included, as an edit's place."""
        return self.tokens[first].start, self.tokens[last].end

    def trait_bodies(self):
        """Where traits are declared or implemented: no function can be added there."""
        for at, token in enumerate(self.tokens):
            if token.text in ('impl', 'trait') and self.said(at - 1) in ('', ';', '}', ']', 'pub', '{'):
                brace = next(i for i in range(at, len(self.tokens)) if self.is_sign(i, '{'))
                if token.text == 'trait' or any(self.tokens[i].text == 'for' for i in range(at, brace)):
                    yield range(brace, self.partner[brace])

    def find_functions(self):
        traits = list(self.trait_bodies())
        for at, token in enumerate(self.tokens):
            if token.text != 'fn' or self.tokens[at + 1].kind != 'name':
                continue
            opener = next(i for i in range(at, len(self.tokens)) if self.is_sign(i, '('))
            brace = self.partner[opener] + 1
            while self.said(brace) not in ('{', ';'):
                brace = self.partner[brace] + 1 if self.said(brace) in CLOSER else brace + 1
            if self.said(brace) == ';':
                continue
            in_trait = any(at in body for body in traits)
            yield Function(self, at, brace, self.partner[brace], self.parameters(opener), in_trait)

    def parameters(self, opener):
        """The parameters' names; types may hold commas between angles."""
        names, angles, fresh, at = [], 0, True, opener + 1
        while at < self.partner[opener]:
            text = self.said(at)
            if fresh and self.tokens[at].kind == 'name' and text != 'mut':
                names.append(text)
                fresh = False
            angles += (text == '<') - (text == '>')
            fresh = fresh or (text == ',' and angles == 0)
            at = self.partner[at] + 1 if text in CLOSER else at + 1
        return names


# ---- changes of one place

def literals(source, at):
    token = source.tokens[at]
    if token.kind == 'number' and not source.is_sign(at - 1, '.'):
        digits, suffix = re.fullmatch(r'([\d_]+?)(u\w+)?', token.text).groups()
        value = int(digits.replace('_', ''))
        for other in [value + 1] + [value - 1] * (value > 0):
            yield [(token.start, token.end, f'{other}{suffix or ""}')]
    elif token.text in ('true', 'false'):
        yield [(token.start, token.end, 'false' if token.text == 'true' else 'true')]
    elif token.kind == 'string' and token.text != '""' and ' ' not in token.text:
        yield [(token.start, token.end, token.text[:-1] + '~"')]


def comparisons(source, at):
    token = source.tokens[at]
    spaced = source.text[token.start - 1].isspace() and source.text[token.end].isspace()
    if token.kind == 'sign' and token.text in COMPARED and spaced:
        yield [(token.start, token.end, COMPARED[token.text])]


def negations(source, at):
    is_macro = source.tokens[at - 1].kind == 'name' and source.said(at - 1) not in KEYWORDS
    if source.is_sign(at, '!') and not is_macro:
        yield [(*source.span(at, at), '')]


def calls(source, at):
    token = source.tokens[at]
    is_other = token.text in ('any', 'all') and not source.is_sign(at + 2, '|')
    if token.text in CALLED and not is_other and (source.is_sign(at - 1, '.') or source.is_sign(at - 1, '::')):
        yield [(token.start, token.end, CALLED[token.text])]


def operand_ends(source, at, stops):
    """The first token of the operand left of an operator, and the last of the one right of it."""
    left = at
    while source.said(left - 1) not in stops and source.said(left - 1) not in CLOSER:
        left = source.partner[left - 1] if source.said(left - 1) in OPENER else left - 1
    right = at
    while source.said(right + 1) not in stops and source.said(right + 1) not in OPENER:
        right = source.partner[right + 1] if source.said(right + 1) in ('(', '[') else right + 1
    return left, right


BOUNDS = {',', ';', '=', '=>', 'if', 'while', 'return', 'match', '{', '}', '|', 'let', 'else', '||'}


def operands(source, at):
    """Each operand of `&&` and `||` dropped: it becomes what changes nothing there."""
    text = source.said(at)
    if not (source.is_sign(at, '&&') or source.is_sign(at, '||')) or source.said(at - 1) in ('(', ',', '=', '{', ';'):
        return
    left, right = operand_ends(source, at, BOUNDS | ({'&&'} if text == '&&' else set()))
    neutral = 'true' if text == '&&' else 'false'
    yield [(*source.span(left, at - 1), neutral)]
    yield [(*source.span(at + 1, right), neutral)]
    yield from early_exits(source, left, at, right)


def early_exits(source, left, at, right):
    """Checks count steps: their operands exchanged, or both of them run."""
    first, second = (source.text[slice(*source.span(*ends))] for ends in ((left, at - 1), (at + 1, right)))
    place, operator = source.span(left, right), source.said(at)
    if 'validate_' in first + second:
        yield [(*place, f'{second} {operator} {first}')]
    if 'validate_' in second:
        yield [(*place, f'({first}) {operator[0]} ({second})')]


def conditions(source, at):
    """A `matches!`, the condition of an `if`, a guard: always, never."""
    if source.said(at) == 'matches' and source.is_sign(at + 1, '!'):
        place = source.span(at, source.partner[at + 2])
    elif source.said(at) == 'if' and source.said(at + 1) != 'let':
        end = at + 1
        while source.said(end) not in ('{', '=>', ')'):
            end = source.partner[end] + 1 if source.said(end) in CLOSER else end + 1
        place = source.span(at + 1, end - 1)
    else:
        return
    for value in ('true', 'false'):
        yield [(*place, value)]


def statements(source, at):
    """A statement that is no declaration and no jump, left out. `x += 1` is left out by `x += 0`."""
    if source.said(at - 1) not in (';', '{', '}') or source.said(at) in KEYWORDS | {'}', ')', ',', ';', '.'}:
        return
    end = at
    while source.said(end) not in (';', '}', ',', '=>'):
        end = source.partner[end] + 1 if source.said(end) in CLOSER else end + 1
    if source.is_sign(end, ';') and not (source.said(end - 2) in ('+=', '-=') and source.said(end - 1) == '1'):
        yield [(*source.span(at, end), '')]


# ---- changes of alternatives

def arms(source, at):
    """The arms of a match, as places of their `=>` and of the first token of their pattern."""
    brace = at + 1
    while not source.is_sign(brace, '{'):
        brace = source.partner[brace] + 1 if source.said(brace) in ('(', '[') else brace + 1
    end, start = source.partner[brace], brace + 1
    while start < end:
        arrow = start
        while not source.is_sign(arrow, '=>'):
            arrow = source.partner[arrow] + 1 if source.said(arrow) in CLOSER else arrow + 1
        yield start, arrow
        after = arrow + 1
        if source.is_sign(after, '{'):
            after = source.partner[after] + 1
        else:
            while after < end and not source.is_sign(after, ','):
                after = source.partner[after] + 1 if source.said(after) in CLOSER else after + 1
        start = after + 1 if source.is_sign(after, ',') else after


def dropped_arms(source, at):
    """Each arm without a guard before a last `_`; a guard is a condition."""
    if source.said(at) != 'match' or source.tokens[at].kind != 'name':
        return
    found = list(arms(source, at))
    if source.said(found[-1][0]) != '_':
        return
    for start, arrow in found[:-1]:
        if not any(source.said(i) == 'if' for i in range(start, arrow)):
            place = source.tokens[arrow].start
            yield [(place, place, 'if false ')]


def wildcard_needed(source, at):
    """The edit of the last arm that keeps the match around a pattern exhaustive, if it has no `_`; `None` in the last arm."""
    for match in range(at, -1, -1):
        if source.said(match) != 'match' or source.tokens[match].kind != 'name':
            continue
        found = list(arms(source, match))
        if any(start <= at < arrow for start, arrow in found):
            start, arrow = found[-1]
            if source.said(start) == '_':
                return []
            return None if start <= at < arrow else [(*source.span(start, arrow - 1), '_')]
    return []


PATTERN_BOUNDS = {',', '=>', 'if', '=', ';', '{', '}'}


def alternatives(source, at):
    """One alternative of `A | B | C` dropped; the first `|` speaks for all. Words are changed instead, by `literals`."""
    if not source.is_sign(at, '|') or source.said(at - 1) in ('(', ',', '=', 'move'):
        return
    first, last = operand_ends(source, at, PATTERN_BOUNDS)
    bars = [i for i in range(first, last + 1) if source.is_sign(i, '|') and depth_zero(source, first, i)]
    starts, ends = [first] + [bar + 1 for bar in bars], [bar - 1 for bar in bars] + [last]
    kept = wildcard_needed(source, first)
    if bars[0] != at or kept is None:
        return
    for number, (start, end) in enumerate(zip(starts, ends)):
        if source.tokens[start].kind == 'string':
            continue
        if number == 0:
            place = source.tokens[start].start, source.tokens[starts[1]].start
        else:
            place = source.tokens[ends[number - 1]].end, source.tokens[end].end
        yield [(*place, '')] + kept


def depth_zero(source, first, at):
    while first < at:
        first = source.partner[first] + 1 if source.said(first) in CLOSER else first + 1
    return first == at


def leaving(source, at):
    """The last token of a statement that begins here and may leave the function; `None` if none does."""
    if source.said(at - 1) not in (';', '{', '}') or source.said(at) in KEYWORDS - {'if'} | {'}', ';'}:
        return None
    end = at
    while source.said(end) not in (';', '{', '}', ',', '=>'):
        end = source.partner[end] + 1 if source.said(end) in ('(', '[') else end + 1
    if source.said(at) == 'if' and source.is_sign(end, '{'):
        end = source.partner[end]
        end = None if source.said(end + 1) == 'else' else end
    elif not source.is_sign(end, ';'):
        end = None
    leaves = end and any(source.said(i) in ('return', '?') for i in range(at, end))
    return end if leaves else None


def neighbours(source, at):
    """Two statements that may leave the function, one after the other, exchanged; those that only say `false` are alike."""
    end = leaving(source, at)
    after = leaving(source, end + 1) if end else None
    if not after:
        return
    texts = [source.text[slice(*source.span(first, last))] for first, last in ((at, end), (end + 1, after))]
    if not all(re.search(r'\{\s*return false;\s*\}$', text) for text in texts):
        yield [(*source.span(at, after), f'{texts[1]} {texts[0]}')]


OPERATORS = [literals, comparisons, negations, calls, operands, conditions, statements, dropped_arms, alternatives, neighbours]


def changes_of(function):
    """The changes of a function, each a list of edits, none twice."""
    source, seen = function.source, set()
    for at in function.body():
        for operator in OPERATORS:
            for edits in operator(source, at):
                key = tuple(edits)
                if key not in seen and all(source.text[start:end] != new for start, end, new in edits):
                    seen.add(key)
                    yield edits
