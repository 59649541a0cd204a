"""The sections of docs/DIFFERENCES.md that harness/iso makes from its records: iso.tsv, iso_search.tsv, corpus/shares.tsv."""
import collections
import os
import re

import iso_rows
import iso_rules
import iso_table
from iso_compilers import COMPILERS
from iso_rows import STANDARDS

HERE = os.path.dirname(os.path.abspath(__file__))
DIRECTIONS = {'accept': 'We accept, ISO does not.', 'refuse': 'We refuse, ISO accepts.', 'tree': 'Both accept, other tree.'}
SHORT = {'accept': 'we accept', 'refuse': 'we refuse', 'tree': 'other tree'}
LANGUAGE = {'c': 'C', 'cpp': 'C++', 'fortran': 'Fortran'}


def holds(spec, language):
    """For each standard of the language whether it is meant: `yes`, `no`, `C99+` (from it on), `C++14-` (up to it)."""
    names = STANDARDS[language]
    if spec in ('yes', 'no'):
        return [spec == 'yes'] * len(names)
    at = names.index(spec[:-1])
    return [n >= at if spec[-1] == '+' else n <= at for n in range(len(names))]


def tsv(name):
    path = os.path.join(HERE, name)
    if not os.path.exists(path):
        return []
    with open(path) as file:
        return [line.rstrip('\n').split('\t') for line in file]


def code(text):
    if len(text) > 100:
        for piece, count in ((r'(\()\1{9,}', 65), (r'(\))\1{9,}', 65)):
            text = re.sub(piece, lambda found: f'{found[1]}…{found[1]}', text)
        text = re.sub(r'((?:\w+<){3})(?:\w+<)+', r'\1…', text)
        text = re.sub(r'( ?>){10,}', lambda found: found[0][:6] + '…', text)
        text = re.sub(r'(\w)\1{20,}', r'\1\1\1…', text)
    text = text.replace('|', '\\|')
    return f'`` {text} ``' if '`' in text else f'`{text}`'


def short(standard):
    return standard.replace('Fortran ', '')


def span(places, language):
    """Some standards of a language, in words."""
    names = STANDARDS[language]
    places = sorted(places)
    if not places:
        return 'none'
    if len(places) == len(names):
        return f'all {LANGUAGE[language]}' if language != 'fortran' else 'all Fortran'
    if places == list(range(places[0], places[-1] + 1)):
        if places[-1] == len(names) - 1:
            return f'{names[places[0]]} on' if len(places) > 1 else names[places[0]]
        if places[0] == 0:
            return f'to {names[places[-1]]}' if len(places) > 1 else names[places[0]]
        return f'{names[places[0]]} to {short(names[places[-1]])}' if len(places) > 1 else names[places[0]]
    return ', '.join(names[n] for n in places)


def told(answers, language, words):
    """Answers by standard, in words: one if all are the same, else runs of standards."""
    known = [(n, words(x)) for n, x in enumerate(answers) if x != '-']
    if not known:
        return 'no option'
    runs = []
    for n, word in known:
        if runs and runs[-1][0] == word:
            runs[-1][1].append(n)
        else:
            runs.append((word, [n]))
    if len(runs) == 1:
        return runs[0][0]
    names = [short(name) for name in STANDARDS[language]]
    out = []
    for place, (word, those) in enumerate(runs):
        first, last = names[those[0]], names[those[-1]]
        out.append(f'{word} {first}' if first == last else f'{word} from {first}' if place == len(runs) - 1 else f'{word} to {last}' if place == 0 else f'{word} {first} to {last}')
    return ', '.join(out)


def here_word(answer):
    return 'accepted' if answer == 'ok' else 'no such token' if answer == 'lexer' else answer.replace('.', ', detail ')


def differing(entry, row, line):
    """The standards in which reader and ISO differ on a row."""
    if entry['direction'] == 'tree':
        return [n for n, (x, y) in enumerate(zip(line[5].split(' '), line[7].split(' '))) if x == 'ok' and y == 'y']
    return [n for n, (x, y) in enumerate(zip(line[5].split(' '), line[7].split(' '))) if x != '-' and (x == 'ok') != (y == 'y')]


def length(language, text):
    found = iso_rows.tokens(language, len(STANDARDS[language]) - 1, text)
    return len(re.findall(r'\w+|[^\w\s]', text)) if found is None else len(found)


def table_of(record):
    rows = [(entry, row) for entry in iso_table.ENTRIES for row in entry['rows']]
    lines = [line for line in record if line[0] not in ('versions', 'words', 'rule')]
    out = collections.defaultdict(list)
    for (entry, row), line in zip(rows, lines):
        out[entry['id']].append((row, line))
    for those in out.values():
        those.sort(key=lambda pair: 'c cpp fortran'.split().index(pair[0]['language']))
    return out


def smallest(entry, table):
    """The smallest row of an entry: the search's, if it met the entry, else the shortest of its rows. And whether the search found it."""
    found = [line for line in tsv('iso_search.tsv') if line[0] == 'entry' and line[1] == entry['id']]
    best = min(table[entry['id']], key=lambda pair: (length(pair[0]['language'], pair[0]['text']), len(pair[0]['text'])))[0]
    if found and int(found[0][3]) < length(best['language'], best['text']):
        return found[0][4], True
    if found and int(found[0][3]) == length(best['language'], best['text']):
        return best['text'], True
    return best['text'], False


def entry_standards(entry, table):
    places = collections.OrderedDict()
    for row, line in table[entry['id']]:
        places.setdefault(row['language'], set()).update(differing(entry, row, line))
    return '; '.join(span(those, language) for language, those in places.items())


def entries_text(record):
    table, out = table_of(record), []
    for group in iso_table.GROUPS:
        out += [f'### {group}', '']
        for entry in iso_table.ENTRIES:
            if entry['group'] != group:
                continue
            out.append(f'**{entry["id"]}. {entry["title"]}** {DIRECTIONS[entry["direction"]]} {entry["rule"]} ISO: {entry["iso"]}')
            if entry['note']:
                out[-1] += f' Compilers: {entry["note"]}'
            if entry['instead']:
                out[-1] += f' Instead: {entry["instead"]}.'
            out.append('')
            languages = list(dict.fromkeys(row['language'] for row, _ in table[entry['id']]))
            columns = [[name for name, _, _ in COMPILERS[language]] for language in languages]
            names = [' or '.join(dict.fromkeys(column)) for column in zip(*columns)]
            out += ['| Row | Differs in | Here | ISO | ' + ' | '.join(names) + ' |', '|' + '---|' * (4 + len(names))]
            for row, line in table[entry['id']]:
                language = row['language']
                place = iso_table.UNITS[row['unit']][1]
                text = code(row['text']) + (f' {place}' if place else '') + (', flag 0' if row['flag'] == 0 else '')
                here, iso = told(line[5].split(' '), language, here_word), told(line[7].split(' '), language, {'y': 'accepts', 'n': 'rejects'}.get)
                if row['lists'] is not None:
                    lists = [x for x in line[6].split(' ') if x]
                    here += ', ' + (f'{len(lists)} lists' if len(lists) > 9 else 'lists at ' + ', '.join(lists) if lists else 'no list')
                    iso += ', ' + (f'{len(row["lists"])} lists' if len(row['lists']) > 9 else 'lists at ' + ', '.join(map(str, row['lists'])) if row['lists'] else 'no list')
                said = [told(answers.split(' '), language, {'a': 'accepts', 'r': 'rejects'}.get) for answers in line[8:]]
                out.append(f'| {text} | {span(differing(entry, row, line), language)} | {here} | {iso} | ' + ' | '.join(said) + ' |')
            out.append('')
    return '\n'.join(out)


def index_text(record):
    table = table_of(record)
    out = ['## Index', '', 'The letters: ' + '; '.join(f'{letter}, {what}' for letter, what in iso_table.LETTERS) + '.', iso_table.INDEX_TEXT.strip(), '',
           '| Entry | Rule | Direction | Smallest row | Standards |', '|---|---|---|---|---|']
    order = {letter: n for n, (letter, _) in enumerate(iso_table.LETTERS)}
    for entry in sorted(iso_table.ENTRIES, key=lambda x: (order[x['id'][0]], int(x['id'][1:]))):
        row, searched = smallest(entry, table)
        out.append(f'| {entry["id"]} | {entry["title"].rstrip(".")} | {SHORT[entry["direction"]]} | {code(row)}{" *" if searched else ""} | {entry_standards(entry, table)} |')
    return '\n'.join(out) + '\n'


def refused_text():
    shares = collections.Counter()
    for entry, language, _, _, closed, total in tsv('corpus/shares.tsv'):
        shares[entry] += 100 * int(closed) / int(total)
    out = ['## Valid names that are refused', '', iso_table.REFUSED_TEXT.strip(), '', '| Share | Refused | Write instead | Entry |', '|---|---|---|---|']
    for entry, language, what, row, instead, other in sorted(iso_table.REFUSED, key=lambda line: -shares[line[0]]):
        share = shares[entry]
        told = f'{share:.1f}%' if share >= 0.05 else f'{share:.2f}%'
        out.append(f'| {f"{told} of {LANGUAGE[language]}" if share else "not in the corpus"} | {what}: {code(row)} | {instead}: {code(other)} | {entry} |')
    return '\n'.join(out) + '\n'


def words_text(record):
    out = ['### All combinations of up to three builtin type words', '', iso_table.WORDS_TEXT.strip(), '',
           '| Standard | Rows | Accepted here | ISO accepts | Only here | Only ISO | gcc or g++ differs from ISO | clang or clang++ differs from ISO |', '|---|---|---|---|---|---|---|---|']
    out += ['| ' + ' | '.join(line[1:]) + ' |' for line in record if line[0] == 'words']
    out += ['', '| Rule | Direction | Rows, of all standards | Standards | Examples |', '|---|---|---|---|---|']
    for line in record:
        if line[0] == 'rule':
            out.append(f'| {line[1]} | {SHORT[line[2]]} | {line[3]} | {line[4]} | ' + ', '.join(code(words) for words in line[5].split('|')) + ' |')
    return '\n'.join(out) + '\n'


def search_text():
    lines = tsv('iso_search.tsv')
    out = ['### The search', '', iso_table.SEARCH_TEXT.strip() + ' ' + '; '.join(why for why, *_ in iso_rules.ASIDES) + '.', '',
           '| Search | Alphabet, between what | Up to | Rows | Rows to the reader | Places | Differ | Set aside | Entries |', '|---|---|---|---|---|---|---|---|---|']
    total = [0, 0, 0, 0]
    for line in lines:
        if line[0] == 'search':
            _, name, letters, around, longest, rows, seen, places, differ, alone, entries = line
            between = f', {code(around)}' if around else ''
            out.append(f'| {name} | {code(letters)}{between} | {longest} | {int(rows):,} | {int(seen):,} | {places} | {int(differ):,} | {int(alone):,} | {entries} |')
            total = [old + int(new) for old, new in zip(total, (rows, seen, differ, alone))]
    out.append(f'| All | | | {total[0]:,} | {total[1]:,} | | {total[2]:,} | {total[3]:,} | |')
    return '\n'.join(out) + '\n'


def iso_text(record):
    entries = collections.Counter(entry['direction'] for entry in iso_table.ENTRIES)
    versions = [line for line in record if line[0] == 'versions'][0][1:]
    rows = sum(len(entry['rows']) for entry in iso_table.ENTRIES)
    figures = (f'{len(iso_table.ENTRIES)} entries: {entries["accept"]} where we accept and ISO does not, {entries["refuse"]} where we refuse and ISO accepts, '
               f'{entries["tree"]} where both accept with another tree; {rows} rows, each in every standard of its language that it can be tried in. Compilers: {", ".join(versions)}.')
    return '\n\n'.join(['## From ISO C, C++ and Fortran', iso_table.INTRODUCTION.strip(), figures, entries_text(record).rstrip('\n'), words_text(record).rstrip('\n'),
                        search_text().rstrip('\n'), '### Not compared', iso_table.NOT_COMPARED.strip()]) + '\n'


def renewed(document, record):
    """The document with its made sections made again."""
    parts = re.split(r'^(?=## )', document, flags=re.M)
    made = {'## Valid names that are refused': refused_text, '## Index': lambda: index_text(record), '## From ISO C, C++ and Fortran': lambda: iso_text(record)}
    out = []
    for part in parts:
        heading = part.split('\n')[0]
        out.append(made[heading]().rstrip('\n') + '\n\n' if heading in made else part)
    return ''.join(out).rstrip('\n') + '\n'
