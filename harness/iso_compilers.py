"""The compilers at hand, for harness/iso and harness/iso_search: one row alone, or many rows in one unit."""
import os
import re
import shutil
import subprocess
import tempfile

# by language: column, program, the -std of each standard in the order of iso_rows.STANDARDS; None: no option stands for it
C_STD = ['c90', 'c99', 'c11', 'c17', 'c2x']
CPP_STD = ['c++98', 'c++11', 'c++14', 'c++17', 'c++20', 'c++2b']
FORTRAN_STD = [None, None, 'f95', 'f2003', 'f2008', 'f2018', None]
COMPILERS = {
    'c': [('gcc', 'gcc', C_STD), ('clang', 'clang', C_STD), ('clang 22', 'clang-22', C_STD)],
    'cpp': [('g++', 'g++', CPP_STD), ('clang++', 'clang++', CPP_STD), ('clang++ 22', 'clang++-22', CPP_STD)],
    'fortran': [('gfortran', 'gfortran', FORTRAN_STD)],
}
OPTIONS = {
    'gcc': ['-fmax-errors=0', '-fno-diagnostics-show-caret'], 'g++': ['-fmax-errors=0', '-fno-diagnostics-show-caret'],
    # two warnings of clang 22 that -pedantic-errors makes errors, of what the standards allow: `()` in C, `a < b > c`
    'clang': ['-ferror-limit=0', '-fno-caret-diagnostics', '-fno-crash-diagnostics', '-Wno-strict-prototypes', '-Wno-parentheses'],
    'clang++': ['-ferror-limit=0', '-fno-caret-diagnostics', '-fno-crash-diagnostics', '-Wno-parentheses'],
    # without the last, gfortran stops at the first bracket after a name
    'gfortran': ['-fmax-errors=0', '-fno-diagnostics-show-caret', '-fcoarray=single'],
}
SUFFIX = {'c': '.c', 'cpp': '.cpp', 'fortran': '.f90'}


def options(program):
    return OPTIONS[program.split('-')[0]]


def there(program):
    return shutil.which(program) is not None


def version(program):
    """The number in the program's first line, or None if it is not there."""
    if not there(program):
        return None
    line = subprocess.run([program, '--version'], capture_output=True, text=True).stdout.split('\n')[0]
    return re.findall(r'\d+\.\d+\.\d+', line)[-1]


def compile_unit(language, program, std, unit):
    with tempfile.TemporaryDirectory() as folder:  # gfortran writes a module's file beside
        name = 'unit' + SUFFIX[language]
        with open(os.path.join(folder, name), 'w') as file:
            file.write(unit)
        environment = dict(os.environ, LC_ALL='C')
        return subprocess.run([program, f'-std={std}', '-pedantic-errors', '-fsyntax-only'] + options(program) + [name],
                              capture_output=True, env=environment, cwd=folder)


def accepts(language, program, std, unit):
    return compile_unit(language, program, std, unit).returncode == 0


# ---- many rows in one unit

PER_UNIT = {'c': 20000, 'cpp': 20000, 'fortran': 1000}
PER_FUNCTION = 200


def joined(language, preamble, lines):
    """A unit of the rows' lines, and the row of each line. In C and C++ a line is a block; in Fortran a specification part."""
    out, owner = preamble.split('\n'), {}
    if language == 'fortran':
        out.append('contains')
        for number, line in enumerate(lines):
            for part in [f'subroutine s{number}(x)'] + line.split('\n') + ['end subroutine']:
                out.append(part)
                owner[len(out)] = number
        out.append('end module')
    else:
        for number, line in enumerate(lines):
            if number % PER_FUNCTION == 0:
                line = f'void unit{number}(void) {{ ' + line
            if number % PER_FUNCTION == PER_FUNCTION - 1 or number == len(lines) - 1:
                line += ' }'
            out.append(line)
            owner[len(out)] = number
    return '\n'.join(out) + '\n', owner


def refused(language, program, std, preamble, lines):
    """The rows in whose lines the compiler sees an error, and whether it saw one at all."""
    unit, owner = joined(language, preamble, lines)
    done = compile_unit(language, program, std, unit)
    said = done.stderr.decode(errors='replace')
    found = {int(line) for line in re.findall(r'^unit\.\w+:(\d+):(?:\d+:)? (?:fatal )?[Ee]rror:', said, re.M)}
    outside = [line for line in found if line not in owner]
    return {owner[line] for line in found if line in owner}, done.returncode != 0, outside, said


def accepted(language, program, std, preamble, lines, twice=True):
    """The numbers of the lines that the compiler accepts. An error can hide the next one or make one, so the lines without an error are
    compiled again without the others until the unit has none, and, if asked, those with one a second time, the last first."""
    taken = set()
    for start in range(0, len(lines), PER_UNIT[language]):
        part = list(range(start, min(start + PER_UNIT[language], len(lines))))
        bad, _, outside, said = refused(language, program, std, preamble, [lines[number] for number in part])
        good = [number for place, number in enumerate(part) if place not in bad]
        again = [number for place, number in enumerate(part) if place in bad][::-1]
        if twice and again:
            bad, _, _, _ = refused(language, program, std, preamble, [lines[number] for number in again])
            good += [number for place, number in enumerate(again) if place not in bad]
        while good:
            bad, failed, outside, said = refused(language, program, std, preamble, [lines[number] for number in good])
            if not failed:
                break
            if not bad:  # an error that is in no line: halves, down to a line by itself
                bad = set()
                halves = [good[:len(good) // 2], good[len(good) // 2:]] if len(good) > 1 else []
                kept = []
                for half in halves:
                    kept += [half[n] for n in accepted(language, program, std, preamble, [lines[number] for number in half])]
                good = kept
                break
            good = [number for place, number in enumerate(good) if place not in bad]
        taken.update(good)
    return sorted(taken)
