"""Writes what the gate's programs read and what they must print (crates/PROGRAM/stdin, args, data/, stdout), and how many files of
each refusal number there are (tests/PAIRS.md).

Run it from the repository's root: python3 tests/make.py
With --list it writes nothing, and prints what decides each file that Check is asked for.
"""

import sys
from collections import Counter
from signal import SIG_DFL, SIGPIPE, signal

sys.dont_write_bytecode = True  # before the modules beside this one: a run writes its own files and no other

from additions import write_additions
from calls import write_calls
from cases import good_cases, hard_cases
from desk import write_desk, write_tries
from pairs import pairs
from runs import TESTS, name_of, vectors
from two_faults import two_faults

NUMBERS = range(1, 10)
KEPT = {f'pair-05-unit-type-954-{name}' for name in ('level', 'buffer-1', 'level-grown', 'buffer-1-grown')}


def kept(name):
    """Four files have the names that they had before 953 was a unit type; now it is 954 that they have."""
    return name.replace('954', '953') if name in KEPT else name


def numbered(prefix, makers):
    """(place, name, bytes, line) by rising numbers."""
    rows = [(number, place, kept(name_of(prefix, f'{number:02}', place)), data, f'refused {number} at {position}')
            for number, place, data, position in makers]
    return [row[1:] for row in sorted(rows, key=lambda row: row[0])]


def listed(prefix, makers):
    return [(place, name_of(prefix, place), data, line) for place, data, line in makers]


def made():
    """(what decides it, name, bytes, line) of every file that Check is asked for, by its kind."""
    return {'pairs': numbered('pair', pairs()), 'two faults': numbered('two', two_faults()),
            'hard cases': listed('hard', hard_cases()), 'accepted': listed('good', good_cases()),
            'vectors': [('a vector', *row) for row in vectors()]}


def files_of(kinds):
    """(name, bytes, line); no name twice."""
    files = [row[1:] for rows in kinds.values() for row in rows]
    names = Counter(name for name, _, _ in files)
    assert max(names.values()) == 1, names.most_common(3)
    return files


def table(head, rows):
    lines = ['| ' + ' | '.join(row) + ' |' for row in (head, *rows)]
    return [lines[0], '|' + '---|' * len(head), *lines[1:], '']


def refusals(rows):
    return Counter(int(line.split()[1]) for *_, line in rows if line.startswith('refused'))


def write_summary(kinds):
    counts = {kind: refusals(rows) for kind, rows in kinds.items()}
    by_number = [[str(number), *(str(count[number]) for count in counts.values())] for number in NUMBERS]
    by_number += [['accepted', *(str(len(rows) - counts[kind].total()) for kind, rows in kinds.items())]]
    text = ['# Files by refusal number', '', 'Made by `python3 tests/make.py`; do not edit.', '',
            *table(['number', *kinds], by_number),
            'A name says what decides the file: `pair-NN-..` has one fault, of number NN, at the place that it says; `two-NN-..` '
            'two, of which the first decides; `hard-..` is a hard case; `good-..` says what is in an accepted file; `..-grown` has '
            'the same fault in a file with additions of demand 3, and `..-953..` is a file of that model.', '',
            '    python3 tests/make.py --list     # every file but the vectors: what decides it, its name, what Check answers', '']
    (TESTS / 'PAIRS.md').write_text('\n'.join(text))


def print_list(kinds):
    signal(SIGPIPE, SIG_DFL)  # `| head` ends it without a word
    for kind, rows in kinds.items():
        if kind != 'vectors':
            print(f'\n## {kind}\n', *table(['what decides it', 'file', 'expected'], [[row[0], row[1], row[3]] for row in rows]),
                  sep='\n', end='')


def main():
    kinds = made()
    if sys.argv[1:] == ['--list']:
        return print_list(kinds)
    write_calls(files_of(kinds))
    write_additions()
    write_desk()
    write_tries()
    write_summary(kinds)


if __name__ == '__main__':
    main()
