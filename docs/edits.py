"""Writes docs/EDITS.md: each must-fail edit, what it changes, and the first error that it got.

Run it from the repository's root over what the edits' run printed: rt must-fail > edits.log 2>&1; python3 docs/edits.py edits.log
"""

import re
import sys
from collections import Counter
from pathlib import Path

ROOT = Path(__file__).resolve().parent.parent
KINDS = {'src': 'code', 'specs': 'definition', 'proofs': 'law'}
FALSE = 'the facts known there allow values'


def fields(edit):
    """What an edit is for, the file that it changes, and the old and the new text."""
    lines = edit.read_text().splitlines()
    told = {key: line[len(key) + 2:].strip() for line in lines for key in ('file', 'old', 'new') if line.startswith(f'{key}: ')}
    return lines[0].lstrip('# '), told['file'], told['old'], told['new']


def refusals(logs):
    """What `rt must-fail` said of each edit that it saw refused, by crate and name; a later line counts."""
    said = {}
    for log in logs:
        for line in Path(log).read_text().splitlines():
            found = re.match(r'(?:rt: )?must-fail (\w+)/(\S+)\.edit: refused, as it must be(?: \(.*?\))?: (.*)', line)
            if found:
                said[found[1], found[2]] = found[3]
    return said


def told(line):
    """Where the first error stands, of which goal or law it is, and what it says as far as `rt` prints it."""
    place = re.search(r'((?:src|specs|proofs)/[^:]*):\d+', line)[1]
    if 'it is not proved that' in line:
        says = re.search(r'it is not proved that [^(;]*', line)[0].strip()
        goal = re.search(r'\(`([^`]*)`?', line)
        return place, goal[1] if goal else '', says + (', and ' + FALSE + ' at which it is false' if FALSE in line else '')
    name = re.search(r'error: `([^`]*)`: ', line)
    says = re.sub(r'\s+', ' ', line.split('error: ', 1)[-1])
    says = re.sub(r'^`[^`]*`: ', '', says).rsplit(' ', 1)[0] + ' ..'
    return place, name[1] if name else '', says + ('`' if says.count('`') % 2 else '')


def main():
    said = refusals(sys.argv[1:])
    crates = [line.split(':')[0].split()[0] for line in (ROOT / 'crates.txt').read_text().splitlines() if re.match(r'\w+.*:', line)]
    parts, kinds, missing = [], Counter(), []
    for crate in crates:
        edits = sorted((ROOT / 'crates' / crate / 'must-fail').glob('*.edit'))
        if not edits:
            continue
        parts += [f'## {crate}', '']
        for edit in edits:
            title, file, old, new = fields(edit)
            kind = KINDS[file.split('/')[0]]
            kinds[kind] += 1
            parts += [f'- **{edit.stem}** ({kind}, `{file}`): {title}.', f'  `{old}` becomes `{new}`.']
            if (crate, edit.stem) in said:
                place, name, says = told(said[crate, edit.stem])
                parts.append(f'  {place}, `{name}`: {says}')
            else:
                missing.append(f'{crate}/{edit.stem}')
        parts.append('')
    total = sum(kinds.values())
    head = ['# Must-fail edits', '', 'Made by `python3 docs/edits.py` from what `rt must-fail` prints; do not edit.', '',
            f'{total} edits, each of one line, that the gate demands to be refused: {kinds["code"]} change the code and make a wrong',
            f'program of it, {kinds["definition"]} change a definition, and {kinds["law"]} the statement of a law. After each stands the first error that it got,',
            'as far as `rt must-fail` prints it, and the goal or the law that it is of; "expected" and "found" are two sides that no longer agree.', '']
    (ROOT / 'docs' / 'EDITS.md').write_text('\n'.join(head + parts).rstrip() + '\n')
    for edit in missing:
        print(f'no refusal was read of {edit}')


if __name__ == '__main__':
    main()
