"""What the desk is run on in the gate, and what it must say and write: the programs `desk` and `test_desk`.

Files, sheets and slim copies are those of vectors; the lines are written out here.
"""

from shutil import rmtree

from runs import CRATES, vector

LABEL = 'Order 17'

GOOD = ('ok-level-f1-stat-1', 'ok-octave-f2-1', 'ok-third-f3-3', 'ok-buffer-f1-1', 'ok-buffer-f2-4', 'ok-buffer-f3-1-grown')
# a vector that is refused by each number, and the number in plain words
REFUSED = {'no-01-odd-length': 'the number of bytes is odd, or over 65,536',
           'no-02-raw-contents-pass-the-last-word': 'the file ends too early',
           'no-03-length-below-the-table-0f': 'a block is shorter than its table, or its length or title is wrong',
           'no-04-02-after-start': 'a block is missing, or out of order',
           'no-05-unit-type': 'the meter is neither a 945 nor a 953',
           'no-06-word-1-of-07': 'a block has another layout than its table',
           'no-07-05-sub-block-2-id': 'a profile record has a wrong id or length',
           'no-08-04-filter': 'a value is not one that its table allows',
           'no-09-word-after-the-end-marker': 'something stands behind the end marker'}
# one too long for a folder's entry, one for any path, and one with bytes that are not printed
LONG, LONGER, ODD = 'n' * 300 + '.svn', 'm' * 5000 + '.svn', 'odd\x01\x1f\x7f.svn'
OLDER = b'unit=945\nan older sheet\n'
# what stands for the device and inode of a target where there is none
NONE = '-' * 40


def sheet(name):
    """The sheet of a vector, with our label where its title is empty."""
    text, label = vector(name, 'sheet'), vector(name, 'label')
    if vector(name, 'title') != label:
        return text
    return text.replace(b'title=' + label + b'\n', f'title={LABEL}\n'.encode('ascii'))


def doubt(content):
    """What is said beside a refusal of a file that does not begin as a meter file does."""
    return '' if content[:1] == b'\x01' else '; this may be no meter file' if content else '; the file is empty'


def refusal(name):
    _, number, _, at = vector(name, 'check').decode('ascii').split()
    return f'refused {number} at word {at}: {REFUSED[name]}{doubt(vector(name, "svn"))}'


def printed(name):
    """A name as a line has it; of one that no file can have, its front."""
    return ''.join('?' if c < ' ' or c == '\x7f' else c for c in (name[:60] if name == LONGER else name))


def files():
    """The files that a run finds, by name; a pipe cannot be stored, so only its letter says that one is there."""
    hall, cut = vector(GOOD[0], 'svn'), list(REFUSED)[1]
    found = {f'{name}.svn': vector(name, 'svn') for name in (*GOOD, *REFUSED)}
    found |= {f'{name}.svn': hall for name in ('shut', 'locked/hall', 'taken', 'noted', 'hidden', 'blocked', 'both')}
    found |= {'long.svn': bytes(65538), 'text.svn': b'text', 'empty.svn': b'', 'folder/kept': b'no meter file\n'}
    found |= {f'taken.svn{end}/kept': b'in its place\n' for end in ('.csv', '.slim')}
    found |= {f'{name}.svn{end}': b'unit: some notes\n' for name in ('noted', 'hidden') for end in ('.csv', '.slim')}
    found |= {'both.svn.csv': hall, 'both.svn.slim': vector(GOOD[0], 'slim')}
    return found | {f'{GOOD[0]}.svn.csv': OLDER, f'{GOOD[0]}.svn.slim': vector(GOOD[1], 'slim'), f'{cut}.svn.csv': OLDER}


class Run:
    """A task: its word in the summary, the ending of its targets, and what it says of a vector that gets through."""

    def __init__(self, word, end, done):
        self.word, self.end, self.done = word, end, done

    def unless_checked(self, text):
        return 'accepted' if self.word == 'accepted' else text

    def kept(self, name, why):
        return self.unless_checked(f'not written: {name}{self.end} {why}')

    def rows(self):
        """(name, letter, what came of it) of each file."""
        yield from ((f'{name}.svn', 'f', self.done(name)) for name in GOOD)
        yield from ((f'{name}.svn', 'f', refusal(name)) for name in REFUSED)
        yield 'long.svn', 'f', 'refused 1 at word 0: the number of bytes is odd, or over 65,536; this may be no meter file'
        yield 'text.svn', 'f', 'refused 2 at word 0: the file ends too early; this may be no meter file'
        yield 'empty.svn', 'f', 'refused 2 at word 0: the file ends too early; the file is empty'
        yield 'missing.svn', 'f', 'not read: there is no such file'
        yield 'missing/hall.svn', 'f', 'not read: there is no such file'
        yield 'long.svn/hall.svn', 'f', 'not read: there is no such folder'
        yield 'folder', 'f', 'not read: it is a folder'
        yield 'pipe.svn', 'p', 'not read: it is a pipe or a device'
        yield 'shut.svn', 'f', 'not read: permission is missing'
        yield LONG, 'f', 'not read: the name is too long'
        yield LONGER, 'f', 'not read: the name is too long'
        yield ODD, 'f', 'not read: there is no such file'
        yield 'locked/hall.svn', 'f', self.unless_checked('not written in its folder: permission is missing')
        yield 'taken.svn', 'f', self.kept('taken.svn', 'is a folder')
        yield 'noted.svn', 'f', self.kept('noted.svn', f'is there and is no {"sheet" if self.end == ".csv" else "slim copy"}')
        yield 'hidden.svn', 'f', self.kept('hidden.svn', 'is there and is not read: permission is missing')
        yield 'blocked.svn', 't', self.kept('blocked.svn', 'is there and is not read: it is a pipe or a device')
        yield 'both.svn', 'f', self.kept('both.svn', 'is itself a file to convert')
        yield f'both.svn{self.end}', 'f', self.done(GOOD[0])
        yield 'both.svn', 'c', self.kept('both.svn', 'belongs to an earlier file of this run')

    def args(self, found):
        """The four arguments of each file: its name, its target, the letter, and the target's device and inode."""
        names = [name for name, _, _ in self.rows()]
        for i, (name, letter, _) in enumerate(self.rows()):
            target = name + self.end
            stands = letter == 't' or any(path == target or path.startswith(f'{target}/') for path in found)
            yield from (name, target, letter, number(names.index(target) if target in names else 1000 + i) if stands else NONE)

    def lines(self, found, quiet=False):
        """The lines, the summary, and the names that did not get through once more."""
        rows = list(self.rows())
        told = [text + (f'; an older {name}{self.end} is still there' if text.startswith(('refused', 'not read'))
                        and name + self.end in found else '') for name, _, text in rows]
        fates = ['refused' if text.startswith('refused') else 'not read or written' if text.startswith('not ') else '' for text in told]
        refused, failed = fates.count('refused'), fates.count('not read or written')
        last = f'{len(rows)} files: {len(rows) - refused - failed} {self.word}, {refused} refused, {failed} not read or written\n'
        return ''.join(f'{i}/{len(rows)} {printed(rows[i - 1][0])}: {text}\n' for i, text in enumerate(told, 1) if fates[i - 1] or not quiet) \
            + last + ''.join(f'{fate}: {printed(row[0])}\n' for row, fate in zip(rows, fates) if fate) + 'not all\n\n'


CHECKS = Run('accepted', '.csv', lambda name: 'accepted')
SLIMS = Run('copied', '.slim', lambda name: f'{len(vector(name, "slim"))} bytes')
SHEETS = Run('converted', '.csv', lambda name: f'{sheet(name).count(10)} lines')


def number(i):
    """What stands for a device and an inode."""
    return f'{i:040d}'


def write(crate, found, args, ids, stdout):
    data = CRATES / crate / 'data'
    rmtree(data, ignore_errors=True)
    for name, content in found.items():
        (data / name).parent.mkdir(parents=True, exist_ok=True)
        (data / name).write_bytes(content)
    (CRATES / crate / 'args').write_text(''.join(f'{arg}\n' for arg in args), newline='')
    (CRATES / crate / 'stdin').write_text(''.join(ids))
    (CRATES / crate / 'stdout').write_bytes(stdout)


def write_tries():
    found = files()
    written = {f'{name}.svn{end}': content for name in GOOD for end, content in (('.csv', sheet(name)), ('.slim', vector(name, 'slim')))}
    written |= {'both.svn.csv.csv': sheet(GOOD[0]), 'both.svn.slim.slim': vector(GOOD[0], 'slim')}
    there = {name: content for name, content in (found | written).items() if not name.startswith(('hidden.svn.', 'taken.svn.'))}
    text = CHECKS.lines(found) + SLIMS.lines(found) + SHEETS.lines(found) + SHEETS.lines(found, quiet=True)
    back = b''.join(f'{name}{run.end}:\n'.encode('ascii') + there[name + run.end]
                    for run in (SHEETS, SLIMS) for name, _, _ in run.rows() if name + run.end in there)
    rows = list(SHEETS.rows())
    write('test_desk', found, [*SHEETS.args(found), *SLIMS.args(found)], map(number, range(len(rows))), text.encode('ascii') + back)


def write_desk():
    name, other = GOOD[3], 'no-05-unit-type'
    stdout = f'1/2 {name}.svn: {sheet(name).count(10)} lines\n2/2 {other}.svn: {refusal(other)}\n' \
             '2 files: 1 converted, 1 refused, 0 not read or written\n'
    found = {f'{of}.svn': vector(of, 'svn') for of in (name, other)}
    args = [arg for of in found for arg in (of, f'{of}.csv', 'f', NONE)]
    write('desk', found, ['sheets', 'all', LABEL, *args], map(number, range(len(found))), stdout.encode('ascii'))
