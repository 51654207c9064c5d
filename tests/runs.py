"""What the runs of the gate's programs have in common: packs, names, and the files of a run; and the vectors, which are only read."""

import re
from pathlib import Path

TESTS = Path(__file__).resolve().parent
CRATES = TESTS.parent / 'crates'
VECTORS = TESTS / 'vectors'


def name_of(*parts):
    """A name like those of the vectors: small letters, digits and hyphens."""
    return re.sub('[^a-z0-9]+', '-', ' '.join(parts).lower()).strip('-')


def vector(name, part):
    return (VECTORS / f'{name}.{part}').read_bytes()


def vectors():
    """(name, file, the line of Check's answer) by names."""
    for check in sorted(VECTORS.glob('*.check')):
        yield check.stem, vector(check.stem, 'svn'), check.read_text().rstrip('\n')


def accepted_vectors():
    return ((name, data, line) for name, data, line in vectors() if line.startswith('accepted'))


def pack(*items):
    """Each item as three bytes of length, low byte first, and its bytes."""
    return b''.join(len(item).to_bytes(3, 'little') + item for item in items)


def write_run(crate, stdin, stdout, args=None):
    (CRATES / crate / 'stdin').write_bytes(stdin)
    (CRATES / crate / 'stdout').write_bytes(stdout)
    if args is not None:
        (CRATES / crate / 'args').write_text(args)
