"""Pairs of an accepted file and the same file with additions (demand 3): words at the ends of table blocks and of profile records,
other bytes after the null of a title, blocks that are not listed. The program `test_additions` is asked to compare them.

What is added, and how much, comes from a generator; nothing here judges a file.
"""

import struct
from dataclasses import dataclass

from blocks import END, LEAST, M953, OFF, SUB, buffer_file, file_953, free, lengthen, result_file, title
from cases import written
from pairs import CLASSES, data_of, good_files
from runs import accepted_vectors, name_of, pack, vector, write_run

TURNS = range(45)
SETS = 15  # of kinds: each that is not empty
KINDS = 'tables', 'records', 'title', 'blocks'
LISTED_IDS = {int(kind, 16) for kind in LEAST} | {0x0B}
WITH_RECORDS = {int(kind, 16) for kind in SUB}
# Words that a reader may take for something else: an end, no length, the first word of a listed block or of a record.
LIKELY = (END, 0x0000, 0x0C01, 0x0602, 0x0203, 0x1704, 0x1405, 0x2C07, 0x170E, 0x3510, 0x0E09, 0x010B, 0x080F, 0x0606,
          0x0E08, 0x040A)


def words_in(data):
    return struct.unpack(f'<{len(data) // 2}H', data)


class Full(Exception):
    """A count of one byte, or the 65,536 bytes of a file, would be passed."""


@dataclass
class Draws:
    """A linear generator."""
    x: int

    def next(self):
        """The high bits of its next state, since the low ones repeat soon."""
        self.x = (self.x * 1103515245 + 12345) % 2 ** 32
        return self.x >> 16

    def word(self):
        """A word of any value, one in three a likely one."""
        d = self.next()
        return d if d % 3 else LIKELY[d // 3 % 16]

    def words(self, n):
        return [self.word() for _ in range(n)]

    def more(self, kinds, kind):
        """One to three words, where additions of this kind are asked for."""
        return self.words(1 + self.next() % 3) if kind in kinds else []

    def block(self):
        """A short block that is not listed, with its length in nn, or in word 1 where nn is 0. Neither 13 nor 14 (hexadecimal)."""
        d = self.next()
        form, n = d % 3, d // 3 % 4
        number = self.next() % 256
        if number in LISTED_IDS or number in (0x13, 0x14):
            number = 0xA0 + number % 16
        if form == 0:
            return [number + 256 * (n + 1)] + self.words(n)
        return [number if form == 1 else 0x99, n + 2] + self.words(n)

    def byte(self, old):
        """Another byte."""
        return (old + 1 + self.next() % 255) % 256


def kinds_of(turn):
    """Turn t makes a file by set t % 15 + 1, whose bits say which kinds are in it."""
    return [kind for i, kind in enumerate(KINDS) if (turn % SETS + 1) >> i & 1]


def parts(words):
    """The blocks of an accepted file up to its end marker, each with the raw words after it."""
    at = 0
    while words[at] != END:
        number, nn = words[at] % 256, words[at] // 256
        end = at + (words[at + 1] if nn == 0 or number in (0x0B, 0x14) else nn)
        raw = (words[at + 6] + 65536 * words[at + 7]) // 2 if number == 0x0F else 0
        yield number, words[at:end], words[end:end + raw]
        at = end + raw


def counted(words):
    """A block or a record with its count set to match."""
    if len(words) > 255:
        raise Full
    return [words[0] % 256 + 256 * len(words), *words[1:]]


def other_text(block, draws):
    """A title with other bytes after its first null, also in the null's own word."""
    text = bytearray(data_of(block[1:]))
    for i in range(text.index(0) + 1, len(text)):
        text[i] = draws.byte(text[i])
    return [block[0], *words_in(text)]


def longer_records(block, draws, kinds):
    """A block with its three records, each from where the one before it ends, and what stands after the last."""
    words, at = block[:2], 2
    for _ in range(3):
        end = at + block[at] // 256
        words += counted(block[at:end] + draws.more(kinds, 'records'))
        at = end
    return words + block[at:]


def grown_block(number, block, draws, kinds):
    """A block with additions. A histogram, and a block that is not listed, stay as they are."""
    if number not in LISTED_IDS or number == 0x0B:
        return block
    if number == 0x03 and 'title' in kinds:
        block = other_text(block, draws)
    elif number in WITH_RECORDS:
        block = longer_records(block, draws, kinds)
    return counted(block + draws.more(kinds, 'tables'))


def grown(data, turn):
    """The file with the additions of a turn; nothing where there is no room for them."""
    draws, kinds, words = Draws(turn), kinds_of(turn), []
    try:
        for number, block, raw in parts(list(words_in(data))):
            words += draws.block() if words and 'blocks' in kinds else []
            words += grown_block(number, block, draws, kinds) + raw
    except Full:
        return None
    words += (draws.block() if 'blocks' in kinds else []) + [END]
    return data_of(words) if len(words) <= 32768 else None


def kinds_of_files():
    """A file of each kind, with all of demand 3's additions or with none; and files that have no room for some or for any."""
    lean, grown_files = good_files()
    yield from lean.items()
    yield from ((f'{name}, grown', file) for name, file in grown_files.items())
    for function in 1, 2, 3:
        yield f'function {function}, no statistics', result_file(function)
        yield f'function {function}, free words FFFF', result_file(function, CLASSES, fill=END)
        yield f'buffer {function}, no bands', buffer_file(function, buffering=OFF)
    file = result_file(1)
    for name, text in ('null in a low byte', b'AB\0CDE'), ('null in a high byte', b'ABC\0DE'), ('null last', b'ABC\0'), \
            ('empty', b'\0\0'), ('255 words', b'T' * 507 + b'\0'):
        yield f'title, {name}', file.swap('03', title(text))
    yield '01 of 255 words', file.swap('01', lengthen(file.block('01'), 243))
    yield '05 of 255 words', file.swap('05', lengthen(file.block('05'), 235))
    file = buffer_file(1, records=0)
    room = 32768 - len(file.words())
    yield '65536 bytes', file.put('0F', free(0x0099, room, *[0] * (room - 2)))
    yield from ((f'953, {name}', file) for name, file in kinds_of_953())


def kinds_of_953():
    """The same for a 953, and spectra with other counts."""
    lean, grown_files = good_files(M953)
    yield from lean.items()
    yield from ((f'{name}, grown', file) for name, file in grown_files.items())
    for name, file in lean.items():
        yield f'{name}, no statistics', file_953(file.function)
        yield f'{name}, free words FFFF', file_953(file.function, CLASSES, fill=END)
        yield f'{name}, as it is written', written(file)
    for bands in (100, 15, 3), (100, 1, 0), (50000, 6, 1):
        yield f'0E for {bands}', file_953(2, CLASSES, bands=bands)
    for name, kind in ('dose', '02'), ('octave', '0E'), ('dose', '07'):
        block = lean[name].block(kind)
        yield f'{kind} of 255 words', lean[name].swap(kind, lengthen(block, 255 - len(block.words)))


def files():
    """(name, label, accepted file)."""
    yield from ((name, vector(name, 'label'), data) for name, data, _ in accepted_vectors())
    yield from ((name_of('kind', name), b'Order 17', data_of(file.words())) for name, file in kinds_of_files())


def pairs():
    """(name, label, file, grown file) for each turn that makes one."""
    for name, label, data in files():
        for turn in TURNS:
            new = grown(data, turn)
            if new is not None:
                yield name_of(name, f'turn {turn}', *kinds_of(turn)), label, data, new


def write_additions():
    """A grown file is the file itself where only bytes after the title's null may change and none stands there."""
    stdin, stdout, before = bytearray(), bytearray(), None
    for name, label, data, new in pairs():
        stdin += pack(name.encode('ascii'), label, b'' if data == before else data, new)
        which = 'the same' if new == data else 'another'
        stdout += f'{name}: {which} file, accepted, the same sheet, slim copy and title\n'.encode('ascii')
        before = data
    write_run('test_additions', stdin, stdout)
