"""Blocks of the files of two models, a SVAN 945 by the tables of document 01 and a SVAN 953 by request T-01 of document 02,
and whole files made of them.

A file is kept as the list of its blocks, so every start is known from how it was made; nothing here reads a file back.
"""

from dataclasses import dataclass, replace
from itertools import cycle

# 01, Tables: the least words of a listed id, its fixed word 1, and the id and least words of its three sub-blocks.
LEAST = {'01': 12, '02': 6, '03': 2, '04': 23, '05': 20, '07': 44, '0E': 23, '10': 53, '09': 14, '0F': 8}
WORD_1 = {'05': 0x0307, '07': 0x0307, '09': 0x0703, '0E': 0x0101, '10': 0x0101}
SUB = {'05': (0x06, 6), '07': (0x08, 14), '09': (0x0A, 4)}
BANDS = {2: (100, 15, 3), 3: (80, 45, 3)}  # lowest frequency, bands, totals
SPECTRUM = {2: '0E', 3: '10'}
HISTOGRAMS = ('0B nn 01', '0B nn 02', '0B nn 04')
LISTED = (*LEAST, *HISTOGRAMS)
ON, OFF = 0, 1  # 04's word 22, buffering; a 953 has it the other way round, in word 15
END, ABSENT = 0xFFFF, 65535


@dataclass(frozen=True)
class Model:
    unit: int
    version: int
    functions: dict  # by the names that files of results have here
    least: dict  # least words of the ids that may be due; a 953's 0E then needs more, for its bands and totals
    subs: dict
    filters: tuple  # of the three profiles in a good file
    bands: dict  # lowest frequency, bands and totals in a good file, by function

    def listed(self):
        return (*self.least, *HISTOGRAMS)

    def least_first(self, kind):
        """The least words before any word is looked at. In 02 the unit type, which says whose table it is, comes between."""
        return LEAST['02'] if kind == '02' else self.least[kind]


M945 = Model(945, 105, {'level': 1, 'octave': 2, 'third': 3}, LEAST, SUB, (2, 3, 1), BANDS)
# T-01: other least lengths, filter 0 Z in place of 1 Lin, and neither 10 nor 0F is ever due.
M953 = Model(953, 604, {'level': 1, 'octave': 2, 'dose': 4},
             {'01': 12, '02': 10, '03': 2, '04': 28, '05': 20, '07': 47, '0E': 5, '09': 14},
             SUB | {'07': (0x08, 15)}, (2, 3, 0), {2: (3150, 10, 3)})
MODELS = (M945, M953)
# 01's list of 1/1 octaves, in hundredths of a hertz as far as a word goes, and how many bands are left from there to 16000 Hz.
BANDS_LEFT = {100: 15, 200: 14, 400: 13, 800: 12, 1600: 11, 3150: 10, 6300: 9, 12500: 8, 25000: 7, 50000: 6}


@dataclass(frozen=True)
class Block:
    kind: str  # an id, '0B nn 01', 'contents' (the raw words after 0F), 'free' (an id that is not listed) or 'end'
    words: tuple
    subs: tuple = ()  # where its sub-blocks start in it

    def edit(self, changes):
        """Some words changed: {offset: word}."""
        return replace(self, words=tuple(changes.get(i, word) for i, word in enumerate(self.words)))

    def resize(self, length):
        """Cut, or filled up with zeros, and its count set to match."""
        words = (self.words + (0,) * length)[:length]
        header = self.words[0] % 256 + 256 * length
        return replace(self, words=words).edit({1: length} if self.kind in HISTOGRAMS else {0: header})

    def long_form(self, length=None):
        """nn 0, and the length in word 1."""
        return self.edit({0: self.words[0] % 256, 1: len(self.words) if length is None else length})

    def cut(self, length):
        """Only its first words; its count stays."""
        return replace(self, words=self.words[:length])


@dataclass(frozen=True)
class File:
    function: int
    blocks: tuple
    model: Model = M945

    def index(self, kind):
        return [block.kind for block in self.blocks].index(kind)

    def block(self, kind):
        return self.blocks[self.index(kind)]

    def start(self, kind):
        return len(self.before(kind).words())

    def before(self, kind):
        return replace(self, blocks=self.blocks[:self.index(kind)])

    def and_then(self, *blocks):
        return replace(self, blocks=(*self.blocks, *blocks))

    def swap(self, kind, *blocks):
        """Other blocks in the place of one."""
        i = self.index(kind)
        return replace(self, blocks=(*self.blocks[:i], *blocks, *self.blocks[i + 1:]))

    def put(self, kind, *blocks):
        """Blocks put in front of one."""
        return self.swap(kind, *blocks, self.block(kind))

    def edit(self, kind, changes):
        return self.swap(kind, self.block(kind).edit(changes))

    def words(self):
        return [word for block in self.blocks for word in block.words]

    def accepted(self):
        kinds = {'spectrum': SPECTRUM.get(self.function)}
        found = {block.kind for block in self.blocks}
        line = f'accepted function={self.function}'
        for key in ('01', '02', '03', '04', '05', '07', 'spectrum', '09', '0F'):
            kind = kinds.get(key, key)
            line += f' {key}={self.start(kind) if kind in found else ABSENT}'
        return line


def packed(text):
    """Words of text, low byte first, with a null to fill the last."""
    text += b'\0' * (len(text) % 2)
    return tuple(text[i] + 256 * text[i + 1] for i in range(0, len(text), 2))


def free(*words):
    return Block('free', words)


def plain(kind, changes, fill=0, model=M945):
    """A listed block of least length: word 1 if it is fixed, the changes, and fill in every other word."""
    length = model.least[kind]
    words = Block(kind, (int(kind, 16) + 256 * length, WORD_1.get(kind, fill)) + (fill,) * (length - 2))
    return words.edit(changes)


def profiles(kind, records, fill=0, model=M945):
    """A block with three sub-blocks of least length; records: {offset: word} for each profile."""
    number, least = model.subs[kind]
    words = [int(kind, 16) + 256 * model.least[kind], WORD_1[kind]]
    for record in records:
        words += [number + 256 * least] + [record.get(i, fill) for i in range(1, least)]
    return Block(kind, tuple(words), tuple(2 + least * i for i in range(3)))


def title(text):
    words = packed(text)
    return Block('03', (0x03 + 256 * (1 + len(words)), *words))


def spectrum_block(kind, bands, levels):
    """0E or 10 with as many levels as there are bands and totals."""
    return Block(kind, (int(kind, 16) + 256 * (5 + len(levels)), WORD_1[kind], *bands, *levels))


def histogram(kind, classes, counter=17):
    return Block(kind, (0x0B + 256 * int(kind[-2:], 16), 2 * classes + 2) + (counter, 0) * classes)


def settings(function, buffering, model):
    """04's function, and for a spectrum filter A and buffering."""
    if function not in SPECTRUM:
        return {3: function}
    return {3: function} | ({21: 2, 22: buffering} if model == M945 else {14: 2, 15: 1 - buffering})


def opening(function, filters, codes, buffering, fill, model=M945):
    """The blocks 01 to 05."""
    name = dict(enumerate(packed(b'FILE1\0\0\0'), 1))
    return (plain('01', name, fill),
            plain('02', {1: 1234, 2: model.unit, 3: model.version}, fill, model),
            title(b'Hall\0\0'),
            plain('04', settings(function, buffering, model), fill, model),
            profiles('05', [{2: f, 3: c} for f, c in zip(filters, codes)], fill))


def result_file(function, classes=None, filters=None, codes=(0, 0, 0), fill=0, model=M945, bands=None):
    """01 to 05, 07, the spectrum of functions 2 and 3, and with classes 09 and its three 0B."""
    blocks = opening(function, filters or model.filters, codes, OFF, fill, model)
    blocks += profiles('07', [{i: 600 + i for i in range(1, model.subs['07'][1])}] * 3, fill, model),
    if function in SPECTRUM:
        bands = bands or model.bands[function]
        blocks += spectrum_block(SPECTRUM[function], bands, (fill,) * (bands[1] + bands[2])),
    if classes:
        blocks += profiles('09', [{1: n, 2: 240, 3: 10} for n in classes], fill),
        blocks += tuple(histogram(kind, n) for kind, n in zip(HISTOGRAMS, classes))
    return File(function, blocks + (Block('end', (END,)),), model)


def file_953(function, classes=None, **changes):
    return result_file(function, classes, model=M953, **changes)


def record_words(function, codes, buffering):
    """01, Tables: one word for each profile with a buffer code, then the bands and totals if they are buffered."""
    levels = {2: 18, 3: 48}[function] if function > 1 and buffering == ON else 0
    return levels + sum(code > 0 for code in codes)


def logger(length, bands=(0, 0, 0), fill=0):
    """The 0F block; length: BuffLength, in bytes."""
    return plain('0F', {1: 1, 2: 0, 6: length % 65536, 7: length // 65536} | dict(enumerate(bands, 3)), fill)


def buffer_file(function, codes=(4, 0, 1), buffering=ON, records=2, filters=(2, 3, 1), fill=0):
    """01 to 05, 0F and its contents."""
    count = records * record_words(function, codes, buffering)
    bands = BANDS[function] if function > 1 and buffering == ON else (fill,) * 3
    contents = Block('contents', tuple((634 + 67 * i) % 1000 for i in range(count)))
    blocks = opening(function, filters, codes, buffering, fill)
    return File(function, blocks + (logger(2 * count, bands, fill), contents, Block('end', (END,))))


def lengthen(block, more, each=(0, 0, 0)):
    """A listed block with more words at its end, and each of its sub-blocks too (demand 3)."""
    words, subs = list(block.words), list(block.subs)
    for k, count in enumerate(each if subs else ()):
        header = subs[k]
        length = words[header] // 256
        words[header] += 256 * count
        words[header + length:header + length] = [END] * count
        subs[k + 1:] = [at + count for at in subs[k + 1:]]
    words += [END] * more
    words[0] = words[0] % 256 + 256 * len(words)
    return Block(block.kind, tuple(words), tuple(subs))


# 01, Walking the blocks: the length is nn, or word 1 for id 14 and where nn is 0. Only a file that is about 13 or 14 has a block of
# that id.
FREE = {'one word': free(0x0199), 'short': free(0x05A3, END, 0x0C01, 0x080F, END),
        'long form': free(0x0012, 4, END, 0x0602), '14': free(0x0114, 4, 0x080F, END)}
ADDED = *(FREE[name] for name in ('one word', 'short', 'long form')), free(0x0099, 4, 0x080F, END)
# What a 953 writes between the listed blocks, as long as tables B.1.5 to B.1.7, B.1.9, B.1.11 and B.1.17 of its manual have it:
# triggers, external I/O and reserved words around 05, statistical levels after 07, and the least and highest spectrum.
FREE_953 = {'2B': free(0x072B, 3, 0, 850, 10, 0, 0), '2C': free(0x072C, 3, 0, 850, 0, 5, 20),
            '2E': free(0x0A2E, 2, 1, 1, 1, 1000, 0, 0, 0, 0), '21': free(0x1321, *range(1, 19)),
            '17': free(0x0B17, 0x0307, 2, 10, 651, 663, 687, 90, 521, 540, 566),
            '26': free(0x1226, 0x0101, 3150, 10, 3, *range(300, 313)),
            '27': free(0x1227, 0x0101, 3150, 10, 3, *range(900, 913))}


def grow(file):
    """Every table block and sub-block lengthened, and a block that is not listed after each (demand 3)."""
    blocks, others = [], cycle(ADDED)
    for i, block in enumerate(file.blocks):
        blocks.append(lengthen(block, 1 + i % 3, (2, 1, 3)) if block.kind in LEAST else block)
        if block.kind not in ('0F', 'end'):
            blocks.append(next(others))
    return replace(file, blocks=tuple(blocks))
