"""A file for each pair of a refusal number and a place where document 01, or for a 953 request T-01 of document 02, gives it.

Each function makes files of one number: it puts a fault into a good file and yields the place in words, the words of
the file (or its bytes), and the position that 01's table of refusal numbers states for that fault.
"""

from struct import pack

from blocks import (BANDS, BANDS_LEFT, END, FREE, HISTOGRAMS, LISTED, M945, M953, MODELS, OFF, SPECTRUM, WORD_1, Block,
                    buffer_file, free, grow, result_file, spectrum_block, title)

CLASSES = (3, 1, 2)
# Words that are not allowed: 04's function; for a spectrum its filter and buffering; filter and buffer code of a profile in 05.
WRONG = {945: {'function': {3: (0, 4, 0x0101, 0xFFFF)}, 'spectrum': {21: (4, 0x0100, 0xFFFF), 22: (2, 0x0100, 0xFFFF)},
               'profile': {2: (0, 5, 0x0101, 0xFFFF), 3: (5, 0x0100, 0xFFFF)}},
         953: {'function': {3: (0, 3, 5, 0x0101, 0xFFFF)},
               'spectrum': {14: (1, 4, 0x0102, 0xFFFF), 15: (2, 0x0101, 0xFFFF)},
               'profile': {2: (1, 4, 0x0102, 0xFFFF), 3: (16, 0x0100, 0xFFFF)}}}


def good_files(model=M945):
    """A good file of each kind, and each with the additions of demand 3."""
    lean = {name: result_file(function, CLASSES, model=model) for name, function in model.functions.items()}
    if model == M945:
        lean |= {'buffer 1': buffer_file(1), 'buffer 2': buffer_file(2), 'buffer 3': buffer_file(3),
                 'empty buffer': buffer_file(2, records=0)}
    return lean, {name: grow(file) for name, file in lean.items()}


def variants(model):
    """(good files, what the names of their places end with)."""
    for files, grown in zip(good_files(model), ('', ', grown')):
        yield files, ('' if model == M945 else f', {model.unit}') + grown


def model_of(files):
    return files['level'].model


def home(files, kind):
    """A file that has a block of this kind."""
    return files[{'0E': 'octave', '10': 'third', '0F': 'buffer 1', 'contents': 'buffer 1'}.get(kind, 'level')]


def stages(model):
    return stages_945() if model == M945 else stages_953()


def stages_945():
    """(file, block in front, kinds due after it), by the order that 01 states in Walking the blocks."""
    yield 'level', None, ('01',)
    for kind, due in zip(('01', '02', '03', '04'), ('02', '03', '04', '05')):
        yield 'level', kind, (due,)
    yield 'level', '05', ('07', '0F')
    yield 'level', '07', ('09', 'end')
    for name, spectrum in ('octave', '0E'), ('third', '10'):
        yield name, '07', (spectrum,)
        yield name, spectrum, ('09', 'end')
    for kind, due in zip(('09', *HISTOGRAMS), (*HISTOGRAMS, 'end')):
        yield 'octave', kind, (due,)
    for name in 'buffer 1', 'buffer 2', 'buffer 3', 'empty buffer':
        yield name, 'contents', ('end',)


def stages_953():
    """The same for a 953, from where the model is known: function 4 has the order of 1, and neither 10 nor 0F is ever due."""
    for kind, due in zip(('02', '03', '04'), ('03', '04', '05')):
        yield 'level', kind, (due,)
    for name in M953.functions:
        yield name, '05', ('07',)
        yield name, '07', ('0E',) if name == 'octave' else ('09', 'end')
        for kind, due in zip(('09', *HISTOGRAMS), (*HISTOGRAMS, 'end')):
            yield name, kind, (due,)
    yield 'octave', '0E', ('09', 'end')


def boundaries(files):
    """(stage, kinds due, file, number of blocks before it) for every stage."""
    model = model_of(files)
    for name, kind, due in stages(model):
        file = files[name]
        i = file.index(kind) + 1 if kind else 0
        while file.blocks[i].kind == 'free':
            i += 1
        stage = {None: 'start', 'contents': f'0F and contents, {name}'}.get(kind, kind)
        if kind == '07' or model == M953 and kind not in ('02', '03', '04'):
            stage += f', function {file.function}'
        yield stage, due, file, i


def words_of(*blocks):
    return [word for block in blocks for word in block.words]


def data_of(words):
    return words if isinstance(words, bytes) else pack(f'<{len(words)}H', *words)


def number_1(files):
    """Byte length odd or over 65,536: 0."""
    over = buffer_file(1, (4, 0, 0), records=32769 - len(buffer_file(1, records=0).words()))
    yield '65538 bytes', over.words(), 0
    yield '65537 bytes, FFFF at word 0', bytes([END % 256, END // 256]) + bytes(65535), 0
    for name, file in files.items():
        data = data_of(file.words())
        yield f'a byte more than words, {name}', data + b'\0', 0
        yield f'a byte less than words, {name}', data[:-1], 0


def number_2_short(files):
    """Words run out at a block start: the number of words. A block passes the last word: its start."""
    for stage, _, file, i in boundaries(files):
        words = words_of(*file.blocks[:i])
        yield f'words run out after {stage}', words, len(words)
    for name, block in FREE.items():
        before = files['level'].before('04').and_then(block)
        yield f'words run out after an unlisted block, {name}', before.words(), len(before.words())
    for kind in model_of(files).listed():
        file = home(files, kind)
        block, before = file.block(kind), file.before(kind)
        form = 'long form' if kind in HISTOGRAMS else 'short form'
        for left in sorted({len(block.words) - 1, 2 if kind in HISTOGRAMS else 1}):  # the word with the length stands
            yield f'{kind} passes the last word, {form}, {left} words left', before.and_then(block.cut(left)).words(), \
                file.start(kind)


def number_2_long(files):
    """No length word, or a length in word 1 that passes the last word: the block's start."""
    for kind in model_of(files).listed():
        file = home(files, kind)
        block, before = file.block(kind), file.before(kind)
        if kind not in HISTOGRAMS:
            block = block.long_form()
            yield f'{kind} passes the last word, long form', before.and_then(block.cut(len(block.words) - 1)).words(), \
                file.start(kind)
        yield f'{kind} in long form without its length word', before.and_then(block.cut(1)).words(), file.start(kind)
    for end in '04', 'end':
        before = files['level'].before(end)
        for name, block in ('short', free(0x0399, 0)), ('long form', free(0x0099, 3)), ('14', free(0x0314, 3)):
            yield f'unlisted block passes the last word, {name}, before {end}', before.and_then(block).words(), \
                len(before.words())
        for header in 0x0099, 0x0014, 0x0514, 0x00FF:
            yield f'unlisted block {header:04X} without its length word, before {end}', \
                before.and_then(free(header)).words(), len(before.words())


def number_2_contents(files):
    """Raw contents pass the last word: the start of the 0F block."""
    for function in 1, 2, 3:
        file = files[f'buffer {function}']
        contents = file.block('contents')
        for left in len(contents.words) - 1, 1, 0:
            yield f'contents pass the last word, function {function}, {left} words left', \
                file.before('contents').and_then(contents.cut(left)).words(), file.start('0F')


def number_3_long(files):
    """Long form under 2, and long form where it is not allowed (every listed id but 0B): the block's start."""
    for kind in model_of(files).listed():
        file = home(files, kind)
        block = file.block(kind)
        for length in 0, 1:
            other = block.edit({1: length}) if kind in HISTOGRAMS else block.long_form(length)
            yield f'{kind} in long form of {length} words', file.swap(kind, other).words(), file.start(kind)
        if kind not in HISTOGRAMS:
            yield f'{kind} in long form, not allowed', file.swap(kind, block.long_form()).words(), file.start(kind)
        if kind in WORD_1:  # its length and the fixed word 1 are one number
            other = block.resize(WORD_1[kind]).long_form(WORD_1[kind])
            yield f'{kind} in long form of {WORD_1[kind]} words', file.swap(kind, other).words(), file.start(kind)
    for length in 0, 1:
        for header in 0x0099, 0x0014, 0x0514, 0x0000, 0x00FF:
            file = files['level']
            for end in '04', 'end':
                yield f'unlisted block {header:04X} of {length} words, before {end}', \
                    file.put(end, free(header, length, 0, 0)).words(), file.start(end)


def number_3_short(files):
    """Length below the table, 0B not exact, title without null: the block's start."""
    model = model_of(files)
    for kind, least in model.least.items():
        file = home(files, kind)
        for length in sorted({least - 1, 1}):
            yield f'{kind} of {length} words, least {least}', \
                file.swap(kind, file.block(kind).resize(length)).words(), file.start(kind)
    for name in model.functions:
        for kind, classes in zip(HISTOGRAMS, CLASSES):
            file = files[name]
            for length in 2 * classes, 2 * classes + 1, 2 * classes + 3, 2 * classes + 4:
                yield f'{kind} of {length} words for {classes} classes, {name}', \
                    file.swap(kind, file.block(kind).resize(length)).words(), file.start(kind)
    file = files['level']
    for text in b'AB', b'\xff' * 4, b'\1' * 6, b'Hall' * 5, b'T' * 508:
        yield f'title of {len(text)} bytes without null', file.swap('03', title(text)).words(), file.start('03')
    yield 'title without null before a block with nulls', file.swap('03', title(b'AB'), free(0x0099, 2)).words(), \
        file.start('03')


def with_bands(file, bands):
    """A file with another 0E, as long as its words 3 and 4 have it."""
    return file.swap('0E', spectrum_block('0E', bands, (601,) * (bands[1] + bands[2])))


def number_3_later(files):
    """A 953's 02 under 10 words, and its 0E under 5 plus both counts, tested after words of theirs: the block's start."""
    file = files['dose']
    for length in 5, 6, 7, 8, 9:
        yield f'02 of {length} words, dose', file.swap('02', file.block('02').resize(length)).words(), file.start('02')
    for bands in (3150, 10, 3), (3150, 1, 0), (3150, 1, 1), (100, 15, 3), (100, 15, 0), (50000, 6, 2), (50000, 1, 3):
        file = with_bands(files['octave'], bands)
        whole = 5 + bands[1] + bands[2]
        for length in sorted({5, 5 + bands[1], whole - 1} - {whole}):
            yield f'0E of {length} words for {bands}', file.swap('0E', file.block('0E').resize(length)).words(), \
                file.start('0E')


def wrong_blocks(files):
    """A block of every kind, well formed, to be put where it is not due. Those that a 953 never has are a 945's."""
    due, others = model_of(files).listed(), good_files()[0]
    for kind in LISTED:
        file = home(files if kind in due else others, kind)
        blocks = (file.block(kind), file.block('contents')) if kind == '0F' else (file.block(kind),)
        yield kind, blocks
    for nn in 0x00, 0x03, 0x05, 0x08:
        yield f'0B nn {nn:02X}', (Block('0B', (0x0B + 256 * nn, 4, 17, 0)),)
    yield 'end', (Block('end', (END,)),)


def number_4(files):
    """A listed block or the end marker out of order: its start."""
    for stage, due, file, i in boundaries(files):
        before = words_of(*file.blocks[:i])
        for kind, blocks in wrong_blocks(files):
            if kind not in due:
                yield f'{kind} after {stage}', before + words_of(*blocks) + [END], len(before)
        if 'end' not in due:
            yield f'end as the last word after {stage}', before + [END], len(before)
    # 01 stands at word 0: after an unlisted block there nothing listed is due, the 01 too. No model is known there.
    for name, block in FREE.items() if model_of(files) == M945 else ():
        later = words_of(*files['level'].blocks)
        yield f'a whole file after an unlisted block at word 0, {name}', words_of(block) + later, len(block.words)
        for kind, blocks in wrong_blocks(files):
            yield f'{kind} after an unlisted block at word 0, {name}', words_of(block, *blocks) + [END], \
                len(block.words)


def number_5(files):
    """Unit type: that word. 945 is 03B1."""
    for name in 'level', 'buffer 1':
        for unit in 944, 946, 954, 0, 0xB103, 0x00B1, 0xFFFF:
            yield f'unit type {unit}, {name}', files[name].edit('02', {2: unit}).words(), files[name].start('02') + 2


def number_5_953(files):
    """953 is 03B9. An 02 that is too short for a 953 is long enough for the unit type."""
    for name in 'level', 'dose':
        file = files[name]
        for unit in 952, 954, 0, 0xB903, 0x00B9, 0xFFFF:
            yield f'unit type {unit}, {name}', file.edit('02', {2: unit}).words(), file.start('02') + 2
        for length in 6, 9:
            short = file.block('02').resize(length).edit({2: 954})
            yield f'unit type 954 in an 02 of {length} words, {name}', file.swap('02', short).words(), \
                file.start('02') + 2


def number_6(files):
    """Word 1 of 05, 07, 09, 0E or 10: that word. 05 and 07 have 0307, 09 has 0703, 0E and 10 have 0101."""
    for kind in (kind for kind in WORD_1 if kind in model_of(files).least):
        right = WORD_1[kind]
        for wrong in sorted({0, right - 1, right + 1, right ^ 0x0100, 0x0307, 0x0703, 0x0101, 0xFFFF} - {right}):
            file = home(files, kind)
            yield f'word 1 of {kind} is {wrong:04X}', file.edit(kind, {1: wrong}).words(), file.start(kind) + 1


def number_7(files):
    """Sub-block id, length, or past its block: the sub-block's start."""
    for kind, (number, least) in model_of(files).subs.items():
        file = home(files, kind)
        block = file.block(kind)
        start, size = file.start(kind), len(block.words)
        for k, at in enumerate(block.subs, 1):
            length = block.words[at] // 256
            faults = {f'id {wrong:02X}': wrong + 256 * length for wrong in (number - 1, number + 1, 0, 0xFF)}
            faults |= {f'length {short}': number + 256 * short for short in (least - 1, 1, 0)}
            faults |= {f'{over} words past its block': number + 256 * (size - at + over) for over in (1, 2)}
            for fault, word in faults.items():
                yield f'{kind}, sub-block {k}, {fault}', file.edit(kind, {at: word}).words(), start + at
            # The one before it reaches to the block's end, or to its last word; the first always starts at word 2.
            for left, place in (0, "at its block's end"), (1, 'at the last word of its block'):
                last = block.subs[k - 2]
                changes = {last: number + 256 * (size - last - left), size - 1: number + 256 * least}
                if k > 1:
                    yield f'{kind}, sub-block {k}, starts {place}', file.edit(kind, changes).words(), \
                        start + size - left


def number_8_settings(files):
    """Any other checked word: that word. 04's words 3, 21, 22, of a 953 3, 14, 15; filter and buffer code of each profile in 05."""
    model = model_of(files)
    words_of_04, words_of_05 = WRONG[model.unit]['function'], WRONG[model.unit]['profile']
    for name, file in files.items():
        wrong = words_of_04 | (WRONG[model.unit]['spectrum'] if file.function in SPECTRUM else {})
        for offset, words in wrong.items():
            for word in words:
                yield f'04, word {offset} is {word:04X}, {name}', file.edit('04', {offset: word}).words(), \
                    file.start('04') + offset
    for name in 'level', 'buffer 2' if model == M945 else 'dose':
        file = files[name]
        for k, at in enumerate(file.block('05').subs, 1):
            for offset, words in words_of_05.items():
                for word in words:
                    yield f'05, sub-block {k}, offset {offset} is {word:04X}, {name}', \
                        file.edit('05', {at + offset: word}).words(), file.start('05') + at + offset


def number_8_bands(files):
    """Words 2 to 4 of 0E and 10, and words 3 to 5 of 0F where bands are buffered: that word."""
    for function, bands in BANDS.items():
        other = BANDS[5 - function]
        for kind, first, name in (SPECTRUM[function], 2, ('octave', 'third')[function - 2]), \
                ('0F', 3, f'buffer {function}'):
            for i, right in enumerate(bands):
                for wrong in sorted({0, right - 1, right + 1, other[i], right + 256, 0xFFFF} - {right}):
                    yield f'{kind}, word {first + i} is {wrong}, function {function}', \
                        files[name].edit(kind, {first + i: wrong}).words(), files[name].start(kind) + first + i
    file = files['empty buffer']
    for i in range(3):
        yield f'0F, word {3 + i} is 0, empty buffer', file.edit('0F', {3 + i: 0}).words(), file.start('0F') + 3 + i


def number_8_octaves(files):
    """A 953's 0E: word 2 off the list of 1/1 octaves, word 3 not 1 to the bands left from there, word 4 over 3: that word."""
    file = files['octave']
    start = file.start('0E')
    # Beside the list; of the 1/3 octaves; whole hertz; and 1000 Hz and more in hundredths, less 65,536 as often as it goes.
    wrong = 0, 1, 99, 101, 3149, 3151, 50001, 0xFFFF, 80, 125, 2500, 4000, 2, 16, 63, 250, 500, 1000, 2000, 16000
    for word in *wrong, 34464, 3392, 6784, 13568, 27136:
        yield f'0E, word 2 is {word}', file.edit('0E', {2: word}).words(), start + 2
    for lowest, left in BANDS_LEFT.items():
        for bands in 0, left + 1:
            yield f'0E, word 3 is {bands}, word 2 is {lowest}', with_bands(file, (lowest, bands, 3)).words(), start + 3
    for word in 15, 0x010A, 0x8001, 0xFFFF:
        yield f'0E, word 3 is {word}', file.edit('0E', {3: word}).words(), start + 3
    for totals in 4, 5, 18:
        yield f'0E, word 4 is {totals}', with_bands(file, (3150, 10, totals)).words(), start + 4
    for word in 0x0103, 0xFFFF:
        yield f'0E, word 4 is {word}', file.edit('0E', {4: word}).words(), start + 4


def number_8_length(files):
    """BuffLength odd, not whole records, or not 0 where a record has no words: word 6 of 0F, whatever is in word 7."""
    for name in 'buffer 1', 'buffer 2', 'buffer 3':
        file = files[name]
        contents = file.block('contents')
        right = 2 * len(contents.words)
        for length in (right - 2, right - 1, right + 1, right + 2, 1, 2, 0x10000 + right - 2, 0xFFFFFFFF):
            changes = {6: length % 65536, 7: length // 65536}
            yield f'BuffLength {length}, {name}', file.edit('0F', changes).words(), file.start('0F') + 6
        more = file.edit('0F', {6: right + 2}).swap('contents', Block('contents', contents.words + (0,)))
        yield f'BuffLength {right + 2} with its contents, {name}', more.words(), file.start('0F') + 6
    for function in 1, 2, 3:
        file = buffer_file(function, (0, 0, 0), OFF)
        for length in 1, 2, 36, 96, 0x10000, 0xFFFFFFFE:
            changes = {6: length % 65536, 7: length // 65536}
            yield f'BuffLength {length} for records of no words, function {function}', \
                file.edit('0F', changes).words(), file.start('0F') + 6


def number_9(files):
    """A word after the end marker: the first such word."""
    for name, file in files.items():
        for word in 0, 1, 0x0199, 0x0C01, END:
            yield f'{word:04X} after the end marker, {name}', file.words() + [word], len(file.words())
        yield f'the file once more after the end marker, {name}', 2 * file.words(), len(file.words())


def makers(model):
    """By rising numbers. Buffer files are a 945's; an 02 and an 0E with two least lengths, and its counts, are a 953's."""
    if model == M945:
        return (number_1, number_2_short, number_2_long, number_2_contents, number_3_long, number_3_short, number_4,
                number_5, number_6, number_7, number_8_settings, number_8_bands, number_8_length, number_9)
    return (number_1, number_2_short, number_2_long, number_3_long, number_3_short, number_3_later, number_4,
            number_5_953, number_6, number_7, number_8_settings, number_8_octaves, number_9)


def pairs():
    """(number, place, bytes, position) of every pair, by models and numbers."""
    seen = set()
    for model in MODELS:
        for maker in makers(model):
            for files, name in variants(model):
                for place, words, position in maker(files):
                    data = data_of(words)
                    if (maker, data) not in seen:  # a few do not depend on the file, or on the model
                        seen.add((maker, data))
                        yield int(maker.__name__[7]), place + name, data, position
