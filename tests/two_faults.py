"""Files with two faults, where the one that comes first in document 01's order of tests decides.

"The order is 1; then file order; .. At a block: length word present (2), long form under 2 (3), block fits (2), order
(4), long form not allowed or short (3), then words in rising order; in a sub-block, its header and length before its
words. Raw contents are checked to fit (2) after BuffLength." Of a 953 request T-01 of document 02 adds: "an 02 under 6 words is
3 before [its unit type], a 953's 02 under 10 is 3 after it; a 953's 0E under 5 words is 3, then a word off these rules 8, then
under 5 plus both counts 3".
"""

from blocks import END, HISTOGRAMS, LEAST, M945, M953, MODELS, SPECTRUM, WORD_1, Block, logger, title
from pairs import WRONG, data_of, home, model_of, variants, with_bands, wrong_blocks


def wrong_words(file, what, at=0):
    """(offset, 8, a wrong word) for the words of this name, after word `at`."""
    return ((at + offset, 8, words[0]) for offset, words in WRONG[file.model.unit][what].items())


def checked(file, kind):
    """(offset, number, a wrong word) for the checked words of a block, in rising order; by the model's table."""
    subs = file.block(kind).subs
    if kind in WORD_1:
        yield 1, 6, 0
    if kind == '02':
        yield 2, 5, 954
    if kind == '04':
        yield from wrong_words(file, 'function')
    if kind == '04' and file.function in SPECTRUM:
        yield from wrong_words(file, 'spectrum')
    for at in subs:
        yield at, 7, 0
        if kind == '05':
            yield from wrong_words(file, 'profile', at)
    if kind in ('0E', '10'):
        yield from ((2, 8, 0), (3, 8, 0), (4, 8, 0 if file.model == M945 else 4))
    if kind == '0F' and file.function > 1:
        yield from ((3, 8, 0), (4, 8, 0), (5, 8, 0), (6, 8, 1))


def place_of(files, kind):
    return files['buffer 2'] if kind == '0F' else files['octave'] if kind == '04' else home(files, kind)


def odd(files):
    """1 before all."""
    yield 1, 'odd and FFFF at word 0', b'\xff\xff\0', 0
    yield 1, 'odd and the words run out', data_of(files['level'].before('04').words()) + b'\0', 0
    yield 1, 'odd and unit type', data_of(files['level'].edit('02', {2: 954}).words()) + b'\0', 0
    yield 1, 'odd and a word after the end marker', data_of(files['level'].words()) + b'\0\0\0', 0


def not_due(files):
    """A block that is not due, with a second fault: after 01, where only 02 is due, or in a 953 after 05, where only 07 is."""
    only = '02' if model_of(files) == M945 else '07'
    file = files['level'].before(only)
    at = len(file.words())
    for kind, (block, *_) in wrong_blocks(files):
        if kind in (only, 'end'):
            continue
        long = block if kind.startswith('0B') else block.long_form()
        rest = files['level'].blocks[-2:]
        yield 2, f'{kind} not due, and no length word', file.and_then(long.cut(1)).words(), at
        for length in 0, 1:
            under = long.edit({1: length})
            yield 3, f'{kind} not due, and long form of {length}', file.and_then(under, *rest).words(), at
        yield 2, f'{kind} not due, and passes the last word', file.and_then(block.cut(len(block.words) - 1)).words(), at
        if kind in LEAST:
            yield 4, f'{kind} not due, and long form not allowed', file.and_then(long, *rest).words(), at
            yield 4, f'{kind} not due, and short', file.and_then(block.resize(1), *rest).words(), at
            wrong = {i: 0 for i in range(1, len(block.words))}
            yield 4, f'{kind} not due, and its words 0', file.and_then(block.edit(wrong), *rest).words(), at
    yield 4, '03 not due, and without null', file.and_then(title(b'AB')).words(), at
    for kind in HISTOGRAMS:
        other = files['level'].block(kind)
        stage = files['level'].before('09')
        wrong = other.resize(len(other.words) + 1)
        yield 4, f'{kind} not due, and not exact', stage.and_then(wrong).words(), len(stage.words())
    yield 4, 'end marker not due, and a word after it', file.words() + [END, END], at


def due(files):
    """A block that is due, with two faults."""
    model = model_of(files)
    for kind in model.listed():
        file = place_of(files, kind)
        block, at = file.block(kind), file.start(kind)
        short = block.resize(len(block.words) + 1 if kind in HISTOGRAMS else model.least_first(kind) - 1)
        if kind != '03':  # a block of one word always fits
            passes = file.before(kind).and_then(short.cut(len(short.words) - 1))
            yield 2, f'{kind} passes the last word, and short or not exact', passes.words(), at
        for offset, _, wrong in list(checked(file, kind))[:1]:
            bad = block.edit({offset: wrong})
            cut = bad.cut(len(bad.words) - 1)
            yield 2, f'{kind} passes the last word, and word {offset}', file.before(kind).and_then(cut).words(), at
            bad_and_short = bad.resize(model.least_first(kind) - 1)
            yield 3, f'{kind} short, and word {offset}', file.swap(kind, bad_and_short).words(), at
            yield 3, f'{kind} in long form, and word {offset}', file.swap(kind, bad.long_form()).words(), at


def rising(files):
    """Two wrong words in a block: the first of them."""
    model = model_of(files)
    for kind in (kind for kind in ('04', '05', '07', '09', '0E', '10', '0F') if kind in model.least):
        file = place_of(files, kind)
        words = list(checked(file, kind))
        for (one, number, wrong), (two, _, other) in zip(words, words[1:]):
            yield number, f'{kind}, words {one} and {two}', file.edit(kind, {one: wrong, two: other}).words(), \
                file.start(kind) + one
    file = files['level']
    block, at = file.block('05'), file.start('05')
    wrong = WRONG[model.unit]['profile'][2][0]
    for k, sub in enumerate(block.subs, 1):
        size = len(block.words) - sub
        for fault, length in ('length below 6', 5), ('past its block', size + 1):
            yield 7, f'05, sub-block {k}, {fault} and filter', \
                file.edit('05', {sub: 0x06 + 256 * length, sub + 2: wrong}).words(), at + sub
        yield 8, f'05, sub-block {k}, filter, and ends where the block does', \
            file.edit('05', {sub: 0x06 + 256 * size, sub + 2: wrong}).words(), at + sub + 2
    for kind, (number, least) in model.subs.items():
        sub = files['level'].block(kind).subs
        for fault, word in ('id', 0), ('length', number + 256 * (least - 1)):
            yield 6, f'{kind}, word 1, and sub-block 1, {fault}', \
                files['level'].edit(kind, {1: 0, sub[0]: word}).words(), files['level'].start(kind) + 1


def unit_and_length(files):
    """02 under 6 words (3), its unit type (5), a 953's 02 under 10 (3), each before all that could follow."""
    file = files['dose']
    block, at = file.block('02'), file.start('02')
    for length in 6, 9:
        short = block.resize(length)
        where = f'02 of {length} words'
        yield 2, f'{where}, and passes the last word', file.before('02').and_then(short.cut(length - 1)).words(), at
        yield 3, f'{where}, and in long form', file.swap('02', short.long_form()).words(), at
        yield 3, f'{where}, and the words run out', file.before('02').and_then(short).words(), at
        yield 3, f'{where}, and then 02', file.swap('02', short, block).words(), at
        yield 3, f'{where}, and then 0F', file.swap('02', short, logger(0)).words(), at
        yield 3, f'{where}, and then the end marker', file.swap('02', short, Block('end', (END,))).words(), at
        yield 3, f'{where}, and then 04', file.swap('02', short).edit('04', {3: 3}).words(), at


def counts_and_length(files):
    """A 953's 0E: under 5 words (3), its words (6, 8), under 5 plus both counts (3)."""
    for bands in (3150, 10, 3), (50000, 1, 1):
        file = with_bands(files['octave'], bands)
        block, at = file.block('0E'), file.start('0E')
        faults = list(checked(file, '0E')) + [(3, 8, 11)]
        for offset, number, wrong in faults:
            bad = block.edit({offset: wrong})
            where = f'0E for {bands}, word {offset} is {wrong}'
            yield 3, f'{where}, and 4 words', file.swap('0E', bad.resize(4)).words(), at
            for length in sorted({5, len(block.words) - 1}):
                yield number, f'{where}, and {length} words', file.swap('0E', bad.resize(length)).words(), at + offset
        for length in sorted({4, 5, len(block.words) - 1}):
            short = block.resize(length)
            where = f'0E of {length} words for {bands}'
            yield 2, f'{where}, and passes the last word', file.before('0E').and_then(short.cut(length - 1)).words(), at
            yield 3, f'{where}, and in long form', file.swap('0E', short.long_form()).words(), at
            yield 3, f'{where}, and the words run out', file.before('0E').and_then(short).words(), at
            yield 3, f'{where}, and then 10', file.swap('0E', short, Block('10', (0x0110,))).words(), at
            yield 3, f'{where}, and then 09', file.swap('0E', short).edit('09', {1: 0}).words(), at
            yield 4, f'{where}, not due', files['level'].put('09', short).words(), files['level'].start('09')


def contents(files):
    """BuffLength, and words 3 to 5, before the contents' fit; the contents' fit before all that could follow."""
    for name in 'buffer 2', 'buffer 3':
        file = files[name].before('contents')
        at = file.start('0F')
        length = 2 * len(files[name].block('contents').words)
        yield 8, f'BuffLength odd, and contents missing, {name}', file.edit('0F', {6: length + 1}).words(), at + 6
        yield 8, f'BuffLength not whole records, and contents missing, {name}', file.edit('0F', {6: 2}).words(), at + 6
        for word in 3, 4, 5:
            yield 8, f'0F, word {word}, and contents missing, {name}', file.edit('0F', {word: 0}).words(), at + word
        yield 2, f'contents pass the last word, and the end marker not due, {name}', file.words() + [END], at


def faulty(file, kind):
    """(number, offset, block) of a block with one fault."""
    block = file.block(kind)
    if kind == '03':
        return 3, 0, title(b'AB')
    if kind in HISTOGRAMS:
        return 3, 0, block.resize(len(block.words) + 1)
    for offset, number, wrong in checked(file, kind):
        return number, offset, block.edit({offset: wrong})
    return 3, 0, block.resize(file.model.least_first(kind) - 1)


def in_file_order(files):
    """A faulty block, then another one, a word after the end marker, or no more words: the first fault."""
    model = model_of(files)
    for name in *model.functions, *(('buffer 2',) if model == M945 else ()):
        file = files[name]
        kinds = [block.kind for block in file.blocks if block.kind in model.listed()]
        for kind, later in zip(kinds, kinds[1:] + ['end']):
            number, offset, bad = faulty(file, kind)
            end = (Block('end', (END, END)),) if later == 'end' else (faulty(file, later)[2],)
            position = file.start(kind) + offset
            yield number, f'{kind}, and then {later}, {name}', file.swap(kind, bad).swap(later, *end).words(), position
            if kind != '0F':
                words = file.before(kind).and_then(bad).words()
                yield number, f'{kind}, and the words run out, {name}', words, position


def makers(model):
    if model == M953:
        return odd, not_due, due, rising, unit_and_length, counts_and_length, in_file_order
    return odd, not_due, due, rising, contents, in_file_order


def two_faults():
    """(number, place, bytes, position)."""
    seen = set()
    for model in MODELS:
        for maker in makers(model):
            for files, name in variants(model):
                for number, place, words, position in maker(files):
                    data = data_of(words)
                    if model == M945 or data not in seen:  # some do not depend on the model, or on the function
                        seen.add(data)
                        yield number, place + name, data, position
