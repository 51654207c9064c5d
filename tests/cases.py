"""Hard cases, and files that are accepted: (name, words or bytes, verdict line)."""

from dataclasses import replace
from itertools import product

from blocks import (BANDS_LEFT, END, FREE, FREE_953, HISTOGRAMS, LEAST, M945, M953, OFF, ON, Block, File, buffer_file,
                    file_953, free, grow, histogram, lengthen, logger, packed, plain, profiles, record_words, result_file, title)
from pairs import CLASSES, boundaries, data_of, good_files, with_bands, words_of


def refused(number, position):
    return f'refused {number} at {position}'


def accepted(name, file):
    return name, file.words(), file.accepted()


HEADER = plain('01', {})


def checked_files():
    """01, Checked files 1 to 4, 8 and 9, file 3 as T-01 has it; how the first words of a file are judged (docs/DECISIONS.md)."""
    yield 'case 1, empty', [], refused(2, 0)
    yield 'case 1, one byte', b'\0', refused(1, 0)
    yield 'case 1, FFFF', [END], refused(4, 0)
    yield 'case 2, 0C01 alone', [0x0C01], refused(2, 0)
    yield 'case 2, 0601 and five zeros', [0x0601, 0, 0, 0, 0, 0], refused(3, 0)
    yield 'case 3, unit type 953', checked_file_3(), refused(3, 12)
    yield 'case 4, 00AA 0001 after 01', words_of(HEADER) + [0x00AA, 1], refused(3, 12)
    assert len(checked_file_8().words()) == 78
    yield accepted('case 8, BUFF1', checked_file_8())
    yield accepted('case 9, BUFF1 with 0199 before 0F', checked_file_9())
    for words, number in ((0x010B, 1), 3), ((0x010B, 3), 2), ((0x010B, 2), 4), ((0x0002, 2), 4), ((0x0001, 2), 3):
        yield f'word 0, {words[0]:04X} {words[1]:04X}', list(words), refused(number, 0)
    yield '01 and then 0103', words_of(HEADER) + [0x0103], refused(4, 12)


def checked_file_3():
    return words_of(HEADER) + [0x0602, 0, 953, 0, 0, 0]


def checked_file_8():
    name = dict(enumerate(packed(b'BUFF1\0\0\0'), 1))
    blocks = (plain('01', name), plain('02', {1: 1234, 2: 945, 3: 105}), title(b'Hall\0\0'), plain('04', {3: 1}),
              profiles('05', [{2: 2, 3: 4}, {2: 3, 3: 0}, {2: 1, 3: 1}]), logger(8),
              Block('contents', (634, 701, 0xFFFB, 698)), Block('end', (END,)))
    return File(1, blocks)


def checked_file_9():
    return checked_file_8().put('0F', free(0x0199))


def spectra_and_titles():
    """01, Checked files 6 and 7: an 0E of 22 words is 3, of 23 and 24 accepted; a title needs a null."""
    for function, kind in (2, '0E'), (3, '10'):
        file = result_file(function)
        for length in LEAST[kind] - 1, LEAST[kind], LEAST[kind] + 1, 255:
            other = file.swap(kind, file.block(kind).resize(length))
            line = refused(3, file.start(kind)) if length < LEAST[kind] else other.accepted()
            yield f'case 6, {kind} of {length} words', other.words(), line
    yield 'case 6, 0E of 21 words', result_file(2).swap('0E', result_file(2).block('0E').resize(21)).words(), \
        refused(3, result_file(2).start('0E'))
    file = result_file(1)
    yield accepted('case 7, title A and a null', file.swap('03', title(b'A\0')))
    yield 'case 7, title AB', file.swap('03', title(b'AB')).words(), refused(3, file.start('03'))
    for name, text in ('null first', b'\0A'), ('null last', b'ABC\0'), ('empty', b'\0\0'), \
            ('FFFF behind its null', b'A\0\xff\xff'), ('FFFF before its null', b'\xff\xff\xff\xff\0\0'), \
            ('255 words', b'T' * 507 + b'\0'):
        yield accepted(f'title, {name}', file.swap('03', title(text)))


def classes():
    """0B is exactly 2 classes + 2, compared as a number: 32,768 classes never fit a 16-bit length."""
    for k, kind in enumerate(HISTOGRAMS):
        for count, length in (32768, 2), (32769, 4):
            numbers = [1, 1, 1]
            numbers[k] = 0
            file = result_file(1, numbers)
            sub = file.block('09').subs[k]
            file = file.swap(kind, Block(kind, file.block(kind).words[:1] + (length,) + (0,) * (length - 2)))
            yield f'{count} classes, {kind} of {length} words', file.edit('09', {sub + 1: count}).words(), \
                refused(3, file.start(kind))
    file = result_file(1, (0, 0, 0)).edit('09', {3: 32767}).edit(HISTOGRAMS[0], {1: 0})
    yield '32767 classes, 0B nn 01 of 0 words', file.words(), refused(3, file.start(HISTOGRAMS[0]))
    file = result_file(1, (0, 0, 0)).edit('09', {3: 16384}).edit(HISTOGRAMS[0], {1: 32770})
    yield '16384 classes, 0B nn 01 of 32770 words', file.words(), refused(2, file.start(HISTOGRAMS[0]))
    for numbers in (0, 0, 0), (0, 2, 1), (1, 0, 2), (2, 1, 0), (150, 7, 30):
        yield accepted(f'classes {numbers}', result_file(1, numbers))
    # Each 0B by its own profile's classes, not by another's.
    for numbers in (1, 2, 3), (3, 2, 1):
        file = result_file(1, numbers)
        other = file.swap(HISTOGRAMS[0], histogram(HISTOGRAMS[0], 2))
        yield f'classes {numbers}, 0B nn 01 by the second profile', other.words(), refused(3, file.start(HISTOGRAMS[0]))


def end_markers():
    """A level of -0.1 is FFFF; only at a block start is it the end marker."""
    for function in 1, 2, 3:
        file = buffer_file(function)
        full = file.swap('contents', Block('contents', (END,) * len(file.block('contents').words)))
        yield accepted(f'contents all FFFF, function {function}', full)
        cut = full.before('end').words()
        yield f'contents all FFFF and no end marker, function {function}', cut, refused(2, len(cut))
        full = result_file(function, CLASSES, fill=END)
        for kind in HISTOGRAMS:
            full = full.edit(kind, {i: END for i in range(2, 2 * max(CLASSES) + 2)})
        full = full.edit('07', {at + i: END for at in full.block('07').subs for i in range(1, 14)})
        yield accepted(f'levels and counters all FFFF, function {function}', full)
    file = buffer_file(1)
    yield accepted('FFFF first in the contents', file.edit('contents', {0: END}))
    yield accepted('FFFF last in the contents', file.edit('contents', {3: END}))
    like = Block('contents', (0x0199, END, 0x0C01, END))
    yield accepted('contents like a block and an end', file.swap('contents', like))
    short = file.before('contents').and_then(Block('contents', (1, 2, 3)), Block('end', (END,)))
    yield 'contents one word short, FFFF taken for a level', short.words(), refused(2, len(short.words()))
    for words in (0x02FF, END), (0x00FF, 3, END), (0x01FF,), (0xFEFF,) + (END,) * 253:
        yield accepted(f'unlisted block {words[0]:04X} with FFFF in it', file.put('0F', free(*words)))
    before = file.before('0F')
    yield 'FFFF in place of 0F', before.words() + [END], refused(4, len(before.words()))


def buffer_lengths():
    """BuffLength has 32 bits and nothing wraps; a length that is whole records but too long is 2 at the 0F."""
    one, two, none = buffer_file(1, (4, 0, 0)), buffer_file(1, (4, 0, 1)), buffer_file(1, (0, 0, 0))
    for name, file, length, number, offset in (
            ('FFFFFFFE, records of 1 word', one, 0xFFFFFFFE, 2, 0),
            ('FFFFFFFE, records of 2 words', two, 0xFFFFFFFE, 8, 6),
            ('FFFFFFFE, records of no words', none, 0xFFFFFFFE, 8, 6),
            ('FFFFFFFF, records of 1 word', one, 0xFFFFFFFF, 8, 6),
            ('FFFFFFFC, records of 2 words', two, 0xFFFFFFFC, 2, 0),
            ('80000000, records of 2 words', two, 0x80000000, 2, 0),
            ('80000004, records of 1 word', one, 0x80000004, 2, 0),
            ('00010000, records of 2 words', two, 0x00010000, 2, 0),
            ('00010008, records of 2 words', two, 0x00010008, 2, 0),
            ('00020008, records of 2 words', two, 0x00020008, 2, 0),
            ('00020000, records of no words', none, 0x00020000, 8, 6)):
        edited = file.edit('0F', {6: length % 65536, 7: length // 65536})
        yield f'BuffLength {name}', edited.words(), refused(number, file.start('0F') + offset)
    for function, buffering in product((1, 2, 3), (ON, OFF)):
        file = buffer_file(function, (1, 2, 3), buffering, records=0)
        yield accepted(f'BuffLength 0, function {function}, buffering {buffering}', file)
        yield accepted(f'BuffLength 0 and a block behind, function {function}, buffering {buffering}',
                       file.put('end', free(0x0399, END, END)))
    yield accepted('milliseconds over 999', two.edit('0F', {1: 0xFFFF, 2: 0xFFFF}))


def sub_blocks(model=M945):
    """A sub-block may end exactly where its block does, not one word past; the next may not start there."""
    file = result_file(1, CLASSES, model=model)
    for kind, (number, _) in model.subs.items():
        start, block = file.start(kind), file.block(kind)
        for k, at in enumerate(block.subs, 1):
            longest = lengthen(block, 0, tuple((255 - model.least[kind]) * (i == k) for i in (1, 2, 3)))
            yield accepted(f'{kind} of 255 words, all in sub-block {k}', file.swap(kind, longest))
            passes = longest.edit({longest.subs[2]: longest.words[longest.subs[2]] + 256})
            yield f'{kind} of 255 words, sub-block 3 one word past it, {k} longest', \
                file.swap(kind, passes).words(), refused(7, start + passes.subs[2])
            yield f'{kind}, sub-block {k} of 255 words', file.edit(kind, {at: number + 0xFF00}).words(), \
                refused(7, start + at)
        longest = lengthen(block, 255 - model.least[kind])
        yield accepted(f'{kind} of 255 words, all behind its sub-blocks', file.swap(kind, longest))
        # The second reaches to the block's end; the block after it looks like the third, but it is not in the block.
        other = block.edit({block.subs[1]: number + 256 * (len(block.words) - block.subs[1])})
        like = free(*block.words[block.subs[2]:])
        following = file.blocks[file.index(kind) + 1].kind
        yield f'{kind}, a block like its third sub-block behind it', \
            file.swap(kind, other).put(following, like).words(), refused(7, start + len(block.words))
        yield accepted(f'{kind}, whole, a block like a sub-block behind it', file.put(following, like))


def lengths():
    """Lengths of word 1 up to 65,535, which must not wrap; and every id that is not listed."""
    file = result_file(1, CLASSES)
    left = len(file.words()) - 10  # words from word 12 on, with the two that are put there
    for header in 0x0099, 0x0114, 0x010B, 0x0002, 0x0004:
        for length in left + 1, 0x8000, 0xFFF4, 0xFFFF:
            words = file.put('02', free(header, length)).words()
            yield f'{header:04X} of {length} words at word 12', words, refused(2, 12)
    for header in 0x0099, 0x0114:
        yield f'{header:04X} up to the last word', file.put('02', free(header, left)).words(), refused(2, left + 12)
    yield accepted('unlisted block of 2 words in long form', file.put('02', free(0x0099, 2)))
    yield accepted('unlisted block of 300 words in long form', file.put('02', free(0x0099, 300, *[END] * 298)))
    yield accepted('14 of 300 words', file.put('end', free(0x0014, 300, *[END] * 298)))
    listed = {int(kind, 16) for kind in LEAST} | {0x0B}
    others = [number for number in range(256) if number not in listed]
    short = [free(0x0200 + number, 2) for number in others]
    long = [free(number, 3, END) for number in others]
    yield accepted('every unlisted id, short form', file.put('02', *short))
    yield accepted('every unlisted id, long form', file.put('02', *long))
    yield accepted('14 with every nn', file.put('end', *[free(0x0014 + 256 * nn, 3, END) for nn in range(256)]))


def sizes():
    """65,536 bytes may be accepted, and not a word more (the pairs of number 1)."""
    file = result_file(1, (0, 0, 16320)).swap('03', title(b'A\0'))  # the most classes that a file can hold
    assert len(file.words()) == 32768
    yield accepted('65536 bytes, 16320 classes', file)
    one = buffer_file(1, (4, 0, 0), records=0)
    room = 32768 - len(one.words())
    yield accepted('65536 bytes, contents', buffer_file(1, (4, 0, 0), records=room))
    pad = free(0x0099, room + 1, *[0] * (room - 1))
    yield '65536 bytes, words run out', one.put('0F', pad).before('end').words(), refused(2, 32768)
    yield accepted('65536 bytes, an unlisted block', one.put('0F', pad.edit({1: room}).cut(room)))


def unit_types():
    """T-01: an 02 under 6 words is 3, then a unit type that is neither is 5, then a 953's 02 under 10 words 3."""
    short, neither = refused(3, 12), refused(5, 14)
    for length, of_945, of_953, of_954 in (
            (3, short, short, short), (5, short, short, short), (6, refused(2, 18), short, neither),
            (7, refused(2, 19), short, neither), (9, refused(2, 21), short, neither),
            (10, refused(2, 22), refused(2, 22), neither)):
        for unit, line in (945, of_945), (953, of_953), (954, of_954):
            block = Block('02', (0x02 + 256 * length, 0, unit) + (0,) * 7).cut(length)
            yield f'01 and then an 02 of {length} words, {unit}', words_of(HEADER, block), line


def as_a(model, file):
    """The same blocks with this model's number in 02."""
    return replace(file, model=model).edit('02', {2: model.unit})


def other_model():
    """A good file with the other model's number in 02 fails at the first row that differs."""
    for function, place in (1, '05'), (2, '04, word 14'), (3, '04, word 3'):
        file = result_file(function, CLASSES).edit('04', {14: 1})
        yield f'function {function}, 953 in a 945\'s 02', as_a(M953, file).words(), refused(3, file.start('02'))
        file = file.swap('02', lengthen(file.block('02'), 4))
        yield f'function {function}, 953 in a 945\'s 02 of 10 words', as_a(M953, file).words(), refused(3, file.start('04'))
        file = file.swap('04', lengthen(file.block('04'), 5))
        at = {'05': file.start('05') + file.block('05').subs[2] + 2, '04, word 14': file.start('04') + 14,
              '04, word 3': file.start('04') + 3}[place]
        yield f'function {function}, 953 in a 945\'s 02 of 10 words, 04 of 28', as_a(M953, file).words(), refused(8, at)
    for function in 1, 2, 4:
        file = file_953(function, CLASSES)
        at = file.start('04') + 3 if function == 4 else file.start('05') + file.block('05').subs[2] + 2
        yield f'function {function}, 945 in a 953\'s 02', as_a(M945, file).words(), refused(8, at)
    yield 'a second 02, of a 945, in a 953', file_953(1).put('03', result_file(1).block('02')).words(), refused(4, 22)
    yield 'a second 02, of a 953, in a 945', result_file(1).put('03', file_953(1).block('02')).words(), refused(4, 18)


def both_models():
    """Blocks of a 953 with filters and octaves that both have: with a 945's number they are longer blocks and records of it."""
    file = file_953(1, CLASSES, filters=(2, 3, 2))
    yield accepted('a 945 with longer records, the blocks of a 953', as_a(M945, file))
    yield accepted('a 953 with these blocks', file)
    file = file_953(2, CLASSES, filters=(2, 3, 2), bands=(100, 15, 3))
    yield accepted('a 945 with longer records and 1/1 octaves, the blocks of a 953', as_a(M945, file))
    yield accepted('a 953 with these blocks and 1/1 octaves', file)
    short = file.swap('07', result_file(2).block('07'))
    yield accepted('a 945 with an 07 of 44 words', as_a(M945, short))
    yield 'a 953 with an 07 of 44 words', short.words(), refused(3, short.start('07'))
    longer = file.swap('07', lengthen(result_file(2).block('07'), 3))
    yield accepted('a 945 with an 07 of 47 words, records of 14', as_a(M945, longer))
    yield 'a 953 with an 07 of 47 words, records of 14', longer.words(), refused(7, longer.start('07') + 2)
    ten = file_953(2, CLASSES, filters=(2, 3, 2))
    ten = as_a(M945, ten.swap('0E', ten.block('0E').resize(23)))
    yield 'a 945 with 10 octaves from 31.5 Hz', ten.words(), refused(8, ten.start('0E') + 2)


def other_words():
    """The model is in word 2 of 02 and in no other."""
    for offset in 1, 3, 4, 5, 6, 7, 8, 9:
        yield accepted(f'a 953 with 945 in word {offset} of 02', file_953(4, CLASSES).edit('02', {offset: 945}))
    for offset in 1, 3, 4, 5:
        yield accepted(f'a 945 with 953 in word {offset} of 02', result_file(3, CLASSES).edit('02', {offset: 953}))


def octaves_953():
    """A 953's 0E is as long as its own words 3 and 4 have it, or longer; then comes 09 or the end marker."""
    for bands in (3150, 10, 3), (100, 15, 3), (100, 15, 0), (100, 1, 0), (50000, 6, 3), (50000, 1, 0), (1600, 11, 1):
        file = with_bands(file_953(2, CLASSES), bands)
        whole = len(file.block('0E').words)
        for length in sorted({whole - 1, whole, whole + 1, 255}):
            other = file.swap('0E', file.block('0E').resize(length))
            line = refused(3, file.start('0E')) if length < whole else other.accepted()
            yield f'0E of {length} words for {bands}', other.words(), line
    for bands in (3150, 10, 3), (100, 15, 3):
        file = with_bands(file_953(2), bands)
        full = file.edit('0E', {i: END for i in range(5, 23)})
        yield accepted(f'levels all FFFF for {bands}', full)
        yield accepted(f'one band less than levels for {bands}', full.edit('0E', {3: bands[1] - 1}))
        short = full.swap('0E', full.block('0E').resize(4 + bands[1] + bands[2]))  # the end marker is no level of it
        yield f'a level short, and FFFF behind, for {bands}', short.words(), refused(3, file.start('0E'))


def no_buffer_953():
    """0F is listed and never due in a 953, whatever is in it."""
    end, contents = Block('end', (END,)), Block('contents', (1, 2, 3, 4))
    for function in 1, 2, 4:
        file = file_953(function)
        for name, blocks in ('no contents', (logger(0),)), ('contents', (logger(8), contents)), \
                ('words of 0', (free(0x080F, *[0] * 7),)), ('one word', (free(0x010F),)):
            yield f'0F in the place of 07, {name}, function {function}', file.before('07').and_then(*blocks, end).words(), \
                refused(4, file.start('07'))
        yield f'0F behind all, function {function}', file.put('end', logger(0)).words(), refused(4, file.start('end'))


def as_in_a_945():
    """What holds for any model, in a 953: exact histograms, titles, FFFF within blocks, unlisted blocks, sub-blocks."""
    for numbers in (0, 0, 0), (0, 2, 1), (150, 7, 30):
        yield accepted(f'classes {numbers}', file_953(4, numbers))
    file = file_953(4, (0, 0, 0))
    for kind, sub in zip(HISTOGRAMS, file.block('09').subs):
        yield f'32768 classes, {kind} of 2 words', file.edit('09', {sub + 1: 32768}).words(), refused(3, file.start(kind))
    for name, text in ('null first', b'\0A'), ('FFFF behind its null', b'A\0\xff\xff'), ('255 words', b'T' * 507 + b'\0'):
        yield accepted(f'title, {name}', file_953(4).swap('03', title(text)))
    yield 'title AB', file_953(4).swap('03', title(b'AB')).words(), refused(3, 22)
    listed = {int(kind, 16) for kind in LEAST} | {0x0B, 0x14}
    others = [free(0x0300 + number, END, number) for number in range(256) if number not in listed]
    for function in 1, 2, 4:
        full = file_953(function, CLASSES, fill=END)
        full = full.edit('07', {at + i: END for at in full.block('07').subs for i in range(1, 15)})
        yield accepted(f'levels all FFFF, function {function}', full)
        yield accepted(f'every unlisted id, function {function}', file_953(function).put('end', *others))
    yield from sub_blocks(M953)


def hard_cases():
    for maker in checked_files, spectra_and_titles, classes, end_markers, buffer_lengths, sub_blocks, lengths, sizes:
        for name, words, line in maker():
            yield name, data_of(words), line
    for maker in unit_types, other_model, both_models, other_words, octaves_953, no_buffer_953, as_in_a_945:
        for name, words, line in maker():
            yield f'953, {name}', data_of(words), line


def measurements(make, functions):
    """A model's functions, with and without statistics and with several free words; grown where these are 0."""
    for function, numbers, fill in product(functions, (None, CLASSES), (0, 1, 0x0C01, 0xFFFF)):
        file = make(function, numbers, fill=fill)
        name = f'function {function}, {"statistics" if numbers else "no statistics"}, free words {fill:04X}'
        yield accepted(name, file)
        if not fill:
            yield accepted(f'{name}, grown', grow(file))


def kinds_of_files():
    """Functions 1 to 3, with and without statistics; buffer files with 0 to 3 profiles, bands on and off."""
    yield from measurements(result_file, (1, 2, 3))
    for function, buffering, records in product((1, 2, 3), (ON, OFF), (0, 1, 3)):
        for codes in product((0, 1), (0, 3), (0, 4)):
            if records and not record_words(function, codes, buffering):
                continue
            file = buffer_file(function, codes, buffering, records)
            name = f'buffer, function {function}, buffering {buffering}, codes {codes}, {records} records'
            yield accepted(name, file.edit('04', {22: buffering}))
            if records == 1:
                yield accepted(f'{name}, free words FFFF', buffer_file(function, codes, buffering, records, fill=END))


def unchecked_words():
    """04's words 21 and 22 with function 1, and words 3 to 5 of 0F where no bands are buffered, may hold anything."""
    for name, file in ('result', result_file(1)), ('buffer', buffer_file(1)):
        for offset, words in (21, (0, 4, END)), (22, (0, 1, 2, END)):
            for word in words:
                yield accepted(f'04, word {offset} is {word:04X}, function 1, {name}', file.edit('04', {offset: word}))
    for function in 1, 2, 3:
        file = buffer_file(function, buffering=OFF)
        for offset in 3, 4, 5:
            for word in 0, 1, 100, 80, END:
                yield accepted(f'0F, word {offset} is {word}, function {function}, buffering off',
                               file.edit('0F', {offset: word}))


def values():
    """Every value that the tables allow."""
    for function, filter_, buffering in product((2, 3), range(4), (ON, OFF)):
        file = result_file(function).edit('04', {21: filter_, 22: buffering})
        yield accepted(f'function {function}, filter {filter_}, buffering {buffering}', file)
    for k in 0, 1, 2:
        for value in 1, 2, 3, 4:
            filters = [1, 1, 1]
            filters[k] = value
            yield accepted(f'profile {k + 1}, filter {value}', result_file(1, filters=filters))
        for value in 0, 1, 2, 3, 4:
            codes = [4, 4, 4]
            codes[k] = value
            yield accepted(f'profile {k + 1}, buffer code {value}, result', result_file(1, codes=codes))
            yield accepted(f'profile {k + 1}, buffer code {value}, buffer', buffer_file(1, codes=codes))


def lengthened(file, kind):
    """A block with a word more and with 255 words, and each of its sub-blocks with a word more."""
    block = file.block(kind)
    for more in 1, 255 - len(block.words):
        yield accepted(f'{kind} lengthened by {more}', file.swap(kind, lengthen(block, more)))
    for k in 1, 2, 3:
        if block.subs:
            longer = lengthen(block, 0, tuple(int(i == k) for i in (1, 2, 3)))
            yield accepted(f'{kind}, sub-block {k} lengthened', file.swap(kind, longer))


def additions():
    """Demand 3, one at a time: a block or a sub-block lengthened, a block that is not listed at every boundary."""
    lean = good_files()[0]
    for kind in LEAST:
        file = lean[{'0E': 'octave', '10': 'third', '0F': 'buffer 2'}.get(kind, 'level')]
        yield from lengthened(file, kind)
    for stage, _, file, i in boundaries(lean):
        for name, block in FREE.items():
            if i:
                longer = replace(file, blocks=(*file.blocks[:i], block, *file.blocks[i:]))
                yield accepted(f'unlisted block, {name}, after {stage}', longer)


def kinds_953():
    """Functions 1, 2 and 4 of a 953, with and without statistics."""
    yield from measurements(file_953, (1, 2, 4))


def unchecked_953():
    """04's words 14 and 15 with functions 1 and 4, and words 21 and 22 (a calibration's date and time) with any."""
    for function in 1, 2, 4:
        file = file_953(function)
        for offset in (21, 22) if function == 2 else (14, 15, 21, 22):
            for word in 1, 2, 4, 0x0102, END:
                yield accepted(f'04, word {offset} is {word:04X}, function {function}', file.edit('04', {offset: word}))


def values_953():
    """Every value that the tables of a 953 allow: filters, buffering and codes; lowest frequencies, bands and totals of 0E."""
    for filter_, buffering in product((0, 2, 3), (0, 1)):
        file = file_953(2).edit('04', {14: filter_, 15: buffering})
        yield accepted(f'filter {filter_}, buffering {buffering}', file)
    for k in 0, 1, 2:
        for value in 0, 2, 3:
            filters = [2, 2, 2]
            filters[k] = value
            yield accepted(f'profile {k + 1}, filter {value}', file_953(4, filters=filters))
        for value in range(16):
            codes = [8, 8, 8]
            codes[k] = value
            yield accepted(f'profile {k + 1}, buffer code {value}', file_953(1, codes=codes))
    for lowest, left in BANDS_LEFT.items():
        for bands, totals in product((1, left), (0, 1, 2, 3)):
            yield accepted(f'0E from {lowest}, {bands} bands, {totals} totals', file_953(2, bands=(lowest, bands, totals)))
    for bands in range(2, 15):
        yield accepted(f'0E from 100, {bands} bands, 3 totals', file_953(2, CLASSES, bands=(100, bands, 3)))


def additions_953():
    """Demand 3 in a 953, one at a time; and what it writes itself that is not listed."""
    lean = good_files(M953)[0]
    for kind in M953.least:
        file = lean['octave' if kind == '0E' else 'dose']
        yield from lengthened(file, kind)
    longest = lean['octave']
    for kind in ('02', '03', '04', '05', '07', '0E', '09'):
        longest = longest.swap(kind, lengthen(longest.block(kind), 255 - len(longest.block(kind).words)))
    yield accepted('every table block of 255 words', longest)
    for stage, _, file, i in boundaries(lean):
        for name, blocks in *((name, (block,)) for name, block in FREE.items()), ('those of a 953', FREE_953.values()):
            longer = replace(file, blocks=(*file.blocks[:i], *blocks, *file.blocks[i:]))
            yield accepted(f'unlisted block, {name}, after {stage}', longer)
    for name, block in FREE_953.items():
        yield accepted(f'block {name} before 05', lean['octave'].put('05', block))
    for name, file in lean.items():
        yield accepted(f'{name}, as a 953 writes it', written(file))


def written(file):
    """With the blocks of tables B.1.5 to B.1.7, B.1.9, B.1.11 and B.1.17 where the manual has them."""
    file = file.put('05', *(FREE_953[name] for name in ('2B', '2C', '2E'))).put('07', FREE_953['21'])
    if file.function == 2:
        return file.put('0E', FREE_953['17']).put('09', FREE_953['26'], FREE_953['27'])
    return file.put('09', FREE_953['17'])


def good_cases():
    for maker in kinds_of_files, unchecked_words, values, additions:
        for name, words, line in maker():
            yield name, data_of(words), line
    for maker in kinds_953, unchecked_953, values_953, additions_953:
        for name, words, line in maker():
            yield f'953, {name}', data_of(words), line
