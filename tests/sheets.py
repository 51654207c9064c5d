"""Sheets at the ends of their ranges, each made beside its file: no sheet is computed by reading a file."""

from blocks import (BANDS, END, HISTOGRAMS, M945, M953, ON, Block, File, file_953, histogram, logger, opening, packed,
                    profiles, spectrum_block, title)

# T-01: the rows of a 953's results by their offsets in a sub-block; a dose meter has two more.
ROWS_953 = {'PEAK': 3, 'MAX': 5, 'MIN': 6, 'SPL': 7, 'LEQ': 8, 'Lden': 9, 'Ltm3': 10, 'Ltm5': 11}
DOSE_ROWS = ROWS_953 | {'LAV': 12, 'TLAV': 13}


def tenths(n):
    return f'{"-" if n < 0 else ""}{abs(n) // 10}.{abs(n) % 10}'


def head_line(key, shown):
    """T-03: a line whose text holds a comma or a double quote stands between double quotes, those within it doubled."""
    line = f'{key}={shown}'
    return '"' + line.replace('"', '""') + '"' if ',' in shown or '"' in shown else line


def head(function, shown='Hall', model=M945, name='FILE1'):
    return [f'unit={model.unit}', 'number=1234', f'version={model.version}', head_line('name', name), f'function={function}',
            head_line('title', shown)]


def text(lines):
    return ''.join(f'{line}\n' for line in lines).encode('ascii')


def without_title(file):
    return file.swap('03', title(b'\0\0'))


def results_945(times, n, ln):
    """The lines of a 945's results, the first nine of them 0. T-02: N is a plain number, and LN is a level."""
    levels = 'PEAK', 'MAX', 'MIN', 'SPL', 'LEQ', 'SEL', 'Lex8', 'Ltm3', 'Ltm5'
    return ['result,unit,P1 A,P2 C,P3 Lin', f'time,s,{times}', *(f'{name},dB,0.0,0.0,0.0' for name in levels),
            f'N,%,{n}', f'LN,dB,{ln}']


def one_word_records():
    """The longest sheet: 32,696 records of one word, with the longest step. Its last time is 2,144,809,491,825 ms."""
    count, step = 32696, 1000 * 65535 + 65535
    words = [(i * 37) % 65536 for i in range(count)]
    blocks = opening(1, (2, 3, 1), (4, 0, 0), ON, 0)
    blocks += logger(2 * count).edit({1: 65535, 2: 65535}), Block('contents', tuple(words)), Block('end', (END,))
    rows = [f'{i * step},{tenths(w - 65536 if w > 32767 else w)}' for i, w in enumerate(words)]
    return without_title(File(1, blocks)), head(1, '') + ['ms,P1 RMS A'] + rows


def long_heading():
    """The longest heading: three profiles, 45 bands and three totals; and the longest levels."""
    codes, filters = (1, 1, 1), (1, 1, 1)
    blocks = opening(3, filters, codes, ON, 0)
    blocks += logger(2 * 51, BANDS[3]), Block('contents', (0x8000,) * 51), Block('end', (END,))
    names = [f'P{p} PEAK Lin' for p in (1, 2, 3)] + [f'B{i}' for i in range(1, 46)] + ['T1', 'T2', 'T3']
    return File(3, blocks), head(3) + ['ms,' + ','.join(names), '0' + ',-3276.8' * 51]


def wide_classes():
    """The highest class bound, 106,949,843.2 dB, in the longest histogram beside two without classes."""
    count = 16320
    results = profiles('07', [{1: 65535, 2: 65535}] * 3)
    statistics = profiles('09', [{1: count, 2: 0x7FFF, 3: 65535}, {}, {}])
    counts = histogram(HISTOGRAMS[0], count).edit({2 * count: 65535, 2 * count + 1: 65535})
    blocks = opening(1, (2, 3, 1), (0, 0, 0), ON, 0)
    blocks += results, statistics, counts, *(histogram(kind, 0) for kind in HISTOGRAMS[1:]), Block('end', (END,))
    lines = head(1, '') + results_945('4294967295,4294967295,4294967295', '0,0,0', '0.0,0.0,0.0') + ['profile,from dB,count']
    lines += [f'P1,{tenths(32767 + i * 65535)},17' for i in range(count - 1)]
    return without_title(File(1, blocks)), lines + [f'P1,{tenths(32767 + (count - 1) * 65535)},4294967295']


def plain_numbers():
    """T-02: an N that is 65,535, one at the sign of a level, and a 0; LN has the same words, which are levels there."""
    words = 65535, 32768, 0
    results = profiles('07', [{12: word, 13: word} for word in words])
    blocks = opening(1, (2, 3, 1), (0, 0, 0), ON, 0) + (results, Block('end', (END,)))
    return File(1, blocks), head(1) + results_945('0,0,0', '65535,32768,0', '-0.1,-3276.8,0.0')


def quoted_head(text, shown):
    """T-03: a name and a title with commas and quotes."""
    file, lines = plain_numbers()
    file = file.edit('01', dict(enumerate(packed(b'a,"b",""'), 1))).swap('03', title(text))
    return file, head(1, shown, name='a,"b",""') + lines[6:]


def wide_classes_953():
    """The longest sheet of a 953: 16,314 classes after the results of a dose meter."""
    count = 16314
    times = {1: 65535, 2: 65535}, {1: 65534, 2: 65535}, {}  # a measurement's, an overload's, and one that is not shown
    results = profiles('07', [{i: 100 * p + i for i in range(3, 15)} | time for p, time in enumerate(times, 6)], 1, M953)
    statistics = profiles('09', [{}, {}, {1: count, 2: 0x8000, 3: 65535}])
    blocks = opening(4, (2, 3, 0), (15, 1, 8), ON, 1, M953)
    blocks += results, statistics, *(histogram(kind, 0) for kind in HISTOGRAMS[:2]), histogram(HISTOGRAMS[2], count)
    file = without_title(File(4, blocks + (Block('end', (END,)),), M953))
    assert len(file.words()) == 32768
    lines = head(4, '', M953) + ['result,unit,P1 A,P2 C,P3 Z', 'time,s,4294967295,,', 'overload,s,4294967294,,']
    for name, i in DOSE_ROWS.items():
        lines.append(f'{name},dB,{tenths(600 + i)},{tenths(700 + i)},{tenths(800 + i)}')
    return file, lines + ['profile,from dB,count'] + [f'P3,{tenths(i * 65535 - 32768)},17' for i in range(count)]


def octaves_953():
    """All fifteen octaves of a 953 with three totals, and the six from 500 Hz on with none; levels from the lowest on."""
    hertz = '1', '2', '4', '8', '16', '31.5', '63', '125', '250', '500', '1000', '2000', '4000', '8000', '16000'
    file = file_953(2, filters=(0, 0, 0)).edit('04', {14: 0})
    file = file.swap('07', profiles('07', [{i: 0x8000 for i in range(1, 15)}] * 3, model=M953))
    lines = head(2, model=M953) + ['result,unit,P1 Z,P2 Z,P3 Z', 'time,s,2147516416,,', 'overload,s,2147516416,,']
    lines += [f'{name},dB' + ',-3276.8' * 3 for name in ROWS_953] + ['band,Hz,dB Z']
    for lowest, first, totals in (100, 0, 3), (50000, 9, 0):
        names = [f'{i},{name}' for i, name in enumerate(hertz[first:], 1)] + [f'T{i},' for i in range(1, totals + 1)]
        block = spectrum_block('0E', (lowest, 15 - first, totals), tuple(0x8000 + i for i in range(len(names))))
        yield file.swap('0E', block), lines + [f'{name},{tenths(i - 32768)}' for i, name in enumerate(names)]


def fitting(lines, room):
    """How many whole lines fit into `room` bytes."""
    count = size = 0
    for line in lines:
        size += len(line) + 1
        if size > room:
            break
        count += 1
    return count


def answer(lines, label, n, room):
    """The answer of an accepted file: numbers, or a refusal, and the bytes that are written."""
    if len(label) > 507:
        return 'refused 10 at 0', b''
    if room < 1024:
        return 'refused 11 at 0', b''
    left = lines[n:]
    count = fitting(left, room)
    data = text(left[:count])
    return f'{count} lines, {len(data)} bytes, {"finished" if count == len(left) else "more"}', data


def asks():
    """(name, label, file, line number, output) of the largest cases."""
    longest, rows = one_word_records()
    heading, columns = long_heading()
    classes, bounds = wide_classes()
    last = len(rows)
    n = 0
    while n < last:
        yield f'longest sheet from line {n}', b'', longest, rows, n, 65536
        n += fitting(rows[n:], 65536)
    for n in (last - 1, last, last + 1, 2 ** 32 - 1):
        yield f'longest sheet from line {n}', b'', longest, rows, n, 65536
    for room in (0, 1023, 1024, 1025):
        yield f'output of {room} bytes', b'', longest, rows, 0, room
    yield 'heading with 48 levels', b'', heading, columns, 6, 1024
    yield 'longest levels', b'', heading, columns, 7, 1024
    one = heading.swap('03', title(b'A\0'))
    yield 'checked file 7, the title of 41 00', b'label', one, columns[:5] + ['title=A'] + columns[6:], 5, 1024
    yield 'times of results', b'', classes, bounds, 6, 1024
    yield 'highest class bound', b'', classes, bounds, len(bounds) - 2, 1024
    for size in (506, 507, 508):
        label = bytes(33 + i % 90 for i in range(size))
        lines = columns[:5] + [head_line('title', label.decode('ascii'))] + columns[6:]
        yield f'label of {size} bytes', label, without_title(heading), lines, 0, 1024
        yield f'label of {size} bytes, output of 1023', label, without_title(heading), lines, 0, 1023
        yield f'label of {size} bytes that is not shown', label, heading, columns, 0, 1024
    classes, bounds = wide_classes_953()
    for n in 0, len(bounds) - 1, len(bounds):
        yield f'953, longest sheet from line {n}', b'', classes, bounds, n, 65536
    for (file, lines), name in zip(octaves_953(), ('15', '6')):
        yield f'953, {name} octaves', b'', file, lines, 6, 1024
    file, lines = plain_numbers()
    for n in 0, len(lines) - 2:
        yield f'plain numbers from line {n}', b'', file, lines, n, 1024
    yield from quoted_asks()


def quoted_asks():
    """T-03: names, titles and labels with commas and quotes; the longest line; and a long line at the end of every output."""
    for text, shown in (b'say "A"', 'say "A"'), (b'Hall,=1+1', 'Hall,=1+1'), (b'Hall; north=1', 'Hall; north=1'), \
            (b'\xac\xa2\x0c\x02', '????'), (b',\x7f', ',?'):
        yield f'title {shown}', b'', *quoted_head(text.ljust(len(text) // 2 * 2 + 2, b'\0'), shown), 3, 1024
    quotes = '"' * 507
    file, lines = quoted_head(quotes.encode('ascii') + b'\0', quotes)
    yield 'title of 507 quotes', b'', file, lines, 5, 1024
    yield 'label of 507 quotes', quotes.encode('ascii'), without_title(file), lines, 5, 1024
    shown = ''.join(f'{chr(65 + i)},' + 18 * '"' for i in range(26))[:507]
    file, lines = quoted_head(shown.encode('ascii') + b'\0', shown)
    for room in range(1024, 1024 + len(lines[5]) + 2):
        yield f'a long title and an output of {room} bytes', b'', file, lines, 0, room
