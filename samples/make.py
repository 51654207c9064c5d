"""Makes the files of a small hire return. No meter measured them; every run writes the same bytes.

    python3 samples/make.py [FOLDER]     # without FOLDER they go where this script is
"""

import sys
from dataclasses import dataclass, replace
from math import log10, sqrt
from pathlib import Path
from random import Random
from struct import pack

HERE = Path(__file__).resolve().parent
sys.dont_write_bytecode = True  # a run writes the meter files and no other
sys.path.insert(0, str(HERE.parent / 'tests'))

from blocks import (BANDS, END, HISTOGRAMS, M953, OFF, ON, SPECTRUM, Block, File, free, histogram, lengthen, logger, packed,
                    plain, profiles, spectrum_block, title)

METER, NEWER = 4127, 21077  # the numbers of the 945 and of the 953 in this return
Z, LIN, A, C = 0, 1, 2, 3  # filters: the same codes in 04 and in 05; Z is a 953's, LIN a 945's
TOTALS = (A, C, LIN)  # the filters of the three totals of a spectrum
PEAK, MAX, MIN, RMS = 1, 2, 3, 4  # what a profile buffers
ABOVE = {PEAK: 105, MAX: 18, MIN: -15, RMS: 0}  # tenths by which each lies above the level of its time step
FLOOR = 250  # tenths: the meter shows no lower level
CENTRES = [1000 * 10 ** (i / 10) for i in range(-31, 14)]  # 0.8 Hz to 20 kHz, the 45 bands of 1/3 octave


@dataclass(frozen=True)
class Place:
    points: tuple  # (Hz, dB) of some 1/3 octave bands, unweighted; the bands between lie on straight lines over log Hz
    swing: float  # dB by which the level wanders from second to second
    passing: float  # how often in a second something loud comes by
    filters: tuple = (A, C, LIN)  # of the three profiles


HALL = Place(((0.8, 40), (16, 46), (63, 54), (500, 55), (1000, 53), (4000, 45), (20000, 30)), 4, 0.02)
ROAD = Place(((0.8, 48), (16, 60), (63, 71), (250, 63), (1000, 64), (4000, 53), (20000, 36)), 3, 0.08)
PUMP = Place(((0.8, 50), (31.5, 66), (50, 83), (63, 70), (100, 79), (160, 69), (1000, 71), (20000, 47)), 1.5, 0,
             (C, A, LIN))
YARD = Place(((0.8, 38), (31.5, 50), (100, 47), (1000, 41), (20000, 27)), 5, 0.03)
SHOP = Place(((0.8, 44), (31.5, 61), (125, 66), (500, 70), (2000, 77), (4000, 79), (8000, 74), (20000, 58)), 5, 0.04, (A, C, Z))


# Levels of a place

def louder(place, decibels):
    return replace(place, points=tuple((hertz, level + decibels) for hertz, level in place.points))


def band_level(place, hertz):
    for (low, start), (high, end) in zip(place.points, place.points[1:]):
        if hertz <= high:
            return start + (end - start) * log10(hertz / low) / log10(high / low)


def weighting(code, hertz):
    """The filters of IEC 61672, in dB."""
    c = 12194 ** 2 * hertz ** 2 / ((hertz ** 2 + 20.6 ** 2) * (hertz ** 2 + 12194 ** 2))
    a = c * hertz ** 2 / sqrt((hertz ** 2 + 107.7 ** 2) * (hertz ** 2 + 737.9 ** 2))
    return {Z: 0, LIN: 0, A: 20 * log10(a) + 2.0, C: 20 * log10(c) + 0.06}[code]


def thirds(place, code):
    return [band_level(place, hertz) + weighting(code, hertz) for hertz in CENTRES]


def total(levels):
    """Levels added by their energy."""
    return 10 * log10(sum(10 ** (level / 10) for level in levels))


def tenths(level):
    return max(FLOOR, round(10 * level))


def spectrum(place, function, code):
    """The bands through one filter, in dB."""
    bands = thirds(place, code)
    return bands if function == 3 else [total(bands[i:i + 3]) for i in range(0, 45, 3)]


def histories(place, count, seed):
    """So many levels of each profile, one for a time step, in tenths. Their mean is the total of the spectrum."""
    draw, wander, loud = Random(seed).random, [0.0], 0.0
    for _ in range(count - 1):
        loud = 0.8 * loud + (6 if draw() < place.passing else 0)
        wander.append(0.8 * wander[-1] + 0.2 * loud + place.swing * (draw() - 0.5))
    levels = []
    for code in place.filters:
        own = [level + 0.6 * (draw() - 0.5) for level in wander]
        shift = total(thirds(place, code)) - total(own) + 10 * log10(count)
        levels.append([tenths(level + shift) for level in own])
    return levels


# Blocks

def at(offset, words):
    return dict(enumerate(words, offset))


def opening(place, name, text, function, seconds, code=0, codes=(0, 0, 0), buffering=OFF):
    """The blocks 01 to 05; code: the spectrum's filter, codes: what each profile buffers."""
    settings = {3: function, 5: 2, 8: 3, 10: seconds, 19: 1}  # range 110 dB, three profiles, microphone at 200 V
    return (plain('01', at(1, packed(name.encode('ascii').ljust(8, b'\0')))),
            plain('02', {1: METER, 2: 945, 3: 105}),
            title(text.encode('ascii') + b'\0'),
            plain('04', settings | ({21: code, 22: buffering} if function > 1 else {})),
            profiles('05', [{1: 1, 2: of, 3: kept} for of, kept in zip(place.filters, codes)]))  # detector 125 ms


def results(levels):
    """A record of 07: the time, then PEAK, MAX, MIN, SPL, LEQ, SEL, Lex8, Ltm3, Ltm5, N, LN."""
    seconds, falling = len(levels), sorted(levels, reverse=True)
    leq = total(level / 10 for level in levels) - 10 * log10(seconds)
    loudest = [total(max(levels[i:i + n]) / 10 for i in range(0, seconds, n)) - 10 * log10(seconds / n) for n in (3, 5)]
    decibels = (leq, leq + 10 * log10(seconds), leq + 10 * log10(seconds / 28800), *loudest)
    return at(1, (seconds, 0, falling[0] + ABOVE[PEAK], falling[0], falling[-1], levels[-1], *map(tenths, decibels),
                  10, falling[seconds // 10]))


def exceeded(levels):
    """A block 17: L10, L50 and L90, the levels that were exceeded in n per cent of the time."""
    falling = [sorted(own, reverse=True) for own in levels]
    words = [word for n in (10, 50, 90) for word in (n, *(own[len(own) * n // 100] for own in falling))]
    return free(0x0F17, 0x0307, 3, *words)


def statistics(levels, classes):
    """09 and its three 0B; classes: number, bottom and width for each profile, the last two in tenths."""
    blocks = [profiles('09', [at(1, of) for of in classes])]
    for kind, own, (number, bottom, width) in zip(HISTOGRAMS, levels, classes):
        found = [(level - bottom) // width for level in own]
        assert 0 <= min(found) and max(found) < number, (min(own), max(own))
        blocks.append(histogram(kind, number, 0).edit({2 + 2 * i: found.count(i) for i in range(number)}))
    return blocks


# Files

def result(place, name, text, function, seconds, seed, code=0, classes=None):
    levels = histories(place, seconds, seed)
    blocks = [*opening(place, name, text, function, seconds, code), profiles('07', [results(own) for own in levels])]
    if function > 1:
        totals = [total(thirds(place, of)) for of in TOTALS]
        words = *BANDS[function], *map(tenths, spectrum(place, function, code) + totals)
        blocks.append(plain(SPECTRUM[function], at(2, words)))
    if classes:
        blocks += statistics(levels, classes)
    return File(function, (*blocks, Block('end', (END,))))


def buffer(place, name, text, function, codes, records, seed, code=0, buffering=OFF, step=(1, 0)):
    """A record is a word for each buffered profile, then the bands and totals where these are buffered."""
    levels, draw, contents = histories(place, records, seed), Random(seed).random, []
    for i in range(records):
        now = {of: own[i] for of, own in zip(place.filters, levels)}
        for own, kept in zip(levels, codes):
            if kept:
                contents.append(own[i] + ABOVE[kept] + (0 if kept == RMS else round(10 * draw())))
        if buffering == ON:
            above = now[LIN] / 10 - total(thirds(place, LIN))  # of this record over the mean
            contents += [tenths(band + above + draw() - 0.5) for band in spectrum(place, function, code)]
            contents += [now[of] for of in TOTALS]
    header = logger(2 * len(contents), BANDS[function] if buffering == ON else (0, 0, 0))
    blocks = opening(place, name, text, function, records * (1000 * step[0] + step[1]) // 1000, code, codes, buffering)
    return File(function, (*blocks, header.edit(at(1, step)), Block('contents', tuple(contents)), Block('end', (END,))))


def updated(file, levels):
    """The same measurement as firmware 110 writes it: longer records, longer blocks, and a block 17 that is not listed."""
    for kind, more, each in ('01', 2, ()), ('04', 5, ()), ('05', 0, (2, 2, 2)), ('07', 3, (1, 1, 1)):
        file = file.swap(kind, lengthen(file.block(kind), more, each))
    return file.edit('02', {3: 110}).put('09', exceeded(levels))


# Files of a 953, by its own manual

TRIGGERS = free(0x072B, 0, 0, 1000, 10, 0, 0), free(0x072C, 0, 0, 1000, 0, 1, 1), free(0x0A2E, *[0] * 9)  # all off
RESERVED = free(0x1321, *[0] * 18)
CALIBRATED = 12 + 32 * 10 + 512 * 26, (8 * 3600 + 15 * 60) // 2  # on 12 October 2026 at 8:15
CRITERION, THRESHOLD, RATE = 850, 800, 5  # of the dose meter: two levels in tenths, and the decibels that double the dose


def opening_953(place, name, text, function, seconds, code):
    """The blocks 01 to 05, and before 05 what was set for triggers and outputs. 04 has the manual's 48 words."""
    settings = {3: function, 4: 2, 5: 2, 7: 1, 8: 3, 9: 1, 10: seconds, 14: code, 16: 480, 20: 1, 27: 1} | at(21, CALIBRATED)
    dose = {17: CRITERION, 18: THRESHOLD, 19: RATE} if function == 4 else {}
    return (plain('01', at(1, packed(name.encode('ascii').ljust(8, b'\0')))),
            plain('02', {1: NEWER, 2: 953, 3: 604, 6: 1, 7: 604, 8: 604, 9: 1}, model=M953),
            title(text.encode('ascii') + b'\0'),
            plain('04', settings | dose, model=M953).resize(48),
            *TRIGGERS,
            profiles('05', [{1: 1, 2: of} for of in place.filters]))  # detector FAST


def dose_average(levels, threshold):
    """The level that gives the same dose; what is under the threshold gives none."""
    q = RATE / log10(2)
    return q * log10(sum(10 ** (level / 10 / q) for level in levels if level >= threshold) / len(levels))


def results_953(levels, time, function):
    """A record of 07: a time, then PEAK, a word without meaning, MAX, MIN, SPL, LEQ, Lden, Ltm3, Ltm5, a dose meter's LAV and
    TLAV, and that no level was under the range. By day Lden is LEQ."""
    _, _, peak, top, least, spl, leq, _, _, ltm3, ltm5, _, _ = results(levels).values()
    averages = [tenths(dose_average(levels, floor)) for floor in (0, THRESHOLD)] if function == 4 else [0, 0]
    return at(1, (time, 0, peak, 0, top, least, spl, leq, leq, ltm3, ltm5, *averages, 0))


def octaves_953(place, code):
    """0E from 31.5 Hz on, and the lowest and the highest spectrum in blocks 26 and 27."""
    levels = spectrum(place, 2, code)[5:] + [total(thirds(place, of)) for of in place.filters]
    for number, above in (0x0E, 0), (0x26, -9), (0x27, 12):
        block = spectrum_block('0E', M953.bands[2], tuple(tenths(level + above) for level in levels))
        yield block if above == 0 else free(number + 256 * len(block.words), *block.words[1:])


def of_a_953(place, name, text, function, seconds, seed, code=0, classes=None, click=None):
    """click: a knock at the cable, too short to change the mean: its seconds of overload, PEAK and MAX."""
    levels = histories(place, seconds, seed)
    overload, *over = click or (0,)
    records = [results_953(own, time, function) | dict(zip((3, 5), over)) for own, time in zip(levels, (seconds, overload, 0))]
    blocks = [*opening_953(place, name, text, function, seconds, code), RESERVED, profiles('07', records, model=M953),
              exceeded(levels)]
    if function == 2:
        blocks += octaves_953(place, code)
    if classes:
        blocks += statistics(levels, classes)
    return File(function, (*blocks, Block('end', (END,))), M953)


def of_a_959(place, name, text, seconds, seed):
    """A level meter file of a third model, which writes much as the 953 does."""
    return of_a_953(replace(place, filters=(A, C, Z)), name, text, 1, seconds, seed).edit('02', {1: 9035, 2: 959, 3: 310})


def files():
    """Of results: place, name, title, function, seconds, seed; of a buffer: .., function, buffer codes, records, seed.
    Then the spectrum's filter, and the classes, or buffering and the time step in seconds and milliseconds."""
    quiet, window, shut = louder(HALL, -3.6), louder(ROAD, -4.2), louder(PUMP, 1.4)
    hall = (12, 520, 20), (14, 550, 15), (9, 550, 25)  # classes of each profile: number, bottom, width
    road = (12, 580, 20), (12, 640, 20), (12, 660, 20)
    pump = (10, 835, 5), (10, 765, 5), (8, 830, 10)
    south = result(quiet, 'HALL02', 'Hall, south end', 1, 600, 2, classes=hall)
    log = buffer(HALL, 'BUFF1', 'Hall, north end', 1, (RMS, MAX, 0), 900, 4)
    return {
        'hall-01': result(HALL, 'HALL01', 'Hall, north end', 1, 900, 1),
        'hall-02': south,
        'hall-03': updated(south, histories(quiet, 600, 2)),
        'hall-04': log,
        'hall-05': log,  # cut off in main
        'pump-01': result(shut, 'PUMP01', 'Pump room, door shut', 3, 120, 5, LIN),
        'pump-02': result(PUMP, 'PUMP02', 'Pump room, door open', 3, 120, 16, C, pump),
        'pump-03': buffer(PUMP, 'BUFF2', 'Pump room, "pump 2" only', 3, (0, RMS, 0), 6, 7, LIN, ON, (10, 0)),
        'road-01': result(ROAD, 'ROAD01', 'Mill Road, kerb', 2, 300, 8, LIN),
        'road-02': result(window, 'ROAD02', 'Mill Road, first floor window', 2, 300, 9, A, road),
        'road-03': buffer(ROAD, 'BUFF3', 'Mill Road, kerb', 2, (0, 0, PEAK), 15, 10, LIN, ON),
        'road-04': buffer(ROAD, 'BUFF4', 'Mill Road, crossing', 2, (RMS, MIN, PEAK), 60, 11, LIN, OFF, (0, 500)),
        'shop-01': of_a_953(SHOP, 'SHOP01', 'Workshop, saw bench', 1, 600, 17, click=(1, 1402, 1124)),
        'shop-02': of_a_953(louder(SHOP, -11), 'SHOP02', 'Workshop, office door', 2, 600, 18, A, [(120, 200, 10)] * 3),
        'shop-03': of_a_953(louder(SHOP, -2.5), 'SHOP03', 'Workshop, sawyer', 4, 3600, 19),
        'yard-01': result(YARD, 'YARD01', '', 1, 300, 12),
        'yard-02': of_a_959(YARD, 'YARD02', 'Yard, gate', 300, 13),
    }


def main(folder):
    made = {name: pack(f'<{len(file.words())}H', *file.words()) for name, file in files().items()}
    made['hall-05'] = made['hall-05'][:512]  # the card was pulled out when its first 512 bytes were written
    for name, data in made.items():
        (folder / f'{name}.svn').write_bytes(data)
    print(f'{len(made)} files')


main(Path(sys.argv[1]) if len(sys.argv) > 1 else HERE)
