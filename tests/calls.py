"""What the program `test_calls` is asked, and what it must print."""

from blocks import title
from cases import checked_file_3, checked_file_8, checked_file_9
from pairs import data_of
from runs import accepted_vectors, pack, vector, vectors, write_run
from sheets import answer, asks

LABEL = b'Order 17, north end'
SHEET_8 = b'unit=945\nnumber=1234\nversion=105\nname=BUFF1\nfunction=1\ntitle=Hall\n' \
          b'ms,P1 RMS A,P3 PEAK Lin\n0,63.4,70.1\n1000,-0.5,69.8\n'
SLIM_ROOMS = range(161)  # a few bytes more than the copy has


class Calls:
    """The pack, and what is printed of it."""

    def __init__(self):
        self.stdin, self.stdout, self.before = bytearray(), bytearray(), b''

    def ask(self, call, name, data, reply, label=b'', numbers=()):
        """A question. A file that is the one before it is stored as an empty one; but `check` is asked for an empty file too."""
        assert data or call == 'check'
        stored = b'' if data == self.before and call != 'check' else data
        numbers = b''.join(number.to_bytes(4, 'little') for number in numbers)
        self.stdin += pack(call.encode('ascii'), name.encode('ascii'), label, stored, numbers)
        self.stdout += name.encode('ascii') + reply
        self.before = data


def ask_verdicts(calls, files):
    for name, data, line in files:
        calls.ask('check', f'{name}: ', data, f'{line}\n'.encode('ascii'))


def ask_vectors(calls):
    """The title, the slim copy and the sheet of each vector, or the line of its refusal, as its own files have them."""
    for name, data, line in vectors():
        label = vector(name, 'label')
        slim, sheet = (f'{line}\n'.encode('ascii') if line.startswith('refused') else vector(name, part)
                       for part in ('slim', 'sheet'))
        calls.ask('title', f'{name}\ntitle ', data, vector(name, 'title'), label)
        calls.ask('slim', '\nslim ', data, slim)
        calls.ask('sheet', '\nsheet\n', data, sheet, label)


def ask_lines(calls):
    """The sheet of each accepted vector line by line, and from how many line numbers on it is given rightly: from each."""
    for name, data, _ in accepted_vectors():
        sheet = vector(name, 'sheet')
        rests = f'{len(sheet.splitlines()) + 1} rests\n'.encode('ascii')
        calls.ask('lines', f'{name}\n', data, sheet + rests, vector(name, 'label'))


def ask_largest(calls):
    """The largest sheets: an answer's numbers, the first 1,024 of the bytes that it counts, and that no other byte changed."""
    for name, label, file, lines, n, room in asks():
        numbers, data = answer(lines, label, n, room)
        reply = f'{numbers}\n'.encode('ascii') + data[:1024] + b'the rest unchanged\n'
        calls.ask('sheet', f'{name}: ', data_of(file.words()), reply, label, (n, room))


def ask_rooms(calls, file, copy):
    """A slim copy with every output around its size: the answer, and the 160 bytes of which the output is the front."""
    for room in SLIM_ROOMS:
        if room < len(copy):
            reply = b'refused 11 at 0\n' + b'\xee' * 160
        else:
            reply = f'{len(copy)} bytes\n'.encode('ascii') + copy + b'\xee' * (160 - len(copy))
        calls.ask('slim', '', file, reply + b'\n', numbers=(0, room))


def write_calls(files):
    """The pack; and the four programs on one file each. Document 01's file 9 has a slim copy that is file 8."""
    file3, file8, file9 = (data_of(words) for words in (checked_file_3(), checked_file_8().words(), checked_file_9().words()))
    calls = Calls()
    ask_verdicts(calls, files)
    ask_vectors(calls)
    ask_lines(calls)
    ask_largest(calls)
    ask_rooms(calls, file9, file8)
    calls.ask('sheet', 'case-8 sheet: ', file8, SHEET_8)
    calls.ask('title', 'case-8 title: ', file8, b'Hall')
    calls.ask('sheet', '\ncase-3 sheet: ', file3, b'refused 3 at 12\n', LABEL)
    calls.ask('slim', 'case-3 slim: ', file3, b'refused 3 at 12\n')
    calls.ask('sheets', 'another name: ', file3, b'no such call\n')
    write_run('test_calls', calls.stdin, calls.stdout)
    write_programs(file3, file8, file9)


def write_programs(file3, file8, file9):
    """A program of one call reads its label as an argument: `sheet` for a file without a title, `title` for a refused file."""
    untitled = data_of(checked_file_9().swap('03', title(b'\0\0')).words())
    label = LABEL.decode('ascii')
    write_run('verdict', file8, f'{checked_file_8().accepted()}\n'.encode('ascii'))
    write_run('title', file3, LABEL, label)
    write_run('slim', file9, file8)
    write_run('sheet', untitled, SHEET_8.replace(b'title=Hall', b'"title=' + LABEL + b'"'), label)
