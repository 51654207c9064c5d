"""Opens the sheets of all accepted vectors in LibreOffice Calc without a window, and compares their heads with what the files
say: each head line is one cell, no formula, with its key, `=` and its text. Run by hand; it needs soffice (Debian:
libreoffice-calc).

    python3 tests/in_calc.py
"""

import sys
from pathlib import Path
from subprocess import DEVNULL, run
from tempfile import TemporaryDirectory
from xml.etree import ElementTree

sys.dont_write_bytecode = True  # before the module beside this one

from runs import accepted_vectors, vector

TABLE, TEXT = ('{urn:oasis:names:tc:opendocument:xmlns:%s:1.0}' % part for part in ('table', 'text'))
COMMA_QUOTE_UTF8 = '--infilter=CSV:44,34,76'


def shown(text):
    return ''.join(chr(byte) if 0x20 <= byte <= 0x7E else '?' for byte in text)


def content(paragraph):
    """The text of a paragraph, where a row of blanks is an element."""
    parts = [paragraph.text or '']
    for part in paragraph:
        parts += ' ' * int(part.get(f'{TEXT}c', 1)) if part.tag == f'{TEXT}s' else content(part), part.tail or ''
    return ''.join(parts)


def cells(row):
    """The cells of a row that hold something: a text, or a formula."""
    filled = [cell for cell in row.iter(f'{TABLE}table-cell') if cell.find(f'{TEXT}p') is not None]
    return [cell.get(f'{TABLE}formula') or '\n'.join(map(content, cell.iter(f'{TEXT}p'))) for cell in filled]


def head(name):
    """The cells that the name and the title of a file ask for, by the line of the head."""
    file_name, title = vector(name, 'svn')[2:10].split(b'\0')[0], vector(name, 'title')
    return {3: [f'name={shown(file_name)}'], 5: [f'title={shown(title)}']}


def convert(folder, names):
    """Each sheet as Calc has it once it is open, in a file of XML."""
    sheets = [folder / f'{name}.csv' for name in names]
    for name, sheet in zip(names, sheets):
        sheet.write_bytes(vector(name, 'sheet'))
    run(['soffice', '--headless', COMMA_QUOTE_UTF8, '--convert-to', 'fods', '--outdir', folder, *sheets], check=True,
        stdout=DEVNULL, stderr=DEVNULL)


def wrong_rows(folder, name):
    """The rows of the head that are not one cell with the right text."""
    rows = [cells(row) for row in ElementTree.parse(folder / f'{name}.fods').iter(f'{TABLE}table-row')][:6]
    assert len(rows) == 6
    return [row for i, row in enumerate(rows) if len(row) != 1 or row != head(name).get(i, row)]


def main():
    names = [name for name, _, _ in accepted_vectors()]
    with TemporaryDirectory() as folder:
        convert(Path(folder), names)
        wrong = [f'{name}: {row}' for name in names for row in wrong_rows(Path(folder), name)]
    print(*wrong, f'{len(names)} sheets: {6 * len(names) - len(wrong)} head lines are one cell with their text, {len(wrong)} are not',
          sep='\n')
    sys.exit(len(wrong) > 0)


main()
