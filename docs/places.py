#!/usr/bin/env python3
"""Counts the places of docs/DESIGN-PASS.md in the code: places.py [--list], at the top of the repository."""
import glob
import re
import sys
from collections import defaultdict

show = '--list' in sys.argv[1:]
sources = {f: open(f).read() for f in sorted(glob.glob('crates/*/src/*.rt'))}
proofs = {f: open(f).read() for f in sorted(glob.glob('crates/*/proofs/**/*.antt', recursive=True))}


def told(what, places):
    print(f'{len(places):5} {what}')
    if show:
        for place in places:
            print('      ', place)


def lines(pattern, files=sources):
    return [f'{f}:{n}: {line.strip()}'
            for f, text in files.items()
            for n, line in enumerate(text.split('\n'), 1)
            if re.search(pattern, line) and not line.lstrip().startswith('//')]


def functions():
    for f, text in sources.items():
        for m in re.finditer(r'^( *)(?:pub )?fn (\w+)(?:<[^>]*>)?\((.*?)\)[^\n]*\n(.*?)^\1\}', text, re.M | re.S):
            yield f, m.group(2), m.group(3), m.group(4)


# 1: enums of two variants of which one has a value; flags in structs; numbers for kinds
enums = [f'{f}: {m.group(1)}' for f, text in sources.items()
         for m in re.finditer(r'^(?:pub )?enum (\w+) \{\n(.*?)^\}', text, re.M | re.S)
         if len(re.findall(r'^    [A-Z]', m.group(2), re.M)) == 2 and re.search(r'[({]', m.group(2))]
told('1a enums of two variants, one of them with a value', enums)
told('1b fields that are flags', lines(r'^    pub \w+: bool,$'))
told('1c fields and parameters that are numbers of kinds: num, model, function, error, fate',
     lines(r'\b(num|model|function|error|fate): (u8|u16)'))
told('1d results that are a number of an error, or 0 or a length for none',
     [x for x in lines(r'fn (rename|complete|arg|count_files|octave_place|error|text_of|create|make_part|name_at)\b.*->')
      if not re.search(r'Errno|Option<', x)])

# 2: functions whose bodies have one shape, names and numbers aside
shapes = defaultdict(list)
for f, name, params, body in functions():
    code = body[body.index('{\n') + 2:] if not body.startswith('    {') and '\n{\n' in '\n' + body else body
    code = '\n'.join(l for l in code.split('\n') if not l.lstrip().startswith(('//', 'ensures', 'requires')))
    shape = re.sub(r'b?"[^"]*"', '"', code)
    shape = re.sub(r"[A-Za-z_]\w*", 'a', re.sub(r'0x[0-9A-Fa-f]+|\d+', '0', shape))
    if shape.count('\n') >= 4:
        shapes[shape].append(f'{f}: {name}')
told('2a functions of five lines or more with a twin of the same shape', [', '.join(v) for v in shapes.values() if len(v) > 1])
told('2b enums with the name of an enum of another crate',
     [e for e in lines(r'^(pub )?enum ') if sum(g.split()[-2] == e.split()[-2] for g in lines(r'^(pub )?enum ')) > 1])

# 3: loops
told('3a loops with while or loop', lines(r'^\s*(while|loop)\b'))
told('3b of them with a count by hand', [x for f, n, p, b in functions() if re.search(r'\bwhile\b', b) and re.search(r'^\s*(\w+) [+-]= 1;', b, re.M) for x in [f'{f}: {n}']])

# 4: equality, copying and conversion by hand
told('4a functions that compare, copy or convert by hand',
     [f'{f}: {n}' for f, n, p, b in functions()
      if re.match(r'(is_same|is_refusal|is_progress|is_slim_refusal|is_same_reply|is_same_length|is_untouched|is_done|put_bytes|fate_byte|natural|signed|magnitude|wide)$', n)])

told('4b functions that write a number by its digits',
     [f'{f}: {n}' for f, n, p, b in functions() if re.match(r'put_(digit|digits|decimal|short|fraction|centihertz|fixed|signed|tenths)$', n)])

# 5: parameters
told('5a functions with six parameters or more', [f'{f}: {n} ({p.count(":") + p.count("self")})' for f, n, p, b in functions() if p.count(':') + p.count('self') >= 6])
told('5b functions that take a start and a length of the same part', [f'{f}: {n}' for f, n, p, b in functions() if re.search(r'start: usize,\s*len', p)])

# 6: arrays with a length beside
told('6a arrays of a fixed length that are filled in part', lines(r'\blet mut \w+ = (\[0(xEE)?u8; \d+\]|zeros)|^    pub list: \['))

# 7: a match on what to do
told('7a choices of a step by a form, a task or a kind of number', lines(r'\bmatch (form|task|number)\b'))

# 8: proofs
told('8a lines of proofs', [l for text in proofs.values() for l in text.split('\n')[:-1]] if not show else [])
told('8b answers', lines(r'^pub [\w-]+ : goal\.', proofs) if not show else [])
