#!/usr/bin/env python3
"""Which public functions have a promise that is no equation.

A promise is an equation if it says the whole answer and every buffer that is lent to be written, without a condition: `result ≡ ..`,
`.._outcome result ≡ ..`, one equation for each field of a struct, `buffer.new ≡ ..`, or a definition made of such equations
(EQUATIONS); the other side speaks neither of the answer nor of a buffer as it is left. More may be promised beside it. Every other
public function stands in the table of docs/PROMISES.md with what it leaves open; this ends with 1 if that table has one too many or
too few, or where a promise cannot be read.
"""
import glob
import os
import re
import sys

# Definitions that say the answer and the buffers named in them by equations: the answer and that it fits; what a host is told and
# its list; bytes written and the place after them.
EQUATIONS = ('Is', 'Tells', 'Wrote')

# Definitions that lose nothing of an answer but which refusal has a number: what it says (and every `.._outcome`), a constructor.
KEEP_ALL = ('run_said', 'Some')

# What a function answers, in a clause.
ANSWER = 'result'

ROOT = os.path.join(os.path.dirname(os.path.abspath(__file__)), '..')
OPEN, CLOSE = '([{⌜', ')]}⌝'


def fail(what):
    sys.exit('promises.py: ' + what)


def depths(text):
    """The text's letters, each with how many brackets are open before it."""
    depth = 0
    for i, letter in enumerate(text):
        if letter in CLOSE:
            depth -= 1
        yield i, letter, depth
        if letter in OPEN:
            depth += 1


def split(text, sign):
    """The parts between signs that stand outside brackets."""
    parts, start = [], 0
    for i, letter, depth in depths(text):
        if letter == sign and depth == 0:
            parts.append(text[start:i].strip())
            start = i + 1
    return parts + [text[start:].strip()]


def bare(text):
    """Without brackets around the whole."""
    text = text.strip()
    while text.startswith('(') and all(depth > 0 for i, _, depth in depths(text) if 0 < i < len(text) - 1):
        text = text[1:-1].strip()
    return text


def mentions(text, name):
    return name != '_' and re.search(r'(?<![\w.«])%s(?![\w»])' % name, text)


def left(text):
    """The buffers of which a text speaks as they are left."""
    return re.findall(r'(?<![\w.«])«?(\w+)»?\.new(?![\w-])', text)


def says(text):
    """What of the answer, or of which buffer, one side of an equation says: '' for nothing, 'all', a field, or a buffer."""
    text = bare(text)
    told = re.match(r'(\w+) (.*)$', text)
    if told and (told.group(1) in KEEP_ALL or told.group(1).endswith('_outcome')):
        text = bare(told.group(2))
    field = re.match(r'%s\.«?(\w+)»?$' % ANSWER, text)
    buffer = re.match(r'«?(\w+)»?\.new$', text)
    return field.group(1) if field else buffer.group(1) if buffer else 'all' if text == ANSWER else ''


def covered(clause):
    """The parts of the answer and the buffers that a clause has an equation for."""
    parts = set()
    conjuncts = split(bare(clause), '×')
    # a pair of something and a fact of it says only that there is such a thing
    if any(re.match(r'\(?[\w ]+ : ', part) for part in conjuncts[:-1]):
        return parts
    for conjunct in map(bare, conjuncts):
        # neither a condition nor a choice
        if len(split(conjunct, '→')) > 1 or len(split(conjunct, '⊎')) > 1:
            continue
        if conjunct.split(' ')[0] in EQUATIONS:
            parts |= set(left(conjunct)) | ({'all'} if mentions(conjunct, ANSWER) else set())
            continue
        sides = split(conjunct, '≡')
        if len(sides) == 2:
            for one, other in (sides, sides[::-1]):
                if not mentions(other, ANSWER) and not left(other):
                    parts |= {says(one)} - {''}
    return parts


def source(path):
    """The code without comments."""
    with open(path, encoding='utf-8') as file:
        return re.sub(r'//[^\n]*', '', file.read())


def contract(text, name):
    """What a function ensures, a line for each clause, of the text behind its answer's type."""
    ensures = []
    at = re.match(r'(?:\s+where\b[^{}]*?(?=\s+(?:ghost|requires|ensures)\b|\s*\{))?', text).end()
    while True:
        clause = re.match(r'\s+(ghost|requires|ensures)(\*?)(?: «?\w+»?:?)? \{', text[at:])
        if not clause:
            break
        begin = at + clause.end()
        at = next((i + 1 for i, letter, depth in depths(text[begin:]) if letter == '}' and depth == -1), None)
        if at is None:
            fail('cannot read the contract of ' + name)
        at += begin
        # a starred clause speaks of memory
        if clause.group(1) == 'ensures' and not clause.group(2):
            ensures.append(' '.join(text[begin:at - 1].split()))
    if not re.match(r'\s*\{', text[at:]):
        fail('cannot read the contract of ' + name)
    return ensures


def is_public(path, module):
    root = os.path.join(os.path.dirname(path), 'lib.rt')
    return module == 'lib' or os.path.exists(root) and 'pub mod %s;' % module in source(root)


def functions():
    """Each public function: its crate and name, its answer's type, the buffers that it may write, what it ensures; and the fields of
    each struct by its crate and name."""
    found, structs = [], {}
    for path in sorted(glob.glob(os.path.join(ROOT, 'crates/*/src/**/*.rt'), recursive=True)):
        crate, module, text = path.split(os.sep)[-3], os.path.basename(path)[:-3], source(path)
        for s in re.finditer(r'^(?:pub )?struct (\w+) \{(.*?)^\}', text, re.S | re.M):
            structs[crate, s.group(1)] = re.findall(r'^ *(?:pub )?(\w+):(?!:)', s.group(2), re.M)
        owner = ''
        for m in re.finditer(r'^impl(?:<[^>]*>)? (\w+)(?:<[^>]*>)? \{|^\}|^ *pub (?:extern "C" )?fn (\w+)(?:<[^(]*>)?\(', text, re.M):
            if not m.group(2):
                owner = m.group(1) + '::' if m.group(1) else ''
                continue
            # a type's methods can be called where the type is known, whatever module they stand in
            if module == 'main' or not owner and not is_public(path, module):
                continue
            name = '::'.join(filter(None, (crate, '' if module == 'lib' else module, owner + m.group(2))))
            end = next(i for i, letter, depth in depths(text[m.end():]) if letter == ')' and depth == -1) + m.end()
            head = re.match(r'\)(?: -> (.*?))?(?= \{|\n)', text[end:])
            ensures = contract(text[end + head.end():], name)
            buffers = re.findall(r"(\w+): &(?:'\w+ )?mut", text[m.end():end]) + re.findall(r'&mut (self)', text[m.end():end])
            found.append((crate, name, (head.group(1) or '').strip(), buffers, ensures))
    return found, structs


def fields(structs, crate, answer):
    """The fields of a struct, of this crate or of the only other that has one of this name; none where that is not known."""
    if (crate, answer) in structs:
        return structs[crate, answer]
    known = [s for (_, name), s in structs.items() if name == answer]
    return known[0] if len(known) == 1 else None


def is_equation(answer, buffers, ensures, known):
    parts = set().union(*map(covered, ensures)) if ensures else set()
    whole = not answer or 'all' in parts or known is not None and parts.issuperset(known)
    return bool(ensures) and whole and parts.issuperset(buffers)


def main():
    found, structs = functions()
    less = {n for crate, n, answer, b, e in found if not is_equation(answer, b, e, fields(structs, crate, answer))}
    with open(os.path.join(ROOT, 'docs/PROMISES.md'), encoding='utf-8') as file:
        rows = [line.split('|')[1] for line in file if line.startswith('| `')]
    listed = set(re.findall(r'`(\w+(?:::\w+)+)`', ' '.join(rows)))
    for name in sorted(less - listed):
        print('promises.py: %s has a promise that is no equation and is not in docs/PROMISES.md' % name)
    for name in sorted(listed - less):
        print('promises.py: %s is in docs/PROMISES.md and its promise is an equation, or there is no such function' % name)
    if less != listed:
        sys.exit(1)
    print('promises.py: %d of %d public functions have a promise that is no equation, each listed' % (len(less), len(found)))


if __name__ == '__main__':
    main()
