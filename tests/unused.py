#!/usr/bin/env python3
"""Says what nobody uses, and ends with status 1 if there is anything. It reads the files as text, and looks for

- libraries in crates.txt that a crate does not use: no file names anything of them, and no value can have a type of theirs;
- names in `use` lines that the file does not have, or that two lines bring;
- public functions that no other file calls: a function by its path, a method by its name, whatever type it is called on;
- laws that no proof cites: no other file has the law's name and names its module, and its own file does not use it.
"""
import os
import re
import sys

ROOT = os.path.join(os.path.dirname(os.path.abspath(__file__)), '..')

# Laws that no proof needs: each says to a reader that a definition means what it should.
FOR_READERS = {
    'refused_early', 'refusal_found',  # what a refusal says that is found and returned
    'shape_corners', 'points_check_figure', 'points_check_room',  # what confined radii and a listing's checks are
    'checked_drawings', 'own_drawings',  # the checked drawings of the scope, and our own
    'host_demand3', 'sheet_comes_to_the_same',  # README, 'What is proved'
    'over_lent_same', 'over_lent_no_removal',  # of which lists of `run_calls` demand 3 speaks
    'add_told_seven', 'paint_told_seven', 'remove_told_seven',  # docs/ARCHITECTURE.md, 'Where the demands are stated'
    'answers_on_rows',  # the test of a row answers as the paper's test
    'area_is_offset',  # an area has the rows of the figure that an offset call gives
    'growth_by_four', 'grown_box',  # what follows from the rule by which a W3C box's corners grow
    'w3c_within_box',  # under the W3C's rule no corner is larger than the box
    'rows_all_inside',  # the first row decides for all rows of an ellipse
    'length_decimal_least',  # every number has a digit
    'overpaint_pixel',  # a canvas byte after a styled row, by the runs that have it
    'length_header_most',  # a file takes at most 17 bytes more than its canvas
    'row_repacks',  # bytes that were unpacked pack to themselves, where the filling bits are 0
    'written_reads_back',  # README, 'What is proved'
}

# Traits of std that a file may bring for their methods alone.
TRAITS = {'Read': ('read',), 'Write': ('write_all', 'flush')}

# Files of computed examples, which nobody cites.
EXAMPLES = ('Boundaries.antt', 'Cases.antt', 'Examples.antt', 'Pictures.antt')


def read(path, mark):
    """A file without the lines that are comments."""
    with open(path, encoding='utf-8') as file:
        return '\n'.join(line for line in file.read().split('\n') if not line.lstrip().startswith(mark))


def crates():
    """Each crate with the libraries that it stands on."""
    for line in read(os.path.join(ROOT, 'crates.txt'), '#').splitlines():
        if ':' in line:
            head, libraries = line.split('#')[0].split(':', 1)
            yield head.split()[0], libraries.split()


def sources(ending, mark):
    """The files of each crate with this ending: their text by crate and path."""
    found = {}
    for name, _ in crates():
        found[name] = {}
        for folder, below, files in os.walk(os.path.join(ROOT, 'crates', name)):
            below[:] = [one for one in below if one != 'out']
            for file in files:
                if file.endswith(ending):
                    path = os.path.join(folder, file)
                    found[name][os.path.relpath(path, ROOT)] = USE.sub(on_one_line, read(path, mark))
    return found


# What `use` begins, to its `;` in .rt files and to its bracket or its line's end in .antt files.
USE = re.compile(r'(?m)^(?:(?:pub|ghost|unfoldable|abbrev) )*use [^\n;{}]*(?:\{[^;]*?\}(?=;|$))?')


def on_one_line(found):
    return re.sub(r',? ?\}', '}', re.sub(r'\{ ', '{', ' '.join(found.group(0).split())))


def paths(line):
    """The paths that a `use` line of Rust brings, each written out."""
    line = line.strip().rstrip(';')
    before, brace, inside = line.partition('{')
    if not brace:
        return [line]
    found, depth, start = [], 0, 0
    inside = inside.rsplit('}', 1)[0]
    for i, letter in enumerate(inside + ','):
        depth += {'{': 1, '}': -1}.get(letter, 0)
        if letter == ',' and depth == 0:
            found += [before + one for one in paths(inside[start:i]) if one]
            start = i + 1
    return [re.sub(r'::self\b', '', one) for one in found]


def has(source, name):
    """Whether a text has a name; of an operator, `◌` at its arguments' places, whether it has each part; of a trait, whether it has a
    call of one of its methods."""
    if '◌' in name:
        parts = [part for part in name.split('◌') if part]
        return name in source or all(re.search(r'(?<![^\s(){}])%s(?![^\s(){};,])' % re.escape(part), source) for part in parts)
    if any(re.search(r'\.%s\(' % method, source) for method in TRAITS.get(name, ())):
        return True
    before = r"(?<![\w·'+≤-])" if name[:1].isupper() else r"(?<![\w·'+<≤-])"  # a type may stand in Option<..>
    return re.search(before + r"«?%s»?(?![\w·'-])" % re.escape(name), source) is not None


def unused_libraries(code, logic):
    """`rt` needs a library also where only the type of a field, or of an answer of a library that is named, is its own."""
    whole = {name: '\n'.join(code[name].values()) for name in code}
    declares = {name: set(re.findall(r'(?m)^(?:pub(?:\(crate\))? )?(?:struct|enum) (\w+)', whole[name])) for name in code}
    homes = {}
    for name in code:
        for one in declares[name]:
            homes.setdefault(one, set()).add(name)

    def types_in(source):
        return {word for word in re.findall(r'\w+', source) if word in homes}

    fields, answers = {}, {}
    for name in code:
        for one, body in re.findall(r'(?ms)^(?:pub(?:\(crate\))? )?(?:struct|enum) (\w+) \{(.*?)^\}', whole[name]):
            fields.setdefault(one, set()).update(types_in(body))
        answers[name] = types_in(' '.join(re.findall(r'(?m)^ *pub fn [^{]*?-> ([^{\n]*)', whole[name])))
    for name, libraries in crates():
        named = {name}
        for source in list(code[name].values()) + list(logic[name].values()):
            named |= set(re.findall(r'Rattle\.(\w+)\.', source))
        named |= set(re.findall(r'(?<![\w:.])(\w+)::', whole[name]))
        types, more = set(), set().union(*(declares.get(n, set()) | answers.get(n, set()) for n in named))
        while more:
            types |= more
            more = set().union(*(fields.get(one, set()) for one in more)) - types
        held = set().union(*(homes[one] for one in types))
        for library in libraries:
            if library not in named | held:
                yield f'crates.txt: {name} uses nothing of {library}'


def imported(line):
    """The names that a `use` line brings."""
    line = line.rstrip(';')
    if '::' in line:
        names = [path.rsplit('::', 1)[-1] for path in paths(line)]
    else:
        braces = re.search(r'\{(.*)\}$', line)
        names = braces.group(1).split(',') if braces else [line] if ' as ' in line else []
    return [name.rsplit(' as ', 1)[-1].strip().strip('«»') for name in names if name.strip()]


def unused_imports(files):
    for short, source in files.items():
        rest = re.sub(r'(?m)^(?:(?:pub|ghost|unfoldable|abbrev) )*use [^\n]*$', '', source)
        brought = set()
        for line in re.findall(r'(?m)^(?:ghost )?use [^\n]*$', source):
            for name in imported(line):
                if (line.startswith('ghost'), name) in brought:
                    yield f'{short}: {name} is brought twice'
                brought.add((line.startswith('ghost'), name))
                if not has(rest, name):
                    yield f'{short}: uses nothing of {name}'


def calls_written_out(source):
    """A text with the paths of its `use` lines, each of a function that it calls by its name alone."""
    brought = [path for line in re.findall(r'(?m)^use [^\n]*$', source) for path in paths(line[4:])]
    return '\n'.join([source, *brought])


def unused_functions(code):
    files = {short: (name, calls_written_out(source)) for name in code for short, source in code[name].items()}
    for short, (name, source) in files.items():
        module = os.path.basename(short)[:-3]
        inner = '' if module in ('lib', 'main') else module + '::'
        for indent, function in re.findall(r'(?m)^( *)pub fn (\w+)', source):
            if indent:  # a method
                here = there = re.compile(r'(?:::|\.)%s\b' % function)
            else:
                here = re.compile(r'(?<!\w)(?:crate::%s|%s)%s\b' % (inner, inner or 'crate::', function))
                there = re.compile(r'(?<!\w)%s::%s%s\b' % (name, inner, function))
            if not any((here if other == name else there).search(text) for file, (other, text) in files.items() if file != short):
                yield f'{short}: no other file calls {function}'


def as_cited(crate, source):
    """A text of code with the paths that `#[tactic(auto, using(..))]` has, as crate::proofs::Rows::law, written as in the logic."""
    def written(found):
        return ' Rattle.%s.proofs.%s %s' % (crate if found.group(1) == 'crate' else found.group(1), found.group(2).replace('::', '.'), found.group(3))
    return re.sub(r'\b(\w+)::proofs::(\w+(?:::\w+)*)::([\w\'-]+)', written, source)


def unused_laws(code, logic):
    files = {short: as_cited(name, source) for name in code for short, source in code[name].items()}
    files.update((short, source) for name in logic for short, source in logic[name].items())
    words = {short: set(re.findall(r'[^\s(){}\[\];,.:]+', source)) for short, source in files.items()}
    named = {short: source.replace('.{', ' {') for short, source in files.items() if 'Rattle.' in source}
    known = set()
    for short, source in files.items():
        if '/proofs/' not in short or short.endswith(('/Proof.antt', '/Answers.antt', '/Invariants.antt', '/Lib.antt') + EXAMPLES):
            continue
        _, crate, _, module = short[:-5].replace(os.sep, '.').split('.', 3)
        path = re.compile(r'Rattle\.%s\.proofs\.%s(?![\w.-]*[\w-])' % (crate, re.escape(module)))
        citing = [other for other, text in named.items() if other != short and path.search(text)]
        for indent, law in re.findall(r'(?m)^( *)(?:(?:abbrev|unfoldable|pub) )*([^\s(){}\[\];,.:]+) : ', source):
            known.add(law)
            if law in FOR_READERS or any(law in words[other] for other in citing):
                continue
            # in its own file: anywhere but at the head of its type and of its equations
            name = r"(?<![\w·«-])%s(?![\w'-])" % re.escape(law)
            head = re.compile(r'%s(?:(?:abbrev|unfoldable|pub) )*%s.* [:=](?: |$)' % (indent, name))
            if not any(len(re.findall(name, line)) > (1 if head.match(line) else 0) for line in source.split('\n')):
                yield f'{short}: no proof cites {law}'
    for law in FOR_READERS - known:
        yield f'tests/unused.py: there is no law {law}'


def main():
    code, logic = sources('.rt', '//'), sources('.antt', '--')
    found = set(unused_libraries(code, logic)) | set(unused_functions(code)) | set(unused_laws(code, logic))
    for files in list(code.values()) + list(logic.values()):
        found |= set(unused_imports(files))
    for line in sorted(found):
        print('unused.py: ' + line)
    print('unused.py: %s' % (f'{len(found)} things to mend' if found else 'nothing unused'))
    sys.exit(1 if found else 0)


if __name__ == '__main__':
    main()
