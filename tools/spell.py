#!/usr/bin/env python3
"""Spells the repository's own definitions and lemmas as today's Rattle does: words in snake case.

tools/spell.py [--check]     at the top; run once, after port.py

A name of specs/ or proofs/ that begins with a small letter and goes on with a capital is turned,
part by part between dashes: bitAt-word becomes bit_at-word, badXYPitch bad_xy_pitch. It is turned
wherever it stands: in .antt files, in clauses, in comments, in the pages and in must-fail edits.
Names of src/, strings of C and names of the kit stay. In an edit the kit's names that port.py
respelled are turned too, a projection is written tight and a prime is an apostrophe. A line 'clash:' names two spellings that would fall together in one
file, and 'left:' an edit whose old text does not stand once in its file."""
import os
import re
import sys

TOP = os.path.dirname(os.path.dirname(os.path.abspath(__file__)))
TOKEN = re.compile(r"(?<!\\)[^\s(){}.;,@\"«»\[\]|:'`/*!?=<>+&%^~$#\\]+'*")
CAMEL = re.compile(r"[a-z][a-z0-9]*[A-Z][A-Za-z0-9]*")
# names of the kit, and of tools, that only look like the repository's own
KIT = re.compile(r".*_[A-Z]")
# what port.py made of the kit's words, for the edits and the pages
WORDS = {'getD': 'get_or', 'bitAnd': 'bit_and', 'bitOr': 'bit_or', 'bitXor': 'bit_xor',
         'bitNot': 'bit_not', 'leadingZeros': 'leading_zeros'}
# a name of a column, a plan or a tool in the pages
PROSE_ONLY = {'libFuzzer', 'tPSIZE', 'tFILL', 'tDYDX', 'tCOLOR1', 'sH'}


def snake(part):
    if part in WORDS:
        return WORDS[part]
    if not CAMEL.fullmatch(part):
        return part
    pieces = re.findall(r'[A-Z]+(?=[A-Z][a-z])|[A-Z]?[a-z0-9]+|[A-Z]+', part)
    return '_'.join(piece.lower() for piece in pieces)


def turned(word):
    """The spelling of a name: its parts between dashes, each in snake case."""
    bare = word.rstrip("'")
    if KIT.match(bare):
        return word
    return '-'.join(snake(part) for part in bare.split('-')) + word[len(bare):]


def files(*endings):
    for folder, folders, names in os.walk(TOP):
        folders[:] = sorted(f for f in folders if f not in ('out', '.git', 'target', 'build'))
        for name in sorted(names):
            if name.endswith(endings):
                yield os.path.join(folder, name)


def read(path):
    with open(path, encoding='utf-8') as file:
        return file.read()


def text_turned(text, may=lambda word: True):
    return TOKEN.sub(lambda m: turned(m[0]) if may(m[0]) else m[0], text)


def own_names():
    """Every name of the .antt files that turns, whole and without its primes."""
    names = set()
    for path in files('.antt'):
        for word in TOKEN.findall(read(path)):
            if turned(word) != word:
                names.add(word.rstrip("'"))
    return names


def clashes(path, text):
    words = set(TOKEN.findall(text))
    meets = {}
    for word in words:
        meets.setdefault(turned(word), set()).add(word)
    for new, old in sorted(meets.items()):
        if len(old) > 1:
            yield f'clash: {os.path.relpath(path, TOP)}: {new}: {", ".join(sorted(old))}'


def edits_left():
    for path in files('.edit'):
        crate = os.path.dirname(os.path.dirname(path))
        state = {}
        name = None
        for line in read(path).splitlines():
            key, _, value = line.partition(': ')
            if key == 'file':
                name = value
                state.setdefault(name, read(os.path.join(crate, name)))
            elif key == 'old':
                old = value
            elif key == 'new':
                if state[name].count(old) != 1:
                    yield (f'left: {os.path.relpath(path, TOP)}: in {name} '
                           f'{state[name].count(old)} times: {old}')
                state[name] = state[name].replace(old, value, 1)


def main():
    write = '--check' not in sys.argv
    own = own_names()
    for path in files('.antt', '.rt', '.md', '.edit'):
        text = read(path)
        if path.endswith('.antt'):
            for line in clashes(path, text):
                print(line)
            new = text_turned(text)
        elif path.endswith('.md'):
            new = text_turned(text, lambda word: word not in PROSE_ONLY)
        else:
            new = text_turned(text)
        if path.endswith('.edit'):
            new = re.sub(r"(?<=[\w')]) \.(?=[a-z])", '.', new).replace('\u2032', "'")
        if path.endswith('.rt'):
            for line in clashes(path, text):
                print(line)
        if write and new != text:
            with open(path, 'w', encoding='utf-8') as file:
                file.write(new)
    if write:
        for line in edits_left():
            print(line)
    print(f'{len(own)} names')


main()
