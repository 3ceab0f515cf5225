#!/usr/bin/env python3
"""Puts the page's own text into the program: page/page.html as the constants of crates/page_text.

    scripts/page_text.py            writes src/text.rt and specs/Text.antt of crates/page_text
    scripts/page_text.py --check    compares these files with what it would write, and fails if they differ

The page has one place for the data of a run, `@@RUN@@`, at which it is cut in two. Its policy lets the browser run one
script, the page's own, by the script's sum, which is put in the place of `@@HASH@@`. Both parts are cut at line ends
into pieces of some 8 KB, since a check of one long constant takes gigabytes.
"""
import base64
import hashlib
import os
import re
import sys

TOP = os.path.dirname(os.path.dirname(os.path.abspath(__file__)))
PAGE = os.path.join(TOP, 'page', 'page.html')
CRATE = os.path.join(TOP, 'crates', 'page_text')
PIECE = 8000
MARK = '@@RUN@@'
FAULT = 'page/page.html: '


def whole_page():
    with open(PAGE, encoding='utf-8') as f:
        page = f.read()
    if not page.isascii():
        sys.exit(FAULT + 'it has a character beyond ASCII: write an entity, or an escape of the script')
    if page.count(MARK) != 1 or '"##' in page:
        sys.exit(FAULT + f'it has {MARK} not once, or "##, which ends a constant')
    scripts = re.findall(r'<script>(.*?)</script>', page, re.S)
    if len(scripts) != 1:
        sys.exit(FAULT + 'it has not one script')
    total = base64.b64encode(hashlib.sha256(scripts[0].encode()).digest()).decode()
    return page.replace('@@HASH@@', 'sha256-' + total)


def pieces(text):
    """The text cut at line ends."""
    cut = ['']
    for line in text.splitlines(keepends=True):
        if cut[-1] and len(cut[-1]) + len(line) > PIECE:
            cut.append('')
        cut[-1] += line
    return cut


class Part:
    """What stands before or after the data: pieces, and groups of up to three, which are put together in turn."""

    def __init__(self, name, says, text):
        self.name, self.says = name, says
        self.pieces = [(f'{name}_{i}', piece) for i, piece in enumerate(pieces(text), 1)]
        self.groups = []
        members = [(piece, piece.upper() + '.now') for piece, _ in self.pieces]
        level = 1
        while len(members) > 3:
            found = [members[i:i + 3] for i in range(0, len(members), 3)]
            members = [(f'{name}_group_{level}_{i}',) * 2 for i in range(1, len(found) + 1)]
            self.groups += [(group, inside) for (group, _), inside in zip(members, found)]
            level += 1
        self.members = members

    def constants(self):
        return ''.join(constant(name.upper(), piece) for name, piece in self.pieces)

    def code(self):
        small = ''.join(piece_adder(name) for name, _ in self.pieces)
        groups = ''.join(adder('', 'fn', name, members) for name, members in self.groups)
        return small + groups + adder(f'/// Adds {self.says}.\n', 'pub fn', self.name, self.members)

    def words(self):
        groups = ''.join(definition('', name, members) for name, members in self.groups)
        return groups + definition(f'-- {self.says}\n', self.name, self.members)


def constant(name, piece):
    """In the layout of `rt fmt`, whose lines have 100 columns."""
    head, body = f'pub const {name}: &str =', f'r##"{piece}"##;\n\n'
    first = body.split('\n', 1)[0]
    return head + (' ' if len(head) + 1 + len(first) <= 100 else '\n    ') + body


def piece_adder(name):
    return (f'fn add_{name}(text: &mut Vec<u8>) -> Result<(), AllocError>\n'
            f'    ensures {{ OnOk result (text.new.items ≡ text.old.items ++ {name.upper()}.now) }}\n'
            f'{{\n    text.extend_from_slice({name.upper()}.as_bytes())\n}}\n\n')


def adder(says, head, name, members):
    calls = [f'    add_{member}(text)' for member, _ in members]
    return (f'{says}#[tactic(auto, unfolding(crate::specs::Text::{name}))]\n'
            f'{head} add_{name}(text: &mut Vec<u8>) -> Result<(), AllocError>\n'
            f'    ensures {{ OnOk result (text.new.items ≡ text.old.items ++ {name}) }}\n'
            f'{{\n' + '?;\n'.join(calls) + '\n}\n\n')


def definition(says, name, members):
    return f'\n{says}unfoldable pub {name} : List ℕ\n{name} = {" ++ ".join(term for _, term in members)}\n'


def code(parts):
    names = [name for part in parts for name in [*[group for group, _ in part.groups], part.name]]
    text = ('// The page\'s own text, as scripts/page_text.py makes it of page/page.html. It is never edited.\n\n'
            'ghost use Rattle.std.specs.Prelude.{◌≡◌, ◌++◌, OnOk};\n'
            f'ghost use Rattle.page_text.specs.Text.{{{", ".join(names)}}};\n\n'
            'use std::alloc::AllocError;\n\n')
    return text + ''.join(part.constants() for part in parts) + ''.join(part.code() for part in parts).rstrip('\n') + '\n'


def words(parts):
    names = ', '.join(name.upper() for part in parts for name, _ in part.pieces)
    return ('-- The page\'s own text: scripts/page_text.py makes this file of page/page.html.\n'
            'use Rattle.std.specs.Prelude.{ℕ, List, ◌++◌}\n'
            f'use Rattle.page_text.specs.declared.text.TheConstants.{{{names}}}\n'
            + ''.join(part.words() for part in parts))


def made():
    above, below = whole_page().split(MARK)
    parts = [Part('before', 'what stands before the data of a run', above),
             Part('after', 'what stands after the data of a run', below)]
    return {os.path.join('src', 'text.rt'): code(parts), os.path.join('specs', 'Text.antt'): words(parts)}


def check(path, text):
    with open(path, encoding='utf-8') as f:
        if f.read() != text:
            sys.exit(f'{os.path.relpath(path, TOP)} isn\'t what scripts/page_text.py makes of page/page.html')


def main():
    for name, text in made().items():
        path = os.path.join(CRATE, name)
        if sys.argv[1:] == ['--check']:
            check(path, text)
            continue
        with open(path, 'w', encoding='utf-8') as f:
            f.write(text)


if __name__ == '__main__':
    main()
