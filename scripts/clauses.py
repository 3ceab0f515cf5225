#!/usr/bin/env python3
"""Compares the contracts and definitions of two commits: scripts/clauses.py BASE [HEAD].

Prints each clause of a function (`- CRATE FILE FUNCTION: ..` gone, `+ ..` new) and each definition of a crate's specs/
that differs, with the blanks of a line break taken as one. A clause or definition that stands elsewhere, with the same
words, isn't told; nor is one that differs by renamed names alone, as `--renamed FILE` gives them: a line `OLD NEW ..`
each. Ends with the number of clauses of public functions that are gone.
"""
import argparse
import collections
import re
import subprocess

FUNCTION = re.compile(r'\s*(pub(?:\([a-z]+\))? )?(?:const )?fn (\w+)')
CLAUSE = re.compile(r'\s*(requires|ensures|ghost invariant)\b')
DEFINITION = re.compile(r"(?:(?:abbrev|unfoldable|record|data|pub(?:\([a-z]+\))?) +)+([\w'◌]\S*)")
WORD = re.compile(r"[A-Za-z_][\w']*")


def files_at(revision):
    """Returns the text of each file of crates/ in a commit."""
    listed = subprocess.run(['git', 'ls-tree', '-r', revision, 'crates'], capture_output=True, text=True, check=True)
    entries = [line.split(None, 3)[2:] for line in listed.stdout.splitlines()]
    entries = [(blob, path) for blob, path in entries if re.search(r'/src/.*\.rt$|/specs/.*\.antt$', path)]
    asked = ''.join(blob + '\n' for blob, _ in entries).encode()
    told = subprocess.run(['git', 'cat-file', '--batch'], input=asked, capture_output=True, check=True).stdout
    texts, at = {}, 0
    for _, path in entries:
        end = told.index(b'\n', at)
        size = int(told[at:end].split()[2])
        texts[path] = told[end + 1:end + 1 + size].decode()
        at = end + size + 2
    return texts


def clauses_of(path, text):
    """Gives (place, is public, clause) for each clause of the file's functions."""
    found = None
    for line in text.splitlines():
        function = FUNCTION.match(line)
        if function:
            found = function
        elif found and CLAUSE.match(line):
            yield f'{path} {found[2]}', found[1] == 'pub ', ' '.join(line.strip().rstrip(';').split())
        elif found and (line.strip() in ('{', '}') or line.endswith(';')):
            found = None


def definitions_of(path, text):
    """Gives (place, definition) for each definition of the file, comments and imports left out."""
    name, lines = None, []
    for line in text.splitlines() + ['end']:
        code = re.sub(r'(^|\s)--.*', '', line).rstrip()
        begins = DEFINITION.match(code)
        if (begins and not code.startswith(('pub use', 'pub mod'))) or line == 'end':
            if name:
                yield f'{path} {name}', ' '.join(' '.join(lines).split())
            name, lines = begins and begins[1], []
        if code and not code.startswith(('use ', 'pub use', 'mod ', 'pub mod')):
            lines.append(code)


def said_at(revision):
    """Returns the places of each clause and of each definition of a commit."""
    clauses, definitions = collections.defaultdict(list), collections.defaultdict(list)
    for path, text in files_at(revision).items():
        if path.endswith('.rt'):
            for place, is_public, clause in clauses_of(path, text):
                clauses[clause].append((place, is_public))
        elif '/declared/' not in path and '/contracts/' not in path:
            for place, definition in definitions_of(path, text):
                definitions[definition].append((place, False))
    return clauses, definitions


def left_in(these, others):
    """Returns (words, place, is public) for what stands in these and, with the same words, not as often in others."""
    left = []
    for words, places in these.items():
        there = others.get(words, [])
        places = sorted(places, key=there.__contains__)
        left += [(words, *it) for it in places[:len(places) - len(there)] if len(places) > len(there)]
    return sorted(left)


def without_renamed(gone, new, renamed):
    """Returns both lists without the pairs whose words differ by renamed names alone."""
    names = set(renamed).union(*renamed.values())

    def shape(words):
        return WORD.sub(lambda word: '_' if word[0] in names else word[0], words)

    def is_same(old, other):
        return all(a == b or b in renamed.get(a, ()) for a, b in zip(WORD.findall(old), WORD.findall(other)))

    by_shape = collections.defaultdict(list)
    for it in new:
        by_shape[shape(it[0])].append(it)
    left = []
    for it in gone:
        others = by_shape[shape(it[0])]
        found = next((other for other in others if is_same(it[0], other[0])), None)
        if found:
            others.remove(found)
        else:
            left.append(it)
    return left, sorted(it for others in by_shape.values() for it in others)


def main():
    parser = argparse.ArgumentParser(description='Compares the contracts and definitions of two commits.')
    parser.add_argument('base')
    parser.add_argument('head', nargs='?', default='HEAD')
    parser.add_argument('--renamed', metavar='FILE', help='lines OLD NEW ..: names of the base, and those of the head')
    options = parser.parse_args()
    renamed = collections.defaultdict(set)
    if options.renamed:
        with open(options.renamed, encoding='utf-8') as lines:
            for old, *new in filter(None, map(str.split, lines)):
                renamed[old].update(new)
    public = 0
    for kind, old, new in zip(('clauses', 'definitions'), said_at(options.base), said_at(options.head)):
        gone, new = without_renamed(left_in(old, new), left_in(new, old), renamed)
        public += sum(is_public for _, _, is_public in gone)
        for sign, word, told in (('-', 'gone', gone), ('+', 'new', new)):
            print(f'{kind} {word}: {len(told)}')
            for words, place, _ in told:
                print(f'{sign} {place}: {words}')
    print(f'clauses of public functions gone: {public}')


if __name__ == '__main__':
    main()
