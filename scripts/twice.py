#!/usr/bin/env python3
"""Lists what stands twice below crates/: lemmas, definitions, functions or runs of lines.

    scripts/twice.py                 lemmas whose statement, but for names, stands in two files
    scripts/twice.py definitions     definitions that stand letter for letter in two crates, over the same types
    scripts/twice.py functions       functions of more than three lines with equal bodies, tests left out
    scripts/twice.py lines           runs of six lines or more that stand in two places, of .rt and .antt files

Names are led to where they come from by the `use` lines; a lemma's statement begins with those parameters of its
modules that it or its proof uses; what a module's abbreviation without arguments stands for is written out. Two
statements are the same if they differ in the names of bound variables alone. Abbreviations are no lemmas, and neither
are the answers to the goals of one function; the helpers beside those answers are. Lines are compared without their
indentation; blank lines, comments and imports don't count, nor do runs of fewer than forty letters. A row is a place
to look: an instance of one call may read better beside its use.
"""

import glob
import re
import sys

TOKEN = re.compile(r"[(){}\[\],;]|λ|→|×|[^\s(){}\[\],;λ→×]+")
HEAD = re.compile(r"^ *((?:pub |abbrev )*)(?!module |use |record |data |mod |postulate )([^\s:=(){}]+) : (.*)$")
NOT_LEMMAS = ("Invariants.antt", "Measures.antt", "Proof.antt", "Lib.antt")
# A line that counts for no run of lines: a comment, an import, or brackets alone.
NO_LINE = re.compile(r"(--|//|#\[|(pub |ghost )*use |[\s(){}\[\];,]*$)")
RUN = 6
CLOSES = {"(": ")", "{": "}", "[": "]"}


def indent(line):
    return len(line) - len(line.lstrip())


def end_of_group(tokens, at):
    depth = 0
    for i in range(at, len(tokens)):
        depth += (tokens[i] in CLOSES) - (tokens[i] in CLOSES.values())
        if depth == 0:
            return i
    return len(tokens) - 1


def binder(tokens):
    """The names and the type of what stands between brackets, where it binds names."""
    if ":" not in tokens:
        return None
    colon = tokens.index(":")
    names = tokens[:colon]
    return (names, tokens[colon + 1 :]) if names and not set(names) & set("(){}[],;λ→×") else None


def parameters(tokens):
    found, i = [], 0
    while i < len(tokens):
        end = end_of_group(tokens, i)
        names, of = binder(tokens[i + 1 : end]) or ([], [])
        found += [(name, of) for name in names]
        i = end + 1
    return found


class Item:
    """What is stated once: its name, the parameters and abbreviations of its modules, its statement and its text."""

    def __init__(self, name, words, scopes, statement, body, line):
        self.name, self.is_abbrev, self.statement, self.body, self.line = name, "abbrev" in words, statement, body, line
        self.parameters = [it for scope in scopes for it in scope.parameters]
        self.abbreviations = {name: of for scope in scopes for name, of in scope.abbreviations.items()}


class Scope:
    def __init__(self, indent, parameters):
        self.indent, self.parameters, self.abbreviations = indent, parameters, {}


class File:
    def __init__(self, path):
        self.path = path
        self.here = "Rattle." + path[len("crates/") : -len(".antt")].replace("/", ".")
        self.names, self.items = {}, []
        with open(path, encoding="utf-8") as it:
            self.lines = [re.sub(r"(^|\s)--(\s.*)?$", "", line).rstrip() for line in it.read().split("\n")]
        self.read()
        self.by_name = {it.name: it for it in self.items}
        self.used = {}

    def read(self):
        i, scopes = 0, []
        while i < len(self.lines):
            line = self.lines[i]
            while line and scopes and indent(line) <= scopes[-1].indent:
                scopes.pop()
            level = scopes[-1].indent + 2 if scopes else 0
            if re.match(r" *(pub )?module ", line):
                i = self.read_module(i, scopes)
            elif re.match(r"(pub )?use ", line):
                self.read_use(line)
                i += 1
            elif (head := HEAD.match(line)) and indent(line) == level:
                i = self.read_item(i, head, level, scopes)
            else:
                i += 1

    def read_use(self, line):
        if many := re.match(r"(?:pub )?use (\S+?)\.\{(.*)\}", line):
            for word in many[2].split(","):
                was, _, name = word.strip().partition(" as ")
                self.names[name or was] = f"{many[1]}.{was}"
        elif one := re.match(r"(?:pub )?use (\S+) as (\S+)", line):
            self.names[one[2]] = one[1]

    def read_module(self, i, scopes):
        first, text = i, self.lines[i]
        while not text.endswith("where"):
            i += 1
            text += " " + self.lines[i]
        text = re.sub(r"^ *(pub )?module \S+", "", text)[: -len("where")]
        scopes.append(Scope(indent(self.lines[first]), parameters(TOKEN.findall(text))))
        return i + 1

    def read_item(self, i, head, level, scopes):
        """Reads a statement, with the lines that go on from it, and the lines of its body."""
        first, text = i, head[3]
        i += 1
        while i < len(self.lines) and self.lines[i] and indent(self.lines[i]) > level:
            text += " " + self.lines[i].strip()
            i += 1
        body, own = [], re.compile(r" {%d}%s( |$)" % (level, re.escape(head[2])))
        while i < len(self.lines) and (not self.lines[i] or indent(self.lines[i]) > level or own.match(self.lines[i])):
            body += [self.lines[i].strip()] if self.lines[i] else []
            i += 1
        made = Item(head[2], head[1], scopes, TOKEN.findall(text), " ".join(body), first + 1)
        self.items.append(made)
        if scopes and made.is_abbrev and made.body.startswith(f"{made.name} = "):
            scopes[-1].abbreviations[made.name] = TOKEN.findall(made.body[len(made.name) + 3 :])
        return i

    def uses(self, name):
        """The names in a statement and its proof, and in those of the file's own that they cite."""
        if name not in self.used:
            self.used[name] = set()
            words = [*self.by_name[name].statement, *TOKEN.findall(self.by_name[name].body)]
            found = {part for word in words for part in (word, word.split(".")[0])}
            for word in found & set(self.by_name) - {name}:
                found = found | self.uses(word)
            self.used[name] = found
        return self.used[name]

    def written_out(self, tokens, abbreviations):
        found = []
        for token in tokens:
            head, dot, rest = token.partition(".")
            if head in abbreviations and token != ".":
                less = {name: of for name, of in abbreviations.items() if name != head}
                found += ["(", *self.written_out(abbreviations[head], less), ")"] + ([dot + rest] if rest else [])
            else:
                found.append(token)
        return found

    def statement(self, item):
        """The statement with all parameters that it needs, its bound names numbered and its other names led home."""
        tokens = self.written_out(item.statement, item.abbreviations)
        used, needed = {part for token in tokens for part in (token, token.split(".")[0])} | self.uses(item.name), []
        for name, of in reversed(item.parameters):
            if name in used:
                of = self.written_out(of, item.abbreviations)
                needed = ["(", name, ":", *of, ")", "→", *needed]
                used |= {part for token in of for part in (token, token.split(".")[0])}
        return " ".join(Walk(self).numbered([*needed, *tokens], {}))

    def home(self, word, bound):
        head, dot, rest = word.partition(".")
        for name, tail in ((word, ""), (head, dot + rest)):
            if name in bound or name in self.names:
                return (bound.get(name) or self.names[name]) + tail
        return f"{self.here}.{word}" if head in self.by_name else word


class Walk:
    def __init__(self, file):
        self.file, self.count = file, 0

    def bind(self, names, bound):
        for name in names:
            self.count += 1
            bound = {**bound, name: f"#{self.count}"}
        return bound

    def numbered(self, tokens, bound):
        found, i = [], 0
        while i < len(tokens):
            token = tokens[i]
            if token in CLOSES:
                end = end_of_group(tokens, i)
                inner = tokens[i + 1 : end]
                binds = binder(inner) if token != "[" and tokens[end + 1 : end + 2] in (["→"], ["×"]) else None
                if binds:
                    of = self.numbered(binds[1], bound)
                    found += [token, *of, CLOSES[token], tokens[end + 1]] * len(binds[0])
                    bound, i = self.bind(binds[0], bound), end + 2
                    continue
                made = self.numbered(inner, bound)
                found += made if len(made) == 1 and token == "(" else [token, *made, CLOSES[token]]
                i = end + 1
            elif token == "λ":
                end = next((j for j in range(i, len(tokens)) if tokens[j].endswith(".")), len(tokens) - 1)
                names = [it.rstrip(".") for it in tokens[i + 1 : end + 1]]
                if ":" in names:
                    names = [names[j - 1] for j in range(len(names)) if names[j] == ":"]
                bound = self.bind([it for it in names if it and it not in "()"], bound)
                found.append("λ")
                i = end + 1
            else:
                found.append(self.file.home(token, bound))
                i += 1
        return found


def definition(file, item):
    """The text of a definition, with other names than its own led home."""
    words = [*item.statement, "=", *TOKEN.findall(item.body)]
    return " ".join("_" if word == item.name else file.home(word, {}) for word in words)


def stated(part):
    """Each lemma or definition with its file: what is compared, and the place."""
    for path in sorted(glob.glob(f"crates/*/{part}/**/*.antt", recursive=True)):
        file = File(path) if not path.endswith(NOT_LEMMAS) else None
        for item in file.items if file else []:
            if part == "specs" or not (item.is_abbrev or item.statement[:1] and item.statement[0].startswith("goal.")):
                yield definition(file, item) if part == "specs" else file.statement(item), (path, item.line, item.name)


def is_of_tests(path):
    return path.split("/")[1].endswith("_tests")


def functions():
    """Each function of more than three lines outside the crates of tests: its body, and the place."""
    for path in sorted(glob.glob("crates/*/src/**/*.rt", recursive=True)):
        if is_of_tests(path):
            continue
        with open(path, encoding="utf-8") as it:
            lines = [re.sub(r"(^|\s)//.*$", "", line).rstrip() for line in it.read().split("\n")]
        for i, line in enumerate(lines):
            if head := re.match(r"( *)(?:pub(?:\([a-z]+\))? )?fn (\w+)", line):
                end = next((j for j in range(i, len(lines)) if lines[j] == head[1] + "}"), i)
                start = next((j for j in range(i, end) if lines[j].endswith("{") and indent(lines[j]) == len(head[1])), end)
                body = [it.strip() for it in lines[start + 1 : end] if it]
                if len(body) > 3:
                    yield " ".join(body), (path, i + 1, head[2])


def counted_lines(path):
    """The lines of a file that count, each with its number."""
    with open(path, encoding="utf-8") as it:
        lines = [line.strip() for line in it.read().split("\n")]
    return [(line, i + 1) for i, line in enumerate(lines) if not NO_LINE.match(line)]


def longest(files, first, second):
    """How many lines two places share that share the first ones."""
    (a, i), (b, j) = first, second
    count = 0
    while i + count < len(files[a]) and j + count < len(files[b]) and files[a][i + count][0] == files[b][j + count][0]:
        count += 1
    return count


def runs():
    """The runs of lines that stand in two places, longest first: how many lines, and the two places. A run that
    stands within a longer one of the same two places isn't told apart."""
    paths = [it for end in ("rt", "antt") for it in glob.glob(f"crates/*/*/**/*.{end}", recursive=True)]
    paths = [it for it in sorted(paths) if it.split("/")[2] in ("src", "specs", "proofs") and not is_of_tests(it)]
    files, starts, found = {it: counted_lines(it) for it in paths}, {}, []
    for path, lines in files.items():
        for i in range(len(lines) - RUN + 1):
            key = "\n".join(line for line, _ in lines[i : i + RUN])
            if len(key) >= 40:
                starts.setdefault(key, []).append((path, i))
    for places in starts.values():
        for at, second in enumerate(places):
            for first in places[:at]:
                before = [(path, i - 1) for path, i in (first, second)]
                goes_back = min(i for _, i in before) >= 0 and longest(files, *before) > 0
                apart = first[0] != second[0] or second[1] - first[1] >= RUN
                if apart and not goes_back:
                    found.append((longest(files, first, second), *((path, files[path][i][1]) for path, i in (first, second))))
    return sorted(found, key=lambda it: -it[0])


def tell_runs():
    """Prints the pairs of places, and how many lines stand again."""
    found, again = runs(), set()
    for count, (path, line), (other, at) in found:
        print(f"{count} {path[len('crates/'):]}:{line} {other[len('crates/'):]}:{at}")
        again |= {(other, at + i) for i in range(count)}
    print(f"{len(found)} pairs of places share {RUN} lines or more; about {len(again)} lines stand again")


def main():
    what = sys.argv[1] if len(sys.argv) > 1 else "lemmas"
    of = {"lemmas": lambda: stated("proofs"), "definitions": lambda: stated("specs"), "functions": functions, "lines": tell_runs}
    if what not in of or len(sys.argv) > 2:
        sys.exit(__doc__)
    if what == "lines":
        return tell_runs()
    groups, crate = {}, lambda path: path.split("/")[1]
    for key, place in of[what]():
        groups.setdefault(key, []).append(place)
    apart = {"lemmas": lambda place: place[0], "definitions": lambda place: crate(place[0]), "functions": lambda place: place}
    found = [(key, them) for key, them in groups.items() if len({apart[what](place) for place in them}) > 1]
    for key, them in sorted(found, key=lambda it: -len(it[0])):
        print(" ".join(f"{path[len('crates/'):]}:{line}:{name}" for path, line, name in them))
    crates = sum(len({crate(path) for path, _, _ in them}) > 1 for _, them in found)
    print(f"{sum(map(len, groups.values()))} {what}; {len(found)} groups stand in two places, {crates} of them in two crates")


if __name__ == "__main__":
    main()
