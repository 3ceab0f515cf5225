#!/usr/bin/env python3
"""gather_imports.py [CRATE ..]    gathers what the specifications and proofs of crates import.

Each file of a crate's specs/ or proofs/ imports names of other crates through the file Common beside it, which passes
them on: one line in a file, and one in Common for each file of another crate. So write an import where it is needed,
and run this before you commit. Names stay where they are if the file unfolds them, if another file means another thing
by them more often, or if the crate would save no line. Specifications import what is of std from std: the prover asks
for that, so that no reader takes another meaning for it.
"""
import collections
import os
import re
import sys

IMPORT = re.compile(r"use (Rattle\.[\w.]+)\.\{(.*)\}$")
LISTS = {"below.antt", "Common.antt", "Lib.antt"}
HEADS = {
    "specs": "-- The names of lower crates that these specifications use. Declares nothing.",
    "proofs": "-- The names of lower crates and of the specifications that these proofs use. Declares nothing.",
}


def name_of(item):
    """The name that an item of an import has where it stands."""
    return item.split(" as ")[0]


def source(module):
    """Where a module's names stand: Common of std passes on its prelude."""
    return "Rattle.std" if module in ("Rattle.std.proofs.Common", "Rattle.std.specs.Prelude") else module


class Part:
    """The specifications or the proofs of a crate."""

    def __init__(self, crate, part):
        self.part, self.crate, self.folder = part, crate, f"crates/{crate}/{part}"
        self.common = f"Rattle.{crate}.{part}.Common"
        self.texts = {f: open(f, encoding="utf-8").read().split("\n") for f in self.files()}
        self.passed = dict(self.passed_on())
        self.home = self.homes()

    def files(self):
        """The files that import: all but the lists of names that are passed on."""
        for path, _, names in sorted(os.walk(self.folder)):
            if "below" not in path.split(os.sep):
                yield from (os.path.join(path, n) for n in sorted(names) if n.endswith(".antt") and n not in LISTS)

    def passed_on(self):
        """What Common passes on already, with where it stands."""
        path = f"{self.folder}/Common.antt"
        for line in open(path, encoding="utf-8") if os.path.exists(path) else []:
            found = IMPORT.match(line.strip().removeprefix("pub "))
            for name in found[2].split(", ") if found else []:
                yield name, found[1]

    def imports(self, lines):
        """The lines that import from other crates: their place, the module and the items."""
        for place, line in enumerate(lines):
            found = IMPORT.match(line)
            library = found[1].split(".")[1] if found else self.crate
            own = found and self.part == "proofs" and found[1].startswith(f"Rattle.{self.crate}.specs.")
            if own or library != self.crate and (library != "std" or self.part == "proofs"):
                yield place, found[1], found[2].split(", ")

    def homes(self):
        """For each imported name the module that Common takes it from: the one that most files mean."""
        users = collections.defaultdict(collections.Counter)
        for lines in self.texts.values():
            for _, module, items in self.imports(lines):
                for item in items:
                    users[name_of(item)][module] += 1
        return {name: self.passed.get(name) or most_meant(modules) for name, modules in users.items()}

    def gathered(self, lines):
        """A file's lines with its imports gathered, and the items that come through Common."""
        unfolded = {n for x in lines if re.match(r"\s*unfolding ", x) for n in re.findall(r"[^\s,{}()]+", x)}
        begun = next((p for p, x in enumerate(lines) if x.startswith(f"use {self.common}.")), None)
        items, gone, left = IMPORT.match(lines[begun])[2].split(", ") if begun is not None else [], set(), {}
        for place, module, every in self.imports(lines):
            means = [i for i in every if source(self.home[name_of(i)]) == source(module)]
            here = [i for i in means if i.split(" as ")[-1] not in unfolded]
            rest = [i for i in every if i not in here]
            items = items + here
            if here and not rest:
                gone.add(place)
            elif here:
                left[place] = f"use {module}.{{{', '.join(rest)}}}"
        if len(gone) + (begun is not None) < 2:
            return lines, []
        items = list(dict.fromkeys(items))
        first = min(gone) if begun is None else begun
        left[first] = f"use {self.common}.{{{', '.join(items)}}}"
        return [left.get(p, x) for p, x in enumerate(lines) if p == first or p not in gone], items

    def gather(self):
        """Gathers the imports of all files. Returns how many lines that saves; where it saves none it changes none."""
        new, taken = {}, dict(self.passed)
        for path, lines in self.texts.items():
            new[path], items = self.gathered(lines)
            taken.update({name_of(i): self.passed.get(name_of(i)) or self.home[name_of(i)] for i in items})
        modules = collections.defaultdict(list)
        for name, module in taken.items():
            modules[module].append(name)
        saved = sum(len(self.texts[p]) - len(x) for p, x in new.items())
        if not self.passed:
            saved -= len(modules) + 2
        if saved < 1 or not self.passed and saved < 4:
            return 0
        self.write(new, modules)
        return saved

    def write(self, new, modules):
        """Writes the changed files, Common, and its line in Lib."""
        for path, lines in new.items():
            if lines != self.texts[path]:
                put(path, "\n".join(lines))
        lists = [f"pub use {m}.{{{', '.join(n)}}}\n" for m, n in sorted(modules.items())]
        put(f"{self.folder}/Common.antt", HEADS[self.part] + "\n" + "".join(lists))
        lib = f"{self.folder}/Lib.antt"
        text = open(lib, encoding="utf-8").read()
        if not re.search(r"(?m)^mod Common$", text):
            put(lib, text.rstrip("\n") + "\nmod Common\n")


def most_meant(modules):
    """The module that most of these uses mean."""
    sources = collections.Counter()
    for module, n in modules.items():
        sources[source(module)] += n
    return min(m for m in modules if source(m) == sources.most_common(1)[0][0])


def put(path, text):
    with open(path, "w", encoding="utf-8") as file:
        file.write(text)


total = 0
for crate in sys.argv[1:] or sorted(os.listdir("crates")):
    for part in HEADS:
        if os.path.exists(f"crates/{crate}/{part}/Lib.antt"):
            total += Part(crate, part).gather()
print("lines saved:", total)
