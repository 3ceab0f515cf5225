#!/usr/bin/env python3
"""random_logs.py SEED FOLDER    writes a random log of a nested fork-join program, one file a thread, into a folder.

Half of the logs are cut: files end anywhere, some with the zeros of a mapped file's tail. Some have a fault. Children are
joined in any order, strands come in pieces, and pieces stand in any order over all files. compare.py uses `random_log`; for
heaps half of the acts are births and stored references.
"""
import os
import random
import sys


class Maker:
    def __init__(self, rng, heaps=False):
        self.rng, self.heaps = rng, heaps
        self.numbers = list(range(1, 40))
        rng.shuffle(self.numbers)
        self.budget = rng.randrange(1, 12)
        self.blocks = rng.randrange(1, 5)
        self.born, self.freed = set(), set()
        self.atomics = rng.random() < 0.4
        self.scale = rng.choice([1, 1, 1, 2, 8])      # all places are multiples of it, but for a few
        self.references = rng.random() < 0.5
        self.strands = []
        if heaps:
            self.blocks = rng.randrange(2, 9)

    def place(self):
        rng = self.rng
        offset = rng.choice([0, 0, 1, 2, 3, 4, 8, 4090, 4092, 4096]) * self.scale
        place = f"{rng.randrange(1, self.blocks + 1)} {offset}"
        shape = rng.random()
        if shape < 0.5 and self.scale == 1:
            return place
        length = rng.choice([1, 1, 2, 4, 8]) * self.scale
        if shape < 0.8:
            return f"{place} {length}"
        apart = length + rng.choice([0, 0, 1, 4, 4096]) * self.scale + (rng.random() < 0.1)
        return f"{place} {length} {rng.randrange(1, 4)} {apart}"

    def site(self):
        return f" @{self.rng.randrange(4)}" if self.rng.random() < 0.6 else ""

    def heap_act(self):
        """A birth, or a reference that is stored."""
        block = self.rng.randrange(1, self.blocks + 1)
        if block not in self.born and self.rng.random() < 0.7:
            self.born.add(block)
            return f"a {block} {8191 + block}"
        return f"p {block} {self.rng.randrange(2)} {self.rng.randrange(self.blocks + 1)}"

    def act(self):
        rng = self.rng
        if self.heaps and rng.random() < 0.5:
            return self.heap_act()
        kind = rng.random()
        block = rng.randrange(1, self.blocks + 1)
        if kind < 0.12:
            return f"k {rng.randrange(20)}"
        if kind < 0.18 and block not in self.born:
            self.born.add(block)
            return f"a {block} {8191 + block}"
        if kind < 0.22 and block not in self.freed:
            self.freed.add(block)
            return f"f {block}"
        if kind < 0.4 and self.references:
            offset = rng.choice([0, 1, 4]) * self.scale
            return f"{rng.choice('gp')} {block} {offset} {rng.randrange(self.blocks + 1)}{self.site()}"
        letter = rng.choice("rrrwRW" if self.atomics else "rrrw")
        return f"{letter} {self.place()}{self.site()}"

    def acts(self):
        return [self.act() for _ in range(self.rng.choice([0, 1, 1, 2, 4]))]

    def task(self, number):
        """The strands of a task and all below: each a list of lines, the last of which ends it."""
        strands, open_ones = [self.acts()], []
        while True:
            step = self.rng.random()
            if step < 0.45 and self.budget > 0:
                self.budget -= 1
                child = self.numbers.pop()
                open_ones.append(child)
                strands[-1].append(f"+ {child}")
            elif open_ones:
                strands[-1].append(f"- {open_ones.pop(self.rng.randrange(len(open_ones)))}")
            elif step > 0.6 or self.budget == 0:
                strands[-1].append(".")
                break
            else:
                continue
            strands.append(self.acts())
        self.strands += [(number, index, lines) for index, lines in enumerate(strands)]
        for lines in strands:
            if lines[-1].startswith("+"):
                self.task(int(lines[-1][2:]))

    def pieces(self):
        """All pieces in any order, but those of a strand in theirs."""
        pieces = []
        for number, index, lines in self.strands:
            cut = self.rng.randrange(len(lines)) if self.rng.random() < 0.3 else 0
            pieces += [(number, index, part) for part in (lines[:cut], lines[cut:]) if part]
        order = list(range(len(pieces)))
        if self.rng.random() < 0.7:
            self.rng.shuffle(order)
        mixed = [None] * len(pieces)
        places = {}
        for place, which in enumerate(order):
            places.setdefault(pieces[which][:2], []).append(place)
        for piece in pieces:
            mixed[places[piece[:2]].pop(0)] = piece
        return mixed

    def files(self):
        """The lines of files: a strand that follows by itself is often not named."""
        pieces = self.pieces()
        bounds = sorted(self.rng.randrange(len(pieces) + 1) for _ in range(self.rng.randrange(3)))
        files = []
        for start, stop in zip([0] + bounds, bounds + [len(pieces)]):
            lines, here = ["hhlog 1"], None
            for number, index, part in pieces[start:stop]:
                if here != (number, index) or self.rng.random() < 0.3:
                    lines.append(f"s {number} {index}")
                lines += part
                here = (number, index + 1) if part[-1][0] in "+-" else (number, index) if part[-1] != "." else None
                if self.rng.random() < 0.1:
                    lines.append(self.rng.choice(["", "# a comment", "@ 2 prog.c:12", "@ 3 prog.c:15"]))
            files.append(lines + ["end"])
        return files


def spoil(rng, lines):
    """Puts a fault into a file, most likely."""
    if rng.random() < 0.15:
        lines.insert(len(lines) - 1, f"s {rng.randrange(40)} {rng.choice([0, 1, 90])}")    # a strand without acts is none
        return
    at = rng.randrange(len(lines))
    choice = rng.random()
    if choice < 0.4:
        del lines[at]
    elif choice < 0.6:
        lines.insert(at, lines[rng.randrange(len(lines))])
    elif choice < 0.8:
        wrong = ["r 1", "r 1 2 3 4", "w 1 01", "w 1 2 0", "r 1 2 4 2 3", "x 1", "s 4294967296 0", "- 77", "+ 0", "k", "end ",
                 "r 1 1152921504606846975", "w 1 2  3", "r 1 2 @", "r 1 2 @1 3", "w 1 2 268435457", ". 1", "s 3 90", "rr 1 2"]
        lines.insert(at, rng.choice(wrong))
    else:
        words = lines[at].split(" ")
        words[rng.randrange(len(words))] = str(rng.randrange(6))
        lines[at] = " ".join(words)


def random_log(rng, heaps=False):
    """The bytes of a log's files."""
    maker = Maker(rng, heaps)
    maker.task(0)
    files = maker.files()
    if rng.random() < 0.15:
        spoil(rng, rng.choice(files))
    data = [("\n".join(lines) + "\n").encode() for lines in files]
    if rng.random() < 0.5:
        for at in range(len(data)):
            if rng.random() < 0.6:
                whole = data[at]
                data[at] = whole[:rng.randrange(min(8, len(whole)), len(whole) + 1)] + b"\0" * rng.choice([0, 0, 5])
    return data


def main():
    seed, folder = int(sys.argv[1]), sys.argv[2]
    for file, data in enumerate(random_log(random.Random(seed))):
        with open(os.path.join(folder, f"log.{file}"), "wb") as out:
            out.write(data)


if __name__ == "__main__":
    main()
