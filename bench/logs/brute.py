#!/usr/bin/env python3
"""brute.py FILE..    judges a small log by its definition: the edges between strands, and all walks along them.

It shares nothing with the checkers that it is compared with: no serial order, no common ancestors, no cells. docs/LOGS.md
has the format and what the words mean. It prints the racing locations, work and span; compare.py uses `judge`.
"""
import re
import sys

KINDS = {"r": "read", "w": "write", "R": "atomic read", "W": "atomic write", "g": "read", "p": "write", "f": "release"}
NUMBER = re.compile(r"(0|[1-9][0-9]{0,17})\Z")


class Refused(Exception):
    """A file and a line from 1 on, or a task, with the cause."""


class Act:
    """A line of a strand: its letter, its numbers, its site, and where it stands."""

    def __init__(self, letter, numbers, site, at):
        self.letter, self.numbers, self.site, self.at = letter, numbers, site, at

    def locations(self):
        block, offset = self.numbers[:2]
        if self.letter in "gp":
            return [(block, offset)]
        length, runs, stride = (self.numbers[2:] + [1, 1, 1][len(self.numbers) - 2:]) if len(self.numbers) != 3 else (
            self.numbers[2], 1, 1)
        return [(block, offset + run * stride + k) for run in range(runs) for k in range(length)]

    def writes(self):
        return self.letter in "wWpf"

    def is_atomic(self):
        return self.letter in "RW"


def number(word, cause="number"):
    if not NUMBER.match(word):
        raise ValueError(cause)
    return int(word)


def numbers_of(words, counts):
    if len(words) not in counts:
        raise ValueError("count")
    return [number(word) for word in words]


def check_place(numbers):
    block, offset, length, runs, stride = (numbers + [1, 1, 1][len(numbers) - 2:]) if len(numbers) != 3 else (
        numbers + [1, numbers[2]])
    if not 1 <= length * runs <= 2**28 or offset + (runs - 1) * stride + length > 2**60:
        raise ValueError("limit")
    if stride < length:
        raise ValueError("overlap")


def parse(text, at):
    """A line's act; None if it isn't one, or else the cause is raised."""
    if text == "" or text.startswith("#"):
        return None
    letter, *words = text.split(" ")
    if letter == "@":
        if len(words) < 2:
            raise ValueError("count")
        number(words[0])
        return None
    site = None
    if letter in ("r", "w", "R", "W", "g", "p") and words and words[-1].startswith("@"):
        site = number(words.pop()[1:])
    counts = {"r": (2, 3, 5), "w": (2, 3, 5), "R": (2, 3, 5), "W": (2, 3, 5), "g": (3,), "p": (3,), "a": (2,), "f": (1,),
              "k": (1,), "s": (2,), "+": (1,), "-": (1,), ".": (0,)}
    if letter not in counts:
        raise ValueError("word")
    numbers = numbers_of(words, counts[letter])
    if letter in ("r", "w", "R", "W"):
        check_place(numbers)
    if letter in ("s", "+", "-") and numbers[0] >= 2**32 or letter == "s" and numbers[1] >= 2**31:
        raise ValueError("limit")
    return Act(letter, numbers, site, at)


class Log:
    """strands: (task, index) to its acts; ends: to what ended it, an act of `+`, `-` or `.`."""

    def __init__(self):
        self.strands, self.ends, self.spawner, self.births, self.released = {}, {}, {}, {}, set()
        self.is_cut = False

    def add_file(self, data, file):
        data = data.split(b"\0")[0]
        lines = data.split(b"\n")[:-1]
        if not lines or lines[0] != b"hhlog 1":
            raise Refused((file, 1), "version")
        strand, has_ended = None, False
        for line, raw in enumerate(lines[1:], 2):
            try:
                if has_ended:
                    raise ValueError("after-end")
                if raw == b"end":
                    has_ended = True
                    continue
                act = parse(raw.decode("latin-1"), (file, line))
                if act:
                    strand = self.add_act(act, strand)
            except ValueError as cause:
                raise Refused((file, line), str(cause)) from None
        self.is_cut = self.is_cut or not has_ended

    def add_act(self, act, strand):
        """Takes an act on a strand; the strand that the next one is on."""
        if act.letter == "s":
            self.strands.setdefault(tuple(act.numbers), [])
            return tuple(act.numbers)
        if strand is None:
            raise ValueError("closed")
        if strand in self.ends:
            raise ValueError("ended")
        self.note(act, strand)
        self.strands[strand].append(act)
        if act.letter not in "+-.":
            return strand
        self.ends[strand] = act
        if act.letter == ".":
            return None
        following = (strand[0], strand[1] + 1)
        if following[1] >= 2**31:
            raise ValueError("limit")
        self.strands.setdefault(following, [])
        return following

    def note(self, act, strand):
        first = act.numbers[0] if act.numbers else None
        if act.letter == "+":
            if first == 0 or first in self.spawner:
                raise ValueError("spawned-twice")
            self.spawner[first] = strand
        if act.letter == "a":
            if first in self.births:
                raise ValueError("born-twice")
            self.births[first] = (strand, act)
        if act.letter == "f":
            if first in self.released:
                raise ValueError("released-twice")
            self.released.add(first)

    def last_known(self, task):
        """The task's strand before the first gap, or at its end."""
        index = 0
        while (task, index) in self.ends and self.ends[task, index].letter != ".":
            index += 1
        return index

    def open_children(self, task):
        """The children that are unjoined at the end of what is known; whether each join is of an open child."""
        open_ones, is_legal = [], True
        for index in range(self.last_known(task)):
            act = self.ends[task, index]
            if act.letter == "+":
                open_ones.append(act.numbers[0])
            elif act.numbers[0] in open_ones:
                open_ones.remove(act.numbers[0])
            else:
                is_legal = False
        return open_ones, is_legal

    def tasks(self):
        """The root, and each task that does something or is spawned."""
        return sorted({0} | {task for (task, _), acts in self.strands.items() if acts} | set(self.spawner))

    def edges(self):
        """Where each strand leads to, and the last strand of each task."""
        leads, last = {}, {}
        for task in self.tasks():
            open_ones, _ = self.open_children(task)
            last[task] = self.last_known(task) + len(open_ones)
        for task in self.tasks():
            known = self.last_known(task)
            open_ones, _ = self.open_children(task)
            steps = [self.ends[task, index] for index in range(known)]
            steps += [Act("-", [child], None, None) for child in reversed(open_ones)]
            for index, act in enumerate(steps):
                leads.setdefault((task, index), []).append((task, index + 1))
                child = act.numbers[0]
                if act.letter == "+":
                    leads[task, index].append((child, 0))
                else:
                    leads.setdefault((child, last[child]), []).append((task, index + 1))
        return leads

    def check_tasks(self, reached):
        for task in self.tasks():
            open_ones, is_legal = self.open_children(task)
            known = self.last_known(task)
            if not is_legal:
                raise Refused(task, "joins-no-child")
            if self.is_cut:
                continue
            if (task, known) not in self.ends:
                raise Refused(task, "unended")
            if open_ones:
                raise Refused(task, "unjoined")
            goes_on = any(acts and t == task and index > known for (t, index), acts in self.strands.items())
            if (task, 0) not in reached or goes_on:
                raise Refused(task, "unreached")


def walk_from(leads, start):
    seen, todo = {start}, [start]
    while todo:
        for following in leads.get(todo.pop(), []):
            if following not in seen:
                seen.add(following)
                todo.append(following)
    return seen


def attached(log):
    """The strands that a walk along spawns and steps reaches from the root, whatever the joins do."""
    reached, todo = set(), [(0, 0)]
    while todo:
        task, index = todo.pop()
        if (task, index) in reached:
            continue
        reached.add((task, index))
        act = log.ends.get((task, index))
        if act and act.letter != ".":
            todo.append((task, index + 1))
            if act.letter == "+":
                todo.append((act.numbers[0], 0))
    return reached


class Verdict:
    """The result of a log. `accesses`: location to [(strand, act)]; `after`: strand to all that it precedes."""

    def __init__(self, log, reached):
        self.log, self.reached = log, reached
        self.is_cut = log.is_cut
        self.left_out = sum(1 for strand, acts in log.strands.items() if acts and strand not in reached)
        leads = log.edges()
        self.after = {strand: walk_from(leads, strand) for strand in reached}
        self.accesses = {}
        self.find_accesses()
        self.serial = {strand: place for place, strand in enumerate(self.serial_order())}
        self.work, self.span = self.weigh(leads)
        self.entangled_reads, self.entangled_uses, self.stale_uses = [], [], []
        self.find_uses()

    def precedes(self, u, v):
        return v in self.after[u]

    def acts(self):
        return [(strand, act) for strand in self.reached for act in self.log.strands.get(strand, [])]

    def find_accesses(self):
        releases = {}
        for strand, act in self.acts():
            if act.letter in "rwRWgp":
                for location in act.locations():
                    self.accesses.setdefault(location, []).append((strand, act))
            if act.letter == "f":
                releases[act.numbers[0]] = (strand, act)
        for location, those in self.accesses.items():
            if location[0] in releases:
                those.append(releases[location[0]])
        self.releases = releases

    def serial_order(self):
        order, todo = [], [(0, 0)]
        while todo:
            strand = todo.pop()
            order.append(strand)
            act = self.log.ends.get(strand)
            if act and act.letter != ".":
                todo.append((strand[0], strand[1] + 1))
                if act.letter == "+":
                    todo.append((act.numbers[0], 0))
        return order

    def race_with(self, those, later):
        """The accesses of a location that race with one of them and come before it in serial order."""
        v, act = later
        return [(u, other) for u, other in those if self.serial[u] < self.serial[v] and self.clash(act, other)
                and not self.precedes(u, v)]

    def clash(self, act, other):
        return (act.writes() or other.writes()) and not (act.is_atomic() and other.is_atomic())

    def races(self):
        """Each racing location: its first access that races, as a line, and the lines that it races with."""
        races = {}
        for location, those in self.accesses.items():
            those.sort(key=lambda one: (self.serial[one[0]], one[1].at))
            for later in those:
                rivals = self.race_with(those, later)
                if rivals:
                    races[location] = (later[1], {other.at: other for _, other in rivals})
                    break
        return races

    def find_uses(self):
        births = {block: birth for block, birth in self.log.births.items() if birth[0] in self.reached}
        for strand, act in self.acts():
            if act.letter == "g" and act.numbers[2] in births and act.numbers[2] != 0:
                if not self.precedes(births[act.numbers[2]][0], strand):
                    self.entangled_reads.append(act)
            if act.letter in "rwRWgp":
                block = act.numbers[0]
                if block in births and not self.precedes(births[block][0], strand):
                    self.entangled_uses.append(act)
                if block in self.releases and self.releases[block][0] != strand and self.precedes(self.releases[block][0], strand):
                    self.stale_uses.append(act)

    def ancestors(self, task):
        """The task, its parent, and so on up to the root."""
        line = [task]
        while line[-1] != 0:
            line.append(self.log.spawner[line[-1]][0])
        return line

    def depth(self, task):
        return len(self.ancestors(task)) - 1

    def home(self, block, strand):
        """The depth of the heap that the block is in at a strand; None if its birth doesn't happen before."""
        birth = self.log.births.get(block)
        if birth is None or birth[0] not in self.reached:
            return 0
        if not self.precedes(birth[0], strand):
            return None
        above = self.ancestors(strand[0])
        return max(self.depth(task) for task in self.ancestors(birth[0][0]) if task in above)

    def names(self, act):
        """The blocks that an act accesses or releases, or to which it reads or stores a reference."""
        blocks = {act.numbers[0]} if act.letter in "rwRWgpf" else set()
        return blocks | ({act.numbers[2]} - {0} if act.letter in "gp" else set())

    def heaps(self):
        """By depth the blocks, the words and the words of blocks that no other task names; stores, and those that lead down."""
        depths = {}
        for strand, act in self.acts():
            if act.letter == "a":
                block, words = act.numbers
                others = any(other[0] != strand[0] and block in self.names(what) for other, what in self.acts())
                row = depths.setdefault(self.depth(strand[0]), [0, 0, 0])
                row[0], row[1], row[2] = row[0] + 1, row[1] + words, row[2] + (0 if others else words)
        stores = [(self.home(act.numbers[0], strand), self.home(act.numbers[2], strand))
                  for strand, act in self.acts() if act.letter == "p" and act.numbers[2] != 0]
        return depths, len(stores), sum(1 for upper, lower in stores if None not in (upper, lower) and upper < lower)

    def weigh(self, leads):
        weight = {s: sum(a.numbers[0] for a in self.log.strands.get(s, []) if a.letter == "k") for s in self.reached}
        best = {}

        def reach(strand):
            if strand not in best:
                after = [reach(following) for following in leads.get(strand, [])]
                best[strand] = weight.get(strand, 0) + max(after, default=0)
            return best[strand]
        return sum(weight.values()), reach((0, 0))

    def finds(self):
        return bool(self.races() or self.entangled_reads or self.entangled_uses or self.stale_uses)

    def status(self):
        return 12 if self.finds() else 14 if self.is_cut else 0


def judge(files):
    """The verdict on the bytes of files, or `Refused`."""
    log = Log()
    for file, data in enumerate(files, 1):
        log.add_file(data, file)
    reached = attached(log)
    log.check_tasks(reached)
    return Verdict(log, reached)


def main():
    try:
        verdict = judge([open(name, "rb").read() for name in sys.argv[1:]])
    except Refused as refused:
        print("end: log refused", *refused.args)
        return 11
    for (block, offset), (act, rivals) in sorted(verdict.races().items()):
        print("race", block, f"{offset}:", "lines", sorted(rivals), "and", act.at)
    print("work", verdict.work, "span", verdict.span)
    return verdict.status()


if __name__ == "__main__":
    sys.exit(main())
