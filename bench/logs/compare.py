#!/usr/bin/env python3
"""compare.py PROGRAM.. [--logs N] [--seed S] [--heaps]    compares checkers of logs with brute force, on N random logs (20,000).

Each PROGRAM is called as `PROGRAM check [--all] FILE..`: bench/logs/peer.rs built, or hhlog. Its status must be that of the
definition. With --all each racing location stands on a line, with its first access that races and one that it races with.
Without, the merged lines count the same locations. Refusals must name the same line or task. Work, span and the numbers of
entangled and stale uses must agree. With --heaps each log is also checked with that option, whose lines must be those of the
definition (the peer doesn't have it). What differs is printed with the seed of its log; the status is then 1.
"""
import argparse
import random
import re
import subprocess
import sys
import tempfile

import brute
import random_logs

RACE = re.compile(r"race (\d+) (\d+): (.*) line (\d+):(\d+), (.*) line (\d+):(\d+)\Z")
MERGED = re.compile(r"race (\d+) (\d+) (\d+): .*, .*; locations (\d+)\Z")
WORK = re.compile(r"work (\d+) span (\d+) parallelism ")
END = re.compile(r"end: races (\d+) reads (\d+) uses (\d+) stale (\d+)(?: cut (\d+))?\Z")
HEAP_DEPTH = re.compile(r"heaps depth (\d+) blocks (\d+) words (\d+) own (\d+)\Z")
HEAP_STORES = re.compile(r"heaps stores (\d+) down (\d+)\Z")
REFUSED = re.compile(r"end: log refused (?:line (\d+):(\d+)|task (\d+)) ([a-z-]+)\Z")
# hhlog names the file and says the cause in words, and a task's fault with the last line of the strand at fault.
REFUSED_LINE = re.compile(r"end: log refused \S*log\.(\d+) line (\d+): (?!task \d)(.*)\Z")
REFUSED_TASK = re.compile(r"end: log refused(?: \S+ line \d+)?: task (\d+) (.*)\Z")
CAUSES = {
    "bad word": "word", "bad number": "number", "wrong count of words": "count", "over a limit": "limit",
    "runs overlap": "overlap", "unknown version": "version", "no version": "version", "after the end": "after-end",
    "no strand is open": "closed", "strand has ended": "ended", "task spawned twice": "spawned-twice",
    "block born twice": "born-twice", "block released twice": "released-twice",
    "joins no open child of its own": "joins-no-child", "has no end": "unended",
    "leaves children unjoined": "unjoined", "is spawned by no task that the root leads to": "unreached",
    "goes on after its end": "unreached",
}
# For a line with several faults any of these may be reported.
FORM = ("number", "word", "count", "limit", "overlap")


class Differs(Exception):
    pass


def expect(what, is_, should):
    if is_ != should:
        raise Differs(f"{what} is {is_}, not {should}")


def call(program, names, *options):
    done = subprocess.run([program, "check", *options, *names], capture_output=True, check=False)
    return done.returncode, (done.stdout or done.stderr).decode().splitlines()


def read_refusal(line):
    """The task, or the file and the line in it, that a refusal names, and its cause."""
    found = REFUSED.match(line)
    if found:
        file, number, task, cause = found.groups()
        return int(task) if task else (int(file), int(number)), cause
    found = REFUSED_TASK.match(line)
    if found:
        return int(found[1]), CAUSES[found[2]]
    file, number, cause = REFUSED_LINE.match(line).groups()
    if cause == "no version" and number != "1":
        return (int(file) + 1, int(number)), "word"
    return (int(file) + 1, int(number)), CAUSES[cause]


def check_refusal(refused, status, lines):
    expect("the status", status, 11)
    where, cause = read_refusal(lines[-1])
    expect("the refusal", where, refused.args[0])
    if cause not in FORM or refused.args[1] not in FORM:
        expect("the cause", cause, refused.args[1])


def side_of(act, names):
    """What a line of the report says of an access: its kind, and its site."""
    kind = brute.KINDS[act.letter]
    return kind if act.site is None else f"{kind} {names.get(act.site, f'@{act.site}')}"


def check_all(verdict, names, lines):
    """The lines of --all, against each location's races."""
    races = verdict.races()
    told = {}
    for line in lines:
        found = RACE.match(line)
        if found:
            block, offset, earlier, file, row, later, later_file, later_row = found.groups()
            place = (int(block), int(offset))
            if place in told:
                raise Differs(f"location {place} is told twice")
            told[place] = (earlier, (int(file), int(row)), later, (int(later_file), int(later_row)))
    expect("the racing locations", sorted(told), sorted(races))
    for place, (earlier, at, later, later_at) in told.items():
        act, rivals = races[place]
        expect(f"the later access of {place}", later_at, act.at)
        expect(f"its kind and site at {place}", later, side_of(act, names))
        if at not in rivals:
            raise Differs(f"line {at} doesn't race with {later_at} at {place}")
        expect(f"the earlier kind and site at {place}", earlier, side_of(rivals[at], names))
    return told


def learn_names(files):
    """The names of sites in a log: the first one of each site."""
    names = {}
    for data in files:
        for line in data.split(b"\0")[0].decode("latin-1").split("\n")[:-1]:
            words = line.split(" ", 2)
            if words[0] == "@" and len(words) == 3:
                names.setdefault(int(words[1]), words[2])
    return names


def check_merged(told, lines):
    """The merged lines count the locations of --all by block and pair of kinds and sites."""
    should, is_ = {}, {}
    for (block, offset), (earlier, _, later, _) in told.items():
        first, number = should.get((block, earlier, later), (offset, 0))
        should[block, earlier, later] = (min(first, offset), number + 1)
    for line in lines:
        found = MERGED.match(line)
        if found:
            block, offset, _, number = map(int, found.groups())
            sides = tuple(re.sub(r" line \d+:\d+\Z", "", side) for side in line.split(": ", 1)[1].split("; ")[0].split(", "))
            if (block, *sides) in is_:
                raise Differs(f"a pair is told twice: {line}")
            is_[block, *sides] = (offset, number)
    expect("the merged lines", is_, should)


def check_end(verdict, lines):
    work, span = map(int, WORK.match(lines[-2]).groups())
    expect("work and span", (work, span), (verdict.work, verdict.span))
    races, reads, uses, stale, left_out = END.match(lines[-1]).groups()
    is_ = tuple(map(int, (races, reads, uses, stale)))
    should = (len(verdict.races()), len(verdict.entangled_reads), len(verdict.entangled_uses), len(verdict.stale_uses))
    expect("the end line", is_, should)
    expect("what is left out", left_out, str(verdict.left_out) if verdict.is_cut else None)


def check_heaps(verdict, lines, without):
    """The lines of --heaps: those without it, and between the last two those on heaps."""
    end = next(at for at, line in enumerate(lines) if HEAP_STORES.match(line))
    start = next(at for at, line in enumerate(lines) if line.startswith("heaps "))
    expect("the other lines", lines[:start] + lines[end + 1:], without)
    expect("the place of the lines on heaps", end, len(lines) - 2)
    depths, stores, down = verdict.heaps()
    expect("the depths", [HEAP_DEPTH.match(line).groups() for line in lines[start:end]],
           [tuple(map(str, (depth, *depths[depth]))) for depth in sorted(depths)])
    expect("the stores", HEAP_STORES.match(lines[end]).groups(), (str(stores), str(down)))


def check(program, files, verdict, refused, folder, heaps):
    site_names = learn_names(files)
    names = []
    for at, data in enumerate(files):
        names.append(f"{folder}/log.{at}")
        with open(names[-1], "wb") as out:
            out.write(data)
    for options in ([], ["--all"]):
        status, lines = call(program, names, *options)
        if refused:
            check_refusal(refused, status, lines)
            continue
        expect("the status", status, verdict.status())
        check_end(verdict, lines)
        if options:
            check_merged(check_all(verdict, site_names, lines), merged)
        else:
            plain = lines
        merged = lines
    if heaps:
        status, lines = call(program, names, "--heaps")
        if refused:
            check_refusal(refused, status, lines)
        else:
            expect("the status with heaps", status, verdict.status())
            check_heaps(verdict, lines, plain)


def without_releases(data):
    return b"\n".join(line for line in data.split(b"\n") if not line.startswith(b"f "))


def main():
    words = argparse.ArgumentParser()
    words.add_argument("programs", nargs="+")
    words.add_argument("--logs", type=int, default=20000)
    words.add_argument("--seed", type=int, default=0)
    words.add_argument("--heaps", action="store_true")
    words.add_argument("--without-releases", action="store_true")
    words = words.parse_args()
    counts = {"refused": 0, "cut": 0, "with a finding": 0}
    differ = 0
    with tempfile.TemporaryDirectory(dir="/dev/shm" if sys.platform == "linux" else None) as folder:
        for seed in range(words.seed, words.seed + words.logs):
            files = random_logs.random_log(random.Random(seed), words.heaps)
            if words.without_releases:
                files = [without_releases(data) for data in files]
            verdict = refused = None
            try:
                verdict = brute.judge(files)
                counts["cut"] += verdict.is_cut
                counts["with a finding"] += verdict.finds()
            except brute.Refused as cause:
                refused = cause
                counts["refused"] += 1
            for program in words.programs:
                try:
                    check(program, files, verdict, refused, folder, words.heaps)
                except Differs as differs:
                    differ += 1
                    print(f"seed {seed}: {program}: {differs}")
    print(f"{words.logs} logs,", ", ".join(f"{number} {what}" for what, number in counts.items()), f"- {differ} differ")
    return 1 if differ else 0


if __name__ == "__main__":
    sys.exit(main())
