#!/usr/bin/env python3
"""large_logs.py KIND LINES    writes a large log of some LINES lines on standard output.

words    1,000 tasks, each of which accesses single words of a block at random, a tenth of them by writes
nested   a chain of nested forks: each task spawns one child, and joins it at its end
spawns   the root spawns tasks in a row, and joins them at the end
"""
import random
import sys


def words(lines):
    draw = random.Random(1)
    tasks = 1000
    yield "s 0 0"
    for task in range(1, tasks + 1):
        yield f"+ {task}"
    for task in range(1, tasks + 1):
        yield f"s {task} 0"
        for _ in range(lines // tasks):
            kind = "w" if draw.random() < 0.1 else "r"
            yield f"{kind} 1 {8 * draw.randrange(1 << 20)} 8 @{draw.randrange(100)}"
        yield "."
    yield f"s 0 {tasks}"
    for task in range(tasks, 0, -1):
        yield f"- {task}"
    yield "."


def nested(lines):
    depth = lines // 11
    for task in range(depth):
        yield f"s {task} 0"
        yield f"w 1 {8 * task} 8 @1"
        yield "k 1"
        yield f"+ {task + 1}"
        yield f"r 1 {8 * task} 8 @2"
    yield f"s {depth} 0"
    yield "."
    for task in range(depth - 1, -1, -1):
        yield f"s {task} 1"
        yield "k 1"
        yield f"- {task + 1}"
        yield f"w 1 {8 * task} 8 @3"
        yield "k 1"
        yield "."


def spawns(lines):
    tasks = lines // 9
    yield "s 0 0"
    for task in range(1, tasks + 1):
        yield f"+ {task}"
        yield "k 1"
    for task in range(1, tasks + 1):
        yield f"s {task} 0"
        yield f"w 1 {8 * task} 8 @1"
        yield f"r 1 0 8 @2"
        yield "k 1"
        yield "."
    yield f"s 0 {tasks}"
    for task in range(tasks, 0, -1):
        yield f"- {task}"
        yield "k 1"
    yield "."


def main():
    kinds = {"words": words, "nested": nested, "spawns": spawns}
    print("hhlog 1")
    for line in kinds[sys.argv[1]](int(sys.argv[2])):
        print(line)
    print("end")


main()
