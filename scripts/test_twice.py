#!/usr/bin/env python3
"""Tests scripts/twice.py: a tree of two crates has one example of each kind that it lists, and a near miss beside it.

    scripts/test_twice.py            writes nothing and ends with 0 if each list is as it should be
"""

import os
import subprocess
import sys
import tempfile

SCRIPT = os.path.join(os.path.dirname(os.path.abspath(__file__)), "twice.py")
LEMMA = """use Rattle.std.proofs.Common.{◌≡◌, ℕ, ◌+◌}

pub first : (a b : ℕ) → a + b ≡ b + a
first a b = omega arith

pub own : (a : ℕ) → a + 0 ≡ a
own a = refl
"""
RENAMED = """use Rattle.std.proofs.Common.{◌≡◌, ℕ, ◌+◌}

pub second : (x y : ℕ) → x + y ≡ y + x
second x y = omega arith

pub other : (a : ℕ) → a + 1 ≡ 1 + a
other a = refl
"""
ANSWERS = """use Rattle.std.proofs.Common.{◌≡◌, ℕ, ◌+◌}
use Rattle.%s.proofs.call.Goals as goal

helper : (a : ℕ) → a + 2 ≡ 2 + a
helper a = refl

pub returns : goal.returns
returns c = helper 1
"""
DEFINITIONS = """use Rattle.std.specs.Prelude.{ℕ, ◌*◌}

-- twice a number
abbrev pub %s : ℕ → ℕ
%s n = n * 2
"""
FUNCTIONS = """// Functions.

fn %s(a: u32, b: u32) -> u32 {
    let sum = a + b;
    let more = sum * 3;
    let less = more - 2;
    less %% 7
}

fn %s(a: u32) -> u32 {
    let one = a;
    let two = one %s;
    let three = two;
    three
}
"""
TREE = {
    "a/proofs/Sums.antt": LEMMA,
    "b/proofs/Sums.antt": RENAMED,
    "a/proofs/call/Answers.antt": ANSWERS % "a",
    "b/proofs/call/Answers.antt": ANSWERS % "b",
    "a/specs/Twice.antt": DEFINITIONS % ("twice", "twice"),
    "b/specs/Twice.antt": DEFINITIONS % ("double", "double"),
    "a/src/lib.rt": FUNCTIONS % ("mixed", "plain", "+ 1"),
    "b/src/lib.rt": FUNCTIONS % ("blended", "plain", "+ 2"),
    "a/src/again.rt": FUNCTIONS % ("stirred", "shaken", "+ 3"),
}
# Of each list what stands in it, in any order, and what doesn't.
WANTED = {
    "lemmas": (["first b/proofs/Sums.antt", "helper b/proofs/call/Answers.antt"], ["own", "other", "returns"]),
    "definitions": (["a/specs/Twice.antt:4:twice b/specs/Twice.antt:4:double"], []),
    "functions": (["a/src/again.rt:3:stirred a/src/lib.rt:3:mixed b/src/lib.rt:3:blended"], ["plain", "shaken"]),
    "lines": (["6 a/src/lib.rt:4 b/src/lib.rt:4", "1 pairs of places"], []),
}


def listed(folder, what):
    ran = subprocess.run([sys.executable, SCRIPT, what], cwd=folder, capture_output=True, text=True, check=True)
    return ran.stdout


def main():
    wrong = 0
    with tempfile.TemporaryDirectory() as folder:
        for name, text in TREE.items():
            path = f"{folder}/crates/{name}"
            os.makedirs(os.path.dirname(path), exist_ok=True)
            with open(path, "w", encoding="utf-8") as it:
                it.write(text)
        for what, (there, absent) in WANTED.items():
            said = listed(folder, what)
            for text in [it for it in there if it not in said] + [it for it in absent if f":{it}" in said]:
                print(f"twice.py {what}: {text!r} in\n{said}", file=sys.stderr)
                wrong += 1
    return 1 if wrong else 0


if __name__ == "__main__":
    sys.exit(main())
