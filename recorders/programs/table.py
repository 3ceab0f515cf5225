#!/usr/bin/env python3
"""table.py PROGRAM [NAME..] [--runs N] [--timed N] [--only c|rust]    records the programs beside it, and prints tables.

PROGRAM is called as `PROGRAM check FILE..`. For each program, right and with its race, in N runs (10): whether a race was
reported, by the log and by the thread sanitizers of gcc and clang; and how much slower a run is, and its memory. What isn't
there (clang, its sanitizer's run-time, cargo with Debian's librust-rayon-dev) is left out. Times are those of processors,
user and system together, the least of some runs (3); memory is the greatest resident size. It needs /usr/bin/time.
"""
import argparse
import glob
import os
import re
import resource
import shutil
import subprocess
import sys
import tempfile

HERE = os.path.dirname(os.path.realpath(__file__))
REGISTRY = "/usr/share/cargo/registry"
ARCHER = glob.glob("/usr/lib/llvm-*/lib/libarcher.so")
THREADS = 4
LONGEST = 3      # seconds of processors that a run may take

# How large a program is when its time is taken; when a race is looked for it has the size that it chooses itself.
SIZES = {"merge_sort": 1 << 17, "prefix_sum": 1 << 22, "tree_reduction": 16, "matrix_product": 192, "breadth_first": 400,
         "queens": 10}
USES_OPENMP = {"merge_sort", "tree_reduction", "breadth_first", "queens"}


class Run:
    """The result of a run: its status (None if it took too long), seconds, megabytes, and what it wrote."""

    def __init__(self, words, folder, **environment):
        variables = dict(os.environ, OMP_NUM_THREADS=str(THREADS), RAYON_NUM_THREADS=str(THREADS), OMP_WAIT_POLICY="passive",
                         HHREC="log", HHREC_NO_NAMES="1")
        variables.update(environment)
        output, memory = os.path.join(folder, "output"), os.path.join(folder, "memory")
        words = ["/usr/bin/time", "-q", "-o", memory, "-f", "%M"] + words
        with open(output, "wb") as out:
            process = subprocess.Popen(words, cwd=folder, env=variables, stdout=out, stderr=out, preexec_fn=limit)
            _, status, used = os.wait4(process.pid, 0)
        process.returncode = os.waitstatus_to_exitcode(status)
        self.seconds = used.ru_utime + used.ru_stime
        self.status = None if self.seconds > LONGEST - 1 else process.returncode
        with open(memory) as text:
            self.megabytes = int(text.read()) / 1024
        with open(output, errors="replace") as text:
            self.text = text.read()


def limit():
    resource.setrlimit(resource.RLIMIT_CPU, (LONGEST, LONGEST))


def least(words, timed, folder, **environment):
    best = min((Run(words, folder, **environment) for _ in range(timed)), key=lambda run: run.seconds)
    return None if best.status is None else best


def times(run, plain):
    if run is None:
        return f"over {LONGEST} s"
    return f"{run.seconds / plain.seconds:.0f}×, {run.megabytes:.0f} MB"


class Log:
    """The recorder's logs of a program, checked by PROGRAM."""

    def __init__(self, checker, timed, folder):
        self.checker, self.timed, self.folder = checker, timed, folder

    def record(self, words, **environment):
        for name in self.files():
            os.remove(name)
        return Run(words, self.folder, **environment)

    def files(self):
        return glob.glob(os.path.join(self.folder, "log.*"))

    def check(self):
        return Run([self.checker, "check"] + sorted(self.files()), self.folder)

    def megabytes(self):
        return sum(os.path.getsize(name) for name in self.files()) / 1e6

    def found(self, words, runs, **environment):
        """The number of runs with a race in the log."""
        number = 0
        for _ in range(runs):
            self.record(words, **environment)
            number += self.check().status == 12
        return number

    def costs(self, words, plain):
        """How much slower a run is, the log's size, and the time to check it."""
        best = min((self.record(words) for _ in range(self.timed)), key=lambda run: run.seconds)
        check = self.check()
        if check.status != 0:
            return f"status {check.status}: {check.text}"
        return f"{times(best, plain)} | {self.megabytes():.1f} MB | {check.seconds:.2f} s, {check.megabytes:.0f} MB"


def build(words):
    done = subprocess.run(words, capture_output=True, text=True, check=False)
    if done.returncode != 0:
        raise SystemExit(f"{' '.join(words)}: {done.stderr}")


class Sanitizer:
    """A compiler's thread sanitizer."""

    def __init__(self, compiler, name, folder):
        self.compiler, self.name, self.folder = compiler, name, folder
        self.flags = ["-fopenmp"] if name in USES_OPENMP else ["-pthread"]
        self.options = {}
        if "clang" in compiler and name in USES_OPENMP and ARCHER:
            self.options = {"OMP_TOOL_LIBRARIES": ARCHER[-1], "TSAN_OPTIONS": "ignore_noninstrumented_modules=1 "}

    def build(self, *options):
        source = os.path.join(HERE, "c", self.name + ".c")
        program = os.path.join(self.folder, "sanitized")
        build([self.compiler, "-O1", "-g", *self.flags, *options, source, "-o", program])
        return [program]

    def reports(self, words):
        run = Run(words, self.folder, **self.options)
        number = len(re.findall("WARNING: ThreadSanitizer", run.text))
        return number, f"over {number}" if run.status is None else str(number)

    def row(self, plain, runs, timed):
        """False reports of a right run; in how many runs the race was found; the costs, with reports turned off."""
        words = self.build("-fsanitize=thread")
        options = dict(self.options, TSAN_OPTIONS=self.options.get("TSAN_OPTIONS", "") + "report_bugs=0")
        costs = times(least(words + [str(SIZES[self.name])], timed, self.folder, **options), plain)
        number, false = self.reports(words)
        if number > 0:
            return f"– | {false} | {costs}"
        words = self.build("-fsanitize=thread", "-DRACE")
        found = sum(self.reports(words)[0] > 0 for _ in range(runs))
        return f"{found} | {false} | {costs}"


def c_rows(log, names, runs, compilers):
    """A row of each C program for the recorder, and one for each sanitizer."""
    hhcc = os.path.join(HERE, "..", "c", "hhcc")
    recorded, racing, plain_program = (os.path.join(log.folder, name) for name in ("recorded", "racing", "plain"))
    print("| program | plain | recorded | log | check | false | race in log, 4 threads | 1 thread |")
    print("|---|---|---|---|---|---|---|---|")
    sanitized = []
    for name in names:
        source = os.path.join(HERE, "c", name + ".c")
        build(["gcc", "-O1", "-g", "-fopenmp", source, "-o", plain_program])
        build([hhcc, "-fopenmp", source, "-o", recorded])
        build([hhcc, "-fopenmp", "-DRACE", source, "-o", racing])
        size = [str(SIZES[name])]
        plain = least([plain_program] + size, log.timed, log.folder)
        costs = log.costs([recorded] + size, plain)
        false = log.found([recorded], runs)
        found = log.found([racing], runs)
        alone = log.found([racing], runs, OMP_NUM_THREADS="1") if name in USES_OPENMP else "–"
        print(f"| {name} | {plain.seconds:.2f} s, {plain.megabytes:.0f} MB | {costs} | {false} | {found} | {alone} |", flush=True)
        rows = [Sanitizer(compiler, name, log.folder).row(plain, runs, log.timed) for compiler in compilers]
        sanitized.append(f"| {name} | {' | '.join(rows)} |")
        print(sanitized[-1], file=sys.stderr, flush=True)
    if not compilers:
        return
    print("\n|  |" + "".join(f" {compiler}: found | false | slower, memory |" for compiler in compilers))
    print("|---|" + "---|---|---|" * len(compilers))
    print("\n".join(sanitized), flush=True)


def cargo(folder, target, flags):
    """Builds the Rust programs in a copy, since cargo writes beside its manifests."""
    words = ["cargo", "--quiet", "--config", "source.crates-io.replace-with='debian'", "--config",
             f"source.debian.directory='{REGISTRY}'", "build", "--offline", "--release", "--features", "rayon",
             "--manifest-path", os.path.join(folder, "programs/rust/Cargo.toml"), "--target-dir", os.path.join(folder, target)]
    done = subprocess.run(words, env=dict(os.environ, RUSTFLAGS=flags), capture_output=True, text=True, check=False)
    if done.returncode != 0:
        raise SystemExit(done.stderr)
    return os.path.join(folder, target, "release/programs")


def rust_rows(log, names, runs):
    crates = os.path.join(log.folder, "crates")
    shutil.copytree(os.path.join(HERE, "..", "rust"), os.path.join(crates, "rust"))
    shutil.copytree(os.path.join(HERE, "rust"), os.path.join(crates, "programs/rust"))
    plain_program = cargo(crates, "off", "--cfg hhrec_off")
    recorded = cargo(crates, "on", "")
    print("\n| program | plain | recorded | log | check | false | race in log, 4 threads | 1 thread |")
    print("|---|---|---|---|---|---|---|---|")
    for name in names:
        size = [name, str(SIZES[name])]
        plain = least([plain_program] + size, log.timed, log.folder)
        costs = log.costs([recorded] + size, plain)
        false = log.found([recorded, name], runs)
        found = log.found([recorded, name, "race"], runs)
        alone = log.found([recorded, name, "race"], runs, RAYON_NUM_THREADS="1")
        print(f"| {name} | {plain.seconds:.2f} s, {plain.megabytes:.0f} MB | {costs} | {false} | {found} | {alone} |", flush=True)


def compilers_there(folder):
    """The compilers whose thread sanitizer links and runs."""
    there = []
    for compiler in ["gcc", "clang-14" if shutil.which("clang-14") else "clang"]:
        source = os.path.join(folder, "empty.c")
        with open(source, "w") as out:
            out.write("int main(void) { return 0; }\n")
        words = [compiler, "-fsanitize=thread", source, "-o", os.path.join(folder, "empty")]
        if shutil.which(compiler) and subprocess.run(words, capture_output=True, check=False).returncode == 0:
            there.append(compiler)
        else:
            print(f"left out: {compiler}'s thread sanitizer, which isn't there", file=sys.stderr)
    return there


def main():
    words = argparse.ArgumentParser()
    words.add_argument("program")
    words.add_argument("names", nargs="*")
    words.add_argument("--runs", type=int, default=10)
    words.add_argument("--timed", type=int, default=3)
    words.add_argument("--only", choices=["c", "rust"])
    words = words.parse_args()
    names = words.names or list(SIZES)
    with tempfile.TemporaryDirectory() as folder:
        log = Log(os.path.realpath(words.program), words.timed, folder)
        if words.only != "rust":
            c_rows(log, names, words.runs, compilers_there(folder))
        if words.only == "c":
            return
        if shutil.which("cargo") and glob.glob(REGISTRY + "/rayon-[0-9]*"):
            rust_rows(log, names, words.runs)
        else:
            print("left out: the Rust programs, for which cargo or librust-rayon-dev isn't there", file=sys.stderr)


if __name__ == "__main__":
    main()
