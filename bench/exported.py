#!/usr/bin/env python3
"""Exported programs beside programs by hand in C, on one processor and on several, and beside mawk.

    bench/exported.py PATH_OF_P3L [--tries N] [--part F] [--rows WORDS] [--picture FILE] [--busy]

  by hand       on one processor, beside a program that reads numbers, calls the same body in C and
                writes numbers (bench/exported/one.c)
  four ranks    the efficiency of four ranks of this machine: the time of one processor, by four
                times the time of four
  MPI           four ranks of MPI beside a farm by hand over MPI (bench/exported/farm_mpi.c), which
                sends 32 items in a message, and beside the same with one. Both times are less that
                of an empty stream, since a launcher takes some tenths of a second to start
  run           `p3l run` of the same program, beside the exported one on one processor
  text          a body of hardly any work, beside mawk that sums the numbers of a line, or copies a
                number; and, without a bound, beside mawk that copies lines and looks at no number

Times are those of a clock, the least of N tries in turn (5 if not given), all to a file. Each row
has its ratio, its bound, and whether that is met; without a bound the ratio is only shown. With
--rows it measures only the rows whose name has these words, and with --part only this part of each
stream. --picture draws the speed-up on 1 to 8 ranks as SVG.

It prints the load that it found, and refuses to measure where that is above 1; with --busy it
measures all the same. A bound that isn't met ends it with 1. Programs are compiled by `cc -O2`.
"""

import argparse
import os
import pathlib
import shutil
import subprocess
import sys
import tempfile
import time

HERE = pathlib.Path(__file__).resolve().parent
sys.path.insert(0, str(HERE.parent / "tools"))

import c_texts
import curves
import measure

PEERS = HERE / "exported"
COMPILER, MPI_COMPILERS = ["cc", "-O2"], ["mpicc.mpich", "mpicc"]
LAUNCHERS = ["mpiexec.hydra", "mpiexec"]
WITHOUT_INPUT = ["sh", "-c", 'exec "$0" "$@" </dev/null']
MOST_LOAD = 1.0
PROCESSORS = "64"
RANKS, MOST_RANKS = 4, 8
BATCH = 32
# The items of which `profile` takes the costs.
SAMPLE = 20
RUN_PART = 0.1
WORDS_OF_LINE = 10
# The rows of a program, by how their names begin.
ONE, FOUR, RUN = "by hand", "four ranks", "run"
MPI = {BATCH: f"MPI, {BATCH} in a message", 1: "MPI, 1 in a message"}

WORK = """seq {name} in(int x) out(int y) budget 100000000
${{
  int i;
  y = x;
  for (i = 0; i < {turns}; i = i + 1) {{ y = y * 6364136223846793005 + 1442695040888963407; }}
}}$
end seq
"""
FARM = "farm main in(int x) out(int y) workers 8\n  work in(x) out(y)\nend farm\n"
PIPE = """pipe main in(int x) out(int y)
  w0 in(x) out(int a)
  w1 in(a) out(int b)
  w2 in(b) out(int c)
  w3 in(c) out(y)
end pipe
"""
MANDELBROT = """seq row in(int r) out(int c[256]) budget 100000000
${
  int k; int x; int y; int a; int b; int t; int n;
  for (k = 0; k < 256; k = k + 1) {
    x = (k - 192) * 256; y = (r - 256) * 128; a = 0; b = 0; n = 0;
    while (n < 1000 && a * a + b * b < 1073741824) {
      t = (a * a - b * b >> 14) + x; b = (2 * a * b >> 14) + y; a = t; n = n + 1;
    }
    c[k] = n;
  }
}$
end seq
farm main in(int r) out(int c[256]) workers 8
  row in(r) out(c)
end farm
"""
MATRIX = """seq block in(int a[8][64], int b[64][64]) out(int c[8][64]) budget 100000000
${
  int i; int j; int k; int s;
  for (i = 0; i < 8; i = i + 1) {
    for (j = 0; j < 64; j = j + 1) {
      s = 0;
      for (k = 0; k < 64; k = k + 1) { s = s + a[i][k] * b[k][j]; }
      c[i][j] = s;
    }
  }
}$
end seq
map main in(int a[8][8][64], int b[64][64]) out(int c[8][8][64]) workers 8
  block in(a[*i][][], b) out(c[*i][][])
end map
"""
COPY = "seq main in(int x) out(int y) ${ y = x; }$ end seq\n"
SUM = """seq main in(int a[10]) out(int s)
${ int i; for (i = 0; i < 10; i = i + 1) { s = s + a[i]; } }$
end seq
"""
COPY_BY_MAWK = "{ print $1 + 0 }"
SUM_BY_MAWK = "{ s = 0; for (i = 1; i <= NF; i++) s += $i; print s }"


class Program:
    """A program, its peer's body with the options of that, its stream, and its bound on four
    ranks, if it has one.
    """

    def __init__(self, name, source, body, options, lines, least_efficiency=None):
        self.name, self.source, self.lines = name, source, lines
        self.peer = [f'-DBODY="{body}.h"', *options]
        self.least_efficiency = least_efficiency


def numbers(count):
    return [f"{number}\n" for number in range(count)]


def matrices(count):
    words = [str((7 * place + place // 64) % 1000 - 500) for place in range(2 * 64 * 64)]
    return [" ".join(words[turn:] + words[:turn]) + "\n" for turn in range(count)]


def farm(turns, name, count, least_efficiency):
    options = [f"-DTURNS={turns}", "-DSTAGES=1"]
    source = WORK.format(name="work", turns=turns) + FARM
    return Program(name, source, "work", options, numbers(count), least_efficiency)


def pipe(turns, name, count, least_efficiency):
    options = [f"-DTURNS={turns}", "-DSTAGES=4"]
    stages = "".join(WORK.format(name=f"w{stage}", turns=turns) for stage in range(4))
    return Program(name, stages + PIPE, "work", options, numbers(count), least_efficiency)


def programs():
    rows = [f"{number * 37 % 512}\n" for number in range(4 * 512)]
    return [
        farm(650, "farm, 1 µs", 1_000_000, None),
        farm(6_500, "farm, 10 µs", 200_000, 0.6),
        farm(65_000, "farm, 100 µs", 20_000, 0.85),
        pipe(6_500, "pipe of four, 10 µs each", 50_000, 0.6),
        Program("Mandelbrot rows", MANDELBROT, "mandelbrot", [], rows, 0.85),
        Program("matrix product", MATRIX, "matrix", [], matrices(400)),
    ]


class Table:
    """The table of what was measured: its rows are printed as they come."""

    def __init__(self):
        self.missed = 0

    def begin(self):
        print("| Row | Time | Peer | Ratio | Bound | Met |\n|---|---|---|---|---|---|", flush=True)

    def row(self, name, own, other, ratio, bound="", is_met=None):
        met = "" if is_met is None else "yes" if is_met else "NO"
        self.missed += is_met is False
        times = f"{own:.3f} s | {other:.3f} s"
        print(f"| {name} | {times} | {ratio:.2f} | {bound} | {met} |", flush=True)

    def at_most(self, name, own, other, bound):
        """A row of the time by the peer's."""
        ratio = own / other
        self.row(name, own, other, ratio, f"≤ {bound}", ratio <= bound)

    def at_least(self, name, own, other, ratio, bound):
        """A row of a ratio that is better if it is greater."""
        met = None if bound is None else ratio >= bound
        self.row(name, own, other, ratio, "" if bound is None else f"≥ {bound}", met)


class Bench:
    def __init__(self, binary, folder, given):
        self.binary, self.folder = binary, pathlib.Path(folder)
        self.tries, self.part, self.words = given.tries, given.part, given.rows
        self.table, self.built = Table(), {}

    def wants(self, *names):
        return any(self.words in name for name in names)

    def file(self, name, text):
        path = self.folder / name
        path.write_text(text)
        return str(path)

    def stream(self, name, lines, part):
        """The name of a file with a part of some lines."""
        return self.file(name, "".join(lines[: max(SAMPLE, round(len(lines) * part))]))

    def compile(self, compiler, source, *options):
        """The name of a compiled text in C; each is compiled once."""
        key = (*compiler, source, *options)
        if key not in self.built:
            self.built[key] = str(self.folder / f"program{len(self.built)}")
            words = [*compiler, *options, "-o", self.built[key], source]
            subprocess.run(words, check=True)
        return self.built[key]

    def costs(self, source, lines):
        """The name of the file of a program's costs, which a sample of its stream shows."""
        sample = "".join(lines[:: max(1, len(lines) // SAMPLE)][:SAMPLE])
        words = [self.binary, "profile", source]
        done = subprocess.run(words, input=sample, capture_output=True, text=True, check=True)
        return self.file("costs.toml", done.stdout)

    def export(self, name, text, lines):
        """The names of a program's source and text in C, and the options of its network."""
        source, made = self.file("program.p3l", text), str(self.folder / "exported.c")
        options = ["--processors", PROCESSORS, "--costs", self.costs(source, lines)]
        status, _, said = c_texts.write(self.binary, source, options, made)
        if status != 0:
            sys.exit(f"exported: {name}: {said.decode().strip()}")
        self.built = {key: it for key, it in self.built.items() if made not in key}
        return source, made, options

    def seconds(self, words, stream):
        """The time of a command on a stream."""
        with open(stream) as given, open(self.folder / "out", "w") as results:
            start = time.monotonic()
            done = subprocess.run(words, stdin=given, stdout=results, stderr=subprocess.PIPE)
            took = time.monotonic() - start
        if done.returncode != 0:
            sys.exit(f"exported: {' '.join(words)}: {done.stderr.decode().strip()}")
        return took

    def least(self, commands, stream):
        """The least time of each of some commands, which are run in turn and write the same."""
        times, texts = [], set()
        for _ in range(self.tries):
            for words in commands:
                times.append(self.seconds(words, stream))
                texts.add((self.folder / "out").read_bytes())
        if len(texts) > 1:
            sys.exit(f"exported: the results of {commands} differ")
        return [min(times[at :: len(commands)]) for at in range(len(commands))]

    def try_one(self, program, one, stream):
        """A program on one processor, beside its peer."""
        name = f"{ONE}: {program.name}"
        if self.wants(name):
            peer = self.compile(COMPILER, str(PEERS / "one.c"), *program.peer)
            self.table.at_most(name, *self.least([[one], [peer]], stream), 1.2)

    def try_four(self, program, one, stream):
        """A program on four ranks, beside itself on one processor."""
        name = f"{FOUR}: {program.name}"
        if self.wants(name):
            single, four = self.least([[one], [one, "--ranks", str(RANKS)]], stream)
            efficiency = single / (RANKS * four)
            self.table.at_least(name, four, single, efficiency, program.least_efficiency)

    def try_mpi(self, program, made, stream):
        """A farm on four ranks of MPI, beside farms by hand."""
        compiler = next(filter(shutil.which, MPI_COMPILERS), None)
        launcher = next(filter(shutil.which, LAUNCHERS), None)
        if compiler is None or launcher is None:
            print("MPI isn't measured: there is no mpicc or no mpiexec", file=sys.stderr)
            return
        names = [f"{kind}: {program.name}" for kind in MPI.values()]
        if not self.wants(*names):
            return
        own = self.compile([compiler, "-O2"], made, "-DP3L_MPI")
        for name, batch, bound in zip(names, MPI, (0.9, 1.0)):
            options = [*program.peer, f"-DBATCH={batch}"]
            peer = self.compile([compiler, "-O2"], str(PEERS / "farm_mpi.c"), *options)
            ours = [own, "--ranks", str(RANKS)]
            theirs = [*WITHOUT_INPUT, launcher, "-n", str(RANKS), peer]
            times = self.least([ours, [*theirs, stream]], stream)
            starts = self.least([ours, [*theirs, os.devnull]], os.devnull)
            mine, other = [max(1e-3, all_ - start) for all_, start in zip(times, starts)]
            self.table.at_least(name, mine, other, other / mine, bound)

    def try_run(self, program, source, options, one):
        """`run` of a program, beside the exported one, on fewer items."""
        name = f"{RUN}: {program.name}"
        if self.wants(name):
            stream = self.stream("few", program.lines, self.part * RUN_PART)
            run = [self.binary, "run", source, *options]
            own, other = self.least([[one], run], stream)
            self.table.row(name, own, other, own / other)

    def try_program(self, program):
        """All rows of a program, if any of them is wanted."""
        if not self.wants(*(f"{kind}: {program.name}" for kind in (ONE, FOUR, RUN, *MPI.values()))):
            return
        source, made, options = self.export(program.name, program.source, program.lines)
        stream = self.stream("items", program.lines, self.part)
        one = self.compile(COMPILER, made)
        self.try_one(program, one, stream)
        self.try_four(program, one, stream)
        if "farm" in program.source:
            self.try_mpi(program, made, stream)
        self.try_run(program, source, options, one)

    def try_text(self, what, source, mawk, lines, bound=1.0):
        """Numbers that are read and written, beside mawk."""
        name = f"text: {what}"
        if not self.wants(name):
            return
        _, made, _ = self.export(what, source, lines)
        stream = self.stream("items", lines, self.part)
        own, other = self.least([[self.compile(COMPILER, made)], ["mawk", mawk]], stream)
        if bound is None:
            self.table.row(name, own, other, own / other)
        else:
            self.table.at_most(name, own, other, bound)

    def try_texts(self):
        words = [str(number * 7919 % 1_000_003) for number in range(500_000)]
        lists = [" ".join([word] * WORDS_OF_LINE) + "\n" for word in words]
        copied = numbers(2_000_000)
        self.try_text("copy a number, mawk adds 0", COPY, COPY_BY_MAWK, copied)
        self.try_text("copy a number, mawk copies its line", COPY, "{ print }", copied, None)
        self.try_text("sum of ten numbers", SUM, SUM_BY_MAWK, lists)

    def speed_ups(self, program):
        """How much faster a program is on each number of ranks."""
        _, made, _ = self.export(program.name, program.source, program.lines)
        stream = self.stream("items", program.lines, self.part)
        one = self.compile(COMPILER, made)
        commands = [[one, "--ranks", str(ranks)] for ranks in range(1, MOST_RANKS + 1)]
        times = self.least(commands, stream)
        return [times[0] / it for it in times]


def main():
    words = argparse.ArgumentParser(
        description=__doc__, formatter_class=argparse.RawDescriptionHelpFormatter
    )
    words.add_argument("binary", type=os.path.abspath)
    words.add_argument("--tries", type=int, default=5)
    words.add_argument("--part", type=float, default=1.0, help="the part of each stream")
    words.add_argument("--rows", default="", help="only the rows whose name has these words")
    words.add_argument("--picture", type=pathlib.Path, help="draw the speed-up to this file")
    words.add_argument("--busy", action="store_true", help="measure on a busy machine too")
    given = words.parse_args()
    print(measure.load())
    if os.getloadavg()[0] > MOST_LOAD and not given.busy:
        sys.exit(f"the load is above {MOST_LOAD}: wait until the machine is quiet, or say --busy")
    with tempfile.TemporaryDirectory() as folder:
        bench = Bench(given.binary, folder, given)
        bench.table.begin()
        for program in programs():
            bench.try_program(program)
        bench.try_texts()
        if given.picture:
            found = {program.name: bench.speed_ups(program) for program in programs()}
            given.picture.write_text(curves.picture(found, "ranks", "times as fast as one"))
    return 1 if bench.table.missed else 0


if __name__ == "__main__":
    sys.exit(main())
