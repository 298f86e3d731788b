#!/usr/bin/env python3
"""Each cost that the program is meant to keep, as a ratio to that of a peer which does the same, both in turn in one run.

    bench/speed.py PATH_OF_P3L [--tries N] [--rows WORDS] [--busy]

  a firing          `run` of pipes of 10 and 100 runs and of farms of 8, 64 and 508 workers, channels of 4 and of 64 tokens, beside
                    the same networks in C (bench/machine.c), once with 64 KiB of results gathered as p3l gathers them, which
                    the bound is for, and once with a write a value as results are put. The start, which chooses the counts, is
                    included: it is some hundredths where a pipe fires ten million times
  bodies            a nested loop, and a million items through three statements (bench/bodies), beside Lua 5.4, and beside the
                    form of a body that is verified and written to images: `profile` runs that on a stack, without a network
  lines             a million lines through one body and through a pipe of four, to a file, beside mawk; the pipe beside one with
                    as many sums a word, and beside one with one
  memory            the most that a million lines take, beside a hundred thousand

Times are the processor time, user's and system's, the least of N tries (5 if not given). It prints the load that it found, and
refuses to measure where that is above 1, since other work in the caches moves each ratio otherwise; with --busy it measures
all the same, and says so. A ratio above its bound is marked; the script then ends with 1. With --rows it measures only the rows
whose name has these words, to try some again. On a host that others use, a quiet machine isn't enough: more tries help.
"""

import argparse
import os
import pathlib
import subprocess
import sys
import tempfile

import measure
from firings import BODY, NETS, farm, pipe

HERE = pathlib.Path(__file__).resolve().parent
MOST_LOAD = 1.0
ITEMS = 1_000_000
# More than a pipe holds, so that the program has begun when its memory is looked at.
FEW_ITEMS = 100_000
STAGES = 'more in(x) out(int a)', 'more in(a) out(int b)', 'more in(b) out(int c)', 'more in(c) out(y)'
PIPE_OF_FOUR = BODY + "pipe main in(int x) out(int y)\n" + "\n".join(STAGES) + "\nend pipe\n"
ONE_BODY = BODY.replace("more", "main")
MAWK = [["mawk", "{ for (i = 1; i <= NF; i++) { x = $i; " + "x = x * 3 + 1; " * bodies + "$i = x }; print }"] for bodies in (1, 4)]


class Bench:
    def __init__(self, program, folder, tries, rows):
        self.program, self.folder, self.tries, self.rows, self.over = program, pathlib.Path(folder), tries, rows, 0

    def file(self, name, text):
        path = self.folder / name
        path.write_text(text)
        return str(path)

    def numbers(self, count):
        path = self.folder / f"numbers{count}"
        if not path.exists():
            path.write_text("".join(f"{number}\n" for number in range(1, count + 1)))
        return str(path)

    def built(self, source):
        to = str(self.folder / pathlib.Path(source).stem)
        subprocess.run(["cc", "-O2", "-o", to, str(HERE / source)], check=True)
        return to

    def run(self, source, *more):
        return [self.program, "run", source, *more]

    def row(self, name, ours, peers, stream, bound, unit=1.0, of="s"):
        """One line: what ours takes, and by each peer; the bound is for the first of them."""
        if self.rows not in name:
            return
        own, *others = measure.least([ours, *peers], stream, self.tries, str(self.folder / "out"))
        ratios = [own / other for other in others]
        mark = "" if ratios[0] <= bound else "  ABOVE"
        self.over += bool(mark)
        costs = ", ".join(f"{other * unit:.3g}" for other in others)
        print(f"{name}: {own * unit:.3g} {of}, peer {costs}; ratio {', '.join(f'{it:.2f}' for it in ratios)}, bound {bound}{mark}", flush=True)

    def firings(self, count):
        machine = self.built("machine.c")
        for kind, size, each in NETS:
            source = self.file("net.p3l", pipe(size) if kind == "pipe" else farm(size))
            fired = count if kind == "pipe" else count // 5
            items = self.numbers(fired // each)
            for capacity in (4, 64):
                ours = self.run(source, "--processors", "512", "--capacity", str(capacity))
                peers = [[machine, kind, str(size), str(capacity), how] for how in ("gathered", "each")]
                self.row(f"a firing, {kind} of {size}, capacity {capacity}", ours, peers, items, 1.3, 1e9 / fired, "ns")

    def bodies(self):
        for body, bound, items in (("nested", 0.6, self.file("turns", "150000\n")), ("short", 0.5, self.numbers(ITEMS))):
            source = str(HERE / f"bodies/{body}.p3l")
            ours = self.run(source, "--processors", "4")
            peers = [["lua5.4", str(HERE / f"bodies/{body}.lua")], [self.program, "profile", source]]
            self.row(f"body {body}, Lua and the stack", ours, peers, items, bound)

    def lines(self):
        one, four = MAWK
        for name, text, mawk, bound in (("one body", ONE_BODY, [one], 1.0), ("a pipe of four", PIPE_OF_FOUR, [four, one], 1.5)):
            ours = self.run(self.file("lines.p3l", text), "--processors", "32")
            self.row(f"a million lines, {name}, mawk", ours, mawk, self.numbers(ITEMS), bound)

    def memory(self):
        if self.rows not in "memory":
            return
        ours = self.run(self.file("lines.p3l", PIPE_OF_FOUR), "--processors", "32")
        few, many = (measure.memory(ours, self.numbers(count)) for count in (FEW_ITEMS, ITEMS))
        mark = "" if many <= few * 1.1 else "  ABOVE"
        self.over += bool(mark)
        print(f"memory, a pipe of four: {many} KB at {ITEMS} lines, {few} KB at {FEW_ITEMS}; ratio {many / few:.2f}, bound 1.1{mark}")


def main():
    words = argparse.ArgumentParser()
    words.add_argument("program")
    words.add_argument("--tries", type=int, default=5)
    words.add_argument("--firings", type=int, default=10_000_000, help="of a pipe; a farm fires a fifth of that")
    words.add_argument("--rows", default="", help="only the rows whose name has these words")
    words.add_argument("--busy", action="store_true")
    given = words.parse_args()
    load = os.getloadavg()[0]
    print(measure.load() + (", which is too much to trust a ratio" if load > MOST_LOAD else ""))
    if load > MOST_LOAD and not given.busy:
        sys.exit(f"the load is above {MOST_LOAD}: wait until the machine is quiet, or say --busy")
    with tempfile.TemporaryDirectory() as folder:
        bench = Bench(os.path.abspath(given.program), folder, given.tries, given.rows)
        bench.firings(given.firings)
        bench.bodies()
        bench.lines()
        bench.memory()
    sys.exit(1 if bench.over else 0)


if __name__ == "__main__":
    main()
