#!/usr/bin/env python3
"""`p3l time` and `p3l profile` beside `p3l run` of the same program on the same items.

    bench/beside_run.py PATH [--firings N] [--instructions]

`time` runs networks of 12 to 512 processes for N firings each (1,000,000 if not given), and
`profile` the two bodies of bench/bodies. A row has the processor time of both for a firing or an
item, the least of five runs in turn, without the time of a run without items; and the ratio. With
--instructions it has the number of instructions, for 100,000 firings and a sixtieth of the items.
As `--processors` is at most 512, no program gives `time` a larger network.
"""

import argparse
import pathlib
import sys
import tempfile

import measure
from firings import BODY, farm, pipe
from two_programs import BODIES, inputs


def pipe_of_farms(count, workers):
    names = ["x", *(f"v{stage}" for stage in range(1, count)), "y"]
    calls = [f"  f in({was}) out({'' if name == 'y' else 'int '}{name})" for was, name in zip(names, names[1:])]
    one = f"farm f in(int x) out(int y) workers {workers}\n  more in(x) out(y)\nend farm\n"
    return BODY + one + "pipe main in(int x) out(int y)\n" + "\n".join(calls) + "\nend pipe\n"


# The name of a network, its program, and its firings for one item.
NETWORKS = [
    ("12 processes, a pipe of 10", pipe(10), 12),
    ("102 processes, a pipe of 100", pipe(100), 102),
    ("498 processes, a pipe of 62 farms of 6", pipe_of_farms(62, 6), 188),
    ("512 processes, a farm of 508", farm(508), 5),
]


class Bench:
    def __init__(self, program, folder, counts):
        self.program, self.folder, self.counts = program, pathlib.Path(folder), counts

    def write(self, name, text):
        (self.folder / name).write_text(text)
        return str(self.folder / name)

    def costs(self, commands, stream):
        return [measure.instructions(words, stream) for words in commands] if self.counts else measure.least(commands, stream)

    def compare(self, name, command, run, items, each):
        """Prints what a command costs for each of a number of firings or items, beside `run`."""
        pair = [[self.program, *words] for words in (command, run)]
        start = self.costs(pair, self.write("none", ""))
        whole = self.costs(pair, self.write("items", "".join(f"{item}\n" for item in items)))
        per = [(all_of_it - begun) / each for all_of_it, begun in zip(whole, start)]
        amounts = (f"{cost:,.0f} instructions" if self.counts else f"{1e9 * cost:,.0f} ns" for cost in per)
        print(f"{name}: {command[0]} {', run '.join(amounts)}, ratio {per[0] / per[1]:.2f}", flush=True)


def main():
    words = argparse.ArgumentParser(description=__doc__.split("\n")[0])
    words.add_argument("program", type=lambda path: str(pathlib.Path(path).resolve()))
    words.add_argument("--firings", type=int)
    words.add_argument("--instructions", action="store_true")
    given = words.parse_args()
    firings = given.firings or (100_000 if given.instructions else 1_000_000)
    print(measure.load())
    with tempfile.TemporaryDirectory() as folder:
        bench = Bench(given.program, folder, given.instructions)
        for name, text, each in NETWORKS:
            options = [bench.write("network.p3l", text), "--processors", "512"]
            items = range(firings // each)
            bench.compare(f"a firing, {name}", ["time", *options], ["run", *options], items, each * len(items))
        for body, items in inputs(60 if given.instructions else 1).items():
            source = str(BODIES / f"{body}.p3l")
            bench.compare(f"an item, body {body}", ["profile", source], ["run", source, "--processors", "4"], items, len(items))
    return 0


if __name__ == "__main__":
    sys.exit(main())
