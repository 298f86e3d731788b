#!/usr/bin/env python3
"""Two programs of p3l side by side, as from before and after a change, on bench/bodies.

    bench/two_programs.py OLD NEW [--part N] [--instructions]

A row has the processor time of both, the least of fifteen runs in turn, and their ratio. Both must
be made in the same way. Slow programs, as one of `rt try` with its tests, are given a part in N of
the work. With --instructions it has the number of instructions, and a sixtieth of the work unless N
is given.
"""

import argparse
import pathlib
import sys
import tempfile

import measure

BODIES = pathlib.Path(__file__).resolve().parent / "bodies"


def inputs(part):
    """The bodies with their items, a part in N of the whole."""
    return {"nested": [60_000 // part], "short": range(600_000 // part)}


def main():
    words = argparse.ArgumentParser(description=__doc__.split("\n")[0])
    words.add_argument("old")
    words.add_argument("new")
    words.add_argument("--part", type=int)
    words.add_argument("--instructions", action="store_true")
    given = words.parse_args()
    part = given.part or (60 if given.instructions else 1)
    print(measure.load())
    with tempfile.TemporaryDirectory() as folder:
        for body, items in inputs(part).items():
            stream = pathlib.Path(folder) / body
            stream.write_text("".join(f"{item}\n" for item in items))
            commands = [[it, "run", str(BODIES / f"{body}.p3l"), "--processors", "4"] for it in (given.old, given.new)]
            if given.instructions:
                old, new = (measure.instructions(command, stream) for command in commands)
                print(f"{body}: {old:,} and {new:,} instructions, ratio {new / old:.4f}", flush=True)
            else:
                old, new = measure.least(commands, stream, 15)
                print(f"{body}: {old:.3f} s and {new:.3f} s, ratio {new / old:.3f}", flush=True)


if __name__ == "__main__":
    sys.exit(main())
