#!/usr/bin/env python3
"""Firings a second of `p3l run` beside the same networks in C (bench/machine.c).

    bench/firings.py PATH_OF_P3L [FIRINGS]

The networks are pipes of 10 and 100 runs and farms of 8, 64 and 508. Each gets as many items as
make about FIRINGS firings (5,000,000 if not given). Both read the same numbers from a file, gather
their results and write them to /dev/null. Times are those of the whole program, start and stream
included, and the numbers of firings must be the same. `bench/speed.py` compares the same networks
with bounds.
"""

import os
import re
import subprocess
import sys
import tempfile
import time

BODY = "seq more in(int x) out(int y)\n${ y = x * 3 + 1; }$\nend seq\n"


def pipe(n):
    calls = [f"  more in({'x' if s == 0 else f'v{s}'}) out({'y' if s + 1 == n else f'int v{s + 1}'})" for s in range(n)]
    return BODY + "pipe main in(int x) out(int y)\n" + "\n".join(calls) + "\nend pipe\n"


def farm(n):
    return BODY + f"farm main in(int x) out(int y) workers {n}\n  more in(x) out(y)\nend farm\n"


NETS = [("pipe", 10, 12), ("pipe", 100, 102), ("farm", 8, 5), ("farm", 64, 5), ("farm", 508, 5)]


def timed(words, source):
    began = time.monotonic()
    with open(source) as stream:
        done = subprocess.run(words, stdin=stream, stdout=subprocess.DEVNULL, stderr=subprocess.PIPE, text=True, check=True)
    return time.monotonic() - began, int(re.search(r"fired (\d+)", done.stderr)[1])


def main():
    program, firings = os.path.abspath(sys.argv[1]), int(sys.argv[2]) if len(sys.argv) > 2 else 5_000_000
    with tempfile.TemporaryDirectory() as folder:
        machine = f"{folder}/machine"
        subprocess.run(["cc", "-O2", "-o", machine, f"{os.path.dirname(os.path.abspath(__file__))}/machine.c"], check=True)
        for kind, n, each in NETS:
            with open(f"{folder}/m.p3l", "w") as it:
                it.write(pipe(n) if kind == "pipe" else farm(n))
            with open(f"{folder}/items", "w") as it:
                it.writelines(f"{number}\n" for number in range(firings // each))
            for capacity in (4, 64):
                ours, fired = timed([program, "run", f"{folder}/m.p3l", "--processors", "512", "--capacity", str(capacity), "--stats"], f"{folder}/items")
                theirs, other = timed([machine, kind, str(n), str(capacity), "gathered"], f"{folder}/items")
                note = "" if fired == other else f" ({other} in C)"
                print(f"{kind} of {n}, capacity {capacity}: {fired} firings{note}: {1e9 * ours / fired:.0f} ns each, in C {1e9 * theirs / other:.0f} ns, ratio {ours / theirs:.1f}")


if __name__ == "__main__":
    main()
