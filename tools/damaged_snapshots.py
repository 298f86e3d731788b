#!/usr/bin/env python3
"""Snapshots with one byte changed: `resume` refuses each by a number, or runs it to an end.

    tools/damaged_snapshots.py PATH_OF_P3L

A snapshot is saved in the middle of a run of three programs: a pipe, a farm of maps, and a loop
round a farm. Unchanged, it must be resumed to the rest of the results. Then each byte is changed in
turn: its lowest bit, its highest bit, to 0 and to 255. An answer is status 13 with a number of a
snapshot or an image, or status 0, 6 or 7 with its line and lines of numbers as results. Anything
else is reported: another status or line, a signal, or no end in time. The last lines count the
answers.
"""

import collections
import os
import re
import subprocess
import sys
import tempfile

PIPE = "seq f in(int x) out(int y) ${ y = x + 1; }$ end seq seq g in(int x) out(int y) ${ y = 100 / x; }$ end seq pipe main in(int x) out(int z) f in(x) out(int y) g in(y) out(z) end pipe"
MAPS = "seq s in(int x) out(int y) ${ y = x * x; }$ end seq map m in(int a[3]) out(int b[3]) workers 2 s in(a[*i]) out(b[*i]) end map farm main in(int a[3]) out(int b[3]) workers 2 m in(a) out(b) end farm"
LOOP = "seq half in(int x, int c) out(int y, int d) ${ y = x / 2; d = c + 1; }$ end seq seq more in(int x, int c) out(int again) ${ again = x > 1; }$ end seq farm halves in(int x, int c) out(int y, int d) workers 3 half in(x, c) out(y, d) end farm loop main in(int x, int c) out(int y, int d) turns 10 tokens 3 halves in(x, c) out(y, d) while more in(y, d) out(int again) end loop"
# A program, its items, and how many of its picks are used before it is saved.
RUNS = {
    "pipe": (PIPE, [str(item) for item in range(8)], 17),
    "farm of maps": (MAPS, [f"{item} {item + 1} -{item}" for item in range(40)], 90),
    "loop": (LOOP, ["64 0", "3 0", "9 0", "1 0", "500 0", "17 0"] * 4, 45),
}
# By `time --picks` all processes work side by side, so that tokens are in many places at once.
PROCESSORS = ["--processors", "16", "--capacity", "2"]
SECONDS = 20

NAMES = rb"130 BadShot \d+|131 NotSound|80 BadMagic|81 Version \d+|82 Short \d+|83 BadField \d+|84 TrailingBytes \d+|90 CodeUnsafe \d+|91 NotLinked|92 TreeWrong"
KINDS = rb"division by zero|division overflow|index out of range|shift out of range|budget spent|turns spent"
LINES = {
    0: rb"",
    6: rb"stream: line \d+: (?:100 BadWord|101 WrongCount \d+|102 OutOfRange)\n",
    7: rb"trap: item \d+: (?:" + KINDS + rb") in \w+\n",
    13: rb"evidence: (?:" + NAMES + rb")\n",
}
RESULTS = re.compile(rb"(?:-?\d+(?: -?\d+)*\n)*\Z")


class Run:
    """Commands of p3l in a folder."""

    def __init__(self, binary, folder):
        self.binary, self.folder = binary, folder

    def __call__(self, *words, stream=""):
        return subprocess.run([self.binary, *words], cwd=self.folder, input=stream.encode(), capture_output=True, timeout=SECONDS)

    def write(self, name, data):
        with open(f"{self.folder}/{name}", "wb") as it:
            it.write(data)

    def read(self, name):
        with open(f"{self.folder}/{name}", "rb") as it:
            return it.read()


def lines(items):
    return "".join(f"{item}\n" for item in items)


def saved(run, program, items, count):
    """The snapshot after this number of picks, and the items that are left then; it is resumed to the rest of the whole run."""
    run.write("m.p3l", program.encode())
    whole = run("time", "m.p3l", *PROCESSORS, "--picks", "all", stream=lines(items))
    picks = run.read("all").split()[:count]
    run.write("picks", b" ".join(picks))
    first = run("save", "m.p3l", *PROCESSORS, "--schedule", "file:picks", "--output", "snapshot", stream=lines(items))
    said = re.fullmatch(rb"saved: items (\d+), picks (\d+)\n", first.stderr)
    if first.returncode or not said or int(said[2]) != len(picks):
        sys.exit(f"damaged_snapshots: not saved: status {first.returncode}: {first.stderr!r}")
    rest = items[int(said[1]) :]
    second = run("resume", "snapshot", stream=lines(rest))
    if (first.stdout + second.stdout, second.returncode) != (whole.stdout, whole.returncode):
        sys.exit(f"damaged_snapshots: two parts are not the whole: status {second.returncode}: {second.stderr!r}")
    return run.read("snapshot"), rest


def answer(run, data, rest):
    """How a snapshot of these bytes is answered: a name and whether it is one that may be given."""
    run.write("snapshot", data)
    try:
        done = run("resume", "snapshot", stream=lines(rest))
    except subprocess.TimeoutExpired:
        return f"no end in {SECONDS} s", False
    form = LINES.get(done.returncode)
    if form is None or not re.fullmatch(form, done.stderr) or not RESULTS.match(done.stdout) or done.returncode == 13 and done.stdout:
        return f"status {done.returncode}: {done.stderr[:200]!r}", False
    name = re.match(rb"evidence: (\d+ \w+)", done.stderr)
    return name[1].decode() if name else f"status {done.returncode}", True


def main():
    if len(sys.argv) != 2:
        sys.exit(__doc__.split("\n\n")[1])
    binary, tried, wrong, counts = os.path.abspath(sys.argv[1]), 0, 0, collections.Counter()
    with tempfile.TemporaryDirectory() as folder:
        run = Run(binary, folder)
        for name, (program, items, count) in RUNS.items():
            data, rest = saved(run, program, items, count)
            print(f"{name}: {len(data)} bytes, {len(rest)} items left")
            for at, byte in enumerate(data):
                for other in sorted({byte ^ 1, byte ^ 128, 0, 255} - {byte}):
                    said, is_named = answer(run, data[:at] + bytes([other]) + data[at + 1 :], rest)
                    tried += 1
                    if is_named:
                        counts[said] += 1
                    else:
                        wrong += 1
                        print(f"{name}: byte {at} is {other}: {said}")
    for said, times in sorted(counts.items()):
        print(f"{times:6} {said}")
    print(f"tried {tried}, without a named answer {wrong}")
    return int(wrong > 0)


if __name__ == "__main__":
    sys.exit(main())
