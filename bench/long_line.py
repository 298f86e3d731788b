#!/usr/bin/env python3
"""The memory that a long line takes: at a line of 1 GB it is that of a line of 1 MB.

    bench/long_line.py PATH_OF_P3L [--bytes N]

A line of blanks, of words, of zeros before a number, of one number that is too long, and of one word
that is none: for each, the most memory that `run` had on a line of 1 MB and on one of N bytes (1 GB
if not given), its seconds, and how it ended. A line whose memory grew by more than 1 MB is marked,
and the script then ends with 1.
"""

import argparse
import os
import pathlib
import subprocess
import sys
import tempfile
import time

DOUBLE = "seq main in(int x) out(int y)\n${ y = x * 2 + 1; }$\nend seq\n"
MEGABYTE, GIGABYTE = 1 << 20, 1 << 30
MOST_GROWTH = 1024
# What a line says again and again, what ends it, and the line or the result that comes of it.
LINES = {
    "blanks": (b" ", b"\n5\n", "11"),
    "words": (b"1 ", b"\n5\n", "stream: line 1: 101 WrongCount {words}"),
    "zeros before a number": (b"0", b"7\n", "15"),
    "a number": (b"9", b"\n", "stream: line 1: 102 OutOfRange"),
    "a word": (b"x", b"\n", "stream: line 1: 100 BadWord"),
}


def memory_of(child):
    """The most kilobytes that a program had in memory, or nothing where it has ended."""
    with open(f"/proc/{child.pid}/status") as status:
        most = [int(line.split()[1]) for line in status if line.startswith("VmHWM")]
    return most[0] if most else 0


def run_on(words, folder, piece, count, end):
    """The most memory of a run on a line of so many bytes, its seconds, and what it said last."""
    pipes = {"stdin": subprocess.PIPE, "stdout": subprocess.PIPE, "stderr": subprocess.STDOUT}
    start = time.monotonic()
    child = subprocess.Popen(words, cwd=folder, **pipes)
    chunk = piece * (MEGABYTE // len(piece))
    try:
        for _ in range(count // MEGABYTE):
            child.stdin.write(chunk)
        child.stdin.write(end)
        child.stdin.flush()
    except BrokenPipeError:
        # a refused line may be refused before its end
        pass
    most = memory_of(child)
    said = child.communicate()[0].decode(errors="replace").split("\n")
    return most, time.monotonic() - start, said[-2] if len(said) > 1 else ""


def main():
    words = argparse.ArgumentParser(description=__doc__.split("\n")[0])
    words.add_argument("program")
    words.add_argument("--bytes", type=int, default=GIGABYTE)
    given = words.parse_args()
    wrong = 0
    with tempfile.TemporaryDirectory() as folder:
        (pathlib.Path(folder) / "m.p3l").write_text(DOUBLE)
        run = [os.path.abspath(given.program), "run", "m.p3l", "--processors", "4"]
        for name, (piece, end, line) in LINES.items():
            few, _, _ = run_on(run, folder, piece, MEGABYTE, end)
            many, seconds, said = run_on(run, folder, piece, given.bytes, end)
            is_said = said == line.format(words=given.bytes // MEGABYTE * MEGABYTE // len(piece))
            mark = "" if many - few <= MOST_GROWTH and is_said else "  ABOVE, OR SAID OTHERWISE"
            wrong += bool(mark)
            memory = f"{few} KB at 1 MB, {many} KB at {given.bytes >> 20} MB"
            print(f"{name:<22} {memory}, {seconds:.1f} s: {said}{mark}", flush=True)
    return 1 if wrong else 0


if __name__ == "__main__":
    sys.exit(main())
