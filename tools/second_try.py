#!/usr/bin/env python3
"""The second ./try: it takes less than a second of processor time, says nothing of its own, gives
the program the real streams and files, ends with its status, and says that nothing is proved.

    tools/second_try.py

The program of the sources must be there already, as after a first ./try.
"""

import os
import pathlib
import re
import subprocess
import sys
import tempfile

TRY = str(pathlib.Path(__file__).resolve().parent.parent / "try")
MOST_SECONDS = 1.0
DOUBLE = "seq main in(int x) out(int y)\n${ y = x * 2 + 1; }$\nend seq\n"
RUN = ["run", "m.p3l", "--processors", "4"]
# The words, the input, and the status, output and lines of each: forms of these bytes.
CASES = [
    (["--version"], b"", (0, rb"p3l \d+\.\d+\.\d+\nnot proved\n", b"")),
    (RUN, b"1\n2\n", (0, b"3\n5\n", b"")),
    (RUN, b"1\nx\n", (6, b"3\n", b"stream: line 2: 100 BadWord\n")),
    ([*RUN, "--trace", "trace"], b"1\n", (0, b"3\n", b"")),
    (["walk"], b"", (2, b"", b"usage: the words are not a command of p3l\n")),
]


def seconds_of_children():
    times = os.times()
    return times.children_user + times.children_system


def faults(folder):
    """What a call of ./try does otherwise, and what it takes."""
    for words, stream, wanted in CASES:
        before = seconds_of_children()
        done = subprocess.run([TRY, *words], cwd=folder, input=stream, capture_output=True)
        found, (status, output, lines) = (done.stdout, done.stderr), wanted
        is_form = re.fullmatch(output, done.stdout) and re.fullmatch(lines, done.stderr)
        if done.returncode != status or not is_form:
            yield f"{words}: {done.returncode}, {found}, and not {wanted}"
        taken = seconds_of_children() - before
        if taken > MOST_SECONDS:
            yield f"{words}: {taken:.2f} s of processor time"
    if not (folder / "trace").exists():
        yield "no file was written where it was called"


def main():
    with tempfile.TemporaryDirectory() as room:
        folder = pathlib.Path(room)
        (folder / "m.p3l").write_text(DOUBLE)
        found = list(faults(folder))
    for fault in found:
        print(f"second_try: {fault}")
    print(f"{len(CASES)} calls, {len(found)} faults")
    return 1 if found else 0


if __name__ == "__main__":
    sys.exit(main())
