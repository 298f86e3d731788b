#!/bin/sh
# Times `p3l run` on a million items through one body, a pipe of four, a farm of eight and a map of sixteen, beside mawk and Python
# doing the same, with the most memory it took for 10,000, 100,000 and 1,000,000 items; and `p3l explain` on a deep nesting.
# Usage: bench/run.sh PATH-OF-P3L [ITEMS]
set -eu
program=${1:?the path of the program p3l}
items=${2:-1000000}
folder=$(mktemp -d)
trap 'rm -rf "$folder"' EXIT
exec python3 - "$program" "$items" "$folder" <<'PY'
import os
import subprocess
import sys
import time

program, items, folder = sys.argv[1], int(sys.argv[2]), sys.argv[3]
MORE = "seq more in(int x) out(int y)\n${ y = x * 3 + 1; }$\nend seq\n"
STAGES = ["a", "b", "c"]


def pipe_of_four():
    calls = ["  more in(x) out(int a)"]
    calls += [f"  more in({was}) out(int {name})" for was, name in zip(STAGES, STAGES[1:])]
    calls.append("  more in(c) out(y)")
    return MORE + "pipe main in(int x) out(int y)\n" + "\n".join(calls) + "\nend pipe\n"


PROGRAMS = {
    "one body": MORE.replace("more", "main"),
    "pipe of 4": pipe_of_four(),
    "farm of 8": MORE + "farm main in(int x) out(int y) workers 8\n  more in(x) out(y)\nend farm\n",
    "map of 16": MORE + "map main in(int a[16]) out(int b[16]) workers 16\n  more in(a[*i]) out(b[*i])\nend map\n",
}


def timed(words, source):
    """How many seconds it takes."""
    with open(source) as stream, open(os.devnull, "w") as sink:
        start = time.monotonic()
        subprocess.run(words, stdin=stream, stdout=sink, check=True)
        return time.monotonic() - start


def memory_of(words, source):
    """The most kilobytes that it holds, reported by the system when all but a pipe's length of the input is read."""
    with open(os.devnull, "w") as sink:
        child = subprocess.Popen(words, stdin=subprocess.PIPE, stdout=sink)
        child.stdin.write(open(source, "rb").read())
        child.stdin.flush()
        most = next(line for line in open(f"/proc/{child.pid}/status") if line.startswith("VmHWM"))
        child.stdin.close()
        child.wait()
        return int(most.split()[1])


def lines_of(count, width):
    name = f"{folder}/{count}x{width}"
    if not os.path.exists(name):
        with open(name, "w") as file:
            for item in range(count):
                file.write(" ".join(str(item + k) for k in range(width)) + "\n")
    return name


PYTHON = "import sys\nfor line in sys.stdin: print(*(int(word) * 3 + 1 for word in line.split()))"
MAWK = "{ for (i = 1; i <= NF; i++) $i = $i * 3 + 1; print }"
for name, text in PROGRAMS.items():
    source = f"{folder}/m.p3l"
    open(source, "w").write(text)
    width = 16 if "map" in name else 1
    words = [program, "run", source, "--processors", "32"]
    seconds = timed(words, lines_of(items, width))
    memory = [memory_of(words, lines_of(count, width)) for count in (items // 100, items // 10, items)]
    mawk = timed(["mawk", MAWK], lines_of(items, width))
    python = timed(["python3", "-c", PYTHON], lines_of(items, width))
    print(f"{name}: {items / seconds:.0f} lines a second; times mawk {seconds / mawk:.2f}, times Python {seconds / python:.2f};"
          f" kilobytes {memory}", flush=True)

# A nesting of farms of pipes, as deep and as wide as programs may be.
text = MORE
below = "more"
for depth in range(2):
    text += f"farm f{depth} in(int x) out(int y)\n  {below} in(x) out(y)\nend farm\n"
    calls = ["  f%d in(x) out(int a0)" % depth] + [f"  f{depth} in(a{k}) out(int a{k + 1})" for k in range(5)] + [f"  f{depth} in(a5) out(y)"]
    text += f"pipe p{depth} in(int x) out(int y)\n" + "\n".join(calls) + "\nend pipe\n"
    below = f"p{depth}"
text += f"farm main in(int x) out(int y)\n  {below} in(x) out(y)\nend farm\n"
source = f"{folder}/deep.p3l"
open(source, "w").write(text)
for processors in (192, 256, 512):
    words = [program, "explain", source, "--processors", str(processors)]
    print(f"explain, deep nesting, {processors} processors: {timed(words, os.devnull):.3f} s")
PY
