#!/usr/bin/env python3
"""How long `advise` takes beside one `explain`, at the limits: 127 nodes and 512 processors.

    bench/advice.py PATH [--tries N]

PATH is the built program. The program is a pipe of 63 farms, each with a body of its own costs. Each
command runs N times (15 if not given), in turn; its time is the least processor time of its runs,
the start of the program included. The last column is the one by the other.
"""

import argparse
import os
import resource
import subprocess
import sys
import tempfile

FARMS = 63
PROCESSORS = "512"


def program():
    """The text of a pipe of farms."""
    modules, stages = [], []
    for number in range(FARMS):
        modules.append(f"seq f{number} in(int x) out(int y) ${{ y = x + {number}; }}$ end seq")
        farm = f"farm w{number} in(int x) out(int y) f{number}(x) out(y) end farm"
        modules.append(farm.replace(f"f{number}(x)", f"f{number} in(x)"))
        source = "x" if number == 0 else f"a{number}"
        target = "y" if number == FARMS - 1 else f"int a{number + 1}"
        stages.append(f"w{number} in({source}) out({target})")
    pipe = f"pipe main in(int x) out(int y) {' '.join(stages)} end pipe"
    return "\n".join([*modules, pipe, ""])


def costs():
    """The costs of the bodies, each another one."""
    lines = ["setup = 3", "word = 1", "[seq]"]
    return "\n".join([*lines, *(f"f{number} = {97 + 53 * number}" for number in range(FARMS)), ""])


def seconds(words):
    """The processor time of a run."""
    before = resource.getrusage(resource.RUSAGE_CHILDREN)
    subprocess.run(words, stdout=subprocess.DEVNULL, check=True)
    after = resource.getrusage(resource.RUSAGE_CHILDREN)
    return after.ru_utime + after.ru_stime - before.ru_utime - before.ru_stime


def main():
    words = argparse.ArgumentParser(
        description=__doc__, formatter_class=argparse.RawDescriptionHelpFormatter
    )
    words.add_argument("program", help="the built program")
    words.add_argument("--tries", type=int, default=15)
    given = words.parse_args()
    binary = os.path.abspath(given.program)
    with tempfile.TemporaryDirectory() as folder:
        text, file = os.path.join(folder, "a.p3l"), os.path.join(folder, "a.toml")
        with open(text, "w") as it:
            it.write(program())
        with open(file, "w") as it:
            it.write(costs())
        least = {}
        for _ in range(given.tries):
            for command in ("explain", "advise"):
                took = seconds([binary, command, text, "--costs", file, "--processors", PROCESSORS])
                least[command] = min(took, least.get(command, took))
    explain, advise = least["explain"], least["advise"]
    print(f"explain {explain * 1000:.1f} ms, advise {advise * 1000:.1f} ms: {advise / explain:.2f}")
    return 0


if __name__ == "__main__":
    sys.exit(main())
