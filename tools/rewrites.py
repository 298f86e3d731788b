#!/usr/bin/env python3
"""Rewritten programs beside their originals: examples and generated programs.

    tools/rewrites.py PATH [COUNT]

PATH is the built program. It works on each program of examples/ with its input, and on COUNT
generated ones (200 if not given) with their costs, on 512 processors. The output of `rewrite` must
be its own canonical text; `run` of it must write and end as `run` of the original does; and the
service time that `explain` gives it must be no greater.
"""

import os
import pathlib
import subprocess
import sys
import tempfile

ROOT = pathlib.Path(__file__).resolve().parent.parent
PROCESSORS = ["--processors", "512"]


def call(binary, *words, stream=b""):
    """What a command writes on both outputs, and its status."""
    done = subprocess.run([binary, *words], input=stream, capture_output=True, timeout=120)
    return done.stdout, done.stderr, done.returncode


def service(binary, program, costs):
    """The service time of a program."""
    return int(call(binary, "explain", program, *PROCESSORS, *costs)[0].split()[5])


def fault(binary, program, costs, stream, folder):
    """What is wrong with the program that is written for another one, and whether it is another one."""
    text, lines, status = call(binary, "rewrite", program, *PROCESSORS, *costs)
    if status != 0 or lines:
        return f"status {status}, {lines!r}", False
    written = os.path.join(folder, "rewritten.p3l")
    pathlib.Path(written).write_bytes(text)
    canonical = call(binary, "fmt", written)
    if canonical != (text, b"", 0):
        return "its canonical text is another one", False
    if call(binary, "run", written, *PROCESSORS, *costs, stream=stream) != call(binary, "run", program, *PROCESSORS, *costs, stream=stream):
        return "it runs otherwise", False
    if service(binary, written, costs) > service(binary, program, costs):
        return "its service time is greater", False
    return None, text != call(binary, "fmt", program)[0]


def programs(binary, count, folder):
    """Names of programs, with the words of their costs and their inputs."""
    for program in sorted((ROOT / "examples").glob("*.p3l")):
        yield str(program), [], program.with_suffix(".txt").read_bytes()
    for number in range(count):
        prefix = os.path.join(folder, str(number))
        call(binary, "gen", str(number), *PROCESSORS, "--items", "20", "--save", prefix)
        yield f"{prefix}.p3l", ["--costs", f"{prefix}.toml"], pathlib.Path(f"{prefix}.txt").read_bytes()


def main():
    binary, count = os.path.abspath(sys.argv[1]), int(sys.argv[2]) if len(sys.argv) > 2 else 200
    tried = changed = wrong = 0
    with tempfile.TemporaryDirectory() as folder:
        for program, costs, stream in programs(binary, count, folder):
            why, is_other = fault(binary, program, costs, stream, folder)
            tried += 1
            changed += is_other
            if why:
                wrong += 1
                print(f"rewrites: {program}: {why}")
    print(f"rewrites: {tried} programs, {changed} written otherwise, {wrong} wrong")
    return 1 if wrong or not tried else 0


if __name__ == "__main__":
    sys.exit(main())
