#!/usr/bin/env python3
"""Advice beside `explain` for each number of processors: examples and generated programs.

    tools/advised.py PATH [--all]

PATH is the built program. It works on each program of examples/ and on 40 generated ones with their
costs, for up to 48 processors; with --all on 200 generated ones, for up to 512. The lines of
`advise` are computed again from what `explain` writes for each number of processors, and must be
the same: a line for the first number that fits and for each with a lesser service time than the one
before, with the speed-up in hundredths, rounded down. The tree must have the counts and the service
times of `explain` for the most processors, and one mark, at a node that has the service time of the
whole and is no pipe.
"""

import argparse
import concurrent.futures
import os
import pathlib
import subprocess
import sys
import tempfile

ROOT = pathlib.Path(__file__).resolve().parent.parent
MARK = " bottleneck: "


class Wrong(Exception):
    """What is wrong with the advice on a program."""


def call(binary, *words):
    """The lines that a command writes, and its status."""
    done = subprocess.run([binary, *words], capture_output=True, text=True, timeout=120)
    return done.stdout.splitlines(), done.returncode


def explained(binary, words, processors):
    """The processes, the service time and the lines of nodes for some processors, if any fit."""
    lines, status = call(binary, "explain", *words, "--processors", str(processors))
    if status:
        return None
    head = lines[0].split()
    return int(head[3]), int(head[5]), lines[1:]


def speed_up(first, time):
    """How many times as fast, with two digits, rounded down."""
    hundredths = 100 * first // time if time else 100
    return f"{hundredths // 100}.{hundredths % 100:02}"


def falls(known):
    """The lines of the numbers of processors at which the best service time falls."""
    first = before = None
    for processors, best in known:
        if best and (before is None or best[1] < before):
            first, before = best[1] if first is None else first, best[1]
            rate = speed_up(first, best[1])
            yield f"processors {processors} used {best[0]} service {best[1]} speed-up {rate}"


def node_line(line):
    """The line of a node in advice, by its line in the explanation of an allocation."""
    words = line.split()
    kind, name, service, count = words[1], words[2], words[6], words[7:]
    return " ".join([name, kind, *count, "service", service])


def check_tree(lines, best):
    """The tree has the counts that are explained, and one mark where it belongs."""
    bare = [line.strip().split(MARK)[0] for line in lines]
    if bare != [node_line(line) for line in best[2]]:
        raise Wrong("another tree")
    marked = [line.split() for line in lines if MARK in line]
    if len(marked) != 1 or marked[0][1] == "pipe" or f" service {best[1]}{MARK}" not in "".join(lines):
        raise Wrong(f"the mark is wrong: {marked}")


def check(binary, words, most):
    """Compares the advice on a program with what is explained for each number of processors."""
    lines, status = call(binary, "advise", *words, "--processors", str(most))
    known = [(count, explained(binary, words, count)) for count in range(1, most + 1)]
    best = known[-1][1]
    if (status == 0) != (best is not None):
        raise Wrong(f"status {status}")
    if best is None:
        return
    wanted = list(falls(known))
    if lines[: len(wanted)] != wanted:
        raise Wrong("another line of a number of processors")
    nodes = len(best[2])
    check_tree(lines[len(wanted) : len(wanted) + nodes], best)
    idle = f"more than {best[0]} processors do not help: {most - best[0]} are idle"
    if (idle in lines[len(wanted) + nodes :]) != (best[0] < most):
        raise Wrong("idle processors")


def programs(binary, count, most, folder):
    """The words of programs, with their costs where they have some."""
    for program in sorted((ROOT / "examples").glob("*.p3l")):
        yield [str(program)]
    for number in range(count):
        prefix = os.path.join(folder, str(number))
        words = ["gen", str(number), "--processors", "512", "--items", "1", "--save", prefix]
        call(binary, *words)
        yield [f"{prefix}.p3l", "--costs", f"{prefix}.toml"]


def fault(binary, words, most):
    """What is wrong with the advice on a program, if something is."""
    try:
        check(binary, words, most)
    except Wrong as wrong:
        return f"advised: {words[0]}: {wrong}"
    return None


def main():
    words = argparse.ArgumentParser(
        description=__doc__, formatter_class=argparse.RawDescriptionHelpFormatter
    )
    words.add_argument("program", help="the built program")
    words.add_argument("--all", action="store_true", help="200 programs, up to 512 processors")
    given = words.parse_args()
    binary = os.path.abspath(given.program)
    count, most = (200, 512) if given.all else (40, 48)
    with tempfile.TemporaryDirectory() as folder:
        made = list(programs(binary, count, most, folder))
        with concurrent.futures.ThreadPoolExecutor(os.cpu_count()) as pool:
            faults = list(pool.map(lambda it: fault(binary, it, most), made))
    for found in faults:
        if found:
            print(found)
    wrong = sum(found is not None for found in faults)
    print(f"advised: {len(made)} programs, up to {most} processors, {wrong} wrong")
    return 1 if wrong or not made else 0


if __name__ == "__main__":
    sys.exit(main())
