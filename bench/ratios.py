#!/usr/bin/env python3
"""Costs that no proof speaks of, each as the ratio of two runs of p3l that lie apart by a known factor.

    bench/ratios.py PATH_OF_P3L

A row has what is measured, its ratio, and the ratio above which something is wrong: the most of five tries of the shorter run
against the least of the longer one would still be below it. The script ends with 1 where a ratio is above its bound.

  room of a stack     `profile`, which runs each body on the stack machine: an item that passes over 20,000 instructions against one
                      that passes over 1,200. Room is taken for 1,024 words in both
  a firing by turns   the network of a map of 508 pieces against that of one of eight: after a firing only what it touched is looked
                      at again, two channels mostly
  constants           four times as many: each is found at once, and not by a walk through all of them
  size of a token     the memory that a channel reserves for each token, against the 96 bytes of the tags that a token may have: what
                      lies beside them is a few words

The first two are measured on as many items as take long enough.
"""

import os
import subprocess
import sys
import tempfile
import time

TRIES = 5
ENOUGH = 0.3
TAGS = 12 * 8
ONE = "seq main in(int x) out(int y) ${ y = x * 3 + 1; }$ end seq\n"
MORE = "seq more in(int x) out(int y) ${ y = x * 3 + 1; }$ end seq\n"


def passed_over(statements):
    return "seq main in(int x) out(int y) ${ if (x > 7) { " + "y = y + x; " * statements + "} }$ end seq\n"


def pieces(count):
    return MORE + f"map main in(int x[{count}]) out(int y[{count}]) workers {count}\nmore in(x[*i]) out(y[*i])\nend map\n"


def farm(workers):
    return MORE + f"farm main in(int x) out(int y) workers {workers}\nmore in(x) out(y)\nend farm\n"


def constants(count):
    return "".join(f"const K{number} = {number};\n" for number in range(count)) + ONE


def field(child, name):
    """The first word of a field of a process's status."""
    with open(f"/proc/{child.pid}/status") as lines:
        return next(line for line in lines if line.startswith(name + ":")).split()[1]


class Bench:
    def __init__(self, program, folder):
        self.program, self.folder = program, folder

    def file(self, name, text):
        path = f"{self.folder}/{name}"
        with open(path, "w") as it:
            it.write(text)
        return path

    def used(self, words, items):
        """What a run with status 0 used of the machine."""
        with open(self.file("items", items)) as stream:
            child = subprocess.Popen([self.program, *words], stdin=stream, stdout=subprocess.DEVNULL)
            _, status, used = os.wait4(child.pid, 0)
            child.returncode = os.waitstatus_to_exitcode(status)
        if child.returncode:
            sys.exit(f"{words} ended with {child.returncode}")
        return used

    def seconds(self, words, items="", tries=TRIES):
        """The least time of the processor of some tries: what else the machine does counts for little."""
        all_used = [self.used(words, items) for _ in range(tries)]
        return min(used.ru_utime + used.ru_stime for used in all_used)

    def an_item(self, words, item):
        """The time for an item, by as many as take long enough."""
        start, items = self.seconds(words), 1
        while self.seconds(words, item * items, 1) - start < ENOUGH:
            items *= 4
        return (self.seconds(words, item * items) - start) / items

    def profiled(self, text):
        return self.an_item(["profile", self.file("m.p3l", text)], "7\n")

    def firing(self, count):
        """The time for a firing in the network of a map of so many pieces: three for each, and four at the ends."""
        words = ["run", self.file("m.p3l", pieces(count)), "--processors", "512"]
        return self.an_item(words, "7 " * count + "\n") / (3 * count + 4)

    def reserved(self, words):
        """How many bytes of memory are reserved when a run has begun and waits for its first item."""
        child = subprocess.Popen([self.program, *words], stdin=subprocess.PIPE, stdout=subprocess.DEVNULL)
        while field(child, "State") != "S":
            time.sleep(0.01)
        kilobytes = int(field(child, "VmData"))
        child.communicate()
        return 1024 * kilobytes

    def place(self, workers, room):
        """The memory that each place for a token in the channels of a farm takes: two for each worker, and two at the ends."""
        path = self.file("m.p3l", farm(workers))
        less, more = (self.reserved(["run", path, "--processors", "512", "--capacity", str(count)]) for count in (1, 1 + room))
        return (more - less) / ((2 * workers + 2) * room)

    def check(self, text):
        return self.seconds(["check", self.file("m.p3l", text)])


def main():
    with tempfile.TemporaryDirectory() as folder:
        bench = Bench(os.path.abspath(sys.argv[1]), folder)
        few = bench.check(constants(12_000)) - bench.check(ONE)
        all_four = bench.check(constants(48_000)) - bench.check(ONE)
        rows = [
            ("room of a stack", bench.profiled(passed_over(5_000)) / bench.profiled(passed_over(300)), 3),
            ("a firing by turns", bench.firing(508) / bench.firing(8), 4),
            ("constants", all_four / few, 8),
            ("size of a token", bench.place(64, 1000) / TAGS, 2.5),
        ]
    above = 0
    for name, ratio, bound in rows:
        above += ratio > bound
        print(f"{name}: {ratio:.2f}, at most {bound}{'' if ratio <= bound else ': ABOVE'}", flush=True)
    return 1 if above else 0


if __name__ == "__main__":
    sys.exit(main())
