#!/usr/bin/env python3
"""`p3l save` and `p3l resume` of large networks whose channels are full.

    bench/snapshots.py PATH

Two networks are measured. The first is the largest that words can build, a farm of 510 workers, which are 512 processes: `save` runs picks
that fill its channels, and writes the snapshot. The second is the largest that an image may have, eight such farms one after another, which are
4,096 processes: no program is built so, as `--processors` is at most 512, so its image is put together here and linked by `migrate`, and the state in which
all its channels are full is put together too. Both are resumed without a pick, which is to read the snapshot, to find that its image can be run and its
state is sound, and to restore the machine; and to their end, where what they write is compared. Printed are the length of each snapshot and the least processor
time of five runs. A second or more is a failure, but for the runs to the end.
"""

import argparse
import pathlib
import subprocess
import sys
import tempfile

import measure
from scan import listed, module, node, number, numbers

WORKERS, CAPACITY, FARMS = 510, 4, 8
# How many tokens a farm holds with all its channels full: those on their way to its workers, and from them.
HELD = 2 * WORKERS * CAPACITY
SEQ, PIPE, FARM = 0, 2, 3
EMIT, COLLECT = 3, 4
STOPPED, LIMIT = 1, 1.0
STEP = "seq step in(int x) out(int y)\n${ y = x; }$\nend seq\n"
FARMED = STEP + f"farm main in(int x) out(int y) workers {WORKERS}\n  step in(x) out(y)\nend farm\n"
# In the image of one `seq` module `main`: what lies before its code, and the channels and processes after it.
BEFORE, AFTER = 51, 91


def wide(value):
    return value.to_bytes(8, "big")


def token(tags, word):
    return listed(map(wide, tags)) + bytes([0]) + listed([wide(word)])


def filling_picks():
    """Picks that fill the channels of a farm: a token for each worker by turns, which hand on the first half of them, and four that wait in front."""
    source, emit, workers = 0, 2, range(4, 4 + WORKERS)
    turn = [source, emit] * WORKERS
    return [*turn, *workers] * CAPACITY + turn * CAPACITY + [source] * CAPACITY


class Net:
    """The channels and processes of an image, which begin at this place of its bytes."""

    def __init__(self, image, place):
        self.image, self.place = image, place
        self.channels = self.count()
        self.place += 8 * self.channels
        self.processes = [self.process() for _ in range(self.count())]

    def count(self):
        self.place += 4
        return int.from_bytes(self.image[self.place - 4 : self.place], "big")

    def process(self):
        """The kind of a process, the channels that it reads, and those that it writes."""
        kind = self.image[self.place]
        self.place += 9
        return kind, [self.count() for _ in range(self.count())], [self.count() for _ in range(self.count())]

    def of_kind(self, kind):
        return [place for place, process in enumerate(self.processes) if process[0] == kind]


class State:
    """Tokens in the channels of a net, and the numbers of its processes. The first items are the furthest, so the net is filled from its end; each
    token has the number of its item as its word."""

    def __init__(self, net):
        self.net, self.items = net, 0
        self.tokens, self.numbers = [[] for _ in range(net.channels)], [0] * len(net.processes)

    def fill(self, channel):
        """Fills a channel outside the farms."""
        for _ in range(CAPACITY):
            self.items += 1
            self.tokens[channel].append(token([], self.items))

    def fill_farm(self, emit, collect):
        """Fills the channels of a farm, which gives its items tags as they come: first those from its workers, then those to them."""
        to, back = self.net.processes[emit][2], self.net.processes[collect][1]
        self.numbers[collect], self.numbers[emit] = self.items, self.items + HELD
        for channels in back, to:
            for tag in range(self.items, self.items + HELD // 2):
                self.tokens[channels[tag % WORKERS]].append(token([tag], tag + 1))
            self.items += HELD // 2

    def text(self):
        """The state in bytes: nothing came out yet, the inbox is empty, and no process holds a token."""
        owns = listed(wide(number) + listed([]) for number in self.numbers)
        return wide(self.items) + wide(0) + bytes([0]) + owns + listed(listed(tokens) for tokens in self.tokens)


class Bench:
    def __init__(self, program, folder):
        self.program, self.folder = program, pathlib.Path(folder)
        self.is_slow = False

    def path(self, name):
        return str(self.folder / name)

    def write(self, name, data):
        (self.folder / name).write_bytes(data)
        return self.path(name)

    def run(self, *words, stream=b""):
        done = subprocess.run([self.program, *words], input=stream, capture_output=True)
        if done.returncode:
            sys.exit(f"snapshots: status {done.returncode}: {' '.join(words)}: {done.stderr.decode()}")
        return done.stdout

    def code(self):
        """The code of the body, out of its image."""
        body = self.write("step.p3l", STEP.replace("step", "main").encode())
        self.run("compile", body, "--processors", "1", "--output", self.path("step.img"))
        return (self.folder / "step.img").read_bytes()[BEFORE:-AFTER]

    def image_of_farms(self):
        """The image of the farms one after another, and its net as `migrate` links it."""
        modules = [module(SEQ, "step"), module(FARM, "farmed"), module(PIPE, "main")]
        nodes = [node(2, 1, b"", [2 * farm + 1 for farm in range(FARMS)])]
        for farm in range(FARMS):
            nodes += [node(1, 1, number(0), [2 * farm + 2]), node(0, 1, b"", [])]
        front = b"P3LI" + number(2) + number(CAPACITY) + listed(modules) + listed(nodes) + numbers([WORKERS] * FARMS) + listed([self.code()])
        self.run("migrate", self.write("raw.img", front + listed([]) + listed([])), "--output", self.path("farms.img"))
        image = (self.folder / "farms.img").read_bytes()
        return image, Net(image, len(front))

    def full_snapshot(self, name):
        """Writes the snapshot of the farms with full channels, and says how many items are in it."""
        image, net = self.image_of_farms()
        state = State(net)
        state.fill(1)
        for emit, collect in reversed(list(zip(net.of_kind(EMIT), net.of_kind(COLLECT)))):
            state.fill_farm(emit, collect)
            state.fill(net.processes[emit][1][0])
        self.write(name, b"P3LS" + number(1) + state.text() + number(len(image)) + image)
        return state.items

    def time(self, name, words, stream, status=0, is_limited=True):
        least = min(measure.seconds([self.program, *words], stream, status) for _ in range(5))
        print(f"  {name}: {least:.3f} s")
        self.is_slow |= is_limited and least >= LIMIT

    def resume(self, name, items):
        """Times what is resumed of a snapshot, and compares what it writes."""
        print(f"  snapshot: {(self.folder / name).stat().st_size:,} bytes, {items:,} items")
        if self.run("resume", self.path(name)) != lines(items):
            sys.exit("snapshots: other items come out")
        none = self.write("none", b"")
        self.time("resume without a pick", ["resume", self.path(name), "--schedule", f"file:{none}"], none, STOPPED)
        self.time("resume to the end", ["resume", self.path(name)], none, is_limited=False)


def lines(count):
    return "".join(f"{item}\n" for item in range(1, count + 1)).encode()


def main():
    words = argparse.ArgumentParser(description=__doc__.split("\n")[0])
    words.add_argument("program", type=lambda path: str(pathlib.Path(path).resolve()))
    given = words.parse_args()
    print(measure.load())
    with tempfile.TemporaryDirectory() as folder:
        bench = Bench(given.program, folder)
        picks = bench.write("picks", " ".join(map(str, filling_picks())).encode())
        items = bench.write("items", lines(HELD + CAPACITY))
        farm = bench.write("farm.p3l", FARMED.encode())
        print(f"{WORKERS + 2} processes")
        save = ["save", farm, "--processors", str(WORKERS + 2), "--schedule", f"file:{picks}", "--output", bench.path("farm.shot")]
        bench.time("save", save, items)
        bench.resume("farm.shot", HELD + CAPACITY)
        print(f"{FARMS * (WORKERS + 2):,} processes")
        bench.resume("farms.shot", bench.full_snapshot("farms.shot"))
    print(measure.load())
    return int(bench.is_slow)


if __name__ == "__main__":
    sys.exit(main())
