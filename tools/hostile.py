#!/usr/bin/env python3
"""Hostile input: each file and stream that p3l reads, damaged, gets a documented answer.

    tools/hostile.py PATH_OF_P3L [--quick]

Each kind of input is tried: a source text, costs, a certificate, an image, a trace, picks, a
snapshot and the stream. It is empty, of one byte, of random bytes by a fixed seed, of the greatest
length and one byte more, and valid with one byte changed at each place. Each answer must have a
status of docs/COMMANDS.md and lines of its form, and come in a time that grows with the bytes. The
last table gives seconds by length.
"""

import os
import random
import re
import subprocess
import sys
import tempfile
import time

PROGRAM = b"seq f in(int x) out(int y) ${ y = x + 1; }$ end seq seq g in(int x) out(int y) ${ y = x * 3; }$ end seq farm w in(int x) out(int y) g in(x) out(y) end farm pipe main in(int x) out(int z) f in(x) out(int y) w in(y) out(z) end pipe"
REDUCE = b"seq f in(int x, int y) out(int z) ${ z = x - y; }$ end seq reduce main in(int a[4]) out(int s) f in(a[*i]) out(s) end reduce"
COSTS = b"setup = 0\nword = 0\n[seq]\nf = 10\ng = 60\n"
STREAM = b"1\n-2 \n\n30\t\r\n4"
LISTS = b"1 -2 3 4\n\n5 6\t 7 8"
PICKS = b"0 2 0 1 3 4 5 4 1 2 0 0 1 5 3 2 1\n"
# Picks after which items are on their way and one waits.
SOME = b"0 2 0 3\n"
PROCESSORS = ["--processors", "4"]
MIB = 1 << 20
SECONDS = 600

LINES = [
    rb"usage: the words are not a command of p3l",
    rb"source: \d+:\d+: \d+ \w+",
    rb"costs: (50 NotToml|5[123] \w+ .*)",
    rb"too few processors: need \d+",
    rb"stream: line \d+: (100 BadWord|101 WrongCount \d+|102 OutOfRange)",
    rb"trap: item \d+: (division by zero|division overflow|index out of range|shift out of range|budget spent|turns spent) in \w+",
    rb"stopped: \d+ fired, \d+ idle",
    rb"file (fault|too long): .*",
    rb"schedule: line \d+: (95 BadPick|96 NoSuchProcess \d+ of \d+)",
    rb"evidence: \d+ \w+( .*)?",
    rb"scan: (120 NotReduce|121 BadSegments)",
    rb"stats: items \d+, fired \d+, idle \d+, bound \d+",
    rb"time: items \d+, fired \d+, finish \d+, busiest \d+ \d+",
    rb"saved: items \d+, picks \d+",
    rb"(read|write) fault|no memory|input too long",
]
NAMED = re.compile(rb"(?:(?:" + rb"|".join(LINES) + rb")\n)*\Z", re.DOTALL)


class Case:
    """A command, the file of it that is spoiled (None: the stream), its valid bytes, and its greatest length."""

    def __init__(self, name, words, spoiled, valid, most, statuses):
        self.name, self.words, self.spoiled, self.valid, self.most, self.statuses = name, words, spoiled, valid, most, statuses


def run(binary, folder, words, stream):
    began = time.monotonic()
    done = subprocess.run([binary, *words], cwd=folder, input=stream, capture_output=True, timeout=SECONDS)
    return done, time.monotonic() - began


def valid_files(binary, folder):
    """Writes the valid files, and has p3l make those that it makes."""
    for name, data in [("m.p3l", PROGRAM), ("reduce.p3l", REDUCE), ("costs", COSTS), ("picks", PICKS), ("some", SOME)]:
        with open(f"{folder}/{name}", "wb") as it:
            it.write(data)
    makes = {
        "cert": ["explain", "m.p3l", *PROCESSORS, "--costs", "costs", "--cert", "cert"],
        "image": ["compile", "m.p3l", *PROCESSORS, "--costs", "costs", "--output", "image"],
        "trace": ["run", "m.p3l", *PROCESSORS, "--costs", "costs", "--trace", "trace"],
        "snapshot": ["save", "m.p3l", *PROCESSORS, "--costs", "costs", "--schedule", "file:some", "--output", "snapshot"],
    }
    made = {}
    for name, words in makes.items():
        done, _ = run(binary, folder, words, STREAM)
        if done.returncode == 0 and os.path.exists(f"{folder}/{name}"):
            with open(f"{folder}/{name}", "rb") as it:
                made[name] = it.read()
        else:
            print(f"not tried, as p3l makes none: {name}")
    return made


def cases(made):
    costs = ["--costs", "costs"]
    yield Case("source", ["check", "m.p3l"], "m.p3l", PROGRAM, MIB, {0, 3, 9, 11})
    yield Case("source, run", ["run", "m.p3l", *PROCESSORS], "m.p3l", PROGRAM, MIB, {0, 3, 5, 6, 7, 9, 11})
    yield Case("source, scan", ["scan", "reduce.p3l", "--segments", "1"], "reduce.p3l", REDUCE, MIB, {0, 3, 6, 9, 11, 15})
    yield Case("source, graph", ["graph", "m.p3l", *PROCESSORS], "m.p3l", PROGRAM, MIB, {0, 3, 5, 9, 11})
    yield Case("source, fmt", ["fmt", "m.p3l"], "m.p3l", PROGRAM, MIB, {0, 3, 9, 11})
    yield Case("costs", ["explain", "m.p3l", *PROCESSORS, *costs], "costs", COSTS, MIB, {0, 4, 9, 11})
    yield Case("source, rewrite", ["rewrite", "m.p3l", *PROCESSORS], "m.p3l", PROGRAM, MIB, {0, 3, 5, 9, 11})
    exported = ["--output", "exported"]
    yield Case("source, export", ["export", "m.p3l", *PROCESSORS, *exported], "m.p3l", PROGRAM, MIB, {0, 3, 5, 9, 11})
    yield Case("picks", ["run", "m.p3l", *PROCESSORS, "--schedule", "file:picks"], "picks", PICKS, 64 * MIB, {0, 1, 9, 11, 12})
    yield Case("stream", ["run", "m.p3l", *PROCESSORS], None, STREAM, 64 * MIB, {0, 6, 7, 11})
    yield Case("stream, time", ["time", "m.p3l", *PROCESSORS], None, STREAM, 64 * MIB, {0, 6, 7, 11})
    yield Case("stream, scan", ["scan", "reduce.p3l", "--segments", "2"], None, LISTS, 64 * MIB, {0, 6, 7, 11})
    yield Case("source, profile", ["profile", "m.p3l"], "m.p3l", PROGRAM, MIB, {0, 3, 6, 7, 9, 11})
    saved = ["--schedule", "file:picks", "--output", "saved"]
    yield Case("source, save", ["save", "m.p3l", *PROCESSORS, *saved], "m.p3l", PROGRAM, MIB, {0, 3, 5, 6, 7, 9, 11, 12})
    yield Case("picks, save", ["save", "m.p3l", *PROCESSORS, *saved], "picks", PICKS, 64 * MIB, {0, 9, 11, 12})
    yield Case("stream, save", ["save", "m.p3l", *PROCESSORS, *saved], None, STREAM, 64 * MIB, {0, 6, 7, 11})
    yield Case("stream, profile", ["profile", "m.p3l"], None, STREAM, 64 * MIB, {0, 6, 7, 11})
    if "cert" in made:
        yield Case("certificate", ["verify-cert", "m.p3l", *costs, "--cert", "cert"], "cert", made["cert"], 256 * MIB, {0, 9, 11, 13})
    if "image" in made:
        yield Case("image", ["exec", "image"], "image", made["image"], 64 * MIB, {0, 6, 7, 9, 11, 13})
        yield Case("image, migrated", ["migrate", "image", "--output", "migrated"], "image", made["image"], 64 * MIB, {0, 9, 11, 13})
    if "snapshot" in made:
        yield Case("snapshot", ["resume", "snapshot"], "snapshot", made["snapshot"], 256 * MIB, {0, 6, 7, 9, 11, 13})
    if "trace" in made:
        yield Case("trace", ["check-trace", "m.p3l", *PROCESSORS, *costs, "--trace", "trace"], "trace", made["trace"], 256 * MIB, {0, 6, 9, 11, 13, 14})


def filled(valid, length):
    """Bytes of this length: the valid ones again and again."""
    return (valid * (length // len(valid) + 1))[:length]


def random_bytes(draw, length):
    """Random bytes, drawn piece by piece: a single draw is limited to 256 MiB."""
    piece = 1 << 20
    return b"".join(draw.randbytes(min(piece, length - at)) for at in range(0, length, piece))


def spoiled(case, draw, is_quick):
    """What is tried of a case, each with a name."""
    yield "empty", b""
    for byte in (0, 10, 32, 45, 48, 112, 255):
        yield f"byte {byte}", bytes([byte])
    for length in (16, 256, 4096, 65536):
        yield f"random {length}", draw.randbytes(length)
    for at in range(len(case.valid)):
        for byte in {case.valid[at] ^ 1, case.valid[at] ^ 128, 0, 57, 10} - {case.valid[at]}:
            yield f"byte {at} is {byte}", case.valid[:at] + bytes([byte]) + case.valid[at + 1 :]
        yield f"front of {at}", case.valid[:at]
    if not is_quick:
        yield "greatest", filled(case.valid, case.most)
        yield "greatest, random", random_bytes(draw, case.most)
        yield "one more", filled(case.valid, case.most + 1)


def main():
    binary, is_quick = os.path.abspath(sys.argv[1]), "--quick" in sys.argv
    draw, tried, wrong, table = random.Random(7), 0, 0, []
    with tempfile.TemporaryDirectory() as folder:
        made = valid_files(binary, folder)
        for case in cases(made):
            slowest = ("", 0.0)

            def answer(name, data):
                nonlocal tried, wrong, slowest
                if case.spoiled:
                    with open(f"{folder}/{case.spoiled}", "wb") as it:
                        it.write(data)
                done, seconds = run(binary, folder, case.words, STREAM if case.spoiled else data)
                tried += 1
                if done.returncode not in case.statuses or not NAMED.match(done.stderr):
                    wrong += 1
                    print(f"{case.name}: {name}: status {done.returncode}: {done.stderr[:200]!r}")
                slowest = max(slowest, (name, seconds), key=lambda it: it[1])
                return seconds

            for name, data in spoiled(case, draw, is_quick):
                answer(name, data)
            steps = [case.most >> shift for shift in ((6, 4) if is_quick else (4, 2, 0))]
            row = [answer(f"of {length}", filled(case.valid, length)) for length in steps]
            table.append((case.name, slowest, list(zip(steps, row))))
            if case.spoiled:
                with open(f"{folder}/{case.spoiled}", "wb") as it:
                    it.write(case.valid)
    print(f"tried {tried}, without a named answer {wrong}")
    for name, slowest, row in table:
        print(f"{name:15} slowest {slowest[1]:.2f} s ({slowest[0]}); " + ", ".join(f"{length} bytes {seconds:.2f} s" for length, seconds in row))
    return int(wrong > 0)


sys.exit(main())
