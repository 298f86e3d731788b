#!/usr/bin/env python3
"""Commands at their limits: each answers there as it does below them, and doesn't say that memory ran out.

    tools/limits.py PATH_OF_P3L [ROW ..]

No contract says that memory is found, so only tests show that a body doesn't give up above some size. Each row makes a program or a
file at a limit of the language, runs commands on it, and compares what they write with numbers that are computed here or with
what `run` writes. The last line is `N passed, M failed`.
"""

import pathlib
import re
import subprocess
import sys
import tempfile
import time

SECONDS = 300
MOST_WORDS, MOST_PROCESSORS, MOST_NODES = 65_536, 512, 128
ROWS = {}


class Wrong(Exception):
    """An answer that is not the expected one."""


def row(function):
    """Enters a row under its name."""
    ROWS[function.__name__] = function
    return function


class Place:
    """A folder, and the program that is run in it."""

    def __init__(self, binary, folder):
        self.binary, self.folder = binary, pathlib.Path(folder)

    def write(self, name, text):
        (self.folder / name).write_text(text)
        return name

    def size(self, name):
        return (self.folder / name).stat().st_size

    def p3l(self, *words, stream="", status=0):
        """The output and the message of a command, which must end with this status."""
        words = [self.binary, *map(str, words)]
        done = subprocess.run(
            words, input=stream, capture_output=True, text=True, cwd=self.folder, timeout=SECONDS
        )
        if done.returncode != status:
            said = done.stderr[:200]
            raise Wrong(f"{' '.join(words[1:])}: status {done.returncode}, not {status}: {said!r}")
        return done.stdout, done.stderr


def equal(found, expected, what):
    """Fails where two values differ."""
    if found != expected:
        raise Wrong(f"{what}: {str(found)[:80]!r} is not {str(expected)[:80]!r}")


def seq(name, ports_in, ports_out, body, clause=""):
    return f"seq {name} in({ports_in}) out({ports_out}) {clause} ${{ {body} }}$ end seq\n"


def stream(rows):
    """The text of items."""
    return "".join(" ".join(map(str, words)) + "\n" for words in rows)


ADD = seq("add", "int x, int y", "int z", "z = x + y;")
ONE_MORE = seq("more", "int x", "int y", "y = x + 1;")
FARM_OF_500 = ONE_MORE + "farm main in(int x) out(int y) workers 500 more in(x) out(y) end farm\n"
LOOP = (
    seq("step", "int x, int left", "int y, int more", "y = x + left; more = left - 1;")
    + seq("open", "int x, int left", "int again", "again = left > 0;")
    + "loop main in(int x, int left) out(int y, int more) turns 50 tokens 1024\n"
    + "  step in(x, left) out(y, more) while open in(y, more) out(int again) end loop\n"
)
MAP = ONE_MORE + (
    "map main in(int a[64]) out(int b[64]) workers 64 more in(a[*i]) out(b[*i]) end map\n"
)
TREE = ADD + (
    "reduce main in(int a[512]) out(int s) workers 256 add in(a[*i]) out(s) end reduce\n"
)


def timed(place, program, items, expected, processors=MOST_PROCESSORS):
    """A run in virtual time under channels of one token, and its picks again."""
    name = place.write("m.p3l", program)
    build = [name, "--processors", processors, "--capacity", 1]
    text, message = place.p3l("time", *build, "--picks", "picks", stream=stream(items))
    equal(text, stream(expected), "time")
    fired = int(re.search(r"fired (\d+)", message)[1])
    if fired < 2000:
        raise Wrong(f"only {fired} firings")
    again, _ = place.p3l("run", *build, "--schedule", "file:picks", stream=stream(items))
    equal(again, text, "run of the picks")


@row
def time_of_a_loop(place):
    items = [(k, 1 + k % 40) for k in range(60)]
    timed(place, LOOP, items, [(k + sum(range(1, left + 1)), 0) for k, left in items], 16)


@row
def time_of_a_map(place):
    items = [[k + i for i in range(64)] for k in range(40)]
    timed(place, MAP, items, [[word + 1 for word in item] for item in items])


@row
def time_of_a_tree_reduce(place):
    items = [[k * i for i in range(512)] for k in range(8)]
    timed(place, TREE, items, [[sum(item)] for item in items])


@row
def time_of_a_farm_of_500(place):
    timed(place, FARM_OF_500, [[k] for k in range(1000)], [[k + 1] for k in range(1000)])


@row
def scan_at_512_segments(place):
    name = place.write(
        "m.p3l", ADD + "reduce main in(int a[4096]) out(int s) add in(a[*i]) out(s) end reduce\n"
    )
    item = [(k * 7919) % 1000 - 500 for k in range(4096)]
    sums = [sum(item[: k + 1]) for k in range(len(item))]
    text, _ = place.p3l("scan", name, "--segments", 512, stream=stream([item] * 2))
    equal(text, stream([sums] * 2), "scan")


@row
def scan_of_wide_elements(place):
    body = "int i; for (i = 0; i < 128; i = i + 1) { z[i] = x[i] + y[i]; }"
    name = place.write(
        "m.p3l",
        seq("add", "int x[128], int y[128]", "int z[128]", body)
        + "reduce main in(int a[512][128]) out(int s[128]) add in(a[*i][]) out(s) end reduce\n",
    )
    item = [k % 1000 for k in range(MOST_WORDS)]
    folds, total = [], [0] * 128
    for k in range(512):
        total = [a + b for a, b in zip(total, item[128 * k : 128 * k + 128])]
        folds += total
    for segments in (1, 64, 512):
        text, _ = place.p3l("scan", name, "--segments", segments, stream=stream([item]))
        equal(text, stream([folds]), f"scan in {segments} segments")


def migrated(place, program, items):
    """An image of a program, written anew, which runs as the program does."""
    name = place.write("m.p3l", program)
    place.p3l("compile", name, "--processors", 200, "--output", "m.img")
    place.p3l("migrate", "m.img", "--output", "new.img")
    text, _ = place.p3l("run", name, "--processors", 200, stream=stream(items))
    again, _ = place.p3l("exec", "new.img", stream=stream(items))
    equal(again, text, "exec of what migrate wrote")


@row
def migrate_of_each_kind(place):
    ten = [[k] for k in range(10)]
    for program, items in [
        (seq("main", "int x", "int y", "y = x;"), ten),
        (ONE_MORE + "comp main in(int x) out(int y) more in(x) out(y) end comp\n", ten),
        (
            ONE_MORE
            + "pipe main in(int x) out(int y) more in(x) out(int z) more in(z) out(y) end pipe\n",
            ten,
        ),
        (FARM_OF_500.replace("workers 500", ""), ten),
        (MAP.replace("workers 64", ""), [[k] * 64 for k in range(10)]),
        (TREE.replace("workers 256", ""), [[k] * 512 for k in range(10)]),
        (LOOP, [[k, 3] for k in range(10)]),
    ]:
        migrated(place, program, items)


@row
def a_rescue_of_the_most_words(place):
    name = place.write(
        "m.p3l",
        seq("main", "int x", f"int y[{MOST_WORDS}]", "y[0] = 1 / x;", "rescue -7"),
    )
    text, _ = place.p3l("run", name, "--processors", 4, stream="0\n1\n")
    equal(text, stream([[-7] * MOST_WORDS, [1] + [0] * (MOST_WORDS - 1)]), "run")


@row
def a_snapshot_of_some_megabytes(place):
    body = "int i; for (i = 0; i < 64; i = i + 1) { y[i] = x[i] + 1; }"
    name = place.write(
        "m.p3l",
        seq("more", "int x[64]", "int y[64]", body)
        + "farm main in(int x[64]) out(int y[64]) workers 500 more in(x) out(y) end farm\n",
    )
    items = [[k * i for i in range(64)] for k in range(3000)]
    build = [name, "--processors", MOST_PROCESSORS, "--capacity", 4]
    # the source and the emitter alone, so that all channels before the workers are full
    graph, _ = place.p3l("graph", *build)
    emitter = re.search(r'label="(\d+) emit', graph)[1]
    place.write("picks", f"0 {emitter}\n" * 2500)
    text, message = place.p3l(
        "save", *build, "--schedule", "file:picks", "--output", "shot", stream=stream(items)
    )
    taken = int(re.search(r"items (\d+)", message)[1])
    if taken < 2000 or place.size("shot") < 1_000_000:
        raise Wrong(f"{taken} items in a snapshot of {place.size('shot')} bytes")
    rest, _ = place.p3l("resume", "shot", stream=stream(items[taken:]))
    equal(text + rest, stream([[word + 1 for word in item] for item in items]), "save and resume")


def chain(stages):
    """A pipe of stages, with which a program has the most instances."""
    calls = [f"more in(v{k}) out(int v{k + 1})" for k in range(stages - 1)]
    calls[0] = "more in(x) out(int v1)"
    calls.append(f"more in(v{stages - 1}) out(y)")
    return ONE_MORE + "pipe main in(int x) out(int y)\n  " + "\n  ".join(calls) + "\nend pipe\n"


@row
def rewrite_and_profile_of_128_instances(place):
    stages = MOST_NODES - 1
    name = place.write("m.p3l", chain(stages))
    items = stream([[k] for k in range(5)])
    costs, _ = place.p3l("profile", name, stream=items)
    place.write("m.toml", costs)
    text, _ = place.p3l("rewrite", name, "--processors", MOST_PROCESSORS, "--costs", "m.toml")
    place.write("new.p3l", text)
    for program in (name, "new.p3l"):
        answer, _ = place.p3l("run", program, "--processors", MOST_PROCESSORS, stream=items)
        equal(answer, stream([[k + stages] for k in range(5)]), f"run of {program}")


@row
def profile_of_ten_thousand_items(place):
    name = place.write("m.p3l", LOOP)
    items = stream([[k, k % 50] for k in range(10_000)])
    costs, _ = place.p3l("profile", name, stream=items)
    if "main = 50" not in costs and "main = 49" not in costs:
        raise Wrong(f"the turns of the loop are not in the costs: {costs!r}")


@row
def a_body_of_a_million_instructions(place):
    name = place.write(
        "m.p3l",
        seq(
            "main",
            "int n",
            "int sum",
            "int i; while (i < n) { sum = sum + i; i = i + 1; }",
            "budget 2000000",
        ),
    )
    items, turns = stream([[300_000]]), 300_000
    text, _ = place.p3l("run", name, "--processors", 4, stream=items)
    equal(text, stream([[turns * (turns - 1) // 2]]), "run")
    costs, _ = place.p3l("profile", name, stream=items)
    ticks = int(re.search(r"main = (\d+)", costs)[1])
    if ticks < 1_000_000:
        raise Wrong(f"only {ticks} instructions")


def main():
    if len(sys.argv) < 2 or set(sys.argv[2:]) - set(ROWS):
        sys.exit(__doc__.split("\n\n")[1])
    binary, failed = str(pathlib.Path(sys.argv[1]).resolve()), 0
    names = sys.argv[2:] or list(ROWS)
    for name in names:
        begun = time.monotonic()
        try:
            with tempfile.TemporaryDirectory() as folder:
                ROWS[name](Place(binary, folder))
        except (Wrong, subprocess.TimeoutExpired) as wrong:
            failed += 1
            print(f"{name}: {wrong}", flush=True)
        else:
            print(f"{name}: passed in {time.monotonic() - begun:.1f} s", flush=True)
    print(f"{len(names) - failed} passed, {failed} failed")
    return int(failed > 0)


if __name__ == "__main__":
    sys.exit(main())
