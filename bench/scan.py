#!/usr/bin/env python3
"""`p3l scan` beside `run` of the same reduce, and beside `exec` of the scan's plan by hand.

    bench/scan.py PATH [--items N] [--instructions]

The list has 4,096 words, and the operator adds. The plan by hand is an image of the same pipe of
stages, each a map over blocks, with a body for each stage whose loops add in place. It can't be
written as a source: the ports between two stages have one shape, and the blocks of the two have
others. It must write what `scan` writes. A row has the processor time of each, the least of five
runs in turn, and the ratios; with --instructions the number of instructions, on two items.
"""

import argparse
import pathlib
import subprocess
import sys
import tempfile

import measure

LENGTH, SEGMENTS = 4096, 64
REDUCE = """seq add in(int x, int y) out(int z)
${{ z = x + y; }}$
end seq

reduce main in(int a[{length}]) out(int s)
  add in(a[*i]) out(s)
end reduce
"""
SCAN = """seq main in(int a[{words}]) out(int b[{words}]) budget 1000000
${{
  int i; int width; int start;
  for (i = 0; i < {words}; i = i + 1) {{ b[i] = a[i]; }}
  for (width = 1; width < {words}; width = width * 2) {{
    for (start = 0; start < {words}; start = start + 2 * width) {{
      for (i = start + width; i < start + 2 * width; i = i + 1) {{ b[i] = b[start + width - 1] + b[i]; }}
    }}
  }}
}}$
end seq
"""
MERGE = """seq main in(int a[{words}]) out(int b[{words}]) budget 1000000
${{
  int i;
  for (i = 0; i < {half}; i = i + 1) {{ b[i] = a[i]; }}
  for (i = {half}; i < {words}; i = i + 1) {{ b[i] = a[{half} - 1] + a[i]; }}
}}$
end seq
"""
SEQ, PIPE, MAP = 0, 2, 4
FREE, REST = 1, 0
# In the image of one `seq` module `main`: what lies before its code, and the channels and processes after it.
BEFORE, AFTER = 51, 91


def number(value):
    return value.to_bytes(4, "big")


def numbers(values):
    return listed(number(value) for value in values)


def listed(items):
    items = list(items)
    return number(len(items)) + b"".join(items)


def module(kind, name):
    return bytes([kind, len(name)]) + name.encode() + bytes([0])


def node(place, words, form, parts):
    return number(place) + number(words) + number(words) + form + numbers(parts)


def blocks(count, words):
    """The cut of a map over this number of blocks, in and out, without a clause."""
    cut = number(0) + bytes([2]) + number(count) + bytes([FREE]) + number(words) + bytes([REST])
    return number(0) + number(count) + number(1) + listed([cut]) + listed([cut])


class Bench:
    def __init__(self, program, folder):
        self.program, self.folder = program, pathlib.Path(folder)

    def write(self, name, text):
        (self.folder / name).write_text(text)
        return str(self.folder / name)

    def code(self, text):
        """The code of a body, out of its image."""
        image = str(self.folder / "body.img")
        subprocess.run([self.program, "compile", self.write("body.p3l", text), "--processors", "1", "--output", image], check=True)
        return pathlib.Path(image).read_bytes()[BEFORE:-AFTER]

    def plan(self):
        """The image of the plan, linked by `migrate`."""
        counts = [SEGMENTS >> stage for stage in range(SEGMENTS.bit_length())]
        stages = range(len(counts))
        nodes = [node(0, LENGTH, b"", [2 * stage + 1 for stage in stages])]
        modules, codes = [module(PIPE, "main")], []
        for stage, count in enumerate(counts):
            words = LENGTH // count
            nodes.append(node(2 * stage + 1, LENGTH, blocks(count, words), [2 * stage + 2]))
            nodes.append(node(2 * stage + 2, words, b"", []))
            modules += [module(MAP, f"stage{stage}"), module(SEQ, f"step{stage}")]
            codes.append(self.code((MERGE if stage else SCAN).format(words=words, half=words // 2)))
        parts = [listed(modules), listed(nodes), numbers(counts), listed(codes), listed([]), listed([])]
        (self.folder / "plan.raw").write_bytes(b"P3LI" + number(2) + number(4) + b"".join(parts))
        image = str(self.folder / "plan.img")
        subprocess.run([self.program, "migrate", str(self.folder / "plan.raw"), "--output", image], check=True)
        return image

    def output(self, words, stream):
        with open(stream) as given:
            return subprocess.run([self.program, *words], stdin=given, capture_output=True, check=True).stdout


def main():
    words = argparse.ArgumentParser(description=__doc__.split("\n")[0])
    words.add_argument("program", type=lambda path: str(pathlib.Path(path).resolve()))
    words.add_argument("--items", type=int)
    words.add_argument("--instructions", action="store_true")
    given = words.parse_args()
    items = given.items or (2 if given.instructions else 100)
    print(f"{measure.load()}; {items} items of {LENGTH} words")
    with tempfile.TemporaryDirectory() as folder:
        bench = Bench(given.program, folder)
        line = " ".join(str(word % 1000) for word in range(LENGTH)) + "\n"
        stream = bench.write("items", line * items)
        reduce = bench.write("reduce.p3l", REDUCE.format(length=LENGTH))
        plan = bench.plan()
        scan = ["scan", reduce, "--segments", str(SEGMENTS)]
        if bench.output(scan, stream) != bench.output(["exec", plan], stream):
            sys.exit("scan: the plan by hand writes another text")
        rows = {
            f"scan in {SEGMENTS} segments": scan,
            "scan in 1 segment": ["scan", reduce, "--segments", "1"],
            "the plan by hand": ["exec", plan],
            "run of the reduce": ["run", reduce, "--processors", "1"],
        }
        commands = [[bench.program, *row] for row in rows.values()]
        if given.instructions:
            costs = [measure.instructions(command, stream) for command in commands]
        else:
            costs = measure.least(commands, stream)
    for name, cost in zip(rows, costs):
        amount = f"{cost:,} instructions" if given.instructions else f"{cost:.3f} s"
        print(f"{name}: {amount}; scan in {SEGMENTS} segments by it {costs[0] / cost:.2f}")
    return 0


if __name__ == "__main__":
    sys.exit(main())
