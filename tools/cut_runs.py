#!/usr/bin/env python3
"""Runs that are cut in two: `save` and `resume` together write what one run writes.

    tools/cut_runs.py PATH_OF_P3L

Each program of examples/ is run by a seed on its items, with a trace, for two numbers of
processors. Then the run is saved after some of its picks, at several places. The rest is resumed
three times: by turns, by another seed, and under the remaining picks. The last line is `N passed, M
failed`.
"""

import os
import pathlib
import random
import re
import subprocess
import sys
import tempfile

EXAMPLES = pathlib.Path(__file__).resolve().parent.parent / "examples"
PROCESSORS, CAPACITY, SEED, PLACES, ITEMS = (8, 40), 2, 5, 12, 12
DONE, TRAPPED = 0, 7


class Runs:
    """Runs of one program in a folder, on items of which the first ones can be left out."""

    def __init__(self, binary, folder, program, processors):
        self.binary, self.folder = binary, pathlib.Path(folder)
        self.build = [str(program), "--processors", str(processors), "--capacity", str(CAPACITY)]
        items = [line for line in program.with_suffix(".txt").read_bytes().splitlines() if line.split()]
        self.items = items * max(1, ITEMS // len(items))

    def run(self, *words, first=0):
        stream = b"".join(item + b"\n" for item in self.items[first:])
        return subprocess.run([self.binary, *words], input=stream, capture_output=True, cwd=self.folder)

    def whole(self):
        """The unbroken run, and its picks."""
        done = self.run("run", *self.build, "--schedule", f"seed:{SEED}", "--trace", "trace")
        return done, [line.split()[0] for line in (self.folder / "trace").read_text().splitlines()[1:-1]]

    def write(self, name, picks):
        (self.folder / name).write_text(" ".join(picks))

    def wrong(self, whole, picks, count):
        """What differs where the run is cut after so many picks, and how many parts were compared."""
        self.write("first", picks[:count])
        first = self.run("save", *self.build, "--schedule", "file:first", "--output", "shot")
        if first.returncode == TRAPPED:
            return [] if whole.returncode == TRAPPED and whole.stdout == first.stdout else [f"{first.stderr!r}"], 1
        said = re.fullmatch(rb"saved: items (\d+), picks (\d+)\n", first.stderr)
        if first.returncode != DONE or not said:
            return [f"status {first.returncode}: {first.stderr!r}"], 1
        self.write("second", picks[int(said[2]) :])
        differences = []
        for schedule in "rr", f"seed:{SEED + 1}", "file:second":
            second = self.run("resume", "shot", "--schedule", schedule, first=int(said[1]))
            if (first.stdout + second.stdout, second.returncode) != (whole.stdout, whole.returncode):
                differences.append(f"{schedule}: status {second.returncode}: {second.stderr!r}")
        return differences, 3


def places(count, chosen):
    """Places at which a run of so many picks is cut."""
    return sorted({0, 1, 2, count // 2, count - 1, count} | {chosen.randrange(count + 1) for _ in range(PLACES)})


def main():
    if len(sys.argv) != 2:
        sys.exit(__doc__.split("\n\n")[1])
    binary, chosen, passed, failed = os.path.abspath(sys.argv[1]), random.Random(SEED), 0, 0
    for program in sorted(EXAMPLES.glob("*.p3l")):
        for processors in PROCESSORS:
            with tempfile.TemporaryDirectory() as folder:
                runs = Runs(binary, folder, program, processors)
                whole, picks = runs.whole()
                for count in places(len(picks), chosen):
                    wrong, tried = runs.wrong(whole, picks, count)
                    passed, failed = passed + tried - len(wrong), failed + len(wrong)
                    for difference in wrong:
                        print(f"{program.stem}, {processors} processors, {count} picks: {difference}", flush=True)
    print(f"{passed} passed, {failed} failed")
    return int(failed > 0)


if __name__ == "__main__":
    sys.exit(main())
