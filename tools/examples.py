#!/usr/bin/env python3
"""The programs of examples/ on their inputs: what each command writes, beside examples/NAME.out.

    tools/examples.py PATH_OF_P3L

Each is run by turns and by seeds, for few and for many processors, with channels of one token and
of many; its image is executed, it is run in virtual time, and a trace of it is checked. All of them
write the same results, and nothing to standard error but their own line. The example of `scan` is
scanned in several numbers of segments. The canonical text of each is its own canonical text. The
last line is `N passed, M failed`.
"""

import os
import pathlib
import re
import subprocess
import sys
import tempfile

EXAMPLES = pathlib.Path(__file__).resolve().parent.parent / "examples"
SECONDS = 120
COUNTS = [("8", "4"), ("40", "1"), ("512", "1024")]
SCHEDULES = ["rr", "seed:1", "seed:18446744073709551615"]
# The examples whose results are those of a scan, each with numbers of segments.
SCANNED = {"prefix": ["1", "2", "4", "8"]}
TIMED = re.compile(rb"time: items \d+, fired \d+, finish \d+, busiest \d+ \d+\n")
CHECKED = re.compile(rb"trace holds: \d+ fired, \d+ idle\n")


class Example:
    """A program with its input, and the results and the status that are expected."""

    def __init__(self, binary, folder, program):
        self.binary, self.folder, self.program = binary, folder, program
        self.stream = program.with_suffix(".txt").read_bytes()
        self.results = program.with_suffix(".out").read_bytes()
        self.faults, self.tried = [], 0

    def call(self, *words):
        """Status, output and lines of a command on the example's input."""
        how = {"cwd": self.folder, "input": self.stream, "capture_output": True}
        done = subprocess.run([self.binary, *words], timeout=SECONDS, **how)
        return done.returncode, done.stdout, done.stderr

    def expect(self, words, output=None, lines=b""):
        """Compares what a command does; lines are bytes or a form."""
        status, found, said = self.call(*words)
        self.tried += 1
        wanted = self.results if output is None else output
        is_said = said == lines if isinstance(lines, bytes) else lines.fullmatch(said)
        if (status, found) != (0, wanted) or not is_said:
            self.faults.append(f"{' '.join(words)}: status {status}, {said!r}, {found[:200]!r}")

    def try_runs(self):
        """Each way to run the program."""
        name = str(self.program)
        for processors, capacity in COUNTS:
            build = [name, "--processors", processors, "--capacity", capacity]
            for schedule in SCHEDULES:
                self.expect(["run", *build, "--schedule", schedule])
            self.expect(["compile", *build, "--output", "image"], b"")
            for schedule in SCHEDULES:
                self.expect(["exec", "image", "--schedule", schedule])
            self.expect(["time", *build], None, TIMED)
            self.expect(["run", *build, "--schedule", "seed:7", "--trace", "trace"])
            status, output, _ = self.call("check-trace", *build, "--trace", "trace")
            self.tried += 1
            if status != 0 or not CHECKED.fullmatch(output):
                self.faults.append(f"check-trace: status {status}, {output!r}")

    def try_scans(self, segments):
        """Each way to scan the program; a run writes the last number of each line."""
        for count in segments:
            for schedule in SCHEDULES:
                words = [str(self.program), "--segments", count, "--schedule", schedule]
                self.expect(["scan", *words])
        lasts = [line.split()[-1] + b"\n" for line in self.results.splitlines()]
        self.results = b"".join(lasts)

    def try_text(self):
        """The canonical text, once and again."""
        status, text, _ = self.call("fmt", str(self.program))
        self.tried += 1
        if status != 0:
            self.faults.append(f"fmt: status {status}")
        (self.folder / "canonical.p3l").write_bytes(text)
        self.expect(["fmt", "canonical.p3l"], text)
        self.expect(["run", "canonical.p3l", "--processors", "16"])


def main():
    if len(sys.argv) != 2:
        sys.exit(__doc__.split("\n\n")[1])
    tried = failed = 0
    for program in sorted(EXAMPLES.glob("*.p3l")):
        with tempfile.TemporaryDirectory() as folder:
            example = Example(os.path.abspath(sys.argv[1]), pathlib.Path(folder), program)
            if program.stem in SCANNED:
                example.try_scans(SCANNED[program.stem])
            example.try_runs()
            example.try_text()
        tried, failed = tried + example.tried, failed + len(example.faults)
        for fault in example.faults:
            print(f"examples: {program.stem}: {fault}")
    print(f"{tried - failed} passed, {failed} failed")
    return 1 if failed or not tried else 0


if __name__ == "__main__":
    sys.exit(main())
