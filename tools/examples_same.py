#!/usr/bin/env python3
"""The examples: that each is whole, and that the tests hold the texts of their files.

    tools/examples_same.py

Each example has a program NAME.p3l, an input NAME.txt and the results NAME.out, which were worked out
without the program. A text of crates/p3l_program_tests/src/examples/texts.rt must be that of its file
in examples/, byte for byte. An example may be left out there: tools/examples.py runs all of them.
"""

import pathlib
import sys

ROOT = pathlib.Path(__file__).resolve().parent.parent
EXAMPLES = ROOT / "examples"
TEXTS = ROOT / "crates/p3l_program_tests/src/examples/texts.rt"
KINDS = (".p3l", ".txt", ".out")


def text_of(lines):
    """The text that lines spell: each begins with a mark and a blank."""
    return "".join(f"{line[2:]}\n" for line in lines if line.startswith("|"))


def differing_texts():
    """Each text of the tests that isn't that of its file."""
    for part in TEXTS.read_bytes().decode().split("\ntext ")[1:]:
        name, *lines = part.split("\n\n")[0].split("\n")
        file = EXAMPLES / name
        if not file.exists() or file.read_bytes() != text_of(lines).encode():
            yield f"{name} differs from the text of the tests"


def missing_files():
    """Each file that an example lacks, and each that belongs to none."""
    files = list(EXAMPLES.iterdir())
    yield from (f"{file.name} belongs to no example" for file in files if file.suffix not in KINDS)
    for name in sorted({file.stem for file in files}):
        lacked = [f"{name}{kind}" for kind in KINDS if not (EXAMPLES / f"{name}{kind}").exists()]
        yield from (f"{file} is missing" for file in lacked)


def main():
    faults = [*differing_texts(), *missing_files()]
    for fault in faults:
        print(f"examples_same: {fault}")
    count = len(list(EXAMPLES.glob("*.p3l")))
    print(f"examples_same: {count} examples, {len(faults)} faults")
    return 1 if faults or not count else 0


if __name__ == "__main__":
    sys.exit(main())
