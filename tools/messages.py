#!/usr/bin/env python3
"""Long messages: each refusal with the whole text that a person gets, as tools/messages.txt has it.

    tools/messages.py PATH_OF_P3L [--mend]

The file has a section for each number of refusal, and for refusals without a number. Its sessions
are run with P3L_MESSAGES=long, each section in a shell and a folder of its own, and what they write
is compared. Without that variable the same sessions write the lines that a script reads: of each
message the first ones, as far as docs/COMMANDS.md says them. With --mend the file gets what the
commands wrote. The last line is `N passed, M failed`.
"""

import argparse
import os
import pathlib
import re
import sys

import blocks
from help_pages import Help

FILE = pathlib.Path(__file__).resolve().parent / "messages.txt"
SECTION = re.compile(r"^(?=## )", re.M)
NUMBERED = re.compile(r"## (\d+) ")
# The lines that a script reads.
SHORT = re.compile(
    r"usage: the words are not a command of p3l|source: \d+:\d+: \d+ \w+|costs: \d+ \w+.*"
    r"|too few processors: need \d+|stream: line \d+: \d+ \w+.*|trap: item \d+: .*|file .*: .*"
    r"|schedule: line \d+: .*|evidence: \d+ \w+.*|scan: \d+ \w+|read fault|write fault|no memory"
)


def with_messages(kind):
    """Lets the programs that are run have messages of this kind."""
    os.environ["P3L_MESSAGES"] = kind


def commands_of(section):
    return [it for it in blocks.pieces_of(section) if isinstance(it, blocks.Command)]


def shortened(section, program):
    """The commands of a section whose lines without a long message aren't the first ones of it."""
    commands = commands_of(section)
    with_messages("short")
    outputs = blocks.run_all(commands, program)
    for command, output in zip(commands, outputs):
        short, long = blocks.lines_of(output), command.expected
        if long[: len(short)] != short:
            yield f"{command.text[0]}: {short}, and then {long}"
        elif len(long) > len(short) and not any(SHORT.fullmatch(line) for line in short):
            yield f"{command.text[0]}: a message where there is no refusal"


def judge(section, program):
    """The section as the program has it, and what is wrong with it."""
    title = section.split("\n", 1)[0]
    with_messages("long")
    mended, ran, differ = blocks.compare(f"messages: {title}", section, program)
    wrong = [f"{differ} of {ran} commands differ"] if differ else []
    return mended, [*wrong, *shortened(mended, program)]


def missing(sections):
    """The numbers of refusal without a section."""
    titled = {found[1] for found in map(NUMBERED.match, sections) if found}
    return sorted(set(Help().numbers) ^ titled, key=int)


def main():
    words = argparse.ArgumentParser(description=__doc__.split("\n")[0])
    words.add_argument("program", type=lambda path: str(pathlib.Path(path).resolve()))
    words.add_argument("--mend", action="store_true")
    given = words.parse_args()
    head, *sections = SECTION.split(FILE.read_text())
    mended, failed = [head], 0
    for section in sections:
        text, wrong = judge(section, given.program)
        mended.append(text)
        failed += bool(wrong)
        for line in wrong:
            print(f"messages: {section.split(chr(10), 1)[0]}: {line}")
    for number in missing(sections):
        failed += 1
        print(f"messages: the number {number} has no section, or no page")
    if given.mend:
        FILE.write_text("".join(mended))
    print(f"{len(sections) - failed} passed, {failed} failed")
    return 1 if failed or not sections else 0


if __name__ == "__main__":
    sys.exit(main())
