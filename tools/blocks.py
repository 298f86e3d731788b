#!/usr/bin/env python3
"""Sessions in texts: runs each command that README.md, the files of docs/ and the pages of numbers
show, and compares what it writes.

    tools/blocks.py PATH-OF-P3L [--mend] [FILE..]       these files, or all of them and the pages
    tools/blocks.py PATH-OF-P3L --pages                 the pages alone

A session is a block of lines, in a fence or four spaces to the right: `$ ` begins a command, `> `
goes on with it, and the lines after it are what it writes to standard output and standard error.
The sessions of a file run in one shell, in a folder of their own with a copy of examples/, in their
order; each page in a new one. With --mend the files get what the commands wrote.
"""

import argparse
import os
import pathlib
import re
import shutil
import subprocess
import sys
import tempfile

ROOT = pathlib.Path(__file__).resolve().parent.parent
MARK = "\x01"
SECONDS = 600
NUMBER = re.compile(r"\| (\d+) \| \w+ (?=\|)")


class Command:
    """A command of a session, with the lines that show it and those that it shall write."""

    def __init__(self, indent, line):
        self.indent, self.shown = indent, [line]
        self.text, self.expected = [line[len(indent) + 2 :]], []

    def goes_on(self, body):
        """Whether a line goes on with the command."""
        return not self.expected and (body == ">" or body.startswith("> "))


def pieces_of(text):
    """The lines of a text and its commands, in their order."""
    pieces, command, fenced = [], None, False
    for line in text.split("\n"):
        fence = line.startswith("```")
        fenced = fenced != fence
        indent = "" if fenced else "    "
        body = line[len(indent) :] if line.startswith(indent) else None
        if body is not None and body.startswith("$ ") and not fence:
            command = Command(indent, line)
            pieces.append(command)
        elif command and not fence and body is not None and command.goes_on(body):
            command.shown.append(line)
            command.text.append(body[2:])
        elif command and not fence and body is not None:
            command.expected.append(body)
        else:
            command = None
            pieces.append(line)
    return pieces


def run_all(commands, program):
    """What each command writes, run in one shell in a folder of their own."""
    script = "".join("\n".join(it.text) + f"\nprintf '{MARK}'\n" for it in commands)
    with tempfile.TemporaryDirectory(prefix="p3l-blocks-") as folder:
        shutil.copytree(ROOT / "examples", f"{folder}/examples")
        (pathlib.Path(folder) / ".bin").mkdir()
        os.symlink(program, f"{folder}/.bin/p3l")
        env = {**os.environ, "PATH": f"{folder}/.bin:{os.environ['PATH']}", "LC_ALL": "C"}
        how = {"stdin": subprocess.DEVNULL, "stdout": subprocess.PIPE, "stderr": subprocess.STDOUT}
        how |= {"cwd": folder, "env": env, "timeout": SECONDS}
        shell = subprocess.run(["bash", "-c", script], **how)
    return shell.stdout.decode(errors="replace").split(MARK)


def lines_of(output):
    return output.removesuffix("\n").split("\n") if output else []


def compare(name, text, program):
    """The text with what its commands wrote in the place of what it says; prints what differs."""
    pieces = pieces_of(text)
    commands = [it for it in pieces if isinstance(it, Command)]
    wrong = 0
    for command, output in zip(commands, run_all(commands, program) if commands else []):
        wrote = lines_of(output)
        if wrote != command.expected:
            wrong += 1
            print(f"blocks: {name}: {command.text[0]}")
            print("\n".join(f"  - {line}" for line in command.expected))
            print("\n".join(f"  + {line}" for line in wrote))
        command.expected = wrote
    lines = []
    for it in pieces:
        if isinstance(it, Command):
            lines += it.shown + [it.indent + line for line in it.expected]
        else:
            lines.append(it)
    return "\n".join(lines), len(commands), wrong


def pages(program):
    """The page of each number that docs/COMMANDS.md has."""
    table = (ROOT / "docs/COMMANDS.md").read_text().partition("## Numbers and names")[2]
    for number in sorted(NUMBER.findall(table), key=int):
        ran = subprocess.run([program, "help", number], capture_output=True, text=True)
        missing = f"    $ p3l help {number}\n"
        yield f"help {number}", missing if ran.returncode else ran.stdout


def main():
    words = argparse.ArgumentParser(description=__doc__.split("\n")[0])
    words.add_argument("program", type=lambda path: str(pathlib.Path(path).resolve()))
    words.add_argument("--mend", action="store_true")
    words.add_argument("--pages", action="store_true")
    words.add_argument("files", nargs="*", type=pathlib.Path)
    given = words.parse_intermixed_args()
    files = given.files or [ROOT / "README.md", *sorted((ROOT / "docs").glob("*.md"))]
    files = [] if given.pages else files
    count = wrong = 0
    for file in files:
        text = file.read_text()
        mended, ran, differ = compare(file.name, text, given.program)
        count, wrong = count + ran, wrong + differ
        if given.mend and mended != text:
            file.write_text(mended)
    for name, text in [] if given.files else pages(given.program):
        _, ran, differ = compare(name, text, given.program)
        count, wrong = count + ran, wrong + differ
    print(f"blocks: {count} commands, {wrong} differ")
    return 1 if wrong or not count else 0


if __name__ == "__main__":
    sys.exit(main())
