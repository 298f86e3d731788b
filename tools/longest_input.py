#!/usr/bin/env python3
"""The longest input: 2^36 bytes are too long, which gives status 14, and a byte less is not.

    tools/longest_input.py PATH_OF_P3L [BYTES [COMMAND..]]

Each command that reads the input, or those that are named, gets lines of blanks through a pipe;
blank lines are skipped. BYTES is the limit of a program that was made with another one. A whole run
takes many minutes, so it is no part of the gate. The last line is `N passed, M failed`.
"""

import os
import subprocess
import sys
import tempfile

LIMIT = 1 << 36
LINES = (b" " * 4095 + b"\n") * 256
DOUBLE = b"seq main in(int x) out(int y)\n${ y = x * 2 + 1; }$\nend seq\n"
COMMANDS = (["run", "m.p3l", "--processors", "4"], ["time", "m.p3l", "--processors", "4"], ["profile", "m.p3l"])


def feed(stream, count):
    """Writes so many bytes, as far as they are taken."""
    try:
        for _ in range(count // len(LINES)):
            stream.write(LINES)
        stream.write(LINES[: count % len(LINES)])
    except BrokenPipeError:
        pass
    stream.close()


def end_on(program, words, folder, count):
    """Status and lines of a command on so many bytes."""
    with tempfile.TemporaryFile() as lines:
        how = {"stdin": subprocess.PIPE, "stdout": subprocess.DEVNULL, "stderr": lines, "bufsize": 0}
        child = subprocess.Popen([program, *words], cwd=folder, **how)
        feed(child.stdin, count)
        status = child.wait()
        lines.seek(0)
        return status, lines.read()


def main():
    program, limit = os.path.abspath(sys.argv[1]), int(sys.argv[2]) if len(sys.argv) > 2 else LIMIT
    passed = failed = 0
    with tempfile.TemporaryDirectory() as folder:
        with open(f"{folder}/m.p3l", "wb") as file:
            file.write(DOUBLE)
        for words in (words for words in COMMANDS if words[0] in (sys.argv[3:] or words)):
            for count, wanted, line in ((limit - 1, 0, b""), (limit, 14, b"input too long\n")):
                status, lines = end_on(program, words, folder, count)
                if status == wanted and lines.endswith(line):
                    passed += 1
                else:
                    failed += 1
                    print(f"{words[0]}, {count} bytes: {status} {lines}, and not {wanted} {line}", flush=True)
    print(f"{passed} passed, {failed} failed")
    return int(failed > 0)


sys.exit(main())
