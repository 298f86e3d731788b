#!/usr/bin/env python3
"""The edge: what the built program does with words, files and streams of the operating system,
which no proof sees.

    tools/edge.py PATH_OF_P3L

Each case is a command line with what it is given, and the status, the standard output and the lines
of standard error that docs/COMMANDS.md says. Then come real pipes, read piece by piece and line by
line, terminals, full disks and closed pipes, a directory in the place of a file, bytes that aren't
UTF-8, and no memory for the words; and the calls of the system are counted that read a file and
write results. The last line is `N passed, M failed`.
"""

import fcntl
import os
import pty
import re
import resource
import shutil
import signal
import struct
import subprocess
import sys
import tempfile
import termios
import time

DOUBLE = b"seq main in(int x) out(int y)\n${ y = x * 2 + 1; }$\nend seq\n"
DOUBLE_TEXT = b"seq main in(int x) out(int y)\n${\n  y = x * 2 + 1;\n}$\nend seq\n"
DIVISION = b"seq main in(int x) out(int y)\n${ y = 100 / x; }$\nend seq\n"
FARM = b"""seq f in(int x) out(int y) ${ y = x + 1; }$ end seq
farm main in(int x) out(int y) workers 3 f in(x) out(y) end farm"""
RUN = ["run", "m.p3l", "--processors", "4"]
STATS = "stats: items {0}, fired {1}, idle 0, bound {1}\n"
USAGE = "usage: the words are not a command of p3l\n"
WRITE_FAULT = "write fault\n"
FULL, SECONDS = "/dev/full", 120
VERSION = re.compile(rb"p3l \d+\.\d+\.\d+\n(proved by rattle, logic [0-9a-f]{16}|not proved)\n")
FILES = {
    "m.p3l": DOUBLE,
    "d.p3l": DIVISION,
    "w.p3l": FARM,
    "bad.p3l": b"seq main in(int 1x)",
    "latin.p3l": b"// caf\xe9\n" + DOUBLE,
    "byte.p3l": b"seq \xff",
    "latin.toml": b"default = 1 # caf\xe9\n",
    "picks": b"0 2 1\n",
    "bad.picks": b"0\n\xff\n",
    "short.picks": b"0 2 0 1\n",
    "wide.p3l": DOUBLE.rjust(1_048_576),
    "long.p3l": b" " * (1_048_576 + 1),
    "bad.image": b"P3LIx",
}

# The words, the input, and what ends them: the status, the output and the lines. A text that isn't
# given isn't compared.
WORDS = [
    ([], b"", 2, "", USAGE),
    (["walk"], b"", 2, "", USAGE),
    (["run", "m.p3l"], b"", 2, "", USAGE),
    ([*RUN, "--stats", "--stats"], b"1\n", 2, "", USAGE),
    (["run", "m.p3l", "--processors", "513"], b"1\n", 2, "", USAGE),
    (["--help"], b"", 0, None, ""),
    (["run", "-h"], b"", 0, None, ""),
    (RUN, b"1\n2\n-3\n", 0, "3\n5\n-5\n", ""),
    ([*RUN, "--stats"], b"1\n2\n-3\n", 0, "3\n5\n-5\n", STATS.format(3, 9)),
    (RUN, b"", 0, "", ""),
    ([*RUN, "--schedule", "seed:7", "--capacity", "1024"], b"1\n\n 2\t\r\n3", 0, "3\n5\n7\n", ""),
    ([*RUN, "--schedule", "file:picks"], b"1\n", 0, "3\n", ""),
    ([*RUN, "--schedule", "file:short.picks"], b"1\n2\n3\n", 1, "3\n",
     "stopped: 4 fired, 0 idle\n"),
    (["check", "bad.p3l"], b"", 3, "", "source: 1:17: 2 BadToken\n"),
    (["check", "w.p3l"], b"", 0, "ok: 2 modules, 2 instances\n", ""),
    (["fmt", "m.p3l"], b"", 0, DOUBLE_TEXT.decode(), ""),
    (["run", "w.p3l", "--processors", "4"], b"1\n", 5, "", "too few processors: need 5\n"),
    (RUN, b"1\nx\n", 6, "3\n", "stream: line 2: 100 BadWord\n"),
    (RUN, b"1\n2 3\n", 6, "3\n", "stream: line 2: 101 WrongCount 2\n"),
    (RUN, b"9223372036854775808\n", 6, "", "stream: line 1: 102 OutOfRange\n"),
    (["run", "d.p3l", "--processors", "4"], b"5\n0\n2\n", 7, "20\n",
     "trap: item 2: division by zero in main\n"),
    (["run", "none.p3l", "--processors", "4"], b"1\n", 9, "", "file fault: none.p3l\n"),
    (["fmt", "long.p3l"], b"", 9, "", "file too long: long.p3l\n"),
    ([*RUN, "--schedule", "file:none"], b"1\n", 9, "", "file fault: none\n"),
    (["exec", "bad.image"], b"1\n", 13, "", "evidence: 82 Short 4\n"),
    (["explain", "m.p3l", "--processors", "4"], b"", 0,
     "processors 4 used 1 service 122\n0 seq main procs 1 service 122\n", ""),
]

# Directories in the place of files, and bytes that are no text.
ODD = [
    (["check", "."], b"", 9, "", "file fault: .\n"),
    (["exec", "."], b"", 9, "", "file fault: .\n"),
    (["explain", "m.p3l", *RUN[2:], "--costs", "."], b"", 9, "", "file fault: .\n"),
    ([*RUN, "--schedule", "file:."], b"1\n", 9, "", "file fault: .\n"),
    (["compile", "m.p3l", "--processors", "4", "--output", "."], b"", 10, "", WRITE_FAULT),
    (["compile", "m.p3l", *RUN[2:], "--output", "none/image"], b"", 10, "", WRITE_FAULT),
    (["compile", "m.p3l", "--processors", "4", "--output", FULL], b"", 10, "", WRITE_FAULT),
    (["export", "m.p3l", *RUN[2:], "--output", "none/m.c"], b"", 10, "", WRITE_FAULT),
    ([*RUN, "--trace", "."], b"1\n", 10, "3\n", WRITE_FAULT),
    ([*RUN, "--trace", FULL], b"1\n", 10, "3\n", WRITE_FAULT),
    (["gen", "7", *RUN[2:], "--items", "1", "--save", "none/seven"], b"", 10, "", WRITE_FAULT),
    (["check", b"m\xff.p3l"], b"", 2, "", USAGE),
    ([b"\xff"], b"", 2, "", USAGE),
    (["check", "latin.p3l"], b"", 0, "ok: 1 modules, 1 instances\n", ""),
    (["check", "byte.p3l"], b"", 3, "", "source: 1:5: 1 BadByte\n"),
    (["explain", "m.p3l", *RUN[2:], "--costs", "latin.toml"], b"", 4, "", "costs: 50 NotToml\n"),
    ([*RUN, "--schedule", "file:bad.picks"], b"1\n", 12, "", "schedule: line 2: 95 BadPick\n"),
    (RUN, b"1\n\xff\n", 6, "3\n", "stream: line 2: 100 BadWord\n"),
]

# What is made is read again: the words of each step, its input and how it ends.
COURSE = [
    (["compile", "m.p3l", "--processors", "4", "--output", "image"], b"", 0, "", ""),
    (["exec", "image", "--stats"], b"1\n2\n-3\n", 0, "3\n5\n-5\n", STATS.format(3, 9)),
    (["explain", "m.p3l", "--processors", "4", "--cert", "cert"], b"", 0, None, ""),
    (["verify-cert", "m.p3l", "--cert", "cert"], b"", 0,
     "certificate holds: processors 4 used 1 service 122\n", ""),
    ([*RUN, "--trace", "trace"], b"1\n", 0, "3\n", ""),
    (["check-trace", *RUN[1:], "--trace", "trace"], b"1\n", 0,
     "trace holds: 3 fired, 0 idle\n", ""),
    (["check-trace", *RUN[1:], "--trace", "trace"], b"", 13, "", "evidence: 111 Differs 2\n"),
]


class Edge:
    """The program in a folder of files, with how many cases passed and failed."""

    def __init__(self, binary, folder):
        self.binary, self.folder, self.passed, self.failed = binary, folder, 0, 0

    def expect(self, name, found, wanted):
        """Compares what a case came to; where nothing is wanted of a part, it isn't compared."""
        if not isinstance(wanted, tuple):
            found, wanted = (found,), (wanted,)
        if all(want is None or have == want for have, want in zip(found, wanted)):
            self.passed += 1
        else:
            self.failed += 1
            print(f"edge: {name}: found {found!r}, and not {wanted!r}")

    def put(self, name, data):
        with open(f"{self.folder}/{name}", "wb") as file:
            file.write(data)

    def get(self, name):
        with open(f"{self.folder}/{name}", "rb") as file:
            return file.read()

    def start(self, words, **streams):
        return subprocess.Popen([self.binary, *words], cwd=self.folder, **streams)

    def run(self, words, stream=b"", out=subprocess.PIPE, err=subprocess.PIPE):
        """Status, output and lines of a run on these bytes."""
        child = self.start(words, stdin=subprocess.PIPE, stdout=out, stderr=err)
        output, lines = child.communicate(stream, timeout=SECONDS)
        return child.returncode, output, lines

    def try_words(self, cases):
        for words, stream, status, output, lines in cases:
            wanted = status, None if output is None else output.encode(), lines.encode()
            self.expect(words, self.run(words, stream), wanted)


def try_full(edge):
    """A full disk in the place of standard output, of standard error, and of both."""
    with open(FULL, "wb") as full:
        explain = ["explain", *RUN[1:]]
        for words in (RUN, ["fmt", "m.p3l"], ["check", "m.p3l"], ["--help"], explain):
            status, _, lines = edge.run(words, b"1\n", out=full)
            edge.expect(("full output", words), (status, lines), (10, WRITE_FAULT.encode()))
        for words, stream, wanted in (
            (RUN, b"1\nx\n", (6, b"3\n")),
            ([*RUN, "--stats"], b"1\n", (0, b"3\n")),
            (["walk"], b"", (2, b"")),
        ):
            edge.expect(("full error", words), edge.run(words, stream, err=full)[:2], wanted)
        edge.expect("both are full", edge.run(RUN, b"1\n", out=full, err=full)[:1], (10,))
        for stream in (b"1\nx\n", b"1\n" * 50_000):
            status, _, lines = edge.run([*RUN, "--trace", "unwritten"], stream, out=full)
            found = status, lines, os.path.exists(f"{edge.folder}/unwritten")
            name = "results before a line or a file", len(stream)
            edge.expect(name, found, (10, WRITE_FAULT.encode(), False))


def try_pieces(edge):
    """An input that comes a byte at a time, and results that are read before the next item."""
    child = edge.start(RUN, stdin=subprocess.PIPE, stdout=subprocess.PIPE, stderr=subprocess.PIPE)
    for byte in b"1\n2\n-3\n":
        child.stdin.write(bytes([byte]))
        child.stdin.flush()
    output, lines = child.communicate(timeout=SECONDS)
    edge.expect("byte by byte", (child.returncode, output, lines), (0, b"3\n5\n-5\n", b""))
    # Without a buffer of Python's, in which what is read ahead of the first line would be lost.
    child = edge.start(RUN, stdin=subprocess.PIPE, stdout=subprocess.PIPE, bufsize=0)
    child.stdin.write(b"".join(b"%d\n" % item for item in range(5000)))
    child.stdin.flush()
    first = child.stdout.readline()
    rest, _ = child.communicate(timeout=SECONDS)
    whole = b"".join(b"%d\n" % (2 * item + 1) for item in range(5000))
    edge.expect("a result before the end", (child.returncode, first + rest), (0, whole))


def try_pipes(edge):
    """Two programs one after the other, an output that is closed, and an input that is none."""
    first = edge.start(RUN, stdin=subprocess.PIPE, stdout=subprocess.PIPE)
    second = edge.start(RUN, stdin=first.stdout, stdout=subprocess.PIPE)
    first.stdout.close()
    first.stdin.write(b"1\n2\n")
    first.stdin.close()
    output, _ = second.communicate(timeout=SECONDS)
    found = first.wait(SECONDS), second.returncode, output
    edge.expect("two in a pipe", found, (0, 0, b"7\n11\n"))
    pipes = {"stdin": subprocess.PIPE, "stdout": subprocess.PIPE, "stderr": subprocess.PIPE}
    child = edge.start(RUN, **pipes, bufsize=0)
    child.stdin.write(b"1\n2\n3\n")
    first = child.stdout.readline()
    child.stdout.close()
    child.stdin.write(b"4\n5\n6\n")
    child.stdin.close()
    status, lines = child.wait(SECONDS), child.stderr.read()
    child.stderr.close()
    wanted = b"3\n", 10, WRITE_FAULT.encode()
    edge.expect("a pipe that is closed after a result", (first, status, lines), wanted)
    reader, writer = os.pipe()
    os.close(reader)
    status, _, lines = edge.run(RUN, b"1\n", out=writer)
    os.close(writer)
    edge.expect("a pipe that nobody reads", (status, lines), (10, WRITE_FAULT.encode()))
    folder = os.open(edge.folder, os.O_RDONLY)
    child = edge.start(RUN, stdin=folder, stdout=subprocess.PIPE, stderr=subprocess.PIPE)
    output, lines = child.communicate(timeout=SECONDS)
    os.close(folder)
    found = child.returncode, output, lines
    edge.expect("a directory for an input", found, (8, b"", b"read fault\n"))


def try_left(edge):
    """What refused commands leave of files that they would write."""
    with open(f"{edge.folder}/kept", "wb") as file:
        file.write(b"kept")
    for words in (
        ["compile", "bad.p3l", "--processors", "4", "--output", "kept"],
        ["export", "bad.p3l", "--processors", "4", "--output", "kept"],
        ["explain", "w.p3l", "--processors", "4", "--cert", "kept"],
        ["run", "bad.p3l", "--processors", "4", "--trace", "kept"],
    ):
        edge.run(words, b"1\n")
        with open(f"{edge.folder}/kept", "rb") as file:
            edge.expect(("left as it was", words), (file.read(),), (b"kept",))


def calls_of(child, which):
    """How many calls of the system a program that waits for input has made: `syscr` that read,
    `syscw` that write."""
    ends = time.monotonic() + SECONDS
    while state_of(child) != "S" and time.monotonic() < ends:
        time.sleep(0.01)
    with open(f"/proc/{child.pid}/io") as counts:
        return int(next(line for line in counts if line.startswith(which)).split()[1])


def state_of(child):
    """The letter of a process's state: S where it sleeps, as in a call that reads."""
    with open(f"/proc/{child.pid}/stat") as fields:
        return fields.read().rpartition(")")[2].split()[0]


def try_calls(edge):
    """A file of 1 MiB is read by at most 100 calls; items given at once are read by one, and their
    results written by one."""
    if not os.access("/proc/self/io", os.R_OK):
        print("edge: this system doesn't count calls, so they aren't compared")
        return
    pipes = {"stdin": subprocess.PIPE, "stdout": subprocess.PIPE}
    child = edge.start(["run", "wide.p3l", *RUN[2:]], **pipes)
    # A result comes out once the source's inbox holds the item after the next one.
    child.stdin.write(b"1\n2\n3\n")
    child.stdin.flush()
    first = child.stdout.readline()
    edge.expect("few calls for a file", (first, calls_of(child, "syscr") <= 100), (b"3\n", True))
    before = [calls_of(child, which) for which in ("syscr", "syscw")]
    child.stdin.write(b"20\n300\n4000\n")
    child.stdin.flush()
    lines = [child.stdout.readline() for _ in range(3)]
    made = [calls_of(child, which) - was for which, was in zip(("syscr", "syscw"), before)]
    wanted = [b"5\n", b"7\n", b"41\n"], [1, 1]
    edge.expect("a call for what comes at once", (lines, made), wanted)
    child.communicate(timeout=SECONDS)


def limit_memory(limit):
    resource.setrlimit(resource.RLIMIT_AS, (limit, limit))


def try_no_memory(edge):
    """Megabytes of words, with more and more memory: the program doesn't start, has no memory for
    them, or takes them. One that `rt try` made doesn't start under a limit, but its sanitizer
    refuses what takes more than a megabyte; no other program has this option."""
    ended = set()

    def note(words, **how):
        done = subprocess.run([edge.binary, *words], capture_output=True, timeout=SECONDS, **how)
        if 0 <= done.returncode <= 14 and b"AddressSanitizer: CHECK failed" not in done.stderr:
            last = done.stderr[done.stderr.rfind(b"\n", 0, -1) + 1 :]
            ended.add((done.returncode, done.stdout, last))

    for limit in range(1 << 20, 64 << 20, 1 << 18):
        try:
            note(["w" * 100_000] * 19, preexec_fn=lambda: limit_memory(limit))
        except OSError:
            continue
    note(["w" * 10] * 60_000)
    limits = "allocator_may_return_null=1:max_allocation_size_mb=1"
    note(["w" * 10] * 60_000, env={**os.environ, "ASAN_OPTIONS": limits})
    wanted = {(2, b"", USAGE.encode()), (11, b"", b"no memory\n")}
    edge.expect("no memory for the words", (ended,), (wanted,))


def try_version(edge):
    """The version, which says what the program is proved by, or that it isn't."""
    status, output, lines = edge.run(["--version"])
    edge.expect("the version", (status, bool(VERSION.fullmatch(output)), lines), (0, True, b""))


class Terminal:
    """The inner end of a terminal, for a stream of a program, and what was written to it."""

    def __init__(self):
        self.outer, self.inner = pty.openpty()

    def written(self):
        """What was written until the program closed it, with the line ends that it wrote."""
        os.close(self.inner)
        said = b""
        try:
            while piece := os.read(self.outer, 65536):
                said += piece
        except OSError:
            # a terminal that nobody has open any more ends so
            pass
        os.close(self.outer)
        return said.replace(b"\r\n", b"\n")


def on_terminal(edge, words, stream=b"", **env):
    """Status, output and lines of a run whose standard error is a terminal."""
    terminal = Terminal()
    how = {"stdin": subprocess.PIPE, "stdout": subprocess.PIPE, "stderr": terminal.inner}
    how["env"] = {**os.environ, **env}
    child = edge.start(words, **how)
    output, _ = child.communicate(stream, timeout=SECONDS)
    return child.returncode, output, terminal.written()


def try_terminals(edge):
    """The lines of a terminal begin with those of a pipe; with short messages they are the same."""
    for words, stream, status, output, lines in (*WORDS, *ODD):
        found = on_terminal(edge, words, stream)
        wanted = status, None if output is None else output.encode(), True
        is_front = found[2].startswith(lines.encode())
        edge.expect(("on a terminal", words), (*found[:2], is_front), wanted)
        found = on_terminal(edge, words, stream, P3L_MESSAGES="short")
        edge.expect(("short on a terminal", words), found, (*wanted[:2], lines.encode()))


# Names that would steer a terminal, and how one shows them.
STEERING = [
    (b"a\x1b[31m.p3l", b"a\\x1b[31m.p3l"),
    (b"a\rb.p3l", b"a\\x0db.p3l"),
    (b"a\x07\x7f.p3l", b"a\\x07\\x7f.p3l"),
    (b"a\nb.p3l", b"a\\x0ab.p3l"),
    (b"a\xc2\x9b31m.p3l", b"a\\xc2\\x9b31m.p3l"),
    (b"a\xe2\x80\xaeb.p3l", b"a\\xe2\\x80\\xaeb.p3l"),
    (b"a\xe2\x81\xa6b.p3l", b"a\\xe2\\x81\\xa6b.p3l"),
    ("pr\u00e9nom.p3l".encode(), "pr\u00e9nom.p3l".encode()),
]
RAW = re.compile(rb"[\x00-\x09\x0b-\x1f\x7f]|\xc2[\x80-\x9f]|\xe2\x80[\x8e\x8f\xaa-\xae]"
                 rb"|\xe2\x81[\xa6-\xa9]")
KINDS = ({"NO_COLOR": "1"}, {"P3L_MESSAGES": "short"}, {"P3L_MESSAGES": "long", "NO_COLOR": "1"})
MOST_KEY, KEY = 200, b"k" * 5000


def first_line(lines):
    return lines.partition(b"\n")[0]


def try_steering(edge):
    """Nothing that would steer a terminal is written to one; elsewhere each name is exact."""
    for name, shown in STEERING:
        line = b"file fault: " + name + b"\n"
        edge.expect(("in a pipe", name), edge.run(["check", name]), (9, b"", line))
        for env in KINDS:
            status, output, lines = on_terminal(edge, ["check", name], **env)
            found = status, output, first_line(lines), RAW.search(lines)
            edge.expect(("on a terminal", name, env), found, (9, b"", line[:12] + shown, None))


# Texts of programs with bytes that would steer a terminal.
STEERING_TEXTS = [b"seq \0", b"seq \x1b[31m", b"seq\r\n\x07\r\n", b"seq \xc2\x9b"]
STEERING_TEXTS += [b"seq \xe2\x80\xae"]


def try_long_steering(edge):
    """Long messages show neither words nor texts so that they would steer a terminal."""
    bare = {"P3L_MESSAGES": "long", "NO_COLOR": "1"}
    for name, _ in STEERING:
        written = ["compile", *RUN[1:], "--output", b"none/" + name]
        for words, status in ([name], 2), (["help", name], 2), (written, 10):
            found = on_terminal(edge, words, **bare)
            found = found[0], RAW.search(found[2])
            edge.expect(("long, on a terminal", words), found, (status, None))
    for text in STEERING_TEXTS:
        edge.put("odd.p3l", text)
        found = on_terminal(edge, ["check", "odd.p3l"], **bare)
        found = found[0], RAW.search(found[2])
        edge.expect(("a text on a terminal", text), found, (3, None))


def try_keys(edge):
    """A key of costs that would steer a terminal, and one that is very long."""
    words = ["explain", *RUN[1:], "--costs", "odd.toml"]
    for key, shown in (b"a\x1b[31m", b"a\\x1b[31m"), (b"a\xc2\x9b", b"a\\xc2\\x9b"):
        spelled = key.decode().replace("\x1b", "\\u001b").replace("\x9b", "\\u009b")
        edge.put("odd.toml", f'"{spelled}" = 1\n'.encode())
        front = b"costs: 51 BadKey "
        edge.expect(("a key in a pipe", key), edge.run(words)[2], front + key + b"\n")
        for env in KINDS:
            status, _, lines = on_terminal(edge, words, **env)
            found = status, first_line(lines), RAW.search(lines)
            edge.expect(("a key on a terminal", key, env), found, (4, front + shown, None))
    edge.put("odd.toml", KEY + b" = 1\n")
    edge.expect("a long key in a pipe", edge.run(words)[2], b"costs: 51 BadKey " + KEY + b"\n")
    for env in KINDS:
        lines = on_terminal(edge, words, **env)[2]
        longest = max(map(len, re.findall(b"k+", lines)))
        edge.expect(("a long key on a terminal", env), longest, MOST_KEY)


def try_long_messages(edge):
    """Long messages come on a terminal, or where they are asked for; nowhere else."""
    words, line = ["check", "bad.p3l"], b"source: 1:17: 2 BadToken\n"
    edge.expect("a pipe has a line", edge.run(words), (3, b"", line))
    found = on_terminal(edge, words)[2]
    edge.expect("a terminal has more", (found[: len(line)], len(found) > len(line)), (line, True))
    edge.expect("a terminal has colour", b"\x1b[" in found, True)
    bare = on_terminal(edge, words, NO_COLOR="1")[2]
    edge.expect("a terminal without colour", bare, re.sub(rb"\x1b\[[0-9;]*m", b"", found))
    for kind, wanted in (("long", bare), ("short", line), ("", line), ("loud", line)):
        env = {"env": {**os.environ, "P3L_MESSAGES": kind}}
        how = {"cwd": edge.folder, "capture_output": True, "timeout": SECONDS}
        done = subprocess.run([edge.binary, *words], **how, **env)
        edge.expect(("in a pipe", kind), (done.returncode, done.stderr), (3, wanted))
    for kind, wanted in (("short", line), ("loud", found), ("", found)):
        said = on_terminal(edge, words, P3L_MESSAGES=kind)[2]
        edge.expect(("on a terminal", kind), said, wanted)
    edge.expect("a run that is done", on_terminal(edge, RUN, b"1\n"), (0, b"3\n", b""))


def try_reads_only(edge):
    """A long message writes nothing, and reads no more of the input."""
    before = {name: edge.get(name) for name in FILES}
    env = {"env": {**os.environ, "P3L_MESSAGES": "long"}}
    for words, stream, status, output, _ in (*WORDS, *ODD):
        how = {"cwd": edge.folder, "input": stream, "capture_output": True, "timeout": SECONDS}
        done = subprocess.run([edge.binary, *words], **how, **env)
        wanted = status, done.stdout if output is None else output.encode()
        edge.expect(("with a long message", words), (done.returncode, done.stdout), wanted)
    edge.expect("files after long messages", {name: edge.get(name) for name in FILES}, before)


# A long line: what is said again and again, what ends it, and how the run ends.
LONG_LINES = [
    (b" ", b"\n5\n", 0, b"11\n", b""),
    (b"1 ", b"\n5\n", 6, b"", b"stream: line 1: 101 WrongCount %d\n"),
    (b"0", b"7\n", 0, b"15\n", b""),
    (b"9", b"\n", 6, b"", b"stream: line 1: 102 OutOfRange\n"),
    (b"x", b"\n", 6, b"", b"stream: line 1: 100 BadWord\n"),
]
CHUNK, LONG_LINE, MOST_GROWTH = 1 << 16, 1 << 26, 1 << 20
PIPES = {"stdin": subprocess.PIPE, "stdout": subprocess.PIPE, "stderr": subprocess.PIPE}


def wait_until_read(pipe):
    """Waits until all that was written to a pipe is read."""
    end = time.monotonic() + SECONDS
    while struct.unpack("i", fcntl.ioctl(pipe, termios.FIONREAD, bytes(4)))[0]:
        if time.monotonic() > end:
            raise subprocess.TimeoutExpired("reading a line", SECONDS)
        time.sleep(0.001)


def most_memory(child):
    """The most bytes of memory that a process had that has not ended."""
    with open(f"/proc/{child.pid}/status") as status:
        return next(int(line.split()[1]) * 1024 for line in status if line.startswith("VmHWM"))


def run_on_line(edge, piece, size, end):
    """How a run ends on a line of this size, and the most bytes that it had before the line's end.

    A line is refused at its end, so the run has not ended when its memory is read.
    """
    child = edge.start(RUN, **PIPES)
    for _ in range(size // CHUNK):
        child.stdin.write(piece * (CHUNK // len(piece)))
    child.stdin.flush()
    wait_until_read(child.stdin)
    most = most_memory(child)
    output, lines = child.communicate(end, timeout=SECONDS)
    return (child.returncode, output, lines), most


def try_long_lines(edge):
    """Memory doesn't grow with a line, and the run ends on it as it should."""
    for piece, end, status, output, lines in LONG_LINES:
        _, usual = run_on_line(edge, piece, CHUNK, end)
        found, most = run_on_line(edge, piece, LONG_LINE, end)
        if b"%d" in lines:
            lines = lines % (LONG_LINE // len(piece))
        edge.expect(("a long line", piece), found, (status, output, lines))
        what = "memory for a long line", piece, usual, most
        edge.expect(what, most - usual < MOST_GROWTH, True)


ATTEMPTS = [try_version, try_full, try_pieces, try_pipes, try_terminals, try_left, try_calls]
ATTEMPTS += [try_steering, try_long_steering, try_keys, try_long_messages, try_reads_only]
ATTEMPTS += [try_long_lines, try_no_memory]


def main():
    if len(sys.argv) != 2:
        sys.exit("usage: tools/edge.py PATH_OF_P3L")
    signal.signal(signal.SIGPIPE, signal.SIG_IGN)
    folder = tempfile.mkdtemp()
    try:
        for name, data in FILES.items():
            with open(f"{folder}/{name}", "wb") as file:
                file.write(data)
        edge = Edge(os.path.abspath(sys.argv[1]), folder)
        for cases in (WORDS, ODD, COURSE):
            edge.try_words(cases)
        for attempt in ATTEMPTS:
            try:
                attempt(edge)
            except (OSError, subprocess.TimeoutExpired) as fault:
                edge.expect(attempt.__name__, (repr(fault),), ("no fault",))
    finally:
        shutil.rmtree(folder)
    print(f"{edge.passed} passed, {edge.failed} failed")
    return int(edge.failed > 0)


if __name__ == "__main__":
    sys.exit(main())
