#!/usr/bin/env python3
"""Exported programs beside `run`: compiled by the C compiler, on one rank and on several.

    tools/exported.py PATH_OF_P3L [--all] [NAME..]

Programs are exported, compiled under the address and undefined-behaviour sanitizers with warnings
as errors, and run on 1, 2, 3, 4 and 8 ranks. Output, status and message must be those of `run`:

- the programs of examples/, and one or more for each skeleton, each with the capacities that are
  chosen for it or with channels of 1, of 4 or of 64 tokens
- a hundred that are generated: random nests of skeletons with traps, rescues and refused lines, and
  some of `p3l gen` with their costs; each with channels of 1, of 4 and of 64 tokens

Then come the edges: pipes that are closed, full disks, empty and closed inputs, a million lines and
long lines with little memory, no memory, ranks that are killed, and each result before the next
item. Where an MPI is installed, some of it is done again over it; MPICH and Open MPI may be there
side by side. Names choose programs by a word in their names; `--all` takes many more random
programs, and all capacities for each. The last line is `N passed, M failed`.
"""

import argparse
import concurrent.futures
import os
import pathlib
import random
import shutil
import signal
import subprocess
import sys
import tempfile
import threading
import time

import c_texts

ROOT = pathlib.Path(__file__).resolve().parent.parent
EXAMPLES = ROOT / "examples"
WARNINGS = ["-std=c11", "-Wall", "-Wextra", "-Werror"]
SANITIZED = ["-g", "-fsanitize=address,undefined", "-fno-sanitize-recover=all"]
# The compiler warns of more where it optimizes, and then takes twice as long.
OPTIMIZED, PLAIN = "-O1", "-O0"
RANKS = ["1", "2", "3", "4", "8"]
CAPACITIES = ["1", "4", "64"]
SECONDS = 120
# The sanitizers make compiling slow where the machine has other work.
COMPILE_SECONDS = 600
WIDTH = 6
RANDOM_PROGRAMS, MANY_PROGRAMS = 95, 250
# Numbers of `p3l gen`, whose programs differ in a factor, and in their streams.
GENERATED = ["1", "2", "7", "40", "901"]
# Both may be installed side by side; where neither has a name of its own, there may be one MPI.
MPI = {"mpich": "mpicc.mpich", "openmpi": "mpicc.openmpi", "mpi": "mpicc"}
LAUNCHERS = {"mpich": "mpiexec.mpich", "openmpi": "mpiexec.openmpi", "mpi": "mpiexec"}
# Open MPI asks for these where it is run by root, and on more ranks than processors.
ALLOWED = ["OMPI_ALLOW_RUN_AS_ROOT", "OMPI_ALLOW_RUN_AS_ROOT_CONFIRM"]
ALLOWED += ["OMPI_MCA_rmaps_base_oversubscribe"]
ENVIRONMENT = {**os.environ, **dict.fromkeys(ALLOWED, "1")}

NUMBERS = "".join(f"{number * 7919 % 1009 - 300}\n" for number in range(400)).encode()
LISTS = "".join(
    " ".join(str((row * 31 + at * 17) % 23 - 5) for at in range(WIDTH)) + "\n" for row in range(120)
).encode()
SQUARE = "seq square in(int x) out(int y) ${ y = x * x - 7; }$ end seq\n"
PART = "seq part in(int x) out(int y) ${ y = 100000 / (x - 51); }$ end seq\n"
SAFE = """seq safe in(int x) out(int y) rescue -9223372036854775807
${ y = 100 / (x % 3); }$ end seq
"""
ADD = "seq add in(int x, int y) out(int z) ${ z = x - y * 3; }$ end seq\n"
SQUARES = SQUARE + "farm main in(int x) out(int y) square in(x) out(y) end farm"
HALVE = """seq half in(int x) out(int y) ${ y = x / 2; }$ end seq
seq more in(int x) out(int again) ${ again = x > 1; }$ end seq
"""
DOT = """seq dot in(int a[3], int b[3]) out(int c)
${ int i; for (i = 0; i < 3; i = i + 1) { c = c + a[i] * b[i]; } }$ end seq
"""

# The longest names have one letter more.
LETTERS = "n" * 63

# Programs with the words of a skeleton each: the name, the text, and the stream.
ROWS = [
    ("seq", SQUARE + "pipe main in(int x) out(int y) square in(x) out(y) end pipe", NUMBERS),
    ("seq trap", PART + "pipe main in(int x) out(int y) part in(x) out(y) end pipe",
     NUMBERS + b"51\n5\n"),
    ("seq rescue", SAFE + "farm main in(int x) out(int y) safe in(x) out(y) end farm", NUMBERS),
    ("comp rescue", SQUARE + PART + """comp both in(int x) out(int y) rescue 5
     square in(x) out(int t) part in(t) out(int u) part in(u) out(y) end comp
     farm main in(int x) out(int y) both in(x) out(y) end farm""", NUMBERS),
    ("pipe", SQUARE + SAFE + """pipe main in(int x) out(int y) square in(x) out(int s)
     safe in(s) out(int t) square in(t) out(int u) safe in(u) out(y) end pipe""", NUMBERS),
    ("farm of farms", SQUARE + """
     farm one in(int x) out(int y) workers 3 square in(x) out(y) end farm
     farm main in(int x) out(int y) workers 4 one in(x) out(y) end farm""", NUMBERS),
    ("map", DOT + """map main in(int a[3][3], int b[3][3]) out(int c[3][3]) workers 4
     dot in(a[*i][], b[][*j]) out(c[*j][*i]) end map""",
     b"".join(b" ".join(b"%d" % (k * j % 11) for k in range(18)) + b"\n" for j in range(90))),
    ("map trap", PART + f"""map main in(int a[{WIDTH}]) out(int b[{WIDTH}]) workers 4
     part in(a[*i]) out(b[*i]) end map""",
     b"\n".join(LISTS.split(b"\n")[:40]) + b"\n1 51 2 3 51 9\n1 2 3 4 5 6\n"),
    ("reduce", ADD + f"""reduce main in(int a[{WIDTH}]) out(int s) workers 4
     add in(a[*i]) out(s) end reduce""", LISTS),
    ("reduce of lists", """seq blend in(int a[3], int b[3]) out(int c[3])
     ${ int i; for (i = 0; i < 3; i = i + 1) { c[i] = a[(i + 1) % 3] - 2 * b[i]; } }$ end seq
     reduce main in(int a[7][3]) out(int s[3]) workers 2 blend in(a[*i][]) out(s) end reduce""",
     b"".join(b" ".join(b"%d" % (k * j % 13) for k in range(21)) + b"\n" for j in range(50))),
    ("reduce in one", ADD + f"""reduce main in(int a[{WIDTH}]) out(int s) workers 1
     add in(a[*i]) out(s) end reduce""", LISTS),
    ("comp of map and reduce", SQUARE + ADD + f"""
     map squares in(int a[{WIDTH}]) out(int b[{WIDTH}]) square in(a[*i]) out(b[*i]) end map
     reduce total in(int a[{WIDTH}]) out(int s) add in(a[*i]) out(s) end reduce
     comp main in(int a[{WIDTH}]) out(int s) squares in(a) out(int b[{WIDTH}])
     total in(b) out(s) end comp""", LISTS),
    ("loop", HALVE + """loop main in(int x) out(int y) turns 12 tokens 5
     half in(x) out(y) while more in(y) out(int again) end loop""", NUMBERS),
    ("loop of a farm", HALVE + """
     farm halves in(int x) out(int y) workers 3 half in(x) out(y) end farm
     loop main in(int x) out(int y) turns 12 tokens 1
     halves in(x) out(y) while more in(y) out(int again) end loop""", NUMBERS),
    ("turns spent", HALVE + """loop round in(int x) out(int y) turns 9 tokens 7
     half in(x) out(y) while more in(y) out(int again) end loop
     farm main in(int x) out(int y) workers 2 round in(x) out(y) end farm""",
     NUMBERS + b"1024\n5\n"),
    ("longest names", f"""seq tell in(int {LETTERS}a, int {LETTERS}b) out(int {LETTERS}c)
     ${{ int {LETTERS}d; {LETTERS}d = {LETTERS}a - {LETTERS}b; {LETTERS}c = {LETTERS}d * 2; }}$
     end seq
     farm main in(int a, int b) out(int c) tell in(a, b) out(c) end farm""", b"5 3\n7 -2\n"),
    ("refused", SQUARES, b"5\n\n \t\r\n-0007\r\n+5\n6\n"),
    ("too many", SQUARES, b"5\n7 8 9\n6"),
    ("too great", SQUARES,
     b"-9223372036854775808\n9223372036854775807\n-9223372036854775809\n"),
    ("no line feed", SQUARES, b"5\n6"),
    ("a return", SQUARES, b"5\r\n6\r7\n"),
]

# What a random body does to word i of its list `a`, with the clauses before it.
LIST_BODIES = [
    ("", "b[i] = a[i] * 3 - a[(i + 1) % 6];"),
    ("", "b[i] = a[5 - i] ^ (a[i] >> 2);"),
    ("", "b[i] = 1000 / (a[i] % 89 - 17);"),
    ("", "b[i] = a[a[i] & 7 | (a[i] & 96) / 96 * 4];"),
    ("", "b[i] = a[i] << ((a[(i + 1) % 6] & 255) / 4);"),
    ("", "b[i] = (-9223372036854775807 - 1) / (a[i] & 63 | -2 * (a[i] % 61 == 0));"),
    ("budget 100", "x = a[i] & 31; while (x > 0) { x = x - 1; b[i] = b[i] + x; }"),
]
NUMBER_BODIES = [
    ("", "b = a * 5 - 11;"),
    ("", "b = a % 1000 ^ 3;"),
    ("", "b = 1000 / (a % 97 - 13);"),
    ("budget 60", "x = a & 63; while (x > 0) { x = x - 1; b = b + x * a; }"),
]


class Nest:
    """A random program: modules that take and give a list of WIDTH numbers, or a number."""

    def __init__(self, draw):
        self.draw, self.texts = draw, []
        self.main = self.module("[6]", 3, False)
        self.texts[-1] = self.texts[-1].replace(f" {self.main} in(", " main in(", 1)

    def add(self, kind, size, clauses, calls, outs=None):
        """Adds a module of this kind, and gives its name."""
        name = f"m{len(self.texts)}"
        head = f"{kind} {name} in(int a{size}) out(int b{size if outs is None else outs}) {clauses}"
        self.texts.append(f"{head}\n{calls}\nend {kind}\n")
        return name

    def rescue(self):
        """A rescue clause for some modules, and none for the others."""
        return f"rescue {self.draw.randint(-3, 9)}" if self.draw.random() < 0.4 else ""

    def seq(self, size):
        clauses, text = self.draw.choice(LIST_BODIES if size else NUMBER_BODIES)
        if size:
            text = f"int i; for (i = 0; i < {WIDTH}; i = i + 1) {{ {text} }}"
        return self.add("seq", size, f"{clauses} {self.rescue()}", f"${{ int x; {text} }}$")

    def chain(self, kind, size, depth, is_sequential):
        """A pipe or a comp of some modules."""
        count = self.draw.randint(2, 3)
        parts = [self.module(size, depth - 1, is_sequential) for _ in range(count)]
        calls, at = [], "a"
        for count, part in enumerate(parts):
            to = "b" if count == len(parts) - 1 else f"t{count}"
            given = to if to == "b" else f"int {to}{size}"
            calls.append(f"  {part} in({at}) out({given})")
            at = to
        return self.add(kind, size, self.rescue() if kind == "comp" else "", "\n".join(calls))

    def workers(self):
        return self.draw.choice(["workers 1", "workers 2", "workers 3"])

    def farm(self, size, depth):
        part = self.module(size, depth - 1, False)
        return self.add("farm", size, self.workers(), f"  {part} in(a) out(b)")

    def map(self, depth, is_sequential):
        part = self.module("", depth - 1, is_sequential)
        return self.add("map", "[6]", self.workers(), f"  {part} in(a[*i]) out(b[*i])")

    def loop(self, size, depth):
        body = self.module(size, depth - 1, False)
        word = "a[0]" if size else "a"
        condition = self.add("seq", size, "", f"${{ b = ({word} & 1) != 0; }}$", "")
        clauses = f"turns {self.draw.choice([2, 9, 30])} tokens {self.draw.randint(1, 6)}"
        calls = f"  {body} in(a) out(b)\n  while {condition} in(b) out(int c)"
        return self.add("loop", size, clauses, calls)

    def fold(self, is_sequential):
        """A list folded to a number, of which a list is made."""
        text = self.draw.choice(["z = x - y;", "z = x * 2 + y;", "z = x + 90 / (y - 19);"])
        name, rescue = f"m{len(self.texts)}", self.rescue()
        text = f"seq {name} in(int x, int y) out(int z) {rescue} ${{ {text} }}$ end seq\n"
        self.texts.append(text)
        clauses = self.draw.choice(["workers 1", "workers 2", "workers 4"])
        fold = self.add("reduce", "[6]", clauses, f"  {name} in(a[*i]) out(b)", "")
        spread = f"m{len(self.texts)}"
        text = "int i; for (i = 0; i < 6; i = i + 1) { b[i] = x * (i - 2); }"
        self.texts.append(f"seq {spread} in(int x) out(int b[6]) ${{ {text} }}$ end seq\n")
        calls = f"  {fold} in(a) out(int s)\n  {spread} in(s) out(b)"
        return self.add("comp" if is_sequential else "pipe", "[6]", "", calls)

    def module(self, size, depth, is_sequential):
        """A random module, at most so deep."""
        if depth == 0:
            return self.seq(size)
        kinds = ["seq", "comp"]
        kinds += [] if is_sequential else ["pipe", "pipe", "farm", "farm", "loop"]
        kind = self.draw.choice(kinds + (["map", "map", "fold"] if size else []))
        if kind == "seq":
            return self.seq(size)
        if kind in ("pipe", "comp"):
            return self.chain(kind, size, depth, is_sequential or kind == "comp")
        if kind == "map":
            return self.map(depth, is_sequential)
        if kind == "fold":
            return self.fold(is_sequential)
        return self.farm(size, depth) if kind == "farm" else self.loop(size, depth)

    def stream(self):
        """Items, with lines that have none, and at times a line that is refused."""
        lines = []
        for _ in range(self.draw.randint(1, 80)):
            lines.append(" ".join(str(self.draw.randint(-40, 400)) for _ in range(WIDTH)))
            if self.draw.random() < 0.1:
                lines.append(self.draw.choice(["", " \t", "\r"]))
        if self.draw.random() < 0.3:
            bad = ["1 2 3", "1 2 3 4 5 x", "9223372036854775808", "1 2 3 4 5 6 7", "-"]
            lines.insert(self.draw.randint(0, len(lines)), self.draw.choice(bad))
        return "\n".join(lines).encode()


class Program:
    """A program with its stream: how it is exported, and how its text is compiled."""

    def __init__(self, name, text, stream, processors="16", capacity=None, level=OPTIMIZED):
        self.name, self.text, self.stream, self.level = name, text, stream, level
        self.words = ["--processors", processors]
        self.words += ["--capacity", capacity] if capacity else []
        if capacity:
            self.name = f"{name}, capacity {capacity}"


class Checks:
    """The binary, a folder for its files, and what was found."""

    def __init__(self, binary, folder):
        self.binary, self.folder = binary, pathlib.Path(folder)
        self.passed, self.failed, self.files, self.lock = 0, 0, 0, threading.Lock()

    def expect(self, name, found, wanted):
        """Compares what was found with what is wanted."""
        with self.lock:
            if found == wanted:
                self.passed += 1
                return
            self.failed += 1
            found, wanted = str(found)[:600], str(wanted)[:600]
            print(f"exported: {name}: found {found}, and not {wanted}", flush=True)

    def file(self, ending):
        """The name of a new file."""
        with self.lock:
            self.files += 1
            return str(self.folder / f"{self.files}{ending}")

    def call(self, *words, stream=b"", seconds=SECONDS):
        """Status, output and lines of a command."""
        try:
            how = {"input": stream, "capture_output": True, "timeout": seconds, "env": ENVIRONMENT}
            done = subprocess.run(words, **how)
        except subprocess.TimeoutExpired as late:
            return "no end in time", late.stdout, late.stderr
        return done.returncode, done.stdout, done.stderr

    def export(self, program):
        """The names of a program's text and of its C text; none where it wasn't exported."""
        text, made = self.file(".p3l"), self.file(".c")
        pathlib.Path(text).write_text(program.text)
        done = c_texts.write(self.binary, text, program.words, made)
        if done[0] != 0:
            self.expect(f"export of {program.name}", done, (0, b"", b""))
            return text, None
        return text, made

    def compile(self, name, made, *options, compiler="cc"):
        """The name of the compiled program; none where it wasn't compiled."""
        built = self.file("")
        words = [compiler, *WARNINGS, *options, "-o", built, made]
        done = self.call(*words, seconds=COMPILE_SECONDS)
        if done != (0, b"", b""):
            self.expect(f"compiled {name}", done, (0, b"", b""))
            return None
        return built

    def try_program(self, program):
        """A program beside `run`, on each number of ranks."""
        text, made = self.export(program)
        wanted = self.call(self.binary, "run", text, *program.words, stream=program.stream)
        if wanted[0] not in (0, 6, 7):
            self.expect(f"run of {program.name}", wanted, "a status of 0, 6 or 7")
        built = made and self.compile(program.name, made, program.level, *SANITIZED)
        for ranks in RANKS if built else []:
            words = [] if ranks == "1" else ["--ranks", ranks]
            found = self.call(built, *words, stream=program.stream)
            self.expect(f"{program.name}, {ranks} ranks", found, wanted)
        for file in (made, built):
            if file and os.path.exists(file):
                os.remove(file)


def examples():
    """The programs of examples/, each with its stream and a capacity."""
    for count, file in enumerate(sorted(EXAMPLES.glob("*.p3l"))):
        stream = file.with_suffix(".txt").read_bytes()
        yield file.stem, file.read_text(), stream, "40" if count % 2 else "12"


def rows():
    for name, text, stream in ROWS:
        yield name, text, stream, "24"


def nests(count):
    """Random programs, the same ones at each call."""
    for number in range(count):
        nest = Nest(random.Random(number))
        yield f"random {number}", "".join(nest.texts), nest.stream(), "300"


def generated(binary, folder):
    """Programs of `p3l gen`, each with its stream and the file of its costs."""
    for number in GENERATED:
        at = os.path.join(folder, f"gen{number}")
        words = [binary, "gen", number, "--processors", "24", "--items", "50", "--save", at]
        subprocess.run(words, check=True, capture_output=True)
        text, stream = [pathlib.Path(at + it) for it in (".p3l", ".txt")]
        yield f"gen {number}", text.read_text(), stream.read_bytes(), f"{at}.toml"


def generated_programs(binary, folder, is_all):
    """A hundred programs or more, each with each capacity."""
    for capacity in [None, *CAPACITIES] if is_all else CAPACITIES:
        for name, text, stream, processors in nests(MANY_PROGRAMS if is_all else RANDOM_PROGRAMS):
            yield Program(name, text, stream, processors, capacity, PLAIN)
        for name, text, stream, costs in generated(binary, folder):
            program = Program(name, text, stream, "24", capacity, PLAIN)
            program.words += ["--costs", costs]
            yield program


def programs(binary, folder, is_all):
    """Every program that is tried, with its capacities."""
    for number, (name, text, stream, processors) in enumerate([*examples(), *rows()]):
        chosen = [None, *CAPACITIES] if is_all else [[None, *CAPACITIES][number % 4]]
        for capacity in chosen:
            yield Program(name, text, stream, processors, capacity)
    yield from generated_programs(binary, folder, is_all)


SLOW = """seq slow in(int x) out(int y)
${ int i; for (i = 0; i < 100; i = i + 1) { y = y + x * i % 7; } }$ end seq
farm main in(int x) out(int y) workers 3 slow in(x) out(y) end farm"""
LONG = """seq turned in(int a[50]) out(int b[50])
${ int i; for (i = 0; i < 50; i = i + 1) { b[i] = a[49 - i]; } }$ end seq
farm main in(int a[50]) out(int b[50]) workers 3 turned in(a) out(b) end farm"""
WIDE = """seq turned in(int a[65536]) out(int b[65536])
${ int i; for (i = 0; i < 65536; i = i + 1) { b[i] = a[65535 - i]; } }$ end seq
farm main in(int a[65536]) out(int b[65536]) workers 2 turned in(a) out(b) end farm"""


def children(pid):
    """The processes below one."""
    found = []
    try:
        for task in os.listdir(f"/proc/{pid}/task"):
            for child in pathlib.Path(f"/proc/{pid}/task/{task}/children").read_text().split():
                found += [int(child), *children(int(child))]
    except OSError:
        pass
    return found


def name_of(pid):
    """The name of a process, of at most 15 bytes."""
    try:
        return pathlib.Path(f"/proc/{pid}/comm").read_text().strip()
    except OSError:
        return None


def is_alive(pid):
    """Decides whether a process is there, and not ended and only waited for."""
    try:
        state = pathlib.Path(f"/proc/{pid}/stat").read_text().rsplit(")", 1)[1].split()[0]
        return state not in "ZX"
    except OSError:
        return False


class Edge:
    """A compiled program in one way to run it, beside `run` of its text."""

    def __init__(self, checks, name, words, model):
        self.checks, self.name, self.words, self.model = checks, name, words, model

    def expect(self, what, found, wanted):
        self.checks.expect(f"{what}, {self.name}", found, wanted)

    def shell(self, line, stream=b"", words=None):
        """Status, output and lines of a line of the shell, in which "$@" is the program."""
        return self.checks.call("sh", "-c", line, "sh", *(words or self.words), stream=stream)

    def start(self):
        pipes = {"stdin": subprocess.PIPE, "stdout": subprocess.PIPE, "stderr": subprocess.PIPE}
        return subprocess.Popen(self.words, env=ENVIRONMENT, bufsize=0, **pipes)

    def same(self, what, line, stream=b""):
        """Compares a line of the shell with the same line for `run`."""
        self.expect(what, self.shell(line, stream), self.shell(line, stream, self.model))

    def try_streams(self):
        """Empty, closed and faulty inputs, and outputs that take nothing."""
        self.same("an empty input", 'exec "$@"')
        self.same("a closed input", 'exec "$@" <&-')
        self.same("a closed output", 'exec "$@" >&-', b"1\n2\n")
        self.same("a directory as input", 'exec "$@" <.')
        self.same("a full disk", 'exec "$@" >/dev/full', NUMBERS)
        self.same("a full disk for lines", 'exec "$@" 2>/dev/full', b"1\nx\n")
        self.same("part of a file", f'{{ read line; "$@"; }} <{self.numbers()}')
        self.same("a closed pipe", '{ "$@"; echo $? >&2; } | head -n 1', b"1234\n" * 200_000)

    def numbers(self):
        name = self.checks.file(".txt")
        pathlib.Path(name).write_bytes(NUMBERS)
        return name

    def try_one_by_one(self):
        """Each result comes before the next item is given."""
        child, results = self.start(), []
        for number in range(5):
            child.stdin.write(b"%d\n" % number)
            results.append(child.stdout.readline())
        child.stdin.close()
        wanted = self.checks.call(*self.model, stream=b"0\n1\n2\n3\n4\n")[1]
        self.expect("one by one", (b"".join(results), child.wait(SECONDS)), (wanted, 0))
        for pipe in (child.stdout, child.stderr):
            pipe.close()

    def ranks_below(self, child):
        """The processes of the same program below one that has given a result."""
        child.stdin.write(b"1\n")
        child.stdout.readline()
        name = os.path.basename(self.words[0])[:15]
        return [pid for pid in children(child.pid) if name_of(pid) == name]

    def try_kill(self, which):
        """A rank that is killed ends the run with a status and a line, and leaves no other."""
        child = self.start()
        ranks = self.ranks_below(child)
        os.kill(child.pid if which == "first" else ranks[-1], signal.SIGKILL)
        try:
            status = child.wait(20)
        except subprocess.TimeoutExpired:
            status = "no end in time"
            child.kill()
        lines = child.stderr.read().splitlines()
        wanted = (-9, None) if which == "first" else (16, b"a rank was lost")
        self.expect(f"a killed rank ({which})", (status, lines[-1] if lines else None), wanted)
        limit = time.monotonic() + 10
        while any(is_alive(pid) for pid in ranks) and time.monotonic() < limit:
            time.sleep(0.05)
        self.expect(f"ranks that are left ({which})", [pid for pid in ranks if is_alive(pid)], [])
        for pipe in (child.stdin, child.stdout, child.stderr):
            pipe.close()

    def try_little_memory(self, what, stream):
        """A long stream in little memory."""
        wanted = self.checks.call(*self.model, stream=stream)
        self.expect(what, self.shell('ulimit -v 20000; exec "$@"', stream), wanted)

    def try_stats(self):
        status, output, lines = self.checks.call(*self.words, "--stats", stream=NUMBERS)
        firsts = [line.split(b":")[0] for line in lines.splitlines()]
        ranks = int(self.words[-1]) if "--ranks" in self.words else 1
        self.expect("stats", (status, firsts), (0, [b"rank %d" % r for r in range(ranks)]))


def try_words(checks, built):
    """Words that are no call, and help."""
    usage = (2, b"", b"usage: the words are not those of --help\n")
    for line in ("x", "--ranks", "--ranks 0", "--ranks=513", "--ranks 2 --ranks 2", "--ranks=07"):
        words = line.split()
        checks.expect(f"words {words}", checks.call(built, *words), usage)
    status, output, lines = checks.call(built, "--help")
    checks.expect("--help", (status, output[:5], lines), (0, b"Reads", b""))
    checks.expect("--ranks=2", checks.call(built, "--ranks=2", stream=b"1\n")[0], 0)


def try_no_memory(checks):
    """Channels that don't fit in memory."""
    program = Program("wide", WIDE, b"", "8", "1024")
    _, made = checks.export(program)
    built = made and checks.compile("wide", made, "-O1")
    for ranks in ("1", "3") if built else ():
        words = ["sh", "-c", 'ulimit -v 200000; exec "$@"', "sh", built, "--ranks", ranks]
        found = checks.call(*words, stream=b"1 " * 65536 + b"\n")
        checks.expect(f"no memory, {ranks} ranks", found, (11, b"", b"no memory\n"))


def ready(checks, name, text, *options, compiler="cc"):
    """The compiled program of a text, none where that failed, and the words of `run` for it."""
    program = Program(name, text, b"", "8")
    file, made = checks.export(program)
    built = made and checks.compile(name, made, "-O2", *options, compiler=compiler)
    return built, [checks.binary, "run", file, *program.words]


def try_long(checks):
    """A million lines, lines of many words and long lines, on one rank and on several."""
    lists = [
        ("lines of many words", (b"1234567 " * 50 + b"\n") * 60_000),
        ("a long line", b"0" * 25_000_000 + b"7" + b" 5" * 49 + b"\n" + b" " * 25_000_000),
    ]
    lines = [("a million lines", b"".join(b"%d\n" % number for number in range(1_000_000)))]
    for name, text, streams in (("long", LONG, lists), ("many", SQUARES, lines)):
        built, model = ready(checks, name, text)
        for ranks in ("1", "3") if built else ():
            edge = Edge(checks, f"{ranks} ranks", [built, "--ranks", ranks], model)
            for what, stream in streams:
                edge.try_little_memory(what, stream)


def try_edges(checks):
    """The edges, without MPI."""
    built, model = ready(checks, "slow", SLOW)
    if not built:
        return
    for ranks in ("1", "3"):
        edge = Edge(checks, f"{ranks} ranks", [built, "--ranks", ranks], model)
        edge.try_streams()
        edge.try_one_by_one()
        edge.try_stats()
        if ranks != "1":
            edge.try_kill("first")
            edge.try_kill("other")
    try_words(checks, built)


def try_over(checks, program, kind):
    """A program beside `run`, on several ranks of an MPI."""
    text, made = checks.export(program)
    how = {"compiler": MPI[kind]}
    built = made and checks.compile(program.name, made, "-O1", "-DP3L_MPI", **how)
    wanted = checks.call(checks.binary, "run", text, *program.words, stream=program.stream)
    for ranks in ("2", "4") if built else ():
        found = checks.call(built, "--ranks", ranks, stream=program.stream)
        checks.expect(f"{program.name}, {ranks} ranks of {kind}", found, wanted)


def kinds_of_mpi():
    """The names of the MPIs that are installed."""
    found = [kind for kind in ("mpich", "openmpi") if shutil.which(MPI[kind])]
    if found or shutil.which(MPI["mpi"]):
        return found or ["mpi"]
    print("exported: MPI skipped: mpicc is not installed", flush=True)
    return []


def try_mpi(checks, kind, is_all):
    """Some programs and the edges over an MPI."""
    names = ("farm of farms", "turns spent", "refused")
    chosen = [row for row in rows() if is_all or row[0] in names]
    for name, text, stream, processors in [*chosen, *nests(40 if is_all else 3)]:
        try_over(checks, Program(name, text, stream, processors), kind)
    built, model = ready(checks, "slow", SLOW, "-DP3L_MPI", compiler=MPI[kind])
    if not built:
        return
    wanted = checks.call(*model, stream=NUMBERS)
    found = checks.call(LAUNCHERS[kind], "-n", "3", built, stream=NUMBERS)
    checks.expect(f"{kind} by hand", found, wanted)
    edge = Edge(checks, kind, [built, "--ranks", "3"], model)
    edge.try_streams()
    edge.try_one_by_one()
    edge.try_stats()
    edge.try_kill("other")
    edge.try_kill("first")


def main():
    words = argparse.ArgumentParser(
        description=__doc__, formatter_class=argparse.RawDescriptionHelpFormatter
    )
    words.add_argument("binary")
    words.add_argument("--all", action="store_true", help="many more programs, with all capacities")
    words.add_argument("names", nargs="*", metavar="NAME", help="a word that a program's name has")
    given = words.parse_args()
    with tempfile.TemporaryDirectory() as folder:
        checks = Checks(os.path.abspath(given.binary), folder)
        tasks = [(checks.try_program, program)
                 for program in programs(checks.binary, folder, given.all)
                 if not given.names or any(name in program.name for name in given.names)]
        if not given.names or "edge" in given.names:
            tasks = [(try_edges, checks), (try_long, checks), (try_no_memory, checks), *tasks]
        if not given.names or "mpi" in given.names:
            tasks = [(try_mpi, checks, kind, given.all) for kind in kinds_of_mpi()] + tasks
        with concurrent.futures.ThreadPoolExecutor(len(os.sched_getaffinity(0))) as pool:
            for done in [pool.submit(*task) for task in tasks]:
                done.result()
    print(f"{checks.passed} passed, {checks.failed} failed")
    return 1 if checks.failed or not checks.passed else 0


if __name__ == "__main__":
    sys.exit(main())
