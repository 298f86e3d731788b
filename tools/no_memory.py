#!/usr/bin/env python3
"""Each request for memory refused in turn: a run then ends with 11 and the line `no memory`, or as it ends with ample memory.

    tools/no_memory.py PATH_OF_P3L

The program is loaded with tools/refused_memory.c in front of it, which refuses the request of one number. What was written by then must
be a front of what is written with ample memory, and standard error has no line but `no memory` where the status is 11.
"""

import os
import subprocess
import sys
import tempfile

HERE = os.path.dirname(os.path.abspath(__file__))
DOUBLE = b"seq main in(int x) out(int y)\n${ y = x * 2 + 1; }$\nend seq\n"
LOOP = b"seq half in(int x, int c) out(int y, int d) ${ y = x / 2; d = c + 1; }$ end seq seq more in(int x, int c) out(int again) ${ again = x > 1; }$ end seq farm halves in(int x, int c) out(int y, int d) workers 4 half in(x, c) out(y, d) end farm loop main in(int x, int c) out(int y, int d) turns 10 tokens 4 halves in(x, c) out(y, d) while more in(y, d) out(int again) end loop"
FARM = b"seq f in(int x) out(int y) ${ y = x + 1; }$ end seq seq g in(int x) out(int y) ${ y = x * 3; }$ end seq farm w in(int x) out(int y) g in(x) out(y) end farm pipe main in(int x) out(int z) f in(x) out(int y) w in(y) out(z) end pipe"
LESS = b"seq less in(int x, int y) out(int z) ${ z = x - y; }$ end seq reduce main in(int a[4]) out(int s) less in(a[*i]) out(s) end reduce"
COSTS = b"setup = 0\nword = 0\n[seq]\nf = 10\ng = 60\n"
PICKS = b"0 1 2 3 4 5 7 8 9 " * 200 + b"0 1 2 3 4 5 6 7 8 9 " * 200
FEW = b"0 1 2 3 4 5 7 8 9 " * 6
FILES = {"double.p3l": DOUBLE, "loop.p3l": LOOP, "farm.p3l": FARM, "less.p3l": LESS, "costs": COSTS, "picks": PICKS, "few": FEW}
FILES |= {"byte.p3l": b"seq .", "divide.p3l": DOUBLE.replace(b"x * 2 + 1", b"1 / x")}
FILES |= {"open.p3l": b"seq main in(int x) out(int y)\r\n${ y = x\r\n}$ end seq\r\n"}
FILES |= {"arity.p3l": DOUBLE.replace(b"main", b"f") + b"farm main in(int x) out(int y) f in(x, x) out(y) end farm"}
FILES |= {"wired.p3l": DOUBLE.replace(b"main", b"f") + b"farm main in(int x) out(int y) f in(y) out(y) end farm"}
FILES |= {"torn.costs": b"setup = 1\n[seq\n", "latin.costs": b"setup = 1 # \xe9\n"}
FILES |= {"bad.p3l": b"seq main in(int 1x)", "bad.costs": b"ticks = 5\n"}
COSTED = ["farm.p3l", "--processors", "8", "--costs", "costs"]
SAVED = ["save", "loop.p3l", "--processors", "16", "--capacity", "1", "--schedule", "file:few", "--output"]
# The words of each run, its stream, and the words by which its files are made before.
RUNS = [
    (["run", "double.p3l", "--processors", "4", "--stats"], b"1\n2\n-3\n", []),
    (["run", "loop.p3l", "--processors", "16", "--capacity", "1", "--schedule", "file:picks"], b"64 0\n3 0\n", []),
    (["check", "farm.p3l"], b"", []),
    (["fmt", "farm.p3l"], b"", []),
    (["explain", *COSTED], b"", []),
    (["graph", *COSTED], b"", []),
    (["explain", *COSTED, "--cert", "cert"], b"", []),
    (["verify-cert", "farm.p3l", "--costs", "costs", "--cert", "made.cert"], b"", ["explain", *COSTED, "--cert", "made.cert"]),
    (["compile", *COSTED, "--output", "image"], b"", []),
    (["exec", "made.image", "--stats"], b"1\n2\n-3\n", ["compile", *COSTED, "--output", "made.image"]),
    (["migrate", "made.image", "--output", "migrated"], b"", ["compile", *COSTED, "--output", "made.image"]),
    (["export", *COSTED, "--output", "exported"], b"", []),
    (["run", *COSTED, "--trace", "trace"], b"1\n2\n-3\n", []),
    (["check-trace", *COSTED, "--trace", "made.trace"], b"1\n2\n-3\n", ["run", *COSTED, "--trace", "made.trace"]),
    (["gen", "7", "--processors", "16", "--items", "3"], b"", []),
    (["rewrite", *COSTED], b"", []),
    (["profile", "loop.p3l"], b"64 0\n3 0\n", []),
    (["scan", "less.p3l", "--segments", "4", "--stats"], b"1 2 3 4\n5 5 5 5\n", []),
    (["time", *COSTED, "--picks", "made.picks"], b"1\n2\n-3\n", []),
    ([*SAVED, "saved"], b"64 0\n3 0\n" * 5, []),
    (["resume", "made.shot", "--stats"], b"5 0\n", [*SAVED, "made.shot"]),
]
# Refusals that a person gets a long message for: the words of each and its stream.
REFUSED = [
    (["walk"], b""),
    (["version"], b""),
    (["help", "runn"], b""),
    (["help", "7"], b""),
    (["check", "byte.p3l"], b""),
    (["check", "arity.p3l"], b""),
    (["check", "wired.p3l"], b""),
    (["check", "open.p3l"], b""),
    (["compile", "double.p3l", "--processors", "4", "--output", "none/image"], b""),
    (["explain", *COSTED[:3], "--costs", "torn.costs"], b""),
    (["explain", *COSTED[:3], "--costs", "latin.costs"], b""),
    (["run", "farm.p3l", "--processors", "3"], b"1\n"),
    (["run", "divide.p3l", "--processors", "4"], b"1\n0\n"),
    (["run", "double.p3l"], b""),
    (["check", "bad.p3l"], b""),
    (["check", "none.p3l"], b""),
    (["explain", *COSTED[:3], "--costs", "bad.costs"], b""),
    (["run", "double.p3l", "--processors", "4"], b"1\nx\n"),
]


def is_front(done, whole):
    """Whether a refusal came out as with ample memory, but for a message that is cut or left out, or
    as that of no memory."""
    if done.returncode == 11:
        return done.stderr.startswith(b"no memory\n") and whole.stdout.startswith(done.stdout)
    line = whole.stderr[: whole.stderr.index(b"\n") + 1]
    is_same = (done.returncode, done.stdout) == (whole.returncode, whole.stdout)
    return is_same and done.stderr.startswith(line) and whole.stderr.startswith(done.stderr)


def try_refused(run, folder):
    """Each request of a refusal with a long message refused in turn: how many tries were wrong."""
    tried = wrong = 0
    for words, stream in REFUSED:
        whole = run(words, stream, 0, P3L_MESSAGES="long")
        with open(f"{folder}/count") as it:
            count = int(it.read())
        for number in range(1, count + 1):
            done = run(words, stream, number, P3L_MESSAGES="long")
            tried += 1
            if not is_front(done, whole):
                wrong += 1
                said = f"status {done.returncode}: {done.stderr[:200]!r}"
                print(f"{' '.join(words)}, long: request {number}: {said}")
        print(f"{' '.join(words)}, long: {count} requests, status {whole.returncode} with all")
    return tried, wrong


def main():
    binary, tried, wrong, ended = os.path.abspath(sys.argv[1]), 0, 0, {}
    with tempfile.TemporaryDirectory() as folder:
        library = f"{folder}/refused_memory.so"
        subprocess.run(["cc", "-O2", "-shared", "-fPIC", "-o", library, f"{HERE}/refused_memory.c"], check=True)
        for name, data in FILES.items():
            with open(f"{folder}/{name}", "wb") as it:
                it.write(data)

        def run(words, stream, refuse=0, **more):
            given = {**os.environ, **more, "LD_PRELOAD": library, "REFUSE": str(refuse)}
            given["COUNT"] = f"{folder}/count"
            return subprocess.run([binary, *words], cwd=folder, input=stream, capture_output=True, env=given, timeout=60)

        for words, stream, maker in RUNS:
            if maker:
                run(maker, stream)
            whole = run(words, stream)
            if whole.returncode == 2:
                print(f"not built: {words[0]}")
                continue
            with open(f"{folder}/count") as it:
                count = int(it.read())
            for number in range(1, count + 1):
                done = run(words, stream, number)
                tried += 1
                ended[done.returncode] = ended.get(done.returncode, 0) + 1
                is_short = done.returncode == 11 and done.stderr == b"no memory\n" and whole.stdout.startswith(done.stdout)
                is_whole = (done.returncode, done.stdout, done.stderr) == (whole.returncode, whole.stdout, whole.stderr)
                if not is_short and not is_whole:
                    wrong += 1
                    print(f"{' '.join(words)}: request {number}: status {done.returncode}: {done.stderr[:200]!r}")
            print(f"{' '.join(words)}: {count} requests, status {whole.returncode} with all")
        also, faulty = try_refused(run, folder)
        tried, wrong = tried + also, wrong + faulty
    print(f"tried {tried}, wrong {wrong}; statuses " + ", ".join(f"{status}: {times}" for status, times in sorted(ended.items())))
    return int(wrong > 0)


sys.exit(main())
