#!/usr/bin/env python3
"""Files that p3l writes are whole or untouched, and none that it reads is destroyed.

    tools/files.py PATH_OF_P3L

Each command that writes a file writes it over an old one, through links, and where there is none:
the permissions stay, and nothing else is left beside it. A pipe with a name is written as it is. A
file that the call reads, or that its standard input or output is, is not written: the status is 10.
Then the program is killed at each call of the system that a write makes, each of these calls fails
in turn, and the disk is full in the middle: the file is the old one or the new one, whole. The last
line is `N passed, M failed`; what this system doesn't let a test do is said to be skipped.
"""

import contextlib
import os
import pathlib
import resource
import shutil
import signal
import stat
import subprocess
import sys
import tempfile
import threading

SECONDS = 120
OLD = b"old " * 8
DOUBLE = "seq main in(int x) out(int y)\n${ y = x * 2 + 1; }$\nend seq\n"
COSTS = "default = 10\n"
PICKS = "0 2 0 1\n"
ITEMS = "1\n2\n3\n"
BUILD = ["m.p3l", "--processors", "4"]
# What writes a file, as NEW in the words; each with its input.
WRITERS = {
    "compile": (["compile", *BUILD, "--output", "NEW"], ""),
    "migrate": (["migrate", "made.img", "--output", "NEW"], ""),
    "export": (["export", *BUILD, "--output", "NEW"], ""),
    "explain": (["explain", *BUILD, "--cert", "NEW"], ""),
    "run": (["run", *BUILD, "--trace", "NEW"], ITEMS),
    "exec": (["exec", "made.img", "--trace", "NEW"], ITEMS),
    "time": (["time", *BUILD, "--picks", "NEW"], ITEMS),
    "save": (["save", *BUILD, "--schedule", "file:made.picks", "--output", "NEW"], ITEMS),
}
# Words that would write over a file that they read, and that file.
DESTROYERS = [
    (["compile", *BUILD, "--output", "m.p3l"], "m.p3l"),
    (["compile", *BUILD, "--output", "./m.p3l"], "m.p3l"),
    (["compile", *BUILD, "--output", "soft.p3l"], "m.p3l"),
    (["compile", *BUILD, "--output", "hard.p3l"], "m.p3l"),
    (["compile", "soft.p3l", *BUILD[1:], "--output", "hard.p3l"], "m.p3l"),
    (["compile", *BUILD, "--costs", "made.toml", "--output", "made.toml"], "made.toml"),
    (["migrate", "made.img", "--output", "made.img"], "made.img"),
    (["export", *BUILD, "--output", "m.p3l"], "m.p3l"),
    (["export", *BUILD, "--costs", "made.toml", "--output", "made.toml"], "made.toml"),
    (["explain", *BUILD, "--cert", "m.p3l"], "m.p3l"),
    (["explain", *BUILD, "--costs", "made.toml", "--cert", "made.toml"], "made.toml"),
    (["run", *BUILD, "--trace", "m.p3l"], "m.p3l"),
    (["run", *BUILD, "--schedule", "file:all.picks", "--trace", "all.picks"], "all.picks"),
    (["exec", "made.img", "--trace", "made.img"], "made.img"),
    (["time", *BUILD, "--picks", "m.p3l"], "m.p3l"),
    (["save", *BUILD, "--schedule", "file:made.picks", "--output", "made.picks"], "made.picks"),
    (["save", *BUILD, "--schedule", "file:made.picks", "--output", "m.p3l"], "m.p3l"),
]
# The calls of the system by which a file is written.
CALLS = ["openat,open,creat", "write,writev,pwrite64", "rename,renameat,renameat2"]
CALLS += ["chmod,fchmod,fchmodat,fchmodat2", "close", "fsync,fdatasync"]
WRITE_FAULT = b"write fault\n"


class Files:
    """The program in a folder, with how many cases passed, failed and were skipped."""

    def __init__(self, binary, folder):
        self.binary, self.folder = binary, pathlib.Path(folder)
        self.passed = self.failed = self.skipped = 0

    def expect(self, name, found, wanted):
        """Compares what a case came to."""
        if found == wanted:
            self.passed += 1
        else:
            self.failed += 1
            print(f"files: {name}: found {found!r}, and not {wanted!r}")

    def skip(self, name, why):
        self.skipped += 1
        print(f"files: {name} skipped: {why}")

    def call(self, words, stream="", front=(), **how):
        """Status, output and lines of a command, with other words in front of it."""
        how = {"cwd": self.folder, "input": stream.encode(), "capture_output": True} | how
        done = subprocess.run([*front, self.binary, *words], timeout=SECONDS, **how)
        return done.returncode, done.stdout, done.stderr

    def put(self, name, data):
        (self.folder / name).write_bytes(data.encode() if isinstance(data, str) else data)

    def get(self, name):
        """The bytes of a file, or nothing where there is none."""
        place = self.folder / name
        return place.read_bytes() if place.exists() else None

    def names(self):
        return sorted(it.name for it in self.folder.iterdir())

    def remove(self, *names):
        for name in names:
            with contextlib.suppress(FileNotFoundError):
                (self.folder / name).unlink()


def prepare(files):
    """Writes what the commands read."""
    files.put("m.p3l", DOUBLE)
    files.put("made.toml", COSTS)
    files.put("made.picks", PICKS)
    files.call(["compile", *BUILD, "--output", "made.img"])
    files.call(["time", *BUILD, "--picks", "all.picks"], ITEMS)
    os.symlink("m.p3l", files.folder / "soft.p3l")
    os.link(files.folder / "m.p3l", files.folder / "hard.p3l")


def words_to(name, writer):
    """The words of a writer, to a file of this name, and its input."""
    words, stream = WRITERS[writer]
    return [name if word == "NEW" else word for word in words], stream


def try_writers(files):
    """Each writer: where there is no file, over an old one, and through links."""
    for writer in WRITERS:
        before = files.names()
        words, stream = words_to("new", writer)
        files.expect(f"{writer} to no file", files.call(words, stream)[0], 0)
        whole, mode = files.get("new"), (files.folder / "new").stat().st_mode
        files.expect(f"{writer}: a new file's permissions", stat.S_IMODE(mode), 0o666 & ~umask())
        files.expect(f"{writer}: what is left", files.names(), sorted([*before, "new"]))
        for mode in 0o600, 0o640, 0o755:
            files.put("new", OLD)
            (files.folder / "new").chmod(mode)
            status = files.call(words, stream)[0]
            found = status, files.get("new"), stat.S_IMODE((files.folder / "new").stat().st_mode)
            files.expect(f"{writer} over a file of {mode:o}", found, (0, whole, mode))
        try_links(files, writer, whole)
        files.expect(f"{writer}: what is left", files.names(), sorted([*before, "new"]))
        files.remove("new")


def try_links(files, writer, whole):
    """A writer through a link, through two or three, and through ones that lead nowhere yet."""
    (files.folder / "sub").mkdir()
    os.symlink("../new", files.folder / "sub/link")
    os.symlink("sub/link", files.folder / "link")
    os.symlink(files.folder / "link", files.folder / "sub/whole")
    cases = [(name, is_there) for name in ("sub/link", "link", "sub/whole") for is_there in (1, 0)]
    for name, is_there in cases:
        files.remove("new")
        if is_there:
            files.put("new", OLD)
        words, stream = words_to(name, writer)
        status = files.call(words, stream)[0]
        links = os.path.islink(files.folder / "sub/link"), os.path.islink(files.folder / "link")
        found = status, files.get("new"), os.path.islink(files.folder / "new"), *links
        name = f"{writer} through {name}, {'to a file' if is_there else 'to nothing'}"
        files.expect(name, found, (0, whole, False, True, True))
    files.remove("sub/link", "sub/whole", "link")
    (files.folder / "sub").rmdir()


def umask():
    """The permissions that new files lack."""
    mask = os.umask(0)
    os.umask(mask)
    return mask


def try_pipe(files):
    """A pipe with a name is written as it is, and stays a pipe."""
    os.mkfifo(files.folder / "pipe")
    words, stream = words_to("pipe", "compile")
    with subprocess.Popen(["cat", "pipe"], cwd=files.folder, stdout=subprocess.PIPE) as reader:
        status = files.call(words, stream)[0]
        read = reader.communicate(timeout=SECONDS)[0]
    files.expect("a pipe with a name", (status, read), (0, files.get("made.img")))
    is_pipe = stat.S_ISFIFO((files.folder / "pipe").stat().st_mode)
    files.expect("a pipe stays a pipe", is_pipe, True)
    files.remove("pipe")
    words, stream = words_to("/dev/stdout", "compile")
    found = files.call(words, stream)
    files.expect("the standard output, a pipe", found, (0, files.get("made.img"), b""))


def try_long_name(files):
    """A name as long as a name may be."""
    for length in 255, 250:
        words, stream = words_to("n" * length, "compile")
        for old in False, True:
            if old:
                files.put("n" * length, OLD)
            found = files.call(words, stream)[0], files.get("n" * length)
            name = f"a name of {length} bytes, {'over a file' if old else 'to no file'}"
            files.expect(name, found, (0, files.get("made.img")))
        files.remove("n" * length)


def try_destroyers(files):
    """An output that is an input of the same call."""
    for words, read in DESTROYERS:
        before, names = files.get(read), files.names()
        status, _, lines = files.call(words, ITEMS)
        found = status, lines, files.get(read) == before, files.names() == names
        files.expect(words, found, (10, WRITE_FAULT, True, True))
        files.put(read, before)


def try_streams(files):
    """An output that the standard input or the standard output is."""
    files.put("items", ITEMS)
    run = ["run", *BUILD, "--trace"]
    for name, wanted in ("items", b"3\n5\n7\n"), ("./items", b"3\n5\n7\n"):
        with open(files.folder / "items") as items:
            found = files.call([*run, name], input=None, stdin=items)
        found = *found, files.get("items")
        files.expect("a trace over the items", found, (10, wanted, WRITE_FAULT, ITEMS.encode()))
    with open(files.folder / "m.p3l") as source:
        words = ["compile", "/dev/stdin", *BUILD[1:], "--output", "m.p3l"]
        found = files.call(words, input=None, stdin=source)[0], files.get("m.p3l")
    files.expect("an image over the standard input", found, (10, DOUBLE.encode()))
    files.put("m.p3l", DOUBLE)
    for mode in "w", "a":
        files.put("out", "")
        with open(files.folder / "out", mode) as out:
            how = {"input": ITEMS.encode(), "cwd": files.folder}
            how |= {"stdout": out, "stderr": subprocess.PIPE}
            done = subprocess.run([files.binary, *run, "out"], timeout=SECONDS, **how)
        found = done.returncode, done.stderr, files.get("out")
        files.expect("a trace over the results", found, (10, WRITE_FAULT, b"3\n5\n7\n"))
    files.remove("items", "out")


def is_traced(files):
    """Whether strace works here."""
    if not shutil.which("strace"):
        return False
    words = ["strace", "-f", "-o", "/dev/null", "true"]
    return subprocess.run(words, capture_output=True, cwd=files.folder).returncode == 0


def injected(files, words, stream, calls, what, number):
    """A command with a signal or a fault at one call of the system; whether that call came."""
    log = files.folder.parent / "strace.log"
    front = ["strace", "-f", "-qq", "-o", str(log), "-e", f"trace={calls}"]
    front += ["-e", f"inject={calls}:{what}:when={number}"]
    answer = files.call(words, stream, front)
    said = log.read_text(errors="replace")
    return answer, "INJECTED" in said or "killed by SIGKILL" in said


def try_cut(files, what, most=200):
    """The program is cut, or a call fails, at each call of the system in turn."""
    for writer in "compile", "run", "save":
        words, stream = words_to("new", writer)
        files.remove("new")
        files.call(words, stream)
        whole = files.get("new")
        for calls in CALLS:
            for number in range(1, most):
                before = [it for it in files.names() if it != "new"]
                files.put("new", OLD)
                (files.folder / "new").chmod(0o640)
                answer, came = injected(files, words, stream, calls, what, number)
                if not came:
                    break
                judge_cut(files, (writer, calls, what, number), answer[0], whole, before)
        files.put("new", OLD)
        found = files.call(words, stream)[0], files.get("new")
        files.expect(f"{writer} after all that", found, (0, whole))
        files.remove("new")


def judge_cut(files, name, status, whole, before):
    """What a run left that was cut: the old file or the new one; no other, if it wasn't killed."""
    found = files.get("new")
    files.expect((*name, "whole"), found in (OLD, whole), True)
    if status == 0:
        files.expect((*name, "status 0"), found == whole, True)
    left = [it for it in files.names() if it not in (*before, "new")]
    if status in (0, 10):
        files.expect((*name, "left"), left, [])
    LEFT.update(left)
    files.remove(*left)


# The names of files that killed runs left.
LEFT = set()


def try_left(files):
    """A file of another's, by the name of one that a killed run left, stays as it is."""
    words, stream = words_to("new", "compile")
    for name in sorted(LEFT):
        files.put(name, b"another's")
    files.put("new", OLD)
    status = files.call(words, stream)[0]
    others = {files.get(name) for name in LEFT} | {b"another's"}
    found = status, files.get("new") == files.get("made.img"), others
    files.expect(f"beside {sorted(LEFT)}", found, (0, True, {b"another's"}))
    files.remove("new", *LEFT)


def limit_files(limit):
    """Lets a process write files up to a limit, and fail beyond it."""
    signal.signal(signal.SIGXFSZ, signal.SIG_IGN)
    resource.setrlimit(resource.RLIMIT_FSIZE, (limit, limit))


def try_limit(files):
    """A limit on the length of files, in the middle of each file that is written."""
    for writer in WRITERS:
        words, stream = words_to("new", writer)
        files.call(words, stream)
        length, before = len(files.get("new")), files.names()
        for limit in {0, 1, length // 2, length - 1}:
            files.put("new", OLD)
            how = {"preexec_fn": lambda: limit_files(limit)}
            status, _, lines = files.call(words, stream, **how)
            found = status, lines.endswith(WRITE_FAULT), files.get("new"), files.names()
            files.expect(f"{writer} up to {limit} bytes", found, (10, True, OLD, before))
        files.remove("new")


def try_full(files):
    """A full disk: a small one that is in memory, where this may be mounted."""
    room = files.folder / "disk"
    room.mkdir()
    mount = ["mount", "-t", "tmpfs", "-o", "size=16k", "none", str(room)]
    if os.geteuid() != 0 or subprocess.run(mount, capture_output=True).returncode:
        room.rmdir()
        files.skip("a full disk", "this user can't mount one")
        return
    try:
        (room / "new").write_bytes(OLD)
        with contextlib.suppress(OSError):
            (room / "filler").write_bytes(bytes(1 << 20))
        before = sorted(it.name for it in room.iterdir())
        for writer in WRITERS:
            words, stream = words_to("disk/new", writer)
            status, _, lines = files.call(words, stream)
            found = status, lines.endswith(WRITE_FAULT), (room / "new").read_bytes()
            files.expect(f"{writer} to a full disk", found, (10, True, OLD))
            names = sorted(it.name for it in room.iterdir())
            files.expect(f"{writer} to a full disk: what is left", names, before)
    finally:
        subprocess.run(["umount", str(room)], check=True)
        room.rmdir()


def try_at_once(files):
    """Several writers of one file at once: it is that of one of them, and each ends well."""
    programs, wanted, ended = 8, set(), []
    for number in range(programs):
        files.put(f"{number}.p3l", DOUBLE.replace("+ 1", f"+ {number}"))
        files.call(["compile", f"{number}.p3l", *BUILD[1:], "--output", f"{number}.img"])
        wanted.add(files.get(f"{number}.img"))

    def write(number):
        words = ["compile", f"{number}.p3l", *BUILD[1:], "--output", "new"]
        ended.append(files.call(words)[0])

    before = files.names()
    for _ in range(5):
        threads = [threading.Thread(target=write, args=(number,)) for number in range(programs)]
        for thread in threads:
            thread.start()
        for thread in threads:
            thread.join()
        files.expect("several at once", files.get("new") in wanted, True)
    files.expect("several at once: statuses", set(ended), {0})
    files.expect("several at once: what is left", files.names(), sorted([*before, "new"]))
    made = [f"{number}.{end}" for number in range(programs) for end in ("p3l", "img")]
    files.remove("new", *made)


def try_cuts(files):
    """Kills and faults at each call of the system, where strace works."""
    if not is_traced(files):
        files.skip("kills and faults at each call", "strace doesn't work here")
        return
    for what in "signal=KILL", "error=ENOSPC", "error=EIO":
        try_cut(files, what)
    try_left(files)


ATTEMPTS = [prepare, try_writers, try_pipe, try_long_name, try_destroyers, try_streams]
ATTEMPTS += [try_limit, try_full, try_at_once, try_cuts]


def main():
    if len(sys.argv) != 2:
        sys.exit("usage: tools/files.py PATH_OF_P3L")
    with tempfile.TemporaryDirectory(prefix="p3l-files-") as room:
        folder = pathlib.Path(room) / "files"
        folder.mkdir()
        files = Files(os.path.abspath(sys.argv[1]), folder)
        for attempt in ATTEMPTS:
            try:
                attempt(files)
            except (OSError, subprocess.TimeoutExpired) as fault:
                files.expect(attempt.__name__, repr(fault), "no fault")
    if files.skipped:
        print(f"files: {files.skipped} skipped")
    print(f"{files.passed} passed, {files.failed} failed")
    return int(files.failed > 0)


if __name__ == "__main__":
    sys.exit(main())
