#!/usr/bin/env python3
"""Exported programs on two machines, which are namespaces of this one with a cable between them.

    tools/two_hosts.py PATH_OF_P3L

Each machine has its own network, name, processes, shared memory and temporary files, and an sshd;
both have the program in one folder. Rank 0 is on the first machine and three others are on the
second. For each MPI that is installed, MPICH and Open MPI, and side by side:

- Output, status and message are those of `run`, for items, an item that traps and one that is
  refused, and no items.
- A cable that is out for some seconds changes nothing, and nor do ranks that don't answer for long,
  as in a long body.
- A cable that stays out ends a run with status 16 and the line `a rank was lost`, and leaves no
  rank on either machine; in the middle of a stream, and while no item comes.
- A file of hosts in the wrong order is refused by a program for MPICH, with a line that says so.
  Open MPI puts them in order itself.

The last line is `N passed, M failed`. It needs root, ip, sshd, unshare and an MPI (Debian: iproute2
openssh-server util-linux, and mpich libmpich-dev or openmpi-bin libopenmpi-dev). Where something
lacks it is skipped, with the reason. It takes away all that it made.
"""

import argparse
import concurrent.futures
import contextlib
import itertools
import os
import pathlib
import shutil
import signal
import subprocess
import sys
import tempfile
import threading
import time

import c_texts

NAMES = {"one": "10.123.45.1", "two": "10.123.45.2"}
NEEDED = ["ip", "sshd", "ssh", "ssh-keygen", "unshare", "nsenter", "pkill"]
# The folder of both machines, as they see it.
SHARED = "/mnt"
# What a machine does before it is one: its name, and files of its own. In an empty home the shell
# of root has no commands to begin with.
BEGIN = f"""hostname "$1"
mount --bind "$2" {SHARED}
mount --bind {SHARED}/hosts /etc/hosts
mount -t tmpfs none ~root
mount -t tmpfs none /tmp
mount -t tmpfs none /run
mkdir /run/sshd
exec "$(command -v sshd)" -D -e -f {SHARED}/sshd_config 2>{SHARED}/"$1".log
"""
SSHD = f"""HostKey {SHARED}/host
AuthorizedKeysFile {SHARED}/user.pub
PidFile none
StrictModes no
PermitRootLogin yes
UsePAM no
"""
SSH = f"""#!/bin/sh
exec ssh -i {SHARED}/user -o StrictHostKeyChecking=no -o UserKnownHostsFile=/dev/null \\
  -o LogLevel=ERROR -o BatchMode=yes "$@"
"""
COMPILERS = {"mpich": "mpicc.mpich", "openmpi": "mpicc.openmpi"}
SLOTS = {"mpich": "{name}:{count}\n", "openmpi": "{name} slots={count}\n"}
RANKS = "4"
# How the launchers of both call ssh, and that they may be called by root.
ENVIRONMENT = {
    **os.environ,
    "HYDRA_LAUNCHER_EXEC": f"{SHARED}/ssh",
    "OMPI_MCA_plm_rsh_agent": f"{SHARED}/ssh",
    "OMPI_ALLOW_RUN_AS_ROOT": "1",
    "OMPI_ALLOW_RUN_AS_ROOT_CONFIRM": "1",
    "PATH": f"{os.environ['PATH']}:/usr/sbin:/sbin",
}
SECONDS = 120
# How long ranks may be silent without harm, and longer than a silence of the network may last.
SHORT, LONG = 6, 30
# The greatest time to a status after the cable was pulled, and to the end of all ranks.
SOON, LEFT = 40, 30

PROGRAM = """seq slow in(int x) out(int y)
${ int i; for (i = 0; i < 100; i = i + 1) { y = y + x * i % 7 + 100 / (x - 51); } }$ end seq
farm main in(int x) out(int y) workers 6 slow in(x) out(y) end farm
"""
STREAMS = {
    "items": "".join(f"{number}\n" for number in range(60, 20_000)),
    "a trap": "".join(f"{number}\n" for number in range(80)),
    "a refused line": "60\n61\nx\n62\n",
    "no items": "",
}

numbers = itertools.count()


def run(*words, **how):
    how |= {"check": True, "stdin": subprocess.DEVNULL, "capture_output": True}
    return subprocess.run(words, env=ENVIRONMENT, **how).stdout


class Machine:
    """A machine: namespaces that end with their first process, an sshd."""

    def __init__(self, name, folder):
        self.name, self.space = name, f"p3l-{os.getpid()}-{next(numbers)}"
        run("ip", "netns", "add", self.space)
        own = ["--uts", "--ipc", "--pid", "--mount", "--mount-proc", "--fork", "--kill-child"]
        words = ["ip", "netns", "exec", self.space, "unshare", *own, "sh", "-c", BEGIN, "sh"]
        how = {"stdin": subprocess.DEVNULL, "env": ENVIRONMENT}
        self.outer = subprocess.Popen([*words, name, folder], **how)
        self.first = None

    def begin(self):
        """Waits for the first process, and keeps its number as it is known outside."""
        file = pathlib.Path(f"/proc/{self.outer.pid}/task/{self.outer.pid}/children")
        limit = time.monotonic() + SOON
        while not self.first:
            if time.monotonic() > limit:
                raise RuntimeError(f"no sshd began on {self.name}")
            time.sleep(0.02)
            found = file.read_text().split()
            if found and pathlib.Path(f"/proc/{found[0]}/comm").read_text() == "sshd\n":
                self.first = found[0]

    def words(self, *words):
        """The words that run a command on the machine, in the folder of both."""
        inside = ["sh", "-c", f'cd {SHARED} && exec "$@"', "sh", *words]
        return ["nsenter", "--target", self.first, "--all", "--", *inside]

    def call(self, *words):
        """The status of a command on the machine."""
        how = {"stdin": subprocess.DEVNULL, "capture_output": True, "env": ENVIRONMENT}
        return subprocess.run(self.words(*words), **how).returncode

    def set_link(self, link, state):
        run("ip", "-n", self.space, "link", "set", link, state)

    def end(self):
        self.outer.kill()
        self.outer.wait()
        run("ip", "netns", "del", self.space)


def write_files(folder):
    """Writes the names of the machines, the keys, and how ssh and sshd are called."""
    hosts = "".join(f"{address} {name}\n" for name, address in NAMES.items())
    (folder / "hosts").write_text(f"127.0.0.1 localhost\n{hosts}")
    (folder / "sshd_config").write_text(SSHD)
    (folder / "ssh").write_text(SSH)
    (folder / "ssh").chmod(0o700)
    for key in ("host", "user"):
        run("ssh-keygen", "-q", "-t", "ed25519", "-N", "", "-f", str(folder / key))


def join(one, two):
    """Puts a cable between two machines, and waits until each reaches the other."""
    peer = ["type", "veth", "peer", "name", "eth0", "netns", two.space]
    run("ip", "link", "add", "eth0", "netns", one.space, *peer)
    for machine in (one, two):
        address = f"{NAMES[machine.name]}/24"
        run("ip", "-n", machine.space, "addr", "add", address, "dev", "eth0")
        machine.set_link("lo", "up")
        machine.set_link("eth0", "up")
    limit = time.monotonic() + SOON
    for machine, other in ((one, "two"), (two, "one")):
        while machine.call("./ssh", other, "true") != 0:
            if time.monotonic() > limit:
                raise RuntimeError(f"ssh doesn't reach {other}")
            time.sleep(0.2)


class Pair:
    """Two machines, their folder, and the program that is compiled for an MPI in it."""

    def __init__(self, kind, folder, one, two):
        self.kind, self.folder, self.one, self.two = kind, folder, one, two
        self.write_hosts("hosts.mpi", {"one": 1, "two": 3})

    def write_hosts(self, file, counts):
        lines = [SLOTS[self.kind].format(name=name, count=counts[name]) for name in counts]
        (self.folder / file).write_text("".join(lines))

    def words(self, hosts="hosts.mpi"):
        return self.one.words("./m", "--ranks", RANKS, "--hosts", hosts)

    def call(self, stream, hosts="hosts.mpi"):
        """Status, output and lines of the program on a stream."""
        how = {"input": stream.encode(), "capture_output": True, "env": ENVIRONMENT}
        try:
            done = subprocess.run(self.words(hosts), timeout=SECONDS, **how)
        except subprocess.TimeoutExpired as late:
            return "no end in time", late.stdout, late.stderr
        return done.returncode, done.stdout, done.stderr

    def start(self):
        """The program, which has given the result of a first item."""
        pipes = {"stdin": subprocess.PIPE, "stdout": subprocess.PIPE, "stderr": subprocess.PIPE}
        child = subprocess.Popen(self.words(), bufsize=0, env=ENVIRONMENT, **pipes)
        child.stdin.write(b"60\n")
        child.stdout.readline()
        return child

    def ranks(self):
        """How many of the machines have ranks."""
        return sum(machine.call("pgrep", "-x", "m") == 0 for machine in (self.one, self.two))


@contextlib.contextmanager
def pair(kind, built):
    """Gives two new machines that have a program."""
    with tempfile.TemporaryDirectory(prefix="p3l-hosts-") as name, contextlib.ExitStack() as made:
        folder = pathlib.Path(name)
        write_files(folder)
        shutil.copy(built, folder / "m")
        both = []
        for machine in NAMES:
            both.append(Machine(machine, name))
            made.callback(both[-1].end)
        for machine in both:
            machine.begin()
        join(*both)
        yield Pair(kind, folder, *both)


class Checks:
    """The program p3l, a program of its own with the words of `run`, and what was found."""

    def __init__(self, binary, folder):
        self.binary, self.folder = binary, pathlib.Path(folder)
        self.passed, self.failed, self.lock = 0, 0, threading.Lock()
        self.source = str(self.folder / "slow.p3l")
        pathlib.Path(self.source).write_text(PROGRAM)
        self.made = str(self.folder / "slow.c")
        status, _, said = c_texts.write(binary, self.source, ["--processors", "12"], self.made)
        if status != 0:
            sys.exit(f"two_hosts: {said.decode().strip()}")

    def compile(self, kind):
        """The name of the program that is compiled for an MPI."""
        built = str(self.folder / kind)
        run(COMPILERS[kind], "-O1", "-DP3L_MPI", "-o", built, self.made)
        return built

    def model(self, stream):
        """Status, output and lines of `run` on a stream."""
        words = [self.binary, "run", self.source, "--processors", "12"]
        done = subprocess.run(words, input=stream.encode(), capture_output=True)
        return done.returncode, done.stdout, done.stderr

    def expect(self, name, found, wanted):
        """Compares what was found with what is wanted."""
        with self.lock:
            if found == wanted:
                self.passed += 1
                return
            self.failed += 1
            print(f"two_hosts: {name}: found {str(found)[:600]}, and not {str(wanted)[:600]}")


def try_streams(checks, both):
    """Runs beside `run`."""
    for what, stream in STREAMS.items():
        checks.expect(f"{what}, {both.kind}", both.call(stream), checks.model(stream))


def try_wrong_order(checks, both):
    """A run whose hosts are in the wrong order."""
    both.write_hosts("wrong", {"two": 1, "one": 3})
    status, output, lines = both.call("60\n", "wrong")
    name = f"the wrong order, {both.kind}"
    if both.kind == "openmpi":
        checks.expect(name, (status, output, lines), checks.model("60\n"))
        return
    has_reason = b"rank 0 must be on the machine of its caller\n" in lines
    found = status, output, has_reason, lines.splitlines()[-1:]
    checks.expect(name, found, (16, b"", True, [b"a rank was lost"]))


def try_silence(checks, both):
    """A cable that is out for a short time, and ranks that don't answer for a long one."""
    child = both.start()
    both.one.set_link("eth0", "down")
    child.stdin.write(b"61\n62\n")
    time.sleep(SHORT)
    both.one.set_link("eth0", "up")
    child.stdin.write(b"63\n64\n65\n")
    both.two.call("pkill", "-STOP", "-x", "m")
    child.stdin.write(b"66\n67\n68\n")
    time.sleep(LONG)
    both.two.call("pkill", "-CONT", "-x", "m")
    output, lines = child.communicate(b"69\n70\n", SECONDS)
    model = checks.model("".join(f"{number}\n" for number in range(60, 71)))
    first = model[1].splitlines(keepends=True)[0]
    found = child.returncode, first + output, lines
    checks.expect(f"a silence, {both.kind}", found, model)


def try_cut(checks, both, stream):
    """A cable that stays out, after which this stream comes."""
    child = both.start()
    both.one.set_link("eth0", "down")
    child.stdin.write(stream)
    try:
        status = child.wait(SOON)
    except subprocess.TimeoutExpired:
        status = "no end in time"
        child.kill()
    lines = child.stderr.read().splitlines()[-1:] if status == 16 else []
    name = f"a cable that is out{' in a stream' if stream else ''}, {both.kind}"
    checks.expect(name, (status, lines), (16, [b"a rank was lost"]))
    limit = time.monotonic() + LEFT
    while both.ranks() and time.monotonic() < limit:
        time.sleep(0.5)
    checks.expect(f"{name}: machines with ranks", both.ranks(), 0)
    for pipe in (child.stdin, child.stdout, child.stderr):
        pipe.close()


def try_all(checks, kind, attempt, *words):
    """Tries something on two new machines."""
    with pair(kind, checks.folder / kind) as both:
        attempt(checks, both, *words)


def lacks():
    """Says why nothing can be tried here, or gives nothing."""
    if os.geteuid() != 0:
        return "this isn't run by root"
    absent = [it for it in NEEDED if not shutil.which(it, path=ENVIRONMENT["PATH"])]
    if absent:
        return f"{', '.join(absent)} is not installed"
    if not any(shutil.which(it) for it in COMPILERS.values()):
        return "neither MPICH nor Open MPI is installed"
    own = ["unshare", "--net", "--uts", "--ipc", "--pid", "--mount", "--fork", "true"]
    if subprocess.run(own, capture_output=True).returncode != 0:
        return "the system makes no namespaces here"
    return None


def main():
    words = argparse.ArgumentParser(
        description=__doc__, formatter_class=argparse.RawDescriptionHelpFormatter
    )
    words.add_argument("binary", type=os.path.abspath)
    given = words.parse_args()
    if reason := lacks():
        print(f"two_hosts: skipped: {reason}")
        return 0
    signal.signal(signal.SIGTERM, lambda *_: sys.exit(143))
    with tempfile.TemporaryDirectory() as folder:
        checks = Checks(given.binary, folder)
        tasks = []
        for kind in [kind for kind, compiler in COMPILERS.items() if shutil.which(compiler)]:
            checks.compile(kind)
            tasks += [(kind, try_streams), (kind, try_wrong_order), (kind, try_silence)]
            tasks += [(kind, try_cut, b""), (kind, try_cut, b"7\n" * 50)]
        with concurrent.futures.ThreadPoolExecutor(len(tasks)) as pool:
            for done in [pool.submit(try_all, checks, *task) for task in tasks]:
                done.result()
    print(f"{checks.passed} passed, {checks.failed} failed")
    return 1 if checks.failed or not checks.passed else 0


if __name__ == "__main__":
    sys.exit(main())
