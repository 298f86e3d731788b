"""The cost of a run of a command, measured so that other work on the machine matters little.

Processor time is the user's and the system's together, of the command alone. The least of several
runs, with those that are compared in turn, leaves out most effects of other work on the caches.
Instruction counts, by valgrind, are stable under load: they show a difference of a few parts in a
hundred, and take some fifty times as long.
"""

import os
import re
import shutil
import subprocess

COLLECTED = re.compile(rb"Collected : (\d+)")


def seconds(words, stream, status=0, output=os.devnull):
    """The processor time of a command that ends with this status, on this file as standard input."""
    with open(stream, "rb") as given, open(output, "wb") as sink, open(os.devnull, "wb") as errors:
        child = subprocess.Popen(words, stdin=given, stdout=sink, stderr=errors)
        _, ended, used = os.wait4(child.pid, 0)
        child.returncode = os.waitstatus_to_exitcode(ended)
    if child.returncode != status:
        raise SystemExit(f"status {child.returncode}: {' '.join(words)}")
    return used.ru_utime + used.ru_stime


def memory(words, stream):
    """The most kilobytes that a command has in memory, when all but a pipe's length of this stream is read."""
    with open(stream, "rb") as given, open(os.devnull, "wb") as sink:
        child = subprocess.Popen(words, stdin=subprocess.PIPE, stdout=sink, stderr=sink)
        shutil.copyfileobj(given, child.stdin)
        child.stdin.flush()
        with open(f"/proc/{child.pid}/status") as status:
            most = next(line for line in status if line.startswith("VmHWM"))
        child.communicate()
    return int(most.split()[1])


def instructions(words, stream):
    """The instructions of a command that ends with 0, on this file as standard input. Programs of `rt try` can't be counted so."""
    counted = ["valgrind", "--tool=callgrind", "--callgrind-out-file=/dev/null", *words]
    with open(stream, "rb") as given:
        done = subprocess.run(counted, stdin=given, stdout=subprocess.DEVNULL, stderr=subprocess.PIPE, check=True)
    return int(COLLECTED.search(done.stderr)[1])


def least(commands, stream, tries=5, output=os.devnull):
    """The least processor time of each of these commands, which are run in turn and write to this file."""
    rounds = [[seconds(words, stream, 0, output) for words in commands] for _ in range(tries)]
    return [min(times) for times in zip(*rounds)]


def load():
    """The processes that were ready to run in the last minute, beside the processors there are."""
    return f"load {os.getloadavg()[0]:.1f} on {os.cpu_count()} processors"
