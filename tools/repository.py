"""The repository as scripts see it: its top, the crates of its program, and the kit."""

import os
import pathlib
import shutil

ROOT = pathlib.Path(__file__).resolve().parent.parent
PROGRAM = "p3l"


def listed(root=ROOT):
    """The crates that crates.txt lists, each with the libraries that it depends on."""
    rows = {}
    for line in (root / "crates.txt").read_text().splitlines():
        name, colon, below = line.split("#")[0].partition(":")
        if colon:
            rows[name.split()[0]] = below.split()
    return rows


def crates(root=ROOT):
    """The program's crate and those that it depends on, each with the repository's below it."""
    rows, found, left = listed(root), {}, [PROGRAM]
    while left:
        name = left.pop()
        if name not in found:
            found[name] = [below for below in rows[name] if below in rows]
            left += found[name]
    return found


def kit():
    """The folder of the Rattle kit whose `rt` is on the path, or nothing where there is none."""
    found = shutil.which("rt")
    return pathlib.Path(os.path.realpath(found)).parent.parent if found else None
