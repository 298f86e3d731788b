#!/usr/bin/env python3
"""Tries the edits that the gate leaves out, crates/NAME/edits/*.edit: the prover must refuse each.

    tools/edits.py [NAME..]

They have the form of must-fail edits. `rt must-fail` tries them in a copy of the checkout, which
reuses what is built there. The gate tries those of crates/NAME/must-fail: of crates that carry a
run, its counts and its evidence, and of crates whose check is short. The edits of a crate cost a
second check of it, so those of texts, rules and words are tried here, after a change of their
crates. The last line is `N refused, M not`.
"""

import argparse
import pathlib
import shutil
import subprocess
import sys
import tempfile

ROOT = pathlib.Path(__file__).resolve().parent.parent


def crates_with_edits(names):
    """The names of the crates that have such edits, or of those of them that are named."""
    found = sorted(folder.parent.name for folder in ROOT.glob("crates/*/edits"))
    unknown = set(names) - set(found)
    if unknown:
        sys.exit(f"edits: no edits in {', '.join(sorted(unknown))}")
    return [name for name in found if not names or name in names]


def copy_of(room):
    """A copy of the checkout with what is built in it, in which the edits stand where `rt must-fail`
    looks for them, in place of those that the gate tries."""
    copy = pathlib.Path(room) / "p3l"
    shutil.copytree(ROOT, copy, ignore=shutil.ignore_patterns(".git", "incremental"), symlinks=True)
    subprocess.run(["git", "init", "-q"], cwd=copy, check=True)
    for folder in copy.glob("crates/*/edits"):
        tried = folder.parent / "must-fail"
        shutil.rmtree(tried, ignore_errors=True)
        folder.rename(tried)
    return copy


def main():
    parser = argparse.ArgumentParser(
        description=__doc__, formatter_class=argparse.RawDescriptionHelpFormatter
    )
    parser.add_argument("names", nargs="*", metavar="NAME", help="a crate; by default all are tried")
    names = parser.parse_args().names
    refused = left = 0
    with tempfile.TemporaryDirectory(prefix="p3l-edits-") as room:
        copy = copy_of(room)
        for name in crates_with_edits(names):
            edits = len(list((ROOT / "crates" / name / "edits").glob("*.edit")))
            words = ["rt", "must-fail", name]
            ran = subprocess.run(words, cwd=copy, stdout=subprocess.PIPE, text=True, errors="replace")
            lines = [line for line in ran.stdout.splitlines() if f"must-fail {name}/" in line]
            print("\n".join(lines), flush=True)
            well = sum("refused, as it must be" in line for line in lines)
            refused, left = refused + well, left + edits - well
    print(f"{refused} refused, {left} not")
    return 1 if left else 0


if __name__ == "__main__":
    sys.exit(main())
