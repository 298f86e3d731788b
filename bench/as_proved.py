#!/usr/bin/env python3
"""The program about as fast as the proved one, without a proof: to see what a change costs.

    bench/as_proved.py OUT [REPOSITORY]

What `rt try` hands to its compiler (tools/unproved.py) has a check at each place that a proof makes
safe. Here the checks are taken out, and the rest is compiled as a proved program is, in some four
minutes. Two such programs compare as the proved ones do, to some parts in a hundred of their
instructions; but the proved program's compiler drops a hint on inlining where a function would grow
very large, and this doesn't. Nothing is known of what it does where a check would have failed: it is
for measurements alone. `./build --unproved` compiles a program with its checks.
"""

import pathlib
import sys
import tempfile

TOOLS = pathlib.Path(__file__).resolve().parent.parent / "tools"
sys.path.insert(0, str(TOOLS))

import repository
import unproved

CHECKS = ('  call void @"rattle-llvm-checks::', "  call void @llvm.trap()")
OPTIMIZED = "-O3 -Xclang -fmerge-functions -mllvm -mergefunc-use-aliases".split()


def without_checks(lines):
    """The lines of a module without the checks, and without what `rt try` writes to new locals."""
    for line in lines:
        is_filling = "llvm.memset" in line and "i8 -86, i64" in line
        if not is_filling and not line.startswith(CHECKS):
            yield line


def build(root, kit, out):
    """Compiles the program of a checkout to the file `out`."""
    with tempfile.TemporaryDirectory() as room:
        folder = pathlib.Path(room)
        copy = unproved.copy_of(root, folder)
        made, bare = unproved.module(copy, folder), folder / "bare.ll"
        with open(unproved.with_hints(kit, copy, made, folder)) as lines, open(bare, "w") as text:
            text.writelines(without_checks(lines))
        compiled = folder / "program.o"
        unproved.clang(kit, [*unproved.COMPILE, *OPTIMIZED, str(bare), "-o", str(compiled)])
        unproved.link(kit, compiled, out)


def main():
    if len(sys.argv) not in (2, 3):
        sys.exit("usage: bench/as_proved.py OUT [REPOSITORY]")
    root = pathlib.Path(sys.argv[2]).resolve() if len(sys.argv) == 3 else repository.ROOT
    kit = repository.kit()
    if not kit:
        sys.exit("as_proved: the Rattle kit's 'rt' is not on the path")
    try:
        build(root, kit, sys.argv[1])
    except unproved.Failed as failed:
        sys.exit(f"as_proved: {failed}")


if __name__ == "__main__":
    main()
