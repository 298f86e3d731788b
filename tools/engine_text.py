#!/usr/bin/env python3
"""The engine of exported programs as constants: writes crates/p3l_export/src/engine.rt from the files
engine/head.c and engine/engine.c, which are C and can be read, compiled and tested as they stand.

    tools/engine_text.py            writes the file
    tools/engine_text.py --check    fails if the file isn't what it would write
"""

import pathlib
import sys

ROOT = pathlib.Path(__file__).resolve().parent.parent
TARGET = ROOT / "crates" / "p3l_export" / "src" / "engine.rt"
PARTS = [
    ("HEAD", "head.c", "The first part of the engine: what stands before a program's own."),
    ("ENGINE", "engine.c", "The second part of the engine: what stands after a program's own."),
]


def literal(text):
    """Returns a text as a string literal over several lines."""
    return '"' + text.replace("\\", "\\\\").replace('"', '\\"') + '"'


def module_text():
    """Returns the module with a constant for each part of the engine."""
    lines = [
        "// The text of the engine. `tools/engine_text.py` writes this file from engine/*.c: change those.",
        "",
    ]
    for name, file, about in PARTS:
        text = (ROOT / "engine" / file).read_text(encoding="utf-8")
        lines += [f"/// {about}", f"pub const {name}: &str =\n    {literal(text)};", ""]
    return "\n".join(lines[:-1]) + "\n"


def main():
    """Writes the module, or compares it."""
    text = module_text()
    if sys.argv[1:] == ["--check"]:
        if TARGET.read_text(encoding="utf-8") != text:
            sys.exit("crates/p3l_export/src/engine.rt is out of date: run tools/engine_text.py")
    elif sys.argv[1:]:
        sys.exit(__doc__)
    else:
        TARGET.write_text(text, encoding="utf-8")


main()
