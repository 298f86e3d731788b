#!/usr/bin/env python3
"""A rule over the text of sources, so that nobody forges a refused request for memory.

    tools/memory_rule.py [ROOT]

Every contract that ends with out of memory says that a request was refused, and only the
conversions of std's two errors in p3l_refusal conclude this. A proof can't see who made such an
error, so this script looks: in the src/ of each crate but crates of tests and p3l_refusal

  - `AllocError` stands only in imports, in the signatures of functions and in the heads of impls;
  - `AllocFailed {` stands nowhere, and neither error is imported under another name;
  - no request has a capacity of `usize::MAX`, which is always refused;

and in crates.txt only p3l_base depends on p3l_refusal. Each fault is a line with its file and line.
At the end forgeries are planted in a copy of a file, and each must be seen.
"""

import bisect
import pathlib
import re
import sys

import repository

REFUSAL, BASE, TESTS = "p3l_refusal", "p3l_base", "_tests"
# Comments and literals, which are blanked: an `'` that closes nothing begins a lifetime.
HIDDEN = re.compile(
    r"//[^\n]*|/\*.*?\*/|b?\"(?:[^\"\\]|\\.)*\"|b?'(?:[^'\\\n]|\\[^\n]{1,8}?)'", re.S
)
IMPORT = re.compile(r"\buse\b[^;]*;")
# Up to the body or the clauses; a `;` in brackets is that of an array's type.
SIGNATURE = re.compile(
    r"\bfn\s+\w+(?:\[[^\]]*\]|[^\[])*?(?=\{|;|\b(?:requires|ensures|decreases)\b)"
)
HEAD = re.compile(r"\bimpl\b(?:\[[^\]]*\]|[^\[{;])*")
ERROR = re.compile(r"\bAllocError\b")
MADE = re.compile(r"\bAllocFailed\s*(?:::\s*<[^>{}]*>\s*)?\{")
RENAMED = re.compile(r"\b(AllocError|AllocFailed)\s+as\b")
REQUEST = re.compile(r"\b(\w*(?:capacity|reserve|resize)\w*)\s*(?:::\s*<[^>]*>\s*)?\(")
LIMITLESS = re.compile(r"\b(?:usize|u64|isize)\s*::\s*MAX\b|\b18_?446_?744_?073_?709_?551_?615")
FORGED_FILE = "crates/p3l_format/src/fault.rt"
FORGERIES = [
    "fn forged() -> NoMemory {\n    NoMemory::from(AllocError)\n}\n",
    "fn forged() -> NoMemory {\n    let error: AllocError = made();\n    error.into()\n}\n",
    "fn forged() -> Result<(), NoMemory> {\n    Err(std::alloc::AllocError)?\n}\n",
    "type Wanted = AllocError;\n",
    "use std::alloc::{AllocError as Wanted};\n",
    "use std::alloc::AllocFailed as Wanted;\n",
    "fn forged() -> NoMemory {\n    NoMemory::from(AllocFailed { value: 0 })\n}\n",
    "fn forged() -> NoMemory {\n    NoMemory::from(AllocFailed::<u8> { value: 0 })\n}\n",
    "fn forged(alloc: Global) -> Result<Vec<u8>, NoMemory> {\n"
    "    Ok(Vec::with_capacity(alloc, usize::MAX)?)\n}\n",
    "fn forged(bytes: &mut Vec<u8>) -> Result<(), NoMemory> {\n"
    "    Ok(bytes.reserve((usize::MAX))?)\n}\n",
]
# What the rule lets through, though it is close to a forgery.
HONEST = [
    "use std::alloc::{AllocError, AllocFailed};\n",
    "// AllocError, AllocFailed { value }\n",
    "fn honest(error: AllocError) -> Result<u8, AllocFailed<u8>> {\n    Ok(0)\n}\n",
    "impl From<AllocError> for Honest {\n    fn from(error: AllocError) -> Honest\n"
    "        ensures { Refused }\n    {\n        Honest\n    }\n}\n",
    "fn honest(bytes: [u8; 4], error: AllocError) -> u8 {\n    0\n}\n",
    "fn honest<'a>(text: &'a str) -> usize {\n    let most = usize::MAX;\n    most\n}\n",
]


def visible(text):
    """A text with blanks for its comments and literals, of the same length and lines."""
    return HIDDEN.sub(lambda it: re.sub(r"[^\n]", " ", it[0]), text)


def within(places, at):
    """Whether a place is in one of these spans."""
    return any(start <= at < end for start, end in places)


def argument_of(text, start):
    """The text from a bracket that is open to the one that closes it."""
    depth = 1
    for at in range(start, len(text)):
        depth += {"(": 1, ")": -1}.get(text[at], 0)
        if depth == 0:
            return text[start:at]
    return text[start:]


def places_of_faults(text):
    """The places of a text that break the rule, each with what is wrong there."""
    code = visible(text)
    typed = [it.span() for form in (IMPORT, SIGNATURE, HEAD) for it in form.finditer(code)]
    for it in ERROR.finditer(code):
        if not within(typed, it.start()):
            yield it.start(), "AllocError outside imports, signatures and heads of impls"
    for it in MADE.finditer(code):
        yield it.start(), "AllocFailed is made or taken apart by hand"
    for it in RENAMED.finditer(code):
        yield it.start(), f"{it[1]} gets another name"
    for it in REQUEST.finditer(code):
        if found := LIMITLESS.search(argument_of(code, it.end())):
            yield it.start(), f"{it[1]} requests {found[0]}, which is always refused"


def faults_of(text):
    """The lines of a text that break the rule, each with what is wrong there."""
    ends = [at for at, sign in enumerate(text) if sign == "\n"]
    found = sorted(places_of_faults(text))
    return [(bisect.bisect(ends, at - 1) + 1, wrong) for at, wrong in found]


def files(root):
    """The sources that the rule is about."""
    for crate in sorted(repository.listed(root)):
        if crate != REFUSAL and not crate.endswith(TESTS):
            yield from sorted((root / "crates" / crate / "src").rglob("*.rt"))


def faults_of_tree(root):
    """Each fault of a checkout, as its line says it."""
    for file in files(root):
        for line, wrong in faults_of(file.read_text()):
            yield f"{file.relative_to(root)}:{line}: {wrong}"
    for crate, below in repository.listed(root).items():
        if REFUSAL in below and crate != BASE:
            yield f"crates.txt: {crate} depends on {REFUSAL}, which only {BASE} may"


def faults_of_rule(root):
    """What the rule doesn't see of what is planted in a copy of a file, or sees without need."""
    file = root / FORGED_FILE
    text = file.read_text()
    last = text.count("\n")
    for forged in FORGERIES:
        seen = [line for line, _ in faults_of(text + forged)]
        if not any(last < line <= last + forged.count("\n") for line in seen):
            yield f"this forgery isn't seen in {FORGED_FILE}: {forged!r}"
    for honest in HONEST:
        for line, wrong in faults_of(text + honest):
            if line > last:
                yield f"this is no forgery: {honest!r}: {wrong}"


def main(words):
    root = pathlib.Path(words[0]).resolve() if words else repository.ROOT
    found = [*faults_of_tree(root), *faults_of_rule(root)]
    for fault in found:
        print(fault)
    count = len(list(files(root)))
    print(f"memory_rule: {count} files, {len(found)} faults, {len(FORGERIES)} forgeries tried")
    return 1 if found or not count else 0


if __name__ == "__main__":
    sys.exit(main(sys.argv[1:]))
