#!/bin/sh
# Times `p3l verify-cert` beside `p3l explain` and `p3l explain --cert` as nodes and processors grow, with the rows of each certificate;
# and has the certificates of all examples made and verified, from the least processors that fit to the most there are.
# Usage: bench/certificates.sh PATH-OF-P3L
set -eu
program=${1:?the path of the program p3l}
examples=$(dirname "$0")/../examples
folder=$(mktemp -d)
trap 'rm -rf "$folder"' EXIT
exec python3 - "$program" "$examples" "$folder" <<'PY'
import glob
import os
import subprocess
import sys
import time

program, examples, folder = sys.argv[1], sys.argv[2], sys.argv[3]
MORE = "seq more in(int x) out(int y)\n${ y = x * 3 + 1; }$\nend seq\n"
cert = f"{folder}/m.cert"


def call(form, name, parts):
    """A module of this form whose stages are these modules, one after the other."""
    places = ["x"] + [f"a{k}" for k in range(len(parts) - 1)] + ["y"]
    ends = [f"out(int {place})" for place in places[1:-1]] + ["out(y)"]
    calls = [f"  {part} in({place}) {end}" for part, place, end in zip(parts, places, ends)]
    return f"{form} {name} in(int x) out(int y)\n" + "\n".join(calls) + f"\nend {form}\n"


def pipe_of_farms(count):
    """A pipe of this number of farms."""
    return MORE + call("farm", "f", ["more"]) + call("pipe", "main", ["f"] * count)


def nested_farms(depth):
    """A farm in a farm, this number of times."""
    text, below = MORE, "more"
    for level in range(depth):
        name = "main" if level == depth - 1 else f"f{level}"
        text += call("farm", name, [below])
        below = name
    return text


def deep_nesting(width):
    """A farm of a pipe of this number of farms, each of a pipe of as many."""
    text, below = MORE, "more"
    for level in range(2):
        text += call("farm", f"f{level}", [below]) + call("pipe", f"p{level}", [f"f{level}"] * width)
        below = f"p{level}"
    return text + call("farm", "main", [below])


def seconds(words):
    """The shortest of three times of a command that ends with 0."""
    times = []
    for _ in range(3):
        start = time.monotonic()
        subprocess.run([program] + words, stdout=subprocess.DEVNULL, check=True)
        times.append(time.monotonic() - start)
    return min(times)


def rows():
    """How many rows the certificate has, and how many bytes."""
    text = open(cert).read()
    return sum(line.startswith("row ") for line in text.splitlines()), len(text)


def measured(name, text, processors):
    source = f"{folder}/m.p3l"
    with open(source, "w") as file:
        file.write(text)
    words = ["explain", source, "--processors", str(processors)]
    if subprocess.run([program] + words, capture_output=True).returncode == 5:
        print(f"{name}, {processors} processors: too few", flush=True)
        return
    chosen = seconds(words)
    made = seconds(words + ["--cert", cert])
    verified = seconds(["verify-cert", source, "--cert", cert])
    count, size = rows()
    print(f"{name}, {processors} processors: {count} rows, {size} bytes; explain {chosen * 1000:.1f} ms, with --cert"
          f" {made * 1000:.1f} ms, verify-cert {verified * 1000:.1f} ms, {verified / chosen:.2f} times explain", flush=True)


# Every example, at processors that fit.
held = 0
for source in sorted(glob.glob(f"{examples}/*.p3l")):
    for processors in (1, 2, 3, 4, 5, 6, 7, 8, 13, 16, 31, 64, 100, 256, 512):
        words = [program, "explain", source, "--processors", str(processors), "--cert", cert]
        ended = subprocess.run(words, capture_output=True, text=True)
        if ended.returncode == 5:
            continue
        assert ended.returncode == 0, (words, ended)
        head = ended.stdout.splitlines()[0]
        ended = subprocess.run([program, "verify-cert", source, "--cert", cert], capture_output=True, text=True)
        assert ended.returncode == 0 and ended.stdout == f"certificate holds: {head}\n", (source, processors, ended)
        held += 1
    os.remove(cert)
print(f"examples: {held} certificates made and verified", flush=True)

for count in (1, 4, 16, 32, 63):
    for processors in (64, 256, 512):
        measured(f"pipe of {count} farms", pipe_of_farms(count), processors)
for depth in (1, 2, 3, 4, 5):
    for processors in (64, 256, 512):
        measured(f"{depth} farms in one another", nested_farms(depth), processors)
for width in (3, 5, 7):
    for processors in (256, 512):
        measured(f"deep nesting of width {width}", deep_nesting(width), processors)
PY
