#!/usr/bin/env python3
"""Pictures: makes docs/pictures/NAME.svg of examples, by `p3l graph` and Graphviz, and of results.

    tools/pictures.py P3L

P3L is the path of the program. A picture of a network is that of the network that `run` runs for the
number of processors beside the example here, by the costs that `profile` takes from its input where
these are wanted. Graphviz's `dot` has to be on the path.
"""

import itertools
import pathlib
import shutil
import subprocess
import sys
import tempfile

ROOT = pathlib.Path(__file__).resolve().parent.parent
PLACE = ROOT / "docs/pictures"
# An example, and the number of processors that its worker counts are chosen for.
PICTURES = {"signal": 5, "farms": 10, "halve": 4, "greatest": 8, "matrix": 8}
# The same, by the costs that the example's own input shows.
PROFILED = {"sums": 8, "mandelbrot": 6, "jacobi": 8, "topk": 8, "blur": 8}
# An example whose results are a grid: how many words a row has, and the greatest word.
GRIDS = {"mandelbrot": (64, 60), "blur": (12, 90)}
CELL = 8


def run(words, **how):
    return subprocess.run(words, cwd=ROOT, check=True, capture_output=True, **how).stdout


def network(program, name, processors, costs=()):
    """The picture of an example's network, as an SVG text without what differs from one Graphviz to another."""
    words = [program, "graph", f"examples/{name}.p3l", "--processors", str(processors), *costs]
    drawn = run(["dot", "-Tsvg"], input=run(words)).decode()
    return "\n".join(line for line in drawn.splitlines() if not line.startswith(("<!-- Generated", " -->"))) + "\n"


def profiled(program, name, processors):
    """The same, by the costs of the example's own input."""
    items = (ROOT / f"examples/{name}.txt").read_bytes()
    with tempfile.NamedTemporaryFile(suffix=".toml") as costs:
        costs.write(run([program, "profile", f"examples/{name}.p3l"], input=items))
        costs.flush()
        return network(program, name, processors, ("--costs", costs.name))


def grid(rows, greatest):
    """Rows of numbers as grey cells, the greatest one black."""
    width, height = CELL * len(rows[0]), CELL * len(rows)
    out = [f'<svg xmlns="http://www.w3.org/2000/svg" width="{width}" height="{height}">']
    for y, row in enumerate(rows):
        x = 0
        for word, cells in itertools.groupby(row):
            count, grey = len(list(cells)), 255 - 255 * word // greatest
            place = f'x="{x * CELL}" y="{y * CELL}" width="{count * CELL}" height="{CELL}"'
            out.append(f'<rect {place} fill="rgb({grey},{grey},{grey})"/>')
            x += count
    return "\n".join([*out, "</svg>"]) + "\n"


def rows_of(text, width):
    """The first result, or all results where each is a row, cut into rows of this width."""
    lines = [[int(word) for word in line.split()] for line in text.splitlines()]
    words = sum(lines, []) if len(lines[0]) == width else lines[0]
    return [words[at : at + width] for at in range(0, len(words), width)]


def pictures(program):
    """Each picture with its name."""
    for name, processors in PICTURES.items():
        yield name, network(program, name, processors)
    for name, processors in PROFILED.items():
        yield (name if name not in GRIDS else f"{name}_network"), profiled(program, name, processors)
    for name, (width, greatest) in GRIDS.items():
        items = (ROOT / f"examples/{name}.txt").read_bytes()
        text = run([program, "run", f"examples/{name}.p3l", "--processors", "8"], input=items).decode()
        yield name, grid(rows_of(text, width), greatest)


def main(words):
    if len(words) != 1:
        print(__doc__, file=sys.stderr)
        return 2
    if not shutil.which("dot"):
        print("pictures: Graphviz's 'dot' is not on the path", file=sys.stderr)
        return 2
    PLACE.mkdir(exist_ok=True)
    for name, picture in pictures(str(pathlib.Path(words[0]).resolve())):
        (PLACE / f"{name}.svg").write_text(picture)
        print(PLACE / f"{name}.svg")
    return 0


if __name__ == "__main__":
    sys.exit(main(sys.argv[1:]))
