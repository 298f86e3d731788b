#!/usr/bin/env python3
"""The finish of a run by the number of processors, by `p3l time`.

    bench/speedup.py PATH PROGRAM COSTS ITEMS [PICTURE]

PATH is the path of p3l, PROGRAM a program, COSTS its cost file and ITEMS a file of items. For 1 to
512 processors, by growing steps, it runs the program in virtual time and notes its finish and the
share of that for which the busiest process works. Beside them is the finish that the model expects:
the service time of the chosen counts, once for each item. Too few processors have no row. With
matplotlib and a PICTURE, both are drawn there as SVG; the table is written in any case.
"""

import pathlib
import re
import subprocess
import sys

try:
    from matplotlib import pyplot, ticker
except ImportError:
    pyplot = None

PROCESSORS = sorted({round(2 ** (step / 4)) for step in range(0, 37)})
TIMES = re.compile(r"time: items (\d+), fired \d+, finish (\d+), busiest \d+ (\d+)")
SERVICE = re.compile(r"processors \d+ used (\d+) service (\d+)")
TOO_FEW = 5


def run(words, stream=None):
    """What a command writes on both outputs, or nothing where there are too few processors."""
    done = subprocess.run(words, stdin=stream or subprocess.DEVNULL, capture_output=True, text=True)
    if done.returncode == TOO_FEW:
        return None
    if done.returncode:
        sys.exit(f"speedup: {' '.join(words)}: {done.stderr.strip()}")
    return done.stdout, done.stderr


def row(program, words, items, processors):
    """The processes that are used, the finish, the busiest process's share of it, and the model's time for all items."""
    options = [*words, "--processors", str(processors)]
    with open(items) as stream:
        timed = run([program, "time", *options], stream)
    explained = run([program, "explain", *options])
    if timed is None or explained is None:
        return None
    count, finish, busiest = map(int, TIMES.search(timed[1]).groups())
    used, service = map(int, SERVICE.search(explained[0]).groups())
    return used, finish, busiest / finish if finish else 0.0, count * service


def draw(rows, name, path):
    """The two curves over the processors, as an SVG."""
    pyplot.rcParams.update({"svg.hashsalt": "p3l", "svg.fonttype": "none", "font.size": 9})
    figure, (above, below) = pyplot.subplots(2, sharex=True, figsize=(7, 5), height_ratios=(2, 1), layout="constrained")
    processors = list(rows)
    above.loglog(processors, [rows[p][1] for p in processors], "o-", markersize=4, label="finish, by p3l time")
    above.loglog(processors, [rows[p][3] for p in processors], "--", label="items times the model's service time")
    above.set_ylabel("ticks")
    above.yaxis.set_major_locator(ticker.LogLocator(subs=(1, 2, 5)))
    above.yaxis.set_minor_locator(ticker.NullLocator())
    above.yaxis.set_major_formatter("{x:,.0f}")
    above.legend()
    below.semilogx(processors, [100 * rows[p][2] for p in processors], "o-", markersize=4)
    below.set_ylabel("busiest process,\n% of the finish")
    below.set_xlabel("processors")
    below.set_xticks([p for p in (1, 2, 4, 8, 16, 32, 64, 128, 256, 512) if p >= processors[0]])
    below.xaxis.set_major_formatter("{x:.0f}")
    below.minorticks_off()
    below.set_ylim(0, 105)
    for axes in (above, below):
        axes.grid(alpha=0.3)
    figure.suptitle(name)
    figure.savefig(path, format="svg", metadata={"Date": None})


def main(words):
    if len(words) not in (4, 5):
        sys.exit(__doc__)
    program, source, costs, items = words[:4]
    rows = {}
    print("processors  used      finish  busiest  items x service")
    for processors in PROCESSORS:
        found = row(program, [source, "--costs", costs], items, processors)
        if found is not None:
            rows[processors] = found
            used, finish, share, model = found
            print(f"{processors:>10} {used:>5} {finish:>11} {100 * share:>7.1f}% {model:>16}", flush=True)
    if len(words) == 5 and pyplot is None:
        sys.exit("speedup: this Python has no matplotlib, so nothing is drawn")
    if len(words) == 5:
        draw(rows, pathlib.Path(source).name, words[4])


if __name__ == "__main__":
    main(sys.argv[1:])
