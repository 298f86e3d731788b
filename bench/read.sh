#!/bin/sh
# Times `p3l fmt` on a source text of 1 MiB, which is read and printed whole, and prints bytes a second.
# Usage: bench/read.sh PATH-OF-P3L
set -eu
program=${1:?the path of the program p3l}
folder=$(mktemp -d)
trap 'rm -rf "$folder"' EXIT
python3 - "$folder/source.p3l" <<'PY'
import sys

LIMIT = 1_048_576
head = "seq main in(int x, int a[8]) out(int y)\n${\n  int i;\n"
line = "  y = y * 3 + a[(x + {n}) & 7] - (x << 2 | {n}) / ({n} + 1);\n"
tail = "}$\nend seq\n"
text = [head]
size = len(head) + len(tail)
number = 0
while True:
    more = line.replace("{n}", str(number))
    if size + len(more) > LIMIT:
        break
    text.append(more)
    size += len(more)
    number += 1
text.append(tail)
open(sys.argv[1], "w").write("".join(text))
PY
bytes=$(wc -c <"$folder/source.p3l")
start=$(date +%s%N)
"$program" fmt "$folder/source.p3l" >"$folder/printed.p3l"
finish=$(date +%s%N)
echo "$bytes bytes in $(((finish - start) / 1000000)) ms: $((bytes * 1000000000 / (finish - start))) bytes a second"
