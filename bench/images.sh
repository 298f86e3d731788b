#!/usr/bin/env bash
# Generated programs, and an image of the largest program that there is: compiled, and run with its stream.
# usage: images.sh PATH-OF-P3L
set -eu
p3l=$(realpath "$1")
room=$(mktemp -d)
trap 'rm -rf "$room"' EXIT
cd "$room"

# a pipe of 62 farms, 125 instances, with 512 processors
{
  printf 'seq work in(int x) out(int y)\n${ y = x + 1; }$\nend seq\n'
  for k in $(seq 62); do printf 'farm f%d in(int x) out(int y)\n  work in(x) out(y)\nend farm\n' "$k"; done
  printf 'pipe main in(int a0) out(int a62)\n'
  for k in $(seq 61); do printf '  f%d in(a%d) out(int a%d)\n' "$k" $((k - 1)) "$k"; done
  printf '  f62 in(a61) out(a62)\nend pipe\n'
} >deep.p3l
seq 10000 >deep.txt

TIMEFORMAT='%U s of processor time, %R s in all'
for items in 1000 100000; do
  echo "gen 7 with $items items"
  time "$p3l" gen 7 --processors 16 --items "$items"
done
echo "compile, a pipe of 62 farms"
time "$p3l" compile deep.p3l --processors 512 --output deep.img
echo "an image of $(wc -c <deep.img) bytes"
echo "exec with one item"
time "$p3l" exec deep.img <<<5 >/dev/null
echo "exec with 10,000 items"
time "$p3l" exec deep.img --stats <deep.txt >out.exec
echo "run with 10,000 items"
time "$p3l" run deep.p3l --processors 512 --stats <deep.txt >out.run
cmp out.exec out.run
echo "run with 10,000 items and a trace"
time "$p3l" run deep.p3l --processors 512 --trace deep.trace <deep.txt >/dev/null
echo "a trace of $(wc -c <deep.trace) bytes"
echo "check-trace"
time "$p3l" check-trace deep.p3l --processors 512 --trace deep.trace <deep.txt
