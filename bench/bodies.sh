#!/bin/sh
# Times bodies run by `p3l run` beside the same bodies in Lua 5.4 and in C, and prints milliseconds and ratios.
# Each is run three times, and the shortest time counts. All must write the same lines.
# Usage: bench/bodies.sh PATH-OF-P3L [LUA] [CC]
set -eu
program=${1:?the path of the program p3l}
lua=${2:-lua5.4}
compiler=${3:-cc}
bodies=$(dirname "$0")/bodies
folder=$(mktemp -d)
trap 'rm -rf "$folder"' EXIT

echo 150000 >"$folder/nested.txt"
seq 1 1000000 >"$folder/short.txt"

# The shortest of three times in milliseconds of a command on an input; what it writes is kept.
shortest() {
  input=$1
  output=$2
  shift 2
  best=
  for turn in 1 2 3; do
    start=$(date +%s%N)
    "$@" <"$input" >"$output"
    finish=$(date +%s%N)
    took=$(((finish - start) / 1000000))
    if [ -z "$best" ] || [ "$took" -lt "$best" ]; then
      best=$took
    fi
  done
  echo "$best"
}

# A ratio with two decimals.
ratio() {
  awk -v time="$1" -v other="$2" 'BEGIN { printf "%.2f", time / (other > 0 ? other : 1) }'
}

for body in nested short; do
  input=$folder/$body.txt
  "$compiler" -O2 -o "$folder/$body" "$bodies/$body.c"
  ours=$(shortest "$input" "$folder/$body.p3l.out" "$program" run "$bodies/$body.p3l" --processors 4)
  in_lua=$(shortest "$input" "$folder/$body.lua.out" "$lua" "$bodies/$body.lua")
  in_c=$(shortest "$input" "$folder/$body.c.out" "$folder/$body")
  cmp "$folder/$body.p3l.out" "$folder/$body.c.out"
  cmp "$folder/$body.lua.out" "$folder/$body.c.out"
  echo "$body: p3l $ours ms, lua $in_lua ms, c $in_c ms; p3l/lua $(ratio "$ours" "$in_lua"), p3l/c $(ratio "$ours" "$in_c")"
done
