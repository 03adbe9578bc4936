#!/bin/bash
# The solver beside LEMON's NetworkSimplex and CostScaling, in one run, on made conferences (seed 7) and on dense, contended
# rules. The times are those of the solve alone: of three runs each, the median. The costs of one workload are compared, and a
# difference ends the script. A solve that takes longer than the limit is stopped and shown as not done.
# It wants g++ and Debian's liblemon-dev.
# usage: bench/solve.sh PATH-OF-BENCHES [LIMIT-IN-SECONDS, 120 if not given] [WORKLOAD, all if not given]
set -eu
solver=$(realpath "$1")
limit=${2:-120}
only=${3:-}
here=$(cd "$(dirname "$0")" && pwd)
folder=$(mktemp -d)
trap 'rm -rf "$folder"' EXIT
g++ -O2 -w -o "$folder/lemon" "$here/lemon.cpp"

# the seconds of one run, whose cost goes to the file `cost`
seconds() {
  case $1 in
    solve) timeout "$limit" "$solver" time < "$folder/network" 2>&1 >"$folder/cost" | awk '{ print $1 / 1000000 }' ;;
    *) timeout "$limit" "$folder/lemon" "$1" < "$folder/network" 2>&1 >"$folder/cost" ;;
  esac
}

# the median of three runs, or nothing where one isn't done
median() {
  for _ in 1 2 3; do
    taken=$(seconds "$1") || return 0
    [ -n "$taken" ] || return 0
    echo "$taken"
  done | sort -g | awk '{ line[NR] = $1 } END { if (NR == 3) print line[2] }'
}

one() {
  middle=$(median "$2")
  if [ -z "$middle" ]; then
    printf '%-12s %-8s not done after %s seconds\n' "$1" "$2" "$limit"
    return
  fi
  cost=$(cat "$folder/cost")
  printf '%-12s %-8s cost %s seconds %s\n' "$1" "$2" "$cost" "$middle"
  if [ -n "$wanted" ] && [ "$wanted" != "$cost" ]; then
    echo "$1: the costs differ" >&2
    exit 1
  fi
  wanted=$cost
}

workload() {
  name=$1
  shift
  if [ -n "$only" ] && [ "$only" != "$name" ]; then return; fi
  python3 "$here/make_network.py" "$@" > "$folder/network"
  wanted=
  for program in solve simplex scaling; do
    one "$name" "$program"
  done
}

workload 1 blocks 7 1
workload 4 blocks 7 4
workload 25 blocks 7 25
workload 25-five blocks 7 25 five
workload 25-zero blocks 7 25 zero
workload 25-uneven blocks 7 25 uneven
workload 25-low blocks 7 25 low
workload dense dense
workload dense-five dense five
workload dense-zero dense zero
