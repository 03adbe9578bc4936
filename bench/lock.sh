#!/bin/bash
# Two threads that take and give 1,000,000 turns in all at the turn lock, and at a Mutex of Rust's standard library with
# tickets (bench/turns.rs), as whole programs in one run: the least of three turns of each, which alternate. It wants rustc.
# usage: bench/lock.sh PATH-OF-TURN_LOCK_TESTS [TURNS]
set -eu
lock=$(realpath "$1")
turns=${2:-1000000}
here=$(cd "$(dirname "$0")" && pwd)
folder=$(mktemp -d)
trap 'rm -rf "$folder"' EXIT
rustc -O -o "$folder/turns" "$here/turns.rs"
python3 - "$lock" "$folder/turns" "$turns" <<'MEASURE'
import subprocess, sys, time
lock, mutex, turns = sys.argv[1:]
least = {}
for _ in range(3):
    for program in (lock, mutex):
        start = time.perf_counter()
        done = subprocess.run([program, turns], capture_output=True, check=True)
        taken = time.perf_counter() - start
        assert done.stdout.decode().strip() == f"turns {turns}", done.stdout
        least[program] = min(taken, least.get(program, taken))
print(f"{turns} turns: lock {least[lock]:.3f} s, mutex {least[mutex]:.3f} s, ratio {least[lock] / least[mutex]:.2f}")
MEASURE
