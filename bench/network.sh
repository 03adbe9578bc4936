#!/bin/bash
# Compiles the network of the largest rules (1,500 papers, 1,500 reviewers, 250,000 pairs with a group each) and prints
# the time of the compiling, and the peak memory of the whole program with that of the rules, for each arc.
# usage: bench/network.sh PATH-OF-BENCHES
set -eu
python3 - "$(realpath "$1")" <<'MEASURE'
import resource, subprocess, sys
ROWS, PAIRS = 1500, 250_000
lines = ["rules 1", "tickets 10000", "limit 2", f"papers {ROWS}"]
lines += [f"p{place:04} 3" for place in range(ROWS)]
lines += [f"reviewers {ROWS}"]
lines += [f"r{place:04} 0 6 r{place:04}" for place in range(ROWS)]
lines += [f"pairs {PAIRS}"]
lines += [f"{place // 167} {place % 167 * 8} {place} 0 10000" for place in range(PAIRS)]
lines += ["end rules", ""]
done = subprocess.run([sys.argv[1], "network"], input="\n".join(lines).encode(), capture_output=True)
peak = resource.getrusage(resource.RUSAGE_CHILDREN).ru_maxrss * 1024
print(done.stdout.decode().strip())
arcs, taken = int(done.stdout.split()[3]), int(done.stderr) / 1e6
print(f"{taken:.3f} s, {1e9 * taken / arcs:.0f} ns an arc; peak {peak} bytes, {peak / arcs:.0f} bytes an arc")
MEASURE
