#!/bin/bash
# Makes a certificate of 5,000 pieces with 4,500 places each (about 130 MB), with an institution for every reviewer and
# prices that meet its total, and prints the ratio of
# `matcher check` on it to `LC_ALL=C wc -w` on the same file, in one run, with the peak memory of the check
# beside the bytes that the lottery takes in memory (4 for each place).
# usage: bench/check.sh PATH-OF-MATCHER [PIECES]
set -eu
matcher=$(realpath "$1")
pieces=${2:-5000}
folder=$(mktemp -d)
trap 'rm -rf "$folder"' EXIT
python3 - "$folder/certificate" "$pieces" <<'MAKE'
import sys
path, pieces = sys.argv[1], int(sys.argv[2])
papers, reviewers, demand, houses, score = 45, 1500, 100, 9, 1000000
weight = 10000 // pieces
columns = 1250
def places(k):
    a, b = divmod(k, columns)
    taken = [list(range(a, a + demand))]
    taken += [list(range(demand)) for _ in range(papers - 2)]
    taken += [list(range(demand - 1)) + [demand - 1 + b]]
    return [p * reviewers + r for p, row in enumerate(taken) for r in row]
shares = [0] * (papers * reviewers)
lines = []
for k in range(pieces):
    row = places(k)
    for e in row:
        shares[e] += weight
    lines.append(f"{weight} " + " ".join(map(str, row)) + "\n")
with open(path, "w") as out:
    out.write(f"rules 1\ntickets 10000\nlimit 1500\npapers {papers}\n")
    out.writelines(f"p{p:04} {demand}\n" for p in range(papers))
    out.write(f"reviewers {reviewers}\n")
    out.writelines(f"r{r:04} 0 1500 i{r % houses}\n" for r in range(reviewers))
    out.write(f"pairs {papers * reviewers}\n")
    out.writelines(f"{p} {r} {score} 0 10000\n" for p in range(papers) for r in range(reviewers))
    out.write(f"end rules\nlottery 1\nmode whole\nthreshold none\ntotal {10000 * papers * demand * score}\n")
    out.write(f"paper-prices {papers}\n" + f"{score}\n" * papers)
    out.write(f"group-prices {papers * houses}\n" + "0\n" * (papers * houses))
    out.write(f"reviewer-prices {reviewers}\n" + "0\n" * reviewers)
    out.write(f"shares {papers * reviewers}\n")
    out.writelines(f"{x}\n" for x in shares)
    out.write(f"cut none\npieces {pieces}\n")
    out.writelines(lines)
    out.write("end lottery\n")
MAKE
python3 - "$folder/certificate" "$matcher" "$pieces" <<'MEASURE'
import os, resource, subprocess, sys, time
path, matcher, pieces = sys.argv[1], sys.argv[2], int(sys.argv[3])
environment = dict(os.environ, LC_ALL="C")
def seconds(command):
    best = None
    for _ in range(3):
        with open(path) as text:
            start = time.perf_counter()
            done = subprocess.run(command, stdin=text, capture_output=True, env=environment)
            taken = time.perf_counter() - start
        best = taken if best is None else min(best, taken)
    return best, done
words, _ = seconds(["wc", "-w"])
before = resource.getrusage(resource.RUSAGE_CHILDREN).ru_maxrss
check, done = seconds([matcher, "check"])
peak = resource.getrusage(resource.RUSAGE_CHILDREN).ru_maxrss * 1024
lottery = 4 * 4500 * pieces
print(f"certificate {os.path.getsize(path)} bytes, {pieces} pieces")
print(f"matcher check: status {done.returncode}, {done.stdout.decode().strip()}")
print(f"wc -w {words:.3f} s, matcher check {check:.3f} s, ratio {check / words:.2f}")
print(f"peak memory {peak} bytes, lottery {lottery} bytes, aim {int(1.3 * lottery) + 32 * 2**20} bytes")
MEASURE
