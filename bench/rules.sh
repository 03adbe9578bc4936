#!/bin/bash
# The time of `matcher rules` beside that of `python3 bench/rules.py` on three folders, in one run: a conference of 1,500
# papers, 1,125 reviewers and 60,000 pairs; 1,500 papers and 1,500 reviewers with one listed pair each; 500 papers and 500
# reviewers where all 250,000 pairs are candidates. Both have to write the same text.
# usage: bench/rules.sh PATH-OF-MATCHER [SIZE]
set -eu
matcher=$(realpath "$1")
size=${2:-25}
here=$(dirname "$(realpath "$0")")
folder=$(mktemp -d)
trap 'rm -rf "$folder"' EXIT
python3 "$here/make_folder.py" 7 "$size" "$folder/conference"
python3 - "$folder" "$matcher" "$here/rules.py" <<'MEASURE'
import os, subprocess, sys, time
folder, matcher, script = sys.argv[1:]

def make(name, count, settings):
    files = {
        "settings.toml": settings,
        "papers.csv": "".join(f"p{i:04},,i{i % 9}\n" for i in range(count)),
        "reviewers.csv": "".join(f"r{i:04},,,\n" for i in range(count)),
        "values-affinity.csv": "".join(f"p{i:04},r{i:04},0.5\n" for i in range(count)),
    }
    os.makedirs(f"{folder}/{name}")
    for file, text in files.items():
        with open(f"{folder}/{name}/{file}", "w", newline="") as out:
            out.write(text)

def seconds(command, where):
    best = None
    for _ in range(3):
        start = time.perf_counter()
        done = subprocess.run(command, cwd=where, capture_output=True)
        taken = time.perf_counter() - start
        best = taken if best is None else min(best, taken)
    return best, done

make("few", 1500, "demand = 1\n")
make("all", 500, 'pairs = "all"\n')
for name in ["conference", "few", "all"]:
    rules, ours = seconds([matcher, "rules"], f"{folder}/{name}")
    python, theirs = seconds([sys.executable, script, f"{folder}/{name}"], folder)
    same = ours.stdout == theirs.stdout
    print(f"{name}: status {ours.returncode}, {len(ours.stdout)} bytes, the same text: {same}")
    print(f"{name}: matcher rules {rules:.3f} s, python {python:.3f} s, ratio {python / rules:.1f} (aim: at least 5)")
MEASURE
