#!/bin/bash
# Whole jobs, from a folder to the text of a certificate, beside LEMON's NetworkSimplex as a process that reads and solves the
# network of the same rules, in one run; medians of three. In the mode fair the threshold is LEMON's too, by a binary search with
# Preflow; given the benches, too, the search alone stands beside that. Each certificate is checked by `matcher check` and by the
# second checker. It wants g++ and Debian's liblemon-dev.
# usage: bench/job.sh PATH-OF-MATCHER [SIZE, 25 if not given] [PATH-OF-BENCHES]
set -eu
matcher=$(realpath "$1")
size=${2:-25}
benches=${3:+$(realpath "$3")}
here=$(dirname "$(realpath "$0")")
folder=$(mktemp -d)
trap 'rm -rf "$folder"' EXIT
g++ -O2 -w -o "$folder/lemon" "$here/lemon.cpp"
python3 "$here/make_folder.py" 7 "$size" "$folder/conference"
python3 "$here/make_folder.py" 7 1 "$folder/uneven"
python3 - "$folder/uneven" <<'CAPS'
import sys
x = 3
with open(f"{sys.argv[1]}/caps.csv", "w", newline="") as out:
    for paper in range(60):
        for reviewer in range(45):
            if paper % 9 != reviewer % 9:
                x = (x * 1664525 + 1013904223) % 4294967296
                out.write(f"p{paper:04},r{reviewer:04},0.{1000 + x // 65536 % 7364:04}\n")
CAPS
python3 - "$folder" "$matcher" "$here" "$benches" <<'MEASURE'
import os, resource, statistics, subprocess, sys, time
folder, matcher, here, benches = sys.argv[1:]

def seconds(command, where, text=None):
    taken = []
    for _ in range(3):
        start = time.perf_counter()
        done = subprocess.run(command, cwd=where, input=text, capture_output=True)
        taken.append(time.perf_counter() - start)
    return statistics.median(taken), done

def said(command, text):
    done = subprocess.run(command, input=text, capture_output=True)
    return f"{done.returncode} {done.stdout.decode().strip()}"

def prepared(name):
    """The folder of a conference, its rules, and the network of these."""
    where = f"{folder}/{name}"
    rules = subprocess.run([matcher, "rules"], cwd=where, capture_output=True).stdout
    return where, rules, subprocess.run([sys.executable, f"{here}/network_of_rules.py"], input=rules, capture_output=True).stdout

def check_line(name, certificate):
    """What both checkers say of a certificate."""
    checked = said([matcher, "check"], certificate)
    second = said([sys.executable, f"{here}/../checker/check.py"], certificate)
    if checked != second:
        sys.exit(f"{name}: matcher says {checked}, the second checker {second}")
    return checked

def job(name):
    where, _, network = prepared(name)
    ours, done = seconds([matcher, "solve", "whole"], where)
    lemon, theirs = seconds([f"{folder}/lemon", "simplex"], where, network)
    checked = check_line(name, done.stdout)
    print(f"{name}: status {done.returncode}, {len(done.stdout)} bytes; check says {checked}")
    print(f"{name}: matcher solve whole {ours:.3f} s, LEMON reads and solves in {lemon:.3f} s, ratio {ours / lemon:.2f}")
    cost = int(theirs.stdout)
    if f"total {-cost} " not in checked:
        sys.exit(f"{name}: LEMON's cost is {cost}")

def fair(name):
    """The mode fair beside the mode whole, and beside LEMON's search for the threshold."""
    where, rules, network = prepared(name)
    whole, _ = seconds([matcher, "solve", "whole"], where)
    ours, done = seconds([matcher, "solve", "fair"], where)
    search = [subprocess.run([f"{folder}/lemon", "threshold"], input=network, capture_output=True) for _ in range(3)]
    lemon = statistics.median(float(one.stderr.split()[0]) for one in search)
    checked = check_line(name, done.stdout)
    print(f"{name}: solve fair {ours:.3f} s, solve whole {whole:.3f} s; LEMON finds the threshold in {lemon:.3f} s; check says {checked}")
    print(f"{name}: solve fair to solve whole and LEMON's search, ratio {ours / (whole + lemon):.2f}")
    if benches:
        alone = [subprocess.run([benches, "level"], input=rules, capture_output=True) for _ in range(3)]
        taken = statistics.median(float(one.stderr) / 1000000 for one in alone)
        used = statistics.median(float(one.stderr.split()[1]) for one in search)
        print(f"{name}: the search alone {taken:.4f} s, LEMON's {lemon:.4f} s, {used:.4f} s of a processor; ratio {taken / used:.2f}")
        if alone[0].stdout != search[0].stdout:
            sys.exit(f"{name}: the level is {alone[0].stdout.decode().strip()}")
    if f"threshold {int(search[0].stdout)} " not in checked:
        sys.exit(f"{name}: LEMON's threshold is {int(search[0].stdout)}")

job("conference")
job("uneven")
fair("conference")
fair("uneven")
print(f"peak memory {resource.getrusage(resource.RUSAGE_CHILDREN).ru_maxrss} KiB")
MEASURE
