#!/bin/bash
# What peeling takes where caps differ, so that a lottery has thousands of pieces: `matcher solve whole` less `matcher rules` and less
# the writing of the text, in processor time, beside LEMON's solve alone of the network of the same rules, in one run; medians
# of three. So the solve and the prices are counted with the peeling; a second line has the peeling alone, as `benches peel` times it on
# the same rules. It wants g++ and Debian's liblemon-dev.
# usage: bench/peel.sh PATH-OF-MATCHER PATH-OF-BENCHES
set -eu
matcher=$(realpath "$1")
benches=$(realpath "$2")
here=$(dirname "$(realpath "$0")")
folder=$(mktemp -d)
trap 'rm -rf "$folder"' EXIT
g++ -O2 -w -o "$folder/lemon" "$here/lemon.cpp"
python3 "$here/make_folder.py" 7 4 "$folder/size-4"
python3 "$here/make_folder.py" 7 25 "$folder/size-25"
mkdir "$folder/dense"
python3 - "$folder" "$matcher" "$benches" "$here" <<'MEASURE'
import csv, math, os, resource, statistics, subprocess, sys
folder, matcher, benches, here = sys.argv[1:]

def numbers(x):
    while True:
        x = (x * 1664525 + 1013904223) % 4294967296
        yield x // 65536

def write(name, file, rows):
    with open(f"{folder}/{name}/{file}", "w", newline="") as out:
        csv.writer(out, lineterminator="\n").writerows(rows)

def dense(name, papers, reviewers):
    """Every pair of so many papers and reviewers, where these are contended."""
    draw = numbers(5)
    with open(f"{folder}/{name}/settings.toml", "w") as out:
        out.write('limit = 2\ncap = "0.5"\ndemand = 3\nleast = 0\ngreatest = 4\n[[source]]\nname = "affinity"\nkind = "values"\nweight = 100\n')
    pairs = [(f"p{paper:04}", f"r{reviewer:04}") for paper in range(papers) for reviewer in range(reviewers)]
    write(name, "papers.csv", [(f"p{paper:04}", 3, "") for paper in range(papers)])
    write(name, "reviewers.csv", [(f"r{reviewer:04}", "", 0, 4) for reviewer in range(reviewers)])
    write(name, "values-affinity.csv", [(*pair, f"0.{next(draw) % 10000:04}") for pair in pairs])
    write(name, "caps.csv", [(*pair, f"0.{1000 + next(draw) % 7364:04}") for pair in pairs])

def uneven(name):
    """Gives each pair of a made conference a cap of its own."""
    draw = numbers(3)
    rules = subprocess.run([matcher, "rules"], cwd=f"{folder}/{name}", capture_output=True, text=True).stdout.split("\n")
    papers = int(rules[3].split()[1])
    reviewers = int(rules[4 + papers].split()[1])
    at = 5 + papers + reviewers
    ids = [line.split()[0] for line in rules[4:4 + papers]], [line.split()[0] for line in rules[5 + papers:at]]
    pairs = [line.split() for line in rules[at + 1:at + 1 + int(rules[at].split()[1])]]
    write(name, "caps.csv", [(ids[0][int(pair[0])], ids[1][int(pair[1])], f"0.{1000 + next(draw) % 7364:04}") for pair in pairs])

def used(command, where=None, text=None):
    """Processor seconds, as the system counts them, and what was said."""
    taken = []
    for _ in range(3):
        before = resource.getrusage(resource.RUSAGE_CHILDREN)
        done = subprocess.run(command, cwd=where, input=text, capture_output=True)
        after = resource.getrusage(resource.RUSAGE_CHILDREN)
        taken.append(after.ru_utime + after.ru_stime - before.ru_utime - before.ru_stime)
    return statistics.median(taken), done

def peeling(name, kind):
    where = f"{folder}/{name}"
    rules, text = used([matcher, "rules"], where)
    whole, done = used([matcher, "solve", "whole"], where)
    writes = [float(subprocess.run([benches, "write"], input=done.stdout, capture_output=True).stderr) / 1e6 for _ in range(3)]
    network = subprocess.run([sys.executable, f"{here}/network_of_rules.py"], input=text.stdout, capture_output=True).stdout
    peeled = [subprocess.run([benches, "peel"], input=text.stdout, capture_output=True) for _ in range(3)]
    alone = statistics.median(float(run.stderr) / 1e6 for run in peeled)
    solves = [float(subprocess.run([f"{folder}/lemon", kind], input=network, capture_output=True).stderr) for _ in range(3)]
    lemon, writing = statistics.median(solves), statistics.median(writes)
    taken = whole - rules - writing
    said = subprocess.run([matcher, "check"], input=done.stdout, capture_output=True).stdout.decode().strip()
    pairs = text.stdout.count(b"\n")
    print(f"{name}: {said}; {len(done.stdout)} bytes")
    print(f"{name}: whole {whole:.3f} s, rules {rules:.3f} s, text {writing:.3f} s; LEMON's {kind} {lemon:.3f} s, ratio {taken / lemon:.2f}")
    print(f"{name}: the peeling alone {alone:.3f} s, {peeled[0].stdout.decode().strip()}, ratio {alone / lemon:.2f}")
    return alone, int(said.split()[-1])

for name in ["size-4", "size-25"]:
    uneven(name)
small, few = peeling("size-4", "simplex")
large, many = peeling("size-25", "simplex")
print(f"growth from size 4 to 25: exponent {math.log(large / small) / math.log(6.25):.2f}, of the lottery's places {math.log(many * 6.25 / few) / math.log(6.25):.2f}")
dense("dense", 500, 500)
peeling("dense", "scaling")
print(f"peak memory {resource.getrusage(resource.RUSAGE_CHILDREN).ru_maxrss} KiB")
MEASURE
