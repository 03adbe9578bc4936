#!/bin/bash
# Reads a table of 250,000 values (1,500 papers, about 6 MB) with the importer, as a whole program, and with Python's csv
# module and float on the third column, in one run: the least of five turns of each. Python's time is without its start.
# usage: bench/imports.sh PATH-OF-BENCHES
set -eu
folder=$(mktemp -d)
trap 'rm -rf "$folder"' EXIT
python3 - "$(realpath "$1")" "$folder/values.csv" <<'MEASURE'
import csv, os, random, subprocess, sys, time

program, path = sys.argv[1:]
random.seed(7)
with open(path, "w", newline="") as table:
    table.write("paper,reviewer,value\n")
    for place in range(250000):
        paper, reviewer = place // 167, place % 167 * 8
        table.write(f"paper{paper:04},r{reviewer:04},{random.uniform(-10, 10):.4f}\n")


def imported():
    with open(path, "rb") as table:
        return int(subprocess.run([program, "import"], stdin=table, capture_output=True, check=True).stdout.split()[1])


def by_python():
    with open(path, newline="", encoding="utf-8") as table:
        rows = csv.reader(table)
        next(rows)
        return len([(paper, reviewer, float(value)) for paper, reviewer, value in rows])


def least(read):
    times = []
    for _ in range(5):
        start = time.perf_counter()
        assert read() == 250000
        times.append(time.perf_counter() - start)
    return min(times)


ours, python = least(imported), least(by_python)
print(f"{os.path.getsize(path)} bytes; import {ours:.3f} s, python {python:.3f} s, ratio {ours / python:.2f}")
MEASURE
