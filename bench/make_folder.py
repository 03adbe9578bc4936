#!/usr/bin/env python3
"""Makes the folder of a conference: python3 make_folder.py SEED SIZE FOLDER.

60 x SIZE papers and 45 x SIZE reviewers in blocks of 60 and 45; each pair of
a block gets a value and maybe a bid. The same seed gives the same files.
"""

import os
import sys

WORDS = ["Very High", "High", "Neutral", "Low", "Very Low"]

SETTINGS = """limit = 2
cap = "0.5"
demand = 3
least = 0
greatest = 6
[[source]]
name = "affinity"
kind = "values"
weight = 70
[[source]]
name = "bid"
kind = "bids"
weight = 30
"""


def draws(seed):
    x = seed
    while True:
        x = (x * 1664525 + 1013904223) % 4294967296
        yield x // 65536


def make(seed, size, folder):
    os.makedirs(folder, exist_ok=True)

    def write(name, text):
        with open(os.path.join(folder, name), "w", newline="") as out:
            out.write(text)

    write("settings.toml", SETTINGS)
    write("papers.csv", "".join(f"p{j:04},,i{j % 9}\n" for j in range(60 * size)))
    write("reviewers.csv", "".join(f"r{k:04},i{k % 9},,\n" for k in range(45 * size)))
    draw = draws(seed)
    values, bids = [], []
    for block in range(size):
        for j in range(60 * block, 60 * block + 60):
            for k in range(45 * block, 45 * block + 45):
                value, bid = next(draw) % 10001, next(draw) % 6
                values.append(f"p{j:04},r{k:04},{value // 10000}.{value % 10000:04}\n")
                if bid < 5:
                    bids.append(f"p{j:04},r{k:04},{WORDS[bid]}\n")
    write("values-affinity.csv", "".join(values))
    write("bids.csv", "".join(bids))


if __name__ == "__main__":
    make(int(sys.argv[1]), int(sys.argv[2]), sys.argv[3])
