#!/usr/bin/env python3
"""Writes the network of a made conference as text: `NODES ARCS`, then a line `TAIL HEAD FLOOR ROOM COST` for each arc.

usage: make_network.py blocks SEED SIZE WORD..     60 papers, 45 reviewers and 2,400 pairs a block
       make_network.py dense WORD..                1,500 papers, 1,125 reviewers, 250,000 pairs, uneven caps, contended reviewers

Words: `five`, costs rounded to -1, -0.5, 0, 0.5 or 1; `zero`, costs of 0; `uneven`, caps of 1,000 to 8,363 tickets; `low`, caps
of 600 tickets, so that there is no circulation.
"""
import sys

TICKETS = 10000
BIDS = [10000, 5000, 0, -5000, -10000, 0]


def draws(x):
    while True:
        x = (x * 1664525 + 1013904223) % 4294967296
        yield x // 65536


def blocks(seed, size):
    numbers = draws(seed)
    pairs = []
    for b in range(size):
        for p in range(60 * b, 60 * b + 60):
            for r in range(45 * b, 45 * b + 45):
                value = next(numbers) % 10001
                bid = BIDS[next(numbers) % 6]
                if p % 9 != r % 9:
                    pairs.append((p, r, 70 * value + 30 * bid, TICKETS // 2))
    papers, reviewers = 60 * size, 45 * size
    return papers, reviewers, pairs, 3, 6, 2, lambda r: r % 9


def dense():
    numbers = draws(11)
    papers, reviewers, wanted = 1500, 1125, 250000
    pairs = []
    for p in range(papers):
        base = wanted * p // papers
        count = wanted * (p + 1) // papers - base
        step = reviewers / count
        for k in range(count):
            r = int(k * step + p % 7) % reviewers
            # few reviewers score high for every paper, so that they are contended
            score = 1000000 - 800 * r + 40 * (next(numbers) % 10001)
            cap = 1000 + next(numbers) % 9001
            pairs.append((p, r, score, cap))
    return papers, reviewers, pairs, 3, 5, 2, lambda r: r % 97


def network(papers, reviewers, pairs, demand, greatest, limit, institution):
    keys = sorted({(p, institution(r)) for p, r, _, _ in pairs})
    place = {key: papers + g for g, key in enumerate(keys)}
    hub = papers + len(keys) + reviewers
    arcs = [(place[p, institution(r)], papers + len(keys) + r, 0, cap, -score) for p, r, score, cap in pairs]
    arcs += [(hub, p, TICKETS * demand, TICKETS * demand, 0) for p in range(papers)]
    arcs += [(p, papers + g, 0, TICKETS * limit, 0) for g, (p, _) in enumerate(keys)]
    arcs += [(papers + len(keys) + r, hub, 0, TICKETS * greatest, 0) for r in range(reviewers)]
    return hub + 1, arcs


def rounded(score):
    half = 500000
    return (1 if score > 0 else -1) * min((abs(score) + half // 2) // half * half, 2 * half)


def changed(pairs, words):
    numbers = draws(3)
    for paper, reviewer, score, cap in pairs:
        if "five" in words:
            score = rounded(score)
        if "zero" in words:
            score = 0
        if "uneven" in words:
            cap = 1000 + next(numbers) % 7364
        if "low" in words:
            cap = 600
        yield paper, reviewer, score, cap


def main():
    is_dense = sys.argv[1] == "dense"
    papers, reviewers, pairs, *rest = dense() if is_dense else blocks(int(sys.argv[2]), int(sys.argv[3]))
    words = sys.argv[2 if is_dense else 4 :]
    nodes, arcs = network(papers, reviewers, list(changed(pairs, words)), *rest)
    out = [f"{nodes} {len(arcs)}\n"]
    out += [f"{t} {h} {f} {u} {c}\n" for t, h, f, u, c in arcs]
    sys.stdout.write("".join(out))


main()
