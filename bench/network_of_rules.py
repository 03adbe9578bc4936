#!/usr/bin/env python3
"""Writes the network of a rules text, as `bench/lemon.cpp` reads it: `NODES ARCS`, then `TAIL HEAD FLOOR ROOM COST` an arc.

usage: python3 bench/network_of_rules.py < RULES
"""
import sys

TICKETS = 10000


def fields(lines, word):
    head = next(lines).split(" ")
    if head[0] != word:
        sys.exit(f"no line `{word}`")
    return [next(lines).split(" ") for _ in range(int(head[1]))]


def main():
    lines = iter(sys.stdin.read().split("\n"))
    for _ in range(2):
        next(lines)
    limit = int(next(lines).split(" ")[1])
    papers = fields(lines, "papers")
    reviewers = fields(lines, "reviewers")
    pairs = [list(map(int, pair)) for pair in fields(lines, "pairs")]
    institutions = [reviewer[3] if len(reviewer) > 3 else None for reviewer in reviewers]
    keys = sorted({(pair[0], institutions[pair[1]]) for pair in pairs if institutions[pair[1]] is not None})
    place = {key: len(papers) + g for g, key in enumerate(keys)}
    first_reviewer = len(papers) + len(keys)
    hub = first_reviewer + len(reviewers)
    arcs = [(place.get((p, institutions[r]), p), first_reviewer + r, floor, cap, -score) for p, r, score, floor, cap in pairs]
    arcs += [(hub, p, TICKETS * int(paper[1]), TICKETS * int(paper[1]), 0) for p, paper in enumerate(papers)]
    arcs += [(p, place[p, institution], 0, TICKETS * limit, 0) for p, institution in keys]
    arcs += [
        (first_reviewer + r, hub, TICKETS * int(reviewer[1]), TICKETS * int(reviewer[2]), 0)
        for r, reviewer in enumerate(reviewers)
    ]
    out = [f"{hub + 1} {len(arcs)}"]
    out += [" ".join(map(str, arc)) for arc in arcs]
    print("\n".join(out))


main()
