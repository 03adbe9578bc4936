#!/usr/bin/env python3
"""The rules text of a folder, by dicts and the csv module: python3 rules.py FOLDER.

Knows what bench/make_folder.py and examples/ need: no fault is looked for.
"""

import csv
import os
import sys
import tomllib
from decimal import ROUND_HALF_UP, Decimal

DEFAULT_WORDS = {"Very High": "1", "High": "0.5", "Neutral": "0", "Low": "-0.5", "Very Low": "-1"}


def parts(text):
    return int(Decimal(text).scaleb(4).quantize(Decimal(1), rounding=ROUND_HALF_UP))


def rows(folder, name, columns):
    path = os.path.join(folder, name)
    if not os.path.exists(path):
        return []
    with open(path, newline="", encoding="utf-8-sig") as table:
        found = list(csv.reader(table))
    return found[1:] if found and found[0] == columns else found


def pairs(folder, name, column):
    return {(p, r): x for p, r, x in rows(folder, name, ["paper", "reviewer", column])}


def main(folder):
    path = os.path.join(folder, "settings.toml")
    settings = {}
    if os.path.exists(path):
        with open(path, "rb") as document:
            settings = tomllib.load(document)
    sources = settings.get("source", [{"name": "affinity", "kind": "values"}])
    words = {word: parts(text) for word, text in settings.get("bids", DEFAULT_WORDS).items()}
    papers = {p: (d, set(filter(None, i.split(";")))) for p, d, i in rows(folder, "papers.csv", ["paper", "demand", "institutions"])}
    reviewers = {r: (i, l, g) for r, i, l, g in rows(folder, "reviewers.csv", ["reviewer", "institution", "least", "greatest"])}
    bids = pairs(folder, "bids.csv", "bid")
    marks = {key: parts(x) // 10000 for key, x in pairs(folder, "marks.csv", "mark").items()}
    caps = {key: parts(x) for key, x in pairs(folder, "caps.csv", "cap").items()}
    tables = []
    for source in sources:
        values = {}
        if source["kind"] == "values":
            values = {key: parts(x) for key, x in pairs(folder, f"values-{source['name']}.csv", "value").items()}
        tables.append((source["kind"], source.get("weight", 100), parts(source.get("default", "0")), values))

    def score(key):
        total = 0
        for kind, weight, default, values in tables:
            value = values.get(key) if kind == "values" else words.get(bids.get(key))
            total += weight * (default if value is None else value)
        return total

    paper_ids = sorted(papers, key=str.encode)
    reviewer_ids = sorted(reviewers, key=str.encode)
    place = {r: j for j, r in enumerate(reviewer_ids)}
    listed = {p: set() for p in papers}
    for table in [*(t[3] for t in tables), bids, {key for key, mark in marks.items() if mark == 1}]:
        for p, r in table:
            if p in listed and r in place:
                listed[p].add(r)
    if settings.get("pairs") == "all":
        listed = {p: set(reviewers) for p in papers}
    cap = parts(settings.get("cap", "1"))
    out = ["rules 1", "tickets 10000", f"limit {settings.get('limit', 1500)}", f"papers {len(papers)}"]
    out += [f"{p} {papers[p][0] or settings.get('demand', 3)}" for p in paper_ids]
    out.append(f"reviewers {len(reviewers)}")
    for r in reviewer_ids:
        house, least, greatest = reviewers[r]
        least, greatest = least or settings.get("least", 0), greatest or settings.get("greatest", 6)
        out.append(f"{r} {least} {greatest}" + (f" {house}" if house else ""))
    lines = []
    for i, p in enumerate(paper_ids):
        for j in sorted(place[r] for r in listed[p]):
            r = reviewer_ids[j]
            mark = marks.get((p, r), 0)
            if mark == -1 or reviewers[r][0] in papers[p][1]:
                continue
            floor, most = (10000, 10000) if mark == 1 else (0, caps.get((p, r), cap))
            lines.append(f"{i} {j} {score((p, r))} {floor} {most}")
    out.append(f"pairs {len(lines)}")
    out += lines
    out.append("end rules\n")
    sys.stdout.write("\n".join(out))


if __name__ == "__main__":
    main(sys.argv[1])
