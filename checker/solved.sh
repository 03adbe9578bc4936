#!/bin/bash
# Solves the conferences of the stored cases and the shipped workshop in both modes, runs `matcher check` and checker/check.py over
# what that wrote, and says how many agreed that it is valid. Ends with 1 where one did not, and shows the first such certificate.
# usage: checker/solved.sh PATH-OF-MATCHER
set -eu
matcher=$(realpath "$1")
cd "$(dirname "$0")/.."
exec python3 - "$matcher" crates/matcher_cases/stdin examples/workshop <<'SOLVED'
import os
import subprocess
import sys
import tempfile

matcher, cases, workshop = sys.argv[1:]
texts, folders = {}, {}


def spelled(text):
    return text.replace("\\n", "\n").replace("\\r", "\r").encode()


def part_of(lines, at):
    """The bytes of the part whose lines begin at a place."""
    part = b""
    while at < len(lines):
        word, _, rest = lines[at].partition(" ")
        if word == "":
            part += rest.encode() + b"\n"
        elif word == "put":
            part += texts.get(rest, b"")
        elif word == "bytes":
            part += spelled(rest)
        elif word == "each":
            first, end, line = rest.split(" ", 2)
            part += b"".join(line.replace("#", str(k)).encode() + b"\n" for k in range(int(first), int(end)))
        elif word == "double":
            part *= 2 ** int(rest)
        elif word == "shorten":
            part = part[:-1]
        else:
            break
        at += 1
    return part


with open(cases, encoding="utf-8", newline="") as source:
    lines = source.read().split("\n")
name = None
for at, line in enumerate(lines):
    word, _, rest = line.partition(" ")
    if word == "case":
        name = rest
    elif word == "text":
        texts[rest] = part_of(lines, at + 1)
    elif word == "file" and name is not None and name.startswith("solve:"):
        folders.setdefault(name, {})[rest] = part_of(lines, at + 1)


def said(command, text):
    done = subprocess.run(command, input=text, capture_output=True)
    return done.returncode, done.stdout


agreed = 0
with tempfile.TemporaryDirectory() as base:
    places = [("the workshop", workshop)]
    for count, (name, files) in enumerate(folders.items()):
        place = f"{base}/{count}"
        os.mkdir(place)
        for file, part in files.items():
            with open(f"{place}/{file}", "wb") as out:
                out.write(part)
        places.append((name, place))
    for name, place, mode in [(name, place, mode) for name, place in places for mode in ("whole", "fair")]:
        solved = subprocess.run([matcher, "solve", mode], cwd=place, capture_output=True)
        if solved.returncode not in (0, 1):
            print(f"{name}, {mode}: status {solved.returncode}, no certificate")
            continue
        first = said([matcher, "check"], solved.stdout)
        second = said([sys.executable, "checker/check.py"], solved.stdout)
        if first != second or first[0] != 0:
            print(solved.stdout.decode())
            sys.exit(f"{name}, {mode}: matcher says {first}, check.py {second}")
        agreed += 1
print(f"{agreed} solved, and both checkers say of each that it is valid")
SOLVED
