#!/bin/bash
# The desk, by programs of lines for desk_cases: what repeats of commands take behind many accepted commands, beside the same
# behind a fiftieth of them; and what a reopening takes, beside decoding each of its rows and checking each of its lotteries once.
# Each is the time of a whole run less that of the same run without it, in seconds of a processor, the least of three.
# usage: bench/desk.sh PATH-OF-DESK-CASES [COMMANDS, 50000 if not given] [REPEATS, 20000] [EDITS, 1000] [TURNS, 20]
set -eu
python3 - "$(realpath "$1")" "${2:-50000}" "${3:-20000}" "${4:-1000}" "${5:-20}" <<'MEASURE'
import resource, subprocess, sys

program = sys.argv[1]
commands, repeats, edits, turns = map(int, sys.argv[2:])

def used():
    children = resource.getrusage(resource.RUSAGE_CHILDREN)
    return children.ru_utime + children.ru_stime

def run(lines):
    """The time of a run, and what it printed."""
    text = "".join(line + "\n" for line in lines).encode()
    taken = []
    for _ in range(3):
        start = used()
        done = subprocess.run([program], input=text, capture_output=True, check=True)
        taken.append(used() - start)
    return min(taken), done.stdout.decode().splitlines()

def more(lines, further, expected):
    """What further lines take behind others; they print these lines."""
    without, printed = run(lines)
    whole, all_printed = run(lines + further)
    if all_printed != printed + expected:
        sys.exit("the further lines printed something else")
    return whole - without

def repeated(count):
    # (all numbers have six digits, so that no line is longer behind many)
    submits = [f"submit ann {100_000 + number} 0 whole" for number in range(1, count + 1)]
    numbers = [1 + turn * 7919 % count for turn in range(repeats)]
    return more(["chairs ann"] + submits, [submits[number - 1] for number in numbers], [f"submitted job {number}" for number in numbers])

few, many = repeated(commands // 50), repeated(commands)
print(f"{repeats} repeats: {few:.3f} s behind {commands // 50} commands, {many:.3f} s behind {commands}, ratio {many / few:.2f}")

venue = [
    "edit ann 1 0 papers replace p1,1,|p2,1,|",
    "edit ann 2 1 reviewers replace r1,,0,1|r2,,0,1|",
    "edit ann 3 2 values-affinity replace p1,r1,1|p1,r2,0|p2,r1,0.8|p2,r2,0.5|",
] + [f"edit ann {base + 1} {base} caps merge p1,r1,0.{6 + base % 2}|" for base in range(3, edits)]
published = []
for job in range(1, 101):
    number = edits + 2 * job
    published += [f"submit ann {number} {edits} whole", "take 0", "solve 0", f"publish ann {number + 1} {job}"]
lines = ["chairs ann"] + venue + published
checked = more(lines, ["check-rows"] * turns, [f"rows {edits + 200} lotteries 100"] * turns)
opened = more(lines, ["reopen"] * turns, ["opened"] * turns)
print(f"{edits} edits and 100 publications, {turns} times: rows and lotteries {checked:.3f} s, reopened {opened:.3f} s, ratio {opened / checked:.2f}")
MEASURE
