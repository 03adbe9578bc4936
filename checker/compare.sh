#!/bin/bash
# Runs `matcher check` and checker/check.py over the shipped certificates, over every cut of the shortest of them, and over
# copies of them that are spoiled line by line with fixed seeds, and says how many agreed in the line that they wrote and
# in their status, and how often each refusal was. Ends with 1 where one did not agree, and shows the first such certificate.
# usage: checker/compare.sh PATH-OF-MATCHER [SPOILED]
set -eu
matcher=$(realpath "$1")
spoiled=${2:-5000}
cd "$(dirname "$0")/.."
exec python3 - "$matcher" "$spoiled" crates/matcher/stdin examples/certificates/*.txt <<'COMPARE'
import random
import subprocess
import sys
from collections import Counter

sys.dont_write_bytecode = True
sys.path.insert(0, "checker")
import check

matcher, spoiled, paths = sys.argv[1], int(sys.argv[2]), sys.argv[3:]
originals = [open(path, "rb").read() for path in paths]
ODD = [b"", b" ", b"-0", b"00", b"+1", b"1.0", b"1501", b"250001", b"18446744073709551616", b"none", b"\xff", b"\xc2\xa0", b"a;b", b"\r"]


def is_number(field):
    return (field[1:] if field.startswith(b"-") else field).isdigit()


def other_number(lines, at, dice):
    """A line with one number changed a little, or taken from a line of the same form."""
    fields = lines[at].split(b" ")
    numbers = [k for k, field in enumerate(fields) if is_number(field)]
    if not numbers:
        return lines[at]
    k = dice.choice(numbers)
    value = int(fields[k])
    alike = [line.split(b" ") for line in lines if line.count(b" ") == lines[at].count(b" ")]
    alike = [int(line[k]) for line in alike if is_number(line[k])]
    fields[k] = b"%d" % dice.choice([value + 1, value - 1, -value, 0, 1, 10000, value + 1000, value - 1000, dice.choice(alike), dice.choice(alike)])
    return b" ".join(fields)


def move_tickets(lines, at, dice):
    """Two lines of pieces between which some weight is moved, so that the weights have the same sum."""
    pieces = [k for k in range(at, len(lines)) if lines[k].count(b" ") > 1 and all(map(is_number, lines[k].split(b" ")))]
    if len(pieces) < 2:
        return
    one, other = dice.sample(pieces, 2)
    for k, more in [(one, 1), (other, -1)]:
        weight, _, places = lines[k].partition(b" ")
        lines[k] = b"%d %s" % (int(weight) + more, places)


def other_fields(line, dice):
    fields = line.split(b" ")
    at = dice.randrange(len(fields))
    kind = dice.randrange(4)
    if kind == 0:
        del fields[at]
    elif kind == 1:
        fields.insert(at, fields[at])
    elif kind == 2:
        fields[at] += dice.choice(ODD)
    else:
        fields[at] = dice.choice(ODD)
    return b" ".join(fields)


def spoil(text, dice):
    """The text with one line spoiled."""
    lines = text.split(b"\n")
    if len(lines) < 2:
        return text
    at = dice.randrange(len(lines) - 1)
    kind = dice.randrange(24)
    if kind == 0:
        del lines[at]
    elif kind == 1:
        lines.insert(at, lines[at])
    elif kind == 2:
        other = min(at + 1, len(lines) - 2)
        lines[at], lines[other] = lines[other], lines[at]
    elif kind == 3:
        lines = lines[: at + 1]
    elif kind == 4:
        lines[-1] = dice.choice([b"", b"\n", b" ", b"lottery 1\n"])
    elif kind < 8:
        lines[at] = other_fields(lines[at], dice)
    elif kind < 11:
        move_tickets(lines, len(lines) // 2, dice)
    else:
        lines[at] = other_number(lines, at, dice)
    return b"\n".join(lines)


def ran(command, text):
    done = subprocess.run(command, input=text, stdout=subprocess.PIPE)
    return done.stdout, done.returncode


def checked(text):
    line, status = check.check(text)
    return line.encode() + b"\n", status


counts = Counter()


def compare(text, what, theirs):
    ours = ran([matcher, "check"], text)
    if ours != theirs:
        print(f"differ on {what}: matcher {ours}, check.py {theirs}; the certificate:")
        print(text.decode(errors="backslashreplace"), end="")
        sys.exit(1)
    words = ours[0].decode().split()
    if ours[1] == 6:
        counts[f"refused {words[-1]}"] += 1
    else:
        counts[" ".join(words[:2]) if ours[1] == 1 or words[1] == "infeasible" else words[0]] += 1


for path, text in zip(paths, originals):
    compare(text, path, ran([sys.executable, "checker/check.py"], text))
shortest = min(originals, key=len)
for cut in range(len(shortest)):
    compare(shortest[:cut], f"a certificate cut after {cut} bytes", checked(shortest[:cut]))
for longest in [check.MOST_LINE, check.MOST_LINE + 1]:
    for end in [b"", b"\n"]:
        text = b"rules 1\n" + b"x" * longest + end
        compare(text, f"a line of {longest} bytes", checked(text))
for seed in range(spoiled):
    dice = random.Random(seed)
    text = dice.choice(originals)
    for _ in range(dice.choice([1, 1, 1, 2])):
        text = spoil(text, dice)
    compare(text, f"seed {seed}", checked(text))
print(f"agreed on {len(originals)} shipped and {spoiled} spoiled certificates")
for answer, count in sorted(counts.items()):
    print(f"  {answer}: {count}")
COMPARE
