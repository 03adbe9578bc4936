#!/usr/bin/env python3
"""Runs a command and says how many processor seconds each crate's proof, tests and edits took in it.

It looks at the prover's processes once a second, so what a process used in its last second is missing from a row; the
last line has the whole, as the system counted it.

usage: python3 bench/gate.py rt ci --anew
"""

import os
import re
import resource
import subprocess
import sys
import threading
from collections import defaultdict

TICK = os.sysconf("SC_CLK_TCK")


def parents():
    """The parent and the processor seconds of each process."""
    found = {}
    for name in os.listdir("/proc"):
        if name.isdigit():
            try:
                with open(f"/proc/{name}/stat") as stat:
                    fields = stat.read().rpartition(")")[2].split()
            except OSError:
                continue
            found[int(name)] = (int(fields[1]), (int(fields[11]) + int(fields[12])) / TICK)
    return found


def is_below(process, root, found):
    while process in found and process != root:
        process = found[process][0]
    return process == root


def kind_of(process):
    """The crate that a prover's process works on, and what of it; None for another process."""
    try:
        with open(f"/proc/{process}/cmdline") as text:
            words = text.read().split("\0")
        folder = os.readlink(f"/proc/{process}/cwd")
    except OSError:
        return None
    if "--crate-name" not in words:
        return None
    crate = words[words.index("--crate-name") + 1]
    # (rt tries edits, and proves the crate once more before them, on a copy)
    if "rt-edit" in folder:
        return crate, "edits"
    return crate, "tests" if "--test" in words else "proof"


def watch(root, used, ended):
    while not ended.wait(1):
        found = parents()
        for process, (_, seconds) in found.items():
            if is_below(process, root, found):
                kind = kind_of(process)
                # (a number may serve another process later, so the seconds of one that ended are added up)
                if kind:
                    last, ended_before = used.get((process, kind), (0.0, 0.0))
                    used[process, kind] = (seconds, ended_before + last if seconds < last else ended_before)


def table(used):
    rows = defaultdict(lambda: defaultdict(float))
    for (_, (crate, kind)), (seconds, ended_before) in used.items():
        rows[crate][kind] += seconds + ended_before
    print("| crate | proof | tests | edits | all |")
    print("|---|---|---|---|---|")
    sums = defaultdict(float)
    for crate in sorted(rows, key=lambda crate: -sum(rows[crate].values())):
        row = rows[crate]
        for kind, seconds in row.items():
            sums[kind] += seconds
        print(f"| `{crate}` | {row['proof']:.0f} | {row['tests']:.0f} | {row['edits']:.0f} | {sum(row.values()):.0f} |")
    print(f"| all | {sums['proof']:.0f} | {sums['tests']:.0f} | {sums['edits']:.0f} | {sum(sums.values()):.0f} |")


def main():
    used, ended = {}, threading.Event()
    run = subprocess.Popen(sys.argv[1:])
    watcher = threading.Thread(target=watch, args=(run.pid, used, ended))
    watcher.start()
    status = run.wait()
    ended.set()
    watcher.join()
    table(used)
    whole = resource.getrusage(resource.RUSAGE_CHILDREN)
    print(f"{(whole.ru_utime + whole.ru_stime) / 60:.1f} processor minutes, user {whole.ru_utime:.0f} s, sys {whole.ru_stime:.0f} s")
    return status


if __name__ == "__main__":
    sys.exit(main())
