#!/bin/bash
# Appends of the keeper over SQLite, each a transaction with its sync, beside the same inserts by the shell of sqlite3, in one
# folder of the current one: the least of three turns of each, which alternate, in seconds. The shell runs twice, with the log
# that the keeper has too (WAL) and with the journal that is sqlite3's own choice. It wants sqlite3.
# usage: bench/keeper.sh PATH-OF-SQLITE_CASES [ROWS, 1000 if not given]
set -eu
folder=$(mktemp -d -p .)
trap 'rm -rf "$folder"' EXIT
python3 - "$(realpath "$1")" "${2:-1000}" "$folder" <<'MEASURE'
import os, subprocess, sys, time

program, rows, folder = sys.argv[1], int(sys.argv[2]), sys.argv[3]
row = "61" * 100
table = "CREATE TABLE rows(place INTEGER PRIMARY KEY, body BLOB NOT NULL) STRICT;\n"
inserts = "".join(f"INSERT INTO rows(place, body) VALUES ({place}, X'{row}');\n" for place in range(rows))

def shell(mode):
    return ["sqlite3", "desk.db"], f"PRAGMA journal_mode = {mode};\nPRAGMA synchronous = FULL;\n{table}{inserts}"

runs = {
    "keeper": ([program], f"desk.db\nfill 0 {rows}\n"),
    "sqlite3 with a log": shell("WAL"),
    "sqlite3 with a journal": shell("DELETE"),
}
least = {}
for _ in range(3):
    for name, (words, text) in runs.items():
        for left in os.listdir(folder):
            os.remove(os.path.join(folder, left))
        start = time.perf_counter()
        subprocess.run(words, input=text.encode(), cwd=folder, capture_output=True, check=True)
        taken = time.perf_counter() - start
        count = subprocess.run(["sqlite3", "desk.db", f"SELECT count(*) FROM rows WHERE hex(body) = '{row}'"], cwd=folder, capture_output=True, check=True)
        assert int(count.stdout) == rows, (name, count.stdout)
        least[name] = min(taken, least.get(name, taken))
for name in runs:
    print(f"{rows} rows, {name}: {least[name]:.3f} s, the keeper's time is {least['keeper'] / least[name]:.2f} of it")
MEASURE
