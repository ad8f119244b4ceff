#!/bin/sh
# Prints seconds and peak memory of one query over 1,000,000 rows (two nested FOR, FILTER, LET, grouping with COUNT and
# SUM, ORDER BY), five times, and of SQLite's form of it where sqlite3 is installed, each in turn. Both print the same
# rows, which is checked. Words are programs to measure in its
# place: bench/query.sh [PROGRAM..]
top=$(cd "$(dirname "$0")/.." && pwd) || exit 70
folder=$(mktemp -d) || exit 70
trap 'rm -rf "$folder"' EXIT
if [ $# -eq 0 ]; then "$top/gql" --build >/dev/null 2>&1 || exit 70; set -- "$top/crates/gql/out/gql"; fi
exec python3 - "$folder" "$@" <<'PY'
import os, resource, shutil, subprocess, sys, time
folder, *programs = sys.argv[1:]
numbers = range(1000)
listed = "[" + ", ".join(map(str, numbers)) + "]"
session = os.path.join(folder, "query.gql")
with open(session, "w") as file:
    file.write(f"FOR a IN {listed} FOR b IN {listed} FILTER MOD(a + b, 3) <> 0 LET k = MOD(a * b, 97) "
               "RETURN k, COUNT(*) AS c, SUM(a) AS s ORDER BY k;\n")
query = os.path.join(folder, "query.sql")
with open(query, "w") as file:
    values = ", ".join(f"({n})" for n in numbers)
    file.write(f"WITH n(i) AS (VALUES {values}) SELECT a.i * b.i % 97 AS k, COUNT(*), SUM(a.i) "
               "FROM n AS a, n AS b WHERE (a.i + b.i) % 3 <> 0 GROUP BY k ORDER BY k;\n")
runs = {program: [program, "run", session] for program in programs}
if shutil.which("sqlite3"):
    runs["sqlite3"] = ["sh", "-c", f"exec sqlite3 -separator '\t' :memory: <{query}"]

def run(words):
    begin = time.monotonic()
    child = subprocess.Popen(words, stdout=subprocess.PIPE, text=True)
    printed = child.stdout.read()
    _, status, used = os.wait4(child.pid, 0)
    rows = [line for line in printed.splitlines() if line[:1].isdigit()]
    return status, rows, time.monotonic() - begin, used.ru_maxrss / 1024

first = None
for turn in range(5):
    for name, words in runs.items():
        status, rows, seconds, peak = run(words)
        first = first or rows
        same = "the same rows" if rows == first and len(rows) == 97 else "OTHER ROWS"
        print(f"{name}: status {status}, {len(rows)} rows, {same}, {seconds:.2f} s, {peak:.0f} MB at most")
PY
