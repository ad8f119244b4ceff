#!/bin/sh
# Prints how many rows a second each clause takes in, over tables of 10,000 and 1,000,000 rows, so that growth shows.
top=$(cd "$(dirname "$0")/.." && pwd) || exit 70
program=$top/crates/gql_bench/out/gql_bench
[ -x "$program" ] || (cd "$top/crates/gql_bench" && rt run) >/dev/null 2>&1
[ -x "$program" ] || { echo "build crates/gql_bench first: rt run in its folder" >&2; exit 70; }
for count in 10000 1000000; do
  python3 - "$program" "$count" <<'PY'
import subprocess, sys
program, count = sys.argv[1:]
ran = subprocess.run([program, "table", count], capture_output=True, text=True)
for line, took in zip(ran.stdout.splitlines(), ran.stderr.splitlines()):
    seconds = max(1, int(took.split()[0])) / 1e6
    print(f"{line}; {took}, {int(count) / seconds / 1e6:.2f} million rows a second")
PY
done
