#!/bin/sh
# Prints how fast `x.a + 1 > $k AND NOT y.b = 'text'` is evaluated over 1,000,000 rows: over a graph of 1,000 nodes and
# over one of 1,000,000, on one processor, with peak memory.
top=$(cd "$(dirname "$0")/.." && pwd) || exit 70
program=$top/crates/gql_bench/out/gql_bench
[ -x "$program" ] || (cd "$top/crates/gql_bench" && rt run) >/dev/null 2>&1
[ -x "$program" ] || { echo "build crates/gql_bench first: rt run in its folder" >&2; exit 70; }
for nodes in 1000 1000000; do
  python3 - "$program" "$nodes" <<'PY'
import re, resource, subprocess, sys
program, nodes = sys.argv[1:]
ran = subprocess.run([program, "eval", nodes], capture_output=True, text=True)
took = re.search(r"(\d+) ms for (\d+) rows", ran.stderr)
peak = resource.getrusage(resource.RUSAGE_CHILDREN).ru_maxrss / 1024
speed = int(took[2]) / max(1, int(took[1])) / 1000 if took else 0
print(f"{nodes} nodes: {ran.stdout.strip()}; {speed:.2f} million evaluations a second, {peak:.0f} MB at most {ran.stderr.strip() if not took else ''}")
PY
done
