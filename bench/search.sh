#!/bin/sh
# Prints how long searches of path patterns take, each over a graph and over a larger one: the answers, the beginnings that were
# expanded for them, seconds, and peak memory.
top=$(cd "$(dirname "$0")/.." && pwd) || exit 70
program=$top/crates/gql_bench/out/gql_bench
[ -x "$program" ] || (cd "$top/crates/gql_bench" && rt run) >/dev/null 2>&1
[ -x "$program" ] || { echo "build crates/gql_bench first: rt run in its folder" >&2; exit 70; }
measure() {
  python3 - "$program" "$@" <<'PY'
import re, resource, subprocess, sys
program, *words = sys.argv[1:]
ran = subprocess.run([program, "search", *words], capture_output=True, text=True)
took = re.search(r"(\d+) ms", ran.stderr)
if ran.returncode != 0 or not took:
    sys.exit(f"{' '.join(words)}: {ran.stderr.strip()}")
peak = resource.getrusage(resource.RUSAGE_CHILDREN).ru_maxrss / 1024
print(f"{ran.stdout.strip()}; {int(took[1]) / 1000:.2f} s, {peak:.0f} MB at most")
PY
}
for size in 10 20; do measure rings $size 'TRAIL (x)-[e]->*(y)'; done
for size in 1000 2000; do measure mesh $size '(x)-[e]->(y)-[f]->(z)'; done
for size in 10 20; do measure layers $size 'ACYCLIC (x:First)-[e]->*(y:Last)'; done
for size in 2000 4000; do measure ring $size 'ANY SHORTEST (x:First)-[e]->*(y)'; done
for size in 8 9 10; do measure grid $size 'ALL SHORTEST (x:First)-[e]->*(y:Last)'; done
for size in 8 9; do measure diagonals $size 'SHORTEST 3 GROUP (x:First)-[e]->*(y:Last)'; done
