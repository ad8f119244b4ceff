#!/bin/sh
# Prints how fast text of four kinds is cut into pieces, each piece into lexemes, and both together: ordinary statements,
# one long string, one long comment, symbols alone; 64 MiB each, with peak memory. The files are made in a folder of their
# own, and dropped.
top=$(cd "$(dirname "$0")/.." && pwd) || exit 70
program=$top/crates/gql_bench/out/gql_bench
[ -x "$program" ] || (cd "$top/crates/gql_bench" && rt run) >/dev/null 2>&1
[ -x "$program" ] || { echo "build crates/gql_bench first: rt run in its folder" >&2; exit 70; }
folder=$(mktemp -d) || exit 70
trap 'rm -rf "$folder"' EXIT
size=67108864
yes "MATCH (x:Account {owner: 'Ana'})-[t:Transfer]->(y) WHERE t.amount > 100 RETURN x, COUNT(*) AS n;" | head -c $size >"$folder/statements"
{ printf "RETURN '"; head -c $((size - 9)) /dev/zero | tr '\0' 'a'; printf "';"; } >"$folder/string"
{ printf "/*"; head -c $((size - 4)) /dev/zero | tr '\0' 'a'; printf "*/"; } >"$folder/comment"
yes '()[]{}<-->|+|<=>=' | tr -d '\n' | head -c $size | sed 's/--/- -/g' | head -c $size >"$folder/symbols"
for kind in statements string comment symbols; do
  python3 - "$program" "$folder/$kind" "$kind" <<'PY'
import re, resource, subprocess, sys
program, text, kind = sys.argv[1:]
ran = subprocess.run([program, "lexer", text], capture_output=True, text=True)
took = re.search(r"(\d+) ms for the pieces, (\d+) ms for (\d+) bytes", ran.stderr)
peak = resource.getrusage(resource.RUSAGE_CHILDREN).ru_maxrss / 1024
if not took:
    sys.exit(f"{kind}: {ran.stderr.strip()}")
cut, whole, size = (int(n) for n in took.groups())
speed = lambda ms: size / 1000 / max(1, ms)
print(f"{kind}: {ran.stdout.strip()}; pieces {speed(cut):.0f} MB/s, lexemes {speed(whole - cut):.0f} MB/s, both {speed(whole):.0f} MB/s, {peak:.0f} MB at most")
PY
done
