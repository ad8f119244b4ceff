#!/bin/sh
# Prints how many lexemes a second are read as expressions: long chains of four kinds, a long list, and many small
# expressions. The files are made in a folder of their own, and dropped.
top=$(cd "$(dirname "$0")/.." && pwd) || exit 70
program=$top/crates/gql_bench/out/gql_bench
[ -x "$program" ] || (cd "$top/crates/gql_bench" && rt run) >/dev/null 2>&1
[ -x "$program" ] || { echo "build crates/gql_bench first: rt run in its folder" >&2; exit 70; }
folder=$(mktemp -d) || exit 70
trap 'rm -rf "$folder"' EXIT
terms=1000000
chain() { yes "$1" | head -n $terms | tr -d '\n'; printf "$2"; }
chain '1 + ' '1' >"$folder/sum"
chain 'a || ' 'b' >"$folder/concatenation"
chain 'a OR ' 'b' >"$folder/or"
chain 'x.p = 1 AND ' 'y' >"$folder/and"
{ printf '['; chain '1, ' '1]'; } >"$folder/list"
yes "x.amount > 100 AND NOT y.owner = 'Ana' OR z IS NULL;" | head -n 200000 >"$folder/small"
yes "COUNT(DISTINCT x.p) + ABS(-1) * (2 + COALESCE(a, b, 3));" | head -n 100000 >"$folder/calls"
for kind in sum concatenation or and list small calls; do
  python3 - "$program" "$folder/$kind" "$kind" <<'PY'
import re, resource, subprocess, sys
program, text, kind = sys.argv[1:]
ran = subprocess.run([program, "parse", text], capture_output=True, text=True)
took = re.search(r"(\d+) ms for (\d+) lexemes", ran.stderr)
peak = resource.getrusage(resource.RUSAGE_CHILDREN).ru_maxrss / 1024
speed = int(took[2]) / 1000 / max(1, int(took[1])) if took else 0
print(f"{kind}: {ran.stdout.strip()}; {speed:.1f} million lexemes a second, {peak:.0f} MB at most {ran.stderr.strip() if not took else ''}")
PY
done
