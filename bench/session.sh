#!/bin/sh
# Prints seconds and peak memory of the program for whole sessions: 20,000 and 1,000,000 small statements, one query over
# 1,000,000 rows with FILTER, grouping and ORDER BY, and the most bytes of blanks that a session may have. The sessions
# are made in a folder of their own, and dropped.
top=$(cd "$(dirname "$0")/.." && pwd) || exit 70
folder=$(mktemp -d) || exit 70
trap 'rm -rf "$folder"' EXIT
"$top/gql" --build >/dev/null || exit 70
yes 'RETURN 1+1;' | head -n 20000 >"$folder/statements.gql"
yes 'MATCH (x:A) RETURN x;' | head -n 1000000 >"$folder/matches.gql"
head -c 67108864 /dev/zero | tr '\0' ' ' >"$folder/blanks.gql"
numbers="[$(seq -s ', ' 0 99)]"
echo "FOR a IN $numbers FOR b IN $numbers FOR c IN $numbers FILTER a + b > 20 RETURN b, COUNT(*) AS n, SUM(a * c) AS s ORDER BY s DESC;" >"$folder/rows.gql"
for session in statements matches rows blanks; do
  python3 - "$top/crates/gql/out/gql" "$folder/$session.gql" "$session" <<'PY'
import os, resource, subprocess, sys, time
program, session, name = sys.argv[1:]
begin = time.monotonic()
with open(os.devnull, "w") as nowhere:
    status = subprocess.run([program, "run", session], stdout=nowhere).returncode
seconds = time.monotonic() - begin
used = resource.getrusage(resource.RUSAGE_CHILDREN)
print(f"{name}: status {status}, {seconds:.2f} s, of a processor {used.ru_utime + used.ru_stime:.2f} s, {used.ru_maxrss / 1024:.0f} MB at most")
PY
done
