#!/bin/sh
# Prints how long changes of data take through the program: one INSERT of 100,000 nodes and edges, 10,000 INSERT statements
# of one node each and how that grows, SET over a tenth of 50,000 nodes in one statement, and DETACH DELETE of as many. A
# statement's time is that of the session with it less that of the session without it, the least of three runs each.
top=$(cd "$(dirname "$0")/.." && pwd) || exit 70
[ -x "$top/gql" ] || { echo "the command gql is missing" >&2; exit 70; }
"$top/gql" --build >/dev/null || exit 70
folder=$(mktemp -d) || exit 70
trap 'rm -rf "$folder"' EXIT
python3 - "$top/gql" "$folder" <<'PY'
import os, subprocess, sys, time
program, folder = sys.argv[1:]

def seconds(text):
    path = os.path.join(folder, "session.gql")
    with open(path, "w") as file:
        file.write(text)
    best = None
    for _ in range(3):
        start = time.monotonic()
        ran = subprocess.run([program, "run", path], capture_output=True)
        took = time.monotonic() - start
        if ran.returncode != 0:
            sys.exit(f"status {ran.returncode}: {ran.stderr.decode()} {ran.stdout[-200:].decode()}")
        best = took if best is None else min(best, took)
    return best

def chain(count):
    nodes = ", ".join(f"(v{i}:N {{i: {i}}})" for i in range(count))
    edges = ", ".join(f"(v{i})-[:R]->(v{(i + 1) % count})" for i in range(count))
    return f"INSERT {nodes}, {edges};\n"

begin = seconds("RETURN 1;")
for count in (50_000, 100_000):
    print(f"one INSERT of {count} nodes and {count} edges by names: {seconds(chain(count)) - begin:.2f} s")
rows = "FOR a IN [" + ", ".join(str(n) for n in range(500)) + "] FOR b IN [" + ", ".join(str(n) for n in range(100)) + "] "
made = rows + "INSERT (:N {i: a * 100 + b});\n"
base = seconds(made)
print(f"INSERT of 50,000 nodes by rows: {base - begin:.2f} s")
print(f"INSERT of 50,000 nodes and 50,000 edges by rows: {seconds(rows + 'INSERT (x:N {i: a * 100 + b})-[:R]->(x);') - begin:.2f} s")
for count in (2_500, 5_000, 10_000):
    print(f"{count} INSERT statements of one node: {seconds('INSERT (:N {i: 1});' * count) - begin:.2f} s")
tenth = "MATCH (x:N) FILTER MOD(x.i, 10) = 0 "
print(f"SET over 5,000 of 50,000 nodes: {seconds(made + tenth + 'SET x.i = x.i + 1;') - base:.2f} s")
print(f"DETACH DELETE of 5,000 of 50,000 nodes: {seconds(made + tenth + 'DETACH DELETE x;') - base:.2f} s")
PY
