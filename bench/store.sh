#!/bin/sh
# Prints what a store in a file costs: 120,000 elements loaded by one INSERT into a new store, the store opened again with one look-up,
# 1,000 INSERT statements of one node each over stores of 1,000, 10,000 and 100,000 elements (fewer statements over the last two, told
# by the statement), and one SET over a tenth. Other words are programs to compare with: bench/store.sh [PROGRAM..]
top=$(cd "$(dirname "$0")/.." && pwd) || exit 70
folder=$(mktemp -d) || exit 70
trap 'rm -rf "$folder"' EXIT
program=$top/crates/gql/out/gql
if [ $# -eq 0 ]; then "$top/gql" --build >/dev/null 2>&1 || exit 70; set -- "$program"; fi
exec python3 - "$folder" "$@" <<'PY'
import os, subprocess, sys, time
folder, *programs = sys.argv[1:]

def insert(nodes, edges):
    made = ", ".join(f"(n{i}:N {{i: {i}}})" for i in range(nodes))
    ways = ", ".join(f"(n{(i * 7) % nodes})-[:T {{w: {i}}}]->(n{(i * 13 + 1) % nodes})" for i in range(edges))
    return f"INSERT {made}{', ' if edges else ''}{ways};\n"

def run(program, text, store):
    session = os.path.join(folder, "store.gql")
    with open(session, "w") as file:
        file.write(text)
    begin = time.monotonic()
    child = subprocess.Popen([program, "run", session, "--store", store], stdout=subprocess.PIPE, text=True)
    printed = child.stdout.read()
    _, status, used = os.wait4(child.pid, 0)
    return printed, time.monotonic() - begin, used.ru_maxrss / 1024, os.waitstatus_to_exitcode(status)

for program in programs:
    print(program)
    for nodes, edges in ((10000, 50000), (20000, 100000)):
        store = os.path.join(folder, f"load{nodes}.db")
        printed, seconds, peak, status = run(program, insert(nodes, edges), store)
        print(f"  {nodes + edges} elements loaded: {printed.strip()}, status {status}, {seconds:.2f} s, {peak:.0f} MB at most, a file of {os.path.getsize(store) / 1e6:.1f} MB")
        printed, seconds, peak, status = run(program, "MATCH (x {i: 77}) RETURN x.i;\n", store)
        print(f"  opened, and one look-up: {' '.join(printed.split())}, {seconds:.2f} s, {peak:.0f} MB at most")
        printed, seconds, peak, status = run(program, "", store)
        print(f"  opened alone: {seconds:.2f} s")
        printed, seconds, peak, status = run(program, "MATCH (x:N) FILTER MOD(x.i, 10) = 0 SET x.j = 1;\n", store)
        print(f"  SET over a tenth of the nodes: {printed.strip()}, {seconds:.2f} s")
    for elements, statements in ((1000, 1000), (10000, 100), (100000, 10)):
        store = os.path.join(folder, f"commits{elements}.db")
        run(program, insert(elements, 0), store)
        _, opening, _, _ = run(program, "", store)
        printed, seconds, peak, status = run(program, "INSERT (:N {i: 0});\n" * statements, store)
        print(f"  {statements} commits of one node over {elements} elements: {printed.count('ok')} ok, {(seconds - opening) / statements * 1000:.2f} ms each")
PY
