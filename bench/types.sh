#!/bin/sh
# Prints what a graph type costs at a statement's end: one SET of one element over typed graphs of 100,000 and 200,000 elements, with
# few and with many element types, beside the same over a graph without a type, in milliseconds of the processor, the least of three
# runs. Other words are programs to compare with: bench/types.sh [PROGRAM..]
top=$(cd "$(dirname "$0")/.." && pwd) || exit 70
folder=$(mktemp -d) || exit 70
trap 'rm -rf "$folder"' EXIT
if [ $# -eq 0 ]; then "$top/gql" --build >/dev/null 2>&1 || exit 70; set -- "$top/crates/gql/out/gql"; fi
exec python3 - "$folder" "$@" <<'PY'
import os, subprocess, sys
folder, *programs = sys.argv[1:]

def run(program, text):
    session = os.path.join(folder, "types.gql")
    with open(session, "w") as file:
        file.write(text)
    least = None
    for _ in range(3):
        child = subprocess.Popen([program, "run", session], stdout=subprocess.PIPE, text=True)
        printed = child.stdout.read().split()
        _, _, used = os.wait4(child.pid, 0)
        seconds = used.ru_utime + used.ru_stime
        least = seconds if least is None else min(least, seconds)
    return printed, least

def kind(types):
    nodes = ", ".join(f"(a{i} :N{i} {{i INT NOT NULL, name STRING}})" for i in range(types))
    edges = ", ".join(f"(a{i})-[:T{i} {{w INT}}]->(a{(i + 1) % types})" for i in range(types))
    return f"CREATE GRAPH TYPE t {{{nodes}, {edges}}};\n"

def insert(size, types):
    made = ", ".join(f"(n{i}:N{i % types} {{i: {i}}})" for i in range(size))
    ways = ", ".join(f"(n{i})-[:T{i % types} {{w: {i}}}]->(n{(i + 1) % size})" for i in range(size))
    return f"INSERT {made}, {ways};\n"

change = "MATCH (x:N0 {i: 0}) SET x.name = 'a';\n"
for program in programs:
    print(program)
    for types in (4, 40):
        for elements in (100000, 200000):
            size = elements // 2 // types * types
            typed = kind(types) + "CREATE GRAPH g TYPED t;\nSESSION SET GRAPH g;\n" + insert(size, types)
            plain = "CREATE GRAPH g ANY;\nSESSION SET GRAPH g;\n" + insert(size, types)
            told = {}
            for name, before in (("typed", typed), ("without a type", plain)):
                _, made = run(program, before)
                printed, seconds = run(program, before + change * 10)
                told[name] = (seconds - made) / 10 * 1000
                if printed.count("refused"):
                    print(f"  refused: {printed}")
            print(f"  {2 * size} elements, {types} node types: one SET takes {told['typed']:.1f} ms over a typed graph, {told['without a type']:.1f} ms without a type")
PY
