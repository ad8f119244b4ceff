#!/bin/sh
# Prints what MATCH costs beside the making of its graph, over a graph of so many nodes and three times as many edges, and over one
# of twice the size: two hops from every node, triangles by three path patterns, OPTIONAL over every node, and ten MATCHes of
# one edge each from one node. Then two selectors: ANY SHORTEST from four nodes of a ring whose nodes lead to the next and to the tenth
# after it, and ALL SHORTEST from corner to corner of a square grid. The counts are those of a program in Python, which is checked.
# Other words are programs to compare with: bench/match.sh [PROGRAM..]
top=$(cd "$(dirname "$0")/.." && pwd) || exit 70
folder=$(mktemp -d) || exit 70
trap 'rm -rf "$folder"' EXIT
if [ $# -eq 0 ]; then "$top/gql" --build >/dev/null 2>&1 || exit 70; set -- "$top/crates/gql/out/gql"; fi
exec python3 - "$folder" "$@" <<'PY'
import math, os, subprocess, sys, time
folder, *programs = sys.argv[1:]

def arrows(size):
    return [(i, (i * factor + step) % size) for i in range(size) for factor, step in ((1, 1), (1, size - 2), (13, 5))]

def insert(size):
    nodes = ", ".join(f"(n{i}:N {{i: {i}}})" for i in range(size))
    edges = ", ".join(f"(n{a})-[:T]->(n{b})" for a, b in arrows(size))
    return f"INSERT {nodes}, {edges};\n"

def steps(size):
    out = {i: [] for i in range(size)}
    for a, b in arrows(size):
        out[a].append(b)
    return out

def chain(size, length):
    out, ends = steps(size), {0: 1}
    for _ in range(length):
        later = {}
        for a, ways in ends.items():
            for b in out[a]:
                later[b] = later.get(b, 0) + ways
        ends = later
    return sum(ends.values())

def hops(size):
    out = steps(size)
    return sum(len(out[b]) for a in out for b in out[a])

def triangles(size):
    out = steps(size)
    return sum(out[c].count(a) for a in out for b in out[a] for c in out[b])

def optional(size):
    out = steps(size)
    return sum(max(1, sum(b < a for b in out[a])) for a in out)

def ring(size):
    return [(i, (i + step) % size) for i in range(size) for step in (1, 10)]

def grid(side):
    right = [(i, i + 1) for i in range(side * side) if (i + 1) % side]
    return right + [(i, i + side) for i in range(side * (side - 1))]

def insert_over(nodes, edges):
    made = ", ".join(f"(n{i}:N {{i: {i}}})" for i in range(nodes))
    return f"INSERT {made}, " + ", ".join(f"(n{a})-[:T]->(n{b})" for a, b in edges) + ";\n"

def reached(size):
    """The pairs that walks from the first four nodes reach, and the sum of their least lengths."""
    return 4 * size, 4 * sum(i // 10 + i % 10 for i in range(size))

names = "abcdefghijk"
linked = " ".join(f"MATCH ({x})-[:T]->({y})" for x, y in zip(names, names[1:]))
cases = {
    "two hops": ("MATCH (x)-[:T]->(y)-[:T]->(z) RETURN COUNT(*) AS c;\n", hops),
    "triangles": ("MATCH (x)-[:T]->(y), (y)-[:T]->(z), (z)-[:T]->(x) RETURN COUNT(*) AS c;\n", triangles),
    "optional": ("MATCH (x) OPTIONAL MATCH (x)-[:T]->(y WHERE y.i < x.i) RETURN COUNT(*) AS c;\n", optional),
    "ten of one edge": (f"MATCH (a {{i: 0}}) {linked} RETURN COUNT(*) AS c;\n", lambda size: chain(size, 10)),
}

selectors = {
    "ANY SHORTEST on a ring of {}": (ring, 2000, lambda n: n, "MATCH p = ANY SHORTEST (x:N WHERE x.i < 4)-[:T]->*(y) RETURN COUNT(*) AS c, SUM(PATH_LENGTH(p)) AS d;\n", lambda n: reached(n)),
    "ALL SHORTEST on a grid of {0} by {0}": (grid, 8, lambda n: n * n, "MATCH p = ALL SHORTEST (x {{i: 0}})-[:T]->*(y {{i: {last}}}) RETURN COUNT(*) AS c, SUM(PATH_LENGTH(p)) AS d;\n", lambda n: (math.comb(2 * n - 2, n - 1), math.comb(2 * n - 2, n - 1) * (2 * n - 2))),
}

def run(program, text):
    session = os.path.join(folder, "match.gql")
    with open(session, "w") as file:
        file.write(text)
    begin = time.monotonic()
    child = subprocess.Popen([program, "run", session], stdout=subprocess.PIPE, text=True)
    printed = child.stdout.read().split()
    _, _, used = os.wait4(child.pid, 0)
    return printed, time.monotonic() - begin, used.ru_maxrss / 1024

for program in programs:
    for size in (1000, 2000):
        made = insert(size)
        _, alone, peak = run(program, made)
        print(f"{program}: {size} nodes and {3 * size} edges are made in {alone:.2f} s, {peak:.0f} MB at most")
        for name, (text, count) in cases.items():
            printed, seconds, peak = run(program, made + text)
            same = "as counted" if printed[1:3] == ["c", str(count(size))] else f"NOT {count(size)}"
            print(f"  {name}: {' '.join(printed[1:3])}, {same}, {seconds - alone:.2f} s more, {peak:.0f} MB at most")
    for name, (edges, least, nodes, text, count) in selectors.items():
        for size in (least, least * 2 if edges is ring else least + 1):
            made = insert_over(nodes(size), edges(size))
            _, alone, _ = run(program, made)
            printed, seconds, peak = run(program, made + (text.format(last=nodes(size) - 1) if "{last}" in text else text))
            same = "as counted" if printed[1:5] == ["c", "d", *map(str, count(size))] else f"NOT {count(size)}"
            print(f"  {name.format(size)}: {' '.join(printed[1:5])}, {same}, {seconds - alone:.2f} s more, {peak:.0f} MB at most")
PY
