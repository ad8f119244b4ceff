#!/bin/sh
# Prints the figures of two checkouts side by side, taken in turn on this machine: reading text, evaluation, the static check,
# clauses, whole sessions and changes of data. The programs gql and gql_bench of both are built. A figure is the least of
# all rounds, that of a session its processor time; a line ends with what the second checkout takes of the first one's.
# bench/beside.sh BEFORE [NOW [ROUNDS [WORD]]]; NOW is this checkout, there are five rounds, and a word leaves the figures
# whose names have it.
top=$(cd "$(dirname "$0")/.." && pwd) || exit 70
[ -n "$1" ] || { echo "bench/beside.sh BEFORE [NOW [ROUNDS [WORD]]]" >&2; exit 64; }
before=$(cd "$1" && pwd) || exit 70
now=$(cd "${2:-$top}" && pwd) || exit 70
for checkout in "$before" "$now"; do
  for crate in gql gql_bench; do
    [ -x "$checkout/crates/$crate/out/$crate" ] || { echo "build $checkout/crates/$crate first: rt run in its folder" >&2; exit 70; }
  done
done
folder=$(mktemp -d) || exit 70
trap 'rm -rf "$folder"' EXIT
python3 - "$folder" "$before" "$now" "${3:-5}" "$4" <<'PY'
import os, re, subprocess, sys
folder, before, now, rounds, word = sys.argv[1:]

def file(text):
    # written by a process of its own, since what a child is told to have used at most is not less than its parent's
    path = os.path.join(folder, str(len(figures)))
    writer = os.fork()
    if writer == 0:
        with open(path, "w") as out:
            out.write(text())
        os._exit(0)
    if os.waitpid(writer, 0)[1] != 0:
        sys.exit(f"{path} could not be written")
    return path

def run(checkout, crate, words):
    program = os.path.join(checkout, "crates", crate, "out", crate)
    child = subprocess.Popen([program, *words], stdout=subprocess.PIPE, stderr=subprocess.PIPE, text=True)
    printed, said = child.stdout.read(), child.stderr.read()
    _, status, used = os.wait4(child.pid, 0)
    if status != 0:
        sys.exit(f"{program} {' '.join(words)}: status {status}: {said.strip()} {printed[-200:].strip()}")
    return printed, said, used

def lexing(printed, said, used):
    return {"": int(re.search(r"(\d+) ms for \d+ bytes", said)[1])}

def milliseconds(printed, said, used):
    return {"": int(re.search(r"(\d+) ms", said)[1])}

def clauses(printed, said, used):
    return {" " + line.split(":")[0]: int(took.split()[0]) / 1000 for line, took in zip(printed.splitlines(), said.splitlines())}

def session(printed, said, used):
    return {"": (used.ru_utime + used.ru_stime) * 1000}

size = 1 << 26
figures = []
def figure(name, crate, words, read):
    figures.append((name, crate, words, read))

def filled(text):
    return (text * (size // len(text) + 1))[:size]

def listed(count):
    return "[" + ", ".join(map(str, range(count))) + "]"

for name, text in {
    "statements": lambda: filled("MATCH (x:Account {owner: 'Ana'})-[t:Transfer]->(y) WHERE t.amount > 100 RETURN x, COUNT(*) AS n;\n"),
    "one string": lambda: "RETURN '" + "a" * (size - 10) + "';",
    "one comment": lambda: "/*" + "a" * (size - 4) + "*/",
    "symbols": lambda: filled("()[]{}<- ->|+|<=>="),
}.items():
    figure(f"64 MiB cut into lexemes, {name}", "gql_bench", ["lexer", file(text)], lexing)

for name, text in {
    "a sum": lambda: "1 + " * 1_000_000 + "1",
    "||": lambda: "a || " * 1_000_000 + "b",
    "OR": lambda: "a OR " * 1_000_000 + "b",
    "AND": lambda: "x.p = 1 AND " * 1_000_000 + "y",
    "a list": lambda: "[" + "1, " * 1_000_000 + "1]",
    "200,000 small expressions": lambda: "x.amount > 100 AND NOT y.owner = 'Ana' OR z IS NULL;\n" * 200_000,
    "100,000 calls": lambda: "COUNT(DISTINCT x.p) + ABS(-1) * (2 + COALESCE(a, b, 3));\n" * 100_000,
}.items():
    figure(f"read, {name}", "gql_bench", ["parse", file(text)], milliseconds)

for nodes in (1_000, 1_000_000):
    figure(f"1,000,000 evaluations over {nodes:,} nodes", "gql_bench", ["eval", str(nodes)], milliseconds)
figure("checks of 100,000 LET items", "gql_bench", ["scope", "100000"], milliseconds)
figure("1,000,000 rows,", "gql_bench", ["table", "1000000"], clauses)

rows = f"FOR a IN {listed(500)} FOR b IN {listed(100)} "
nodes = rows + "INSERT (:N {i: a * 100 + b});\n"
tenth = "MATCH (x:N) FILTER MOD(x.i, 10) = 0 "
def by_name():
    made = ", ".join(f"(v{i}:N {{i: {i}}})" for i in range(50_000))
    return f"INSERT {made}, " + ", ".join(f"(v{i})-[:R]->(v{(i + 1) % 50_000})" for i in range(50_000)) + ";"

for name, text in {
    "20,000 RETURN": lambda: "RETURN 1+1;\n" * 20_000,
    "100,000 MATCH of one node over an empty graph": lambda: "MATCH (x:A) RETURN x;\n" * 100_000,
    "three FOR over 1,000,000 rows, FILTER, grouping, ORDER BY": lambda: f"FOR a IN {listed(100)} FOR b IN {listed(100)} FOR c IN {listed(100)} "
    "FILTER a + b > 20 RETURN b, COUNT(*) AS n, SUM(a * c) AS s ORDER BY s DESC;",
    "two FOR over 1,000,000 rows, FILTER, LET, grouping, ORDER BY": lambda: f"FOR a IN {listed(1000)} FOR b IN {listed(1000)} "
    "FILTER MOD(a + b, 3) <> 0 LET k = MOD(a * b, 97) RETURN k, COUNT(*) AS c, SUM(a) AS s ORDER BY k;",
    "64 MiB of blanks": lambda: " " * size,
    "INSERT of 50,000 nodes and 50,000 edges by name": by_name,
    "INSERT of 50,000 nodes by rows": lambda: nodes,
    "INSERT of 50,000 nodes and 50,000 edges by rows": lambda: rows + "INSERT (x:N {i: a * 100 + b})-[:R]->(x);",
    "2,500 INSERT of one node": lambda: "INSERT (:N {i: 1});\n" * 2_500,
    "INSERT of 50,000 nodes by rows, and SET over a tenth": lambda: nodes + tenth + "SET x.i = x.i + 1;",
    "INSERT of 50,000 nodes by rows, and DETACH DELETE of a tenth": lambda: nodes + tenth + "DETACH DELETE x;",
    "INSERT of 50,000 nodes by rows, and 20 MATCH with a predicate": lambda: nodes
    + "MATCH (x:N WHERE x.i > 10 AND x.i < 20) RETURN COUNT(*) AS n;\n" * 20,
}.items():
    figure(f"session: {name}", "gql", ["run", file(text)], session)

for name, crate, words, read in [it for it in figures if word in it[0]]:
    least, most = {}, {}
    for _ in range(int(rounds)):
        for checkout in (before, now):
            printed, said, used = run(checkout, crate, words)
            for part, took in read(printed, said, used).items():
                at = (part, checkout)
                least[at] = min(took, least.get(at, took))
                most[at] = max(used.ru_maxrss / 1024, most.get(at, 0))
    for part in dict.fromkeys(part for part, _ in least):
        old, new = least[part, before], least[part, now]
        print(f"{name}{part}: before {old:.0f} ms, {most[part, before]:.0f} MB; now {new:.0f} ms, {most[part, now]:.0f} MB; {new / max(old, 0.001):.2f}", flush=True)
PY
