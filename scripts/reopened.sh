#!/bin/sh
# Random sessions of changes over three graphs, with transactions, each in two ways: piece by piece over a store that is opened
# anew for each piece, and in one go without a store. Both have to print the same, and so have their graphs in the end.
# scripts/reopened.sh PROGRAM [ROUNDS [SEED]]; 20 rounds of 25 pieces, and the seed is 1. The last line is 'N rounds, M wrong'.
[ -x "$1" ] || { echo "scripts/reopened.sh PROGRAM [ROUNDS [SEED]]" >&2; exit 64; }
folder=$(mktemp -d) || exit 70
trap 'rm -rf "$folder"' EXIT
python3 - "$1" "$folder" "${2:-20}" "${3:-1}" <<'PY'
import os, random, subprocess, sys
program, folder, rounds, seed = sys.argv[1], sys.argv[2], int(sys.argv[3]), int(sys.argv[4])
chance = random.Random(seed)
GRAPHS = ["home", "one", "two"]
VALUES = ["1", "2", "-7", "0", "TRUE", "FALSE", "'a'", "'a longer text than sixteen bytes'", "[1, 2]", "[[1], NULL, 'x']"]

def statement(key):
    label, name, value = chance.choice("ABC"), chance.choice("pqr"), chance.choice(VALUES)
    some = f"MOD(x.k, {chance.randint(2, 5)}) = 0"
    pair = f"MOD(x.k + y.k, {chance.randint(2, 6)})"
    return chance.choices([
        f"INSERT (:{label} {{k: {key}, {name}: {value}}});",
        f"INSERT (:{label} {{k: {key}}})-[:E {{w: {value}}}]->(:{chance.choice('ABC')} {{k: {key + 1000}}});",
        f"MATCH (x:{label}), (y) FILTER {pair} = 0 ORDER BY x.k, y.k LIMIT 2 INSERT (x)-[:{chance.choice('EF')}]->(y);",
        f"MATCH (x:{label}), (y) FILTER {pair} = 1 ORDER BY x.k, y.k LIMIT 1 INSERT (x)~[:U {{w: {key}}}]~(y);",
        f"MATCH (x:{label}) FILTER {some} SET x.{name} = {value};",
        f"MATCH (x:{label}) FILTER {some} SET x:{chance.choice('ABC')};",
        f"MATCH (x:{label}) FILTER {some} REMOVE x.{name};",
        f"MATCH (x:{label}) FILTER {some} REMOVE x:{label};",
        f"MATCH ()-[e:E]->() SET e.w = {value};",
        f"MATCH (x) FILTER {some} ORDER BY x.k LIMIT 1 DETACH DELETE x;",
        "MATCH ()-[e]->() FILTER COALESCE(e.w, 1) = 1 DELETE e;",
        "MATCH (x) RETURN COUNT(*) AS n;",
    ], weights=[22, 10, 10, 8, 12, 5, 4, 3, 5, 5, 4, 12])[0] + "\n"

def graph(name):
    return "SESSION RESET;\n" if name == "home" else f"SESSION SET GRAPH {name};\n"

def piece(key):
    text = graph(chance.choice(GRAPHS))
    if chance.random() < 0.35:
        text += "START TRANSACTION;\n"
        for step in range(chance.randint(1, 4)):
            text += (graph(chance.choice(GRAPHS)) if chance.random() < 0.3 else "") + statement(key * 10 + step)
        return text + chance.choice(["COMMIT;\n", "COMMIT;\n", "ROLLBACK;\n"])
    return text + statement(key * 10)

SHOWN = """MATCH (x) LET k = x.k ORDER BY k RETURN k, x.p AS p, x.q AS q, x.r AS r, x IS LABELED A AS a, x IS LABELED B AS b, x IS LABELED C AS c;
MATCH (x)-[e]->(y) RETURN x.k AS k, y.k AS l, COUNT(*) AS n ORDER BY k, l;
MATCH (x)~[e]~(y) RETURN x.k AS k, y.k AS l, COUNT(e.w) AS n ORDER BY k, l;
"""
shown = "".join(graph(name) + SHOWN for name in GRAPHS)

def run(text, store=None):
    path = os.path.join(folder, "session.gql")
    with open(path, "w") as file:
        file.write(text)
    ran = subprocess.run([program, "run", path] + (["--store", store] if store else []), capture_output=True, text=True)
    if ran.returncode > 1:
        sys.exit(f"status {ran.returncode}: {ran.stderr.strip()}")
    return ran.stdout

wrong = 0
for at in range(rounds):
    pieces = ["CREATE GRAPH one;\nCREATE GRAPH two;\n"] + [piece(key) for key in range(1, 26)] + [shown]
    store = os.path.join(folder, f"{at}.db")
    if run("".join(pieces)) != "".join(run(text, store) for text in pieces):
        wrong += 1
        print(f"round {at} of seed {seed}")
print(f"{rounds} rounds, {wrong} wrong")
sys.exit(1 if wrong else 0)
PY
