#!/bin/sh
# Prints how long static checks take, with peak memory: that of a query of 10,000 and 100,000 LET items, without its reading; and, from
# text to refusal, a MATCH over a path pattern of 5,000 and 10,000 elements, without names, with a name each, and with a condition at
# each node, and of 64 nested parentheses. The MATCH asks a parameter that isn't set, whose refusal comes behind all others, so that it is read and checked and no more.
top=$(cd "$(dirname "$0")/.." && pwd) || exit 70
folder=$(mktemp -d) || exit 70
trap 'rm -rf "$folder"' EXIT
program=$top/crates/gql_bench/out/gql_bench
[ -x "$program" ] || (cd "$top/crates/gql_bench" && rt run) >/dev/null 2>&1
[ -x "$program" ] || { echo "build crates/gql_bench first: rt run in its folder" >&2; exit 70; }
"$top/gql" --build >/dev/null 2>&1 || exit 70
exec python3 - "$folder" "$program" "$top/crates/gql/out/gql" <<'PY'
import os, subprocess, sys, time
folder, bench, program = sys.argv[1:]

def run(*words):
    begin = time.monotonic()
    child = subprocess.Popen(words, stdout=subprocess.PIPE, stderr=subprocess.PIPE, text=True)
    printed, said = child.stdout.read(), child.stderr.read()
    _, _, used = os.wait4(child.pid, 0)
    return printed.strip(), said.strip(), time.monotonic() - begin, used.ru_maxrss / 1024

for count in (10000, 100000):
    printed, said, _, peak = run(bench, "scope", str(count))
    print(f"{printed}; {said}, {peak:.0f} MB at most")

cases = {
    "without names": lambda items: "()->" * (items // 2) + "()",
    "a name each": lambda items: "".join(f"(x{i})-[e{i}]->" for i in range(items // 2)) + "(y)",
    "a condition at each node": lambda items: "".join(f"(x{i} WHERE x{i // 2}.n = 1)->" for i in range(items // 2)) + "(y)",
}
def check(name, pattern):
    session = os.path.join(folder, "checks.gql")
    with open(session, "w") as file:
        file.write(f"MATCH {pattern} RETURN $p AS p;\n")
    printed, _, seconds, peak = run(program, "run", session)
    print(f"a path pattern of {name}: {printed}; {seconds * 1000:.0f} ms, {peak:.0f} MB at most")

for items in (5000, 10000):
    for name, pattern in cases.items():
        check(f"{items} elements, {name}", pattern(items))
check("64 nested parentheses", "(" * 63 + "(x)->(y)" + ")" * 63)
PY
