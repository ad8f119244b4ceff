#!/bin/sh
# Prints what one MATCH over a long path pattern costs beside an empty session, from its text to its answer over an empty graph: so
# many elements with a name each, with names that come again, without names, in a union, with conditions, and in 62 nested parentheses.
# What of it is reading and static checks, bench/scope.sh prints. Other words are programs to compare with: bench/pattern.sh [PROGRAM..]
top=$(cd "$(dirname "$0")/.." && pwd) || exit 70
folder=$(mktemp -d) || exit 70
trap 'rm -rf "$folder"' EXIT
if [ $# -eq 0 ]; then "$top/gql" --build >/dev/null 2>&1 || exit 70; set -- "$top/crates/gql/out/gql"; fi
exec python3 - "$folder" "$@" <<'PY'
import os, subprocess, sys, time
folder, *programs = sys.argv[1:]

def named(items):
    return "".join(f"(x{i})-[e{i}]->" for i in range(items // 2)) + "(y)"

def joined(items):
    return "".join(f"(x{i % 100})-[e{i}:T]->" for i in range(items // 2)) + "(y)"

cases = {
    "a name each": named,
    "a hundred names that come again": joined,
    "without names": lambda items: "()->" * (items // 2) + "()",
    "a union": lambda items: "(x)(" + " | ".join(["->"] * items) + ")(y)",
    "conditions": lambda items: "".join(f"(x{i} WHERE x{i // 2}.n = 1)->" for i in range(items // 2)) + "(y)",
}

def run(program, text):
    session = os.path.join(folder, "pattern.gql")
    with open(session, "w") as file:
        file.write(text)
    begin = time.monotonic()
    child = subprocess.Popen([program, "run", session], stdout=subprocess.PIPE, text=True)
    printed = child.stdout.read().split()
    _, _, used = os.wait4(child.pid, 0)
    return printed, time.monotonic() - begin, used.ru_maxrss / 1024

def tell(program, name, pattern):
    printed, seconds, peak = run(program, f"MATCH {pattern} RETURN COUNT(*) AS c;\n")
    print(f"  {name}: {' '.join(printed[:2])}, {seconds - alone:.2f} s more, {peak:.0f} MB at most")

for program in programs:
    _, alone, peak = run(program, "")
    print(f"{program}: an empty session takes {alone:.3f} s, {peak:.0f} MB at most")
    for items in (2500, 5000, 10000):
        for name, pattern in cases.items():
            tell(program, f"{items} elements, {name}", pattern(items))
    nested = "(" * 62 + "(x)->(y)" + ")" * 62
    tell(program, "62 nested parentheses", nested)
PY
