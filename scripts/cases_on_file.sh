#!/bin/sh
# Runs every session of crates/gql_cases over a store in a file of its own, compares what it writes and its exit status with what the
# gate compares over a store in memory, and opens each store once more. Words: scripts/cases_on_file.sh [PROGRAM]
top=$(cd "$(dirname "$0")/.." && pwd) || exit 70
folder=$(mktemp -d) || exit 70
trap 'rm -rf "$folder"' EXIT
program=${1:-$top/crates/gql/out/gql}
if [ ! -x "$program" ]; then "$top/gql" --build >/dev/null || exit 70; fi
exec python3 - "$folder" "$program" "$top/crates/gql_cases" <<'PY'
import os, re, subprocess, sys
folder, program, crate = sys.argv[1:]
with open(os.path.join(crate, "stdout"), "rb") as file:
    parts = re.split(rb"(?m)^== (\w+)\n", file.read())
empty = os.path.join(folder, "empty.gql")
open(empty, "w").close()
run = wrong = 0
for name, text in zip(parts[1::2], parts[2::2]):
    name = name.decode()
    if name.startswith("kept_"):
        continue
    text = text.removesuffix(b"\n") if text.endswith(b"\n\n") else text
    written, status = re.fullmatch(rb"(.*?)status (\d+)\n", text, re.DOTALL).groups()
    store = os.path.join(folder, name + ".db")
    done = subprocess.run([program, "run", os.path.join(crate, "data", name + ".gql"), "--store", store], capture_output=True)
    again = subprocess.run([program, "run", empty, "--store", store], capture_output=True)
    run += 1
    if done.stdout != written or done.returncode != int(status) or again.returncode != 0:
        wrong += 1
        print(f"{name}: status {done.returncode}, then {again.returncode}; {'the same text' if done.stdout == written else 'another text'}")
print(f"{run} sessions over a store in a file, {wrong} wrong")
sys.exit(1 if wrong else 0)
PY
