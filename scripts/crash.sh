#!/bin/sh
# Ends the program by SIGKILL in the middle of many commits to a store in a file, round after round, and looks at what the store
# holds then: exactly the commits whose text was written, or one more. Both the program and SQLite itself open the file.
# Words: scripts/crash.sh [ROUNDS [PROGRAM]]; 200 rounds where none is given.
top=$(cd "$(dirname "$0")/.." && pwd) || exit 70
folder=$(mktemp -d) || exit 70
trap 'rm -rf "$folder"' EXIT
rounds=${1:-200}
program=${2:-$top/crates/gql/out/gql}
if [ ! -x "$program" ]; then "$top/gql" --build >/dev/null || exit 70; fi
exec python3 - "$folder" "$program" "$rounds" <<'PY'
import os, random, signal, sqlite3, subprocess, sys, time
folder, program, rounds = sys.argv[1], sys.argv[2], int(sys.argv[3])
commits = 2000
session, look = os.path.join(folder, "commits.gql"), os.path.join(folder, "look.gql")
with open(session, "w") as file:
    file.writelines(f"INSERT (:N {{i: {i}}});\n" for i in range(commits))
with open(look, "w") as file:
    file.write("MATCH (x:N) RETURN COUNT(*) AS n, MAX(x.i) AS most;\n")

def ended_after(store, seconds):
    """The number of texts that were written before the end."""
    with open(os.path.join(folder, "written"), "wb") as out:
        child = subprocess.Popen([program, "run", session, "--store", store], stdout=out, stderr=subprocess.DEVNULL)
        time.sleep(seconds)
        child.send_signal(signal.SIGKILL)
        child.wait()
    with open(os.path.join(folder, "written"), "rb") as out:
        return out.read().count(b"ok\n")

def counted_by_program(store):
    run = subprocess.run([program, "run", look, "--store", store], capture_output=True, text=True)
    if run.returncode != 0:
        return f"status {run.returncode}: {run.stderr.strip()}"
    count, last = run.stdout.splitlines()[1].split("\t")
    if int(count) and int(last) != int(count) - 1:
        return f"{count} nodes, but the last is {last}"
    return int(count)

def counted_by_sqlite(store):
    with sqlite3.connect(store) as base:
        base.execute("PRAGMA integrity_check")
        return base.execute("SELECT COUNT(*) FROM record WHERE hex(key) LIKE '03%'").fetchone()[0]

# how long a whole run takes, so that ends fall all over it
begin = time.monotonic()
subprocess.run([program, "run", session, "--store", os.path.join(folder, "whole.db")], stdout=subprocess.DEVNULL)
whole = time.monotonic() - begin
random.seed(30)
wrong = more = 0
least, most = commits, 0
for turn in range(rounds):
    store = os.path.join(folder, f"store{turn}.db")
    written = ended_after(store, random.uniform(0, whole))
    held = counted_by_program(store)
    least, most = min(least, written), max(most, written)
    if held not in (written, written + 1) or (held and counted_by_sqlite(store) != held):
        wrong += 1
        print(f"round {turn}: {written} texts were written, and the store holds {held}")
    more += held == written + 1
    for name in os.listdir(folder):
        if name.startswith(f"store{turn}.db"):
            os.remove(os.path.join(folder, name))
print(f"{rounds} rounds of up to {commits} commits, {whole:.1f} s each where nothing ends it: {least} to {most} texts written, {more} times one commit more was held, {wrong} wrong")
sys.exit(1 if wrong else 0)
PY
