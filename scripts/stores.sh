#!/bin/sh
# Tries stores that can't be opened, are no stores, are locked, may not be written, or are damaged, and says what the program does:
# a status of its own, one line on standard error, no crash, and nothing lost. Words: scripts/stores.sh [PROGRAM]
top=$(cd "$(dirname "$0")/.." && pwd) || exit 70
folder=$(mktemp -d) || exit 70
trap 'umount "$folder/full" 2>/dev/null; chmod -R u+w "$folder"; rm -rf "$folder"' EXIT
program=${1:-$top/crates/gql/out/gql}
if [ ! -x "$program" ]; then "$top/gql" --build >/dev/null || exit 70; fi
python3 - "$folder" "$program" <<'PY'
import os, shutil, sqlite3, subprocess, sys
folder, program = sys.argv[1:]
wrong = 0

def path(name):
    return os.path.join(folder, name)

def text(name, lines):
    with open(path(name), "w") as file:
        file.write(lines)
    return path(name)

def run(session, store, user=None):
    done = subprocess.run([program, "run", session, "--store", store], capture_output=True, text=True, errors="replace", user=user)
    return done.returncode, done.stdout, done.stderr

def tell(name, store, session, statuses, written=None, complaint=None, user=None):
    global wrong
    status, out, err = run(session, store, user)
    good = status in statuses and (written is None or out == written) and (complaint is None or err == complaint)
    wrong += not good
    print(f"{'' if good else 'WRONG '}{name}: status {status}, {out!r}, {err!r}")

fault = "gql: store fault\n"
read = text("read.gql", "MATCH (x) RETURN COUNT(*) AS n;\n")
write = text("write.gql", "INSERT (:N {i: 1});\nMATCH (x) RETURN COUNT(*) AS n;\n")

tell("a folder that isn't there", path("nowhere/store.db"), write, {5}, "", fault)
os.mkdir(path("folder.db"))
tell("a folder in place of a file", path("folder.db"), write, {5}, "", fault)
text("text.db", "This is a text and no database, and it is long enough to have a head.\n" * 40)
tell("a file that is no database", path("text.db"), write, {5}, "", fault)
for name, made in {
    "another table": "CREATE TABLE other (a)",
    "other columns": "CREATE TABLE record (key BLOB PRIMARY KEY, value TEXT)",
    "an index beside the table": "CREATE TABLE record (key BLOB PRIMARY KEY, value BLOB NOT NULL) STRICT; CREATE INDEX more ON record (value)",
}.items():
    store = path(name.replace(" ", "_") + ".db")
    with sqlite3.connect(store) as base:
        base.executescript(made)
    base.close()
    tell(f"a database with {name}", store, write, {5}, "", fault)
text("empty.db", "")
tell("an empty file, which becomes a store", path("empty.db"), write, {0}, "ok\nn\n1\nrows 1\n", "")
tell("the store again", path("empty.db"), read, {0}, "n\n1\nrows 1\n", "")

shutil.copy(path("empty.db"), path("locked.db"))
holder = sqlite3.connect(path("locked.db"), isolation_level=None)
holder.execute("BEGIN EXCLUSIVE")
tell("a store that another process has locked", path("locked.db"), write, {5}, "", fault)
holder.execute("ROLLBACK")
holder.close()
tell("and once it is free", path("locked.db"), read, {0}, "n\n1\nrows 1\n", "")

# The superuser may write every file, so the program runs as another user there.
other = None if os.geteuid() else "nobody"
os.chmod(folder, 0o755)
shutil.copy(path("empty.db"), path("readonly.db"))
os.chmod(path("readonly.db"), 0o444)
tell("a file that may only be read", path("readonly.db"), write, {5}, "", fault, other)
with open(path("empty.db"), "rb") as one, open(path("readonly.db"), "rb") as two:
    if one.read() != two.read():
        wrong += 1
        print("WRONG: the file that may only be read is another one now")

full = path("full")
os.mkdir(full)
if subprocess.run(["mount", "-t", "tmpfs", "-o", "size=128k", "tmpfs", full], stderr=subprocess.DEVNULL).returncode == 0:
    many = text("many.gql", "".join(f"INSERT (:N {{i: {i}, filling: '{'x' * 900}'}});\n" for i in range(400)) + "MATCH (x) RETURN COUNT(*) AS n;\n")
    status, out, err = run(many, path("full/store.db"))
    kept, refused = out.count("ok\n"), out.count("refused E22 STORE\n")
    good = status == 1 and refused > 0 and kept + refused == 400 and out.endswith(f"n\n{kept}\nrows 1\n")
    status, out, err = run(read, path("full/store.db"))
    good = good and ((status == 0 and out == f"n\n{kept}\nrows 1\n") or status == 5)
    wrong += not good
    print(f"{'' if good else 'WRONG '}a full disk: {kept} commits kept and {refused} refused with E22; opened again: status {status}, {out!r}")
else:
    print("a full disk: not tried, since no file system could be mounted")

# Damage: a store of 40 records and more, in which each single byte of each key and value is changed, one at a time.
damaged = path("damaged.db")
names = ", ".join(f"(n{i}:N {{i: {i}, t: 'text {i}', l: [{i}, NULL, TRUE]}})" for i in range(15))
edges = ", ".join(f"(n{i})-[:T {{w: {i}}}]->(n{(i + 1) % 15})" for i in range(15))
making = text("making.gql", f"CREATE GRAPH TYPE t {{(a :A {{k INT NOT NULL, l LIST<STRING>}}), (a)-[:E]->(a)}};\nCREATE GRAPH g TYPED t;\nINSERT {names}, {edges};\nSESSION SET GRAPH g;\nINSERT (x:A {{k: 1}})-[:E]->(y:A {{k: 2, l: ['a']}}), (y)-[:E]->(x), (:A {{k: 3}}), (:A {{k: 4}}), (:A {{k: 5}});\n")
if run(making, damaged)[0] != 0:
    print("WRONG: the store to be damaged was not made")
    wrong += 1
base = sqlite3.connect(damaged)
records = base.execute("SELECT key, value FROM record ORDER BY key").fetchall()
statuses = {}
for key, value in records:
    for column, old in (("key", key), ("value", value)):
        for place in range(len(old)):
            new = bytearray(old)
            new[place] ^= 1 << (place % 8)
            new = bytes(new)
            try:
                with base:
                    base.execute(f"UPDATE record SET {column} = ? WHERE key = ?", (new, key))
            except sqlite3.IntegrityError:
                continue
            base.close()
            status, out, err = run(read, damaged)
            statuses[status] = statuses.get(status, 0) + 1
            if status not in (0, 8) or (status == 8 and not err.startswith("gql: bad store record ")):
                wrong += 1
                print(f"WRONG byte {place} of a {column}: status {status}, {err!r}")
            base = sqlite3.connect(damaged)
            with base:
                base.execute(f"UPDATE record SET {column} = ? WHERE key = ?", (old, new if column == "key" else key))
print(f"{len(records)} records, {sum(statuses.values())} single bytes changed: {statuses}")
base.close()
tell("the store as it was", damaged, read, {0}, "n\n15\nrows 1\n", "")
print("nothing wrong" if not wrong else f"{wrong} wrong")
sys.exit(1 if wrong else 0)
PY
