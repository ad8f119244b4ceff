#!/bin/sh
# Takes the sessions of a folder into crates/gql_cases, beside those of examples/: NAME.gql, what it prints (NAME.out) and
# its exit status (NAME.status; without that file 1 where a line of NAME.out begins with 'refused ', else 0). It writes
# the crate's data/, args and stdout anew from the two folders, so that the gate runs each session.
top=$(cd "$(dirname "$0")/.." && pwd) || exit 70
if [ $# -ne 1 ] || [ ! -d "$1" ]; then
  echo "usage: scripts/cases.sh FOLDER" >&2
  exit 64
fi
folder=$(cd "$1" && pwd) || exit 70
crate=$top/crates/gql_cases
for session in "$folder"/*.gql; do
  if [ -e "$top/examples/${session##*/}" ]; then
    echo "${session##*/} is the name of a session of examples/" >&2
    exit 65
  fi
done
LC_ALL=C
export LC_ALL

# the file of a session with that ending, of the folder or of examples/
file_of() {
  if [ -e "$folder/$1.gql" ]; then echo "$folder/$1.$2"; else echo "$top/examples/$1.$2"; fi
}

status_of() {
  given=$(file_of "$1" status)
  if [ -e "$given" ]; then
    cat "$given"
  elif grep -q '^refused ' "$(file_of "$1" out)"; then
    echo 1
  else
    echo 0
  fi
}

names=$(for session in "$top"/examples/*.gql "$folder"/*.gql; do
  if [ -e "$session" ]; then basename "$session" .gql; fi
done | sort -u)
for name in $names; do
  if [ ! -e "$(file_of "$name" out)" ]; then
    echo "$name.gql has no $name.out" >&2
    exit 66
  fi
done

# The sessions of examples/ stand in data/ too: the gate takes no links.
rm -f "$crate"/data/*.gql
for session in "$top"/examples/*.gql "$folder"/*.gql; do
  if [ -e "$session" ]; then cp "$session" "$crate/data/" || exit 74; fi
done

echo "$names" >"$crate/args"
: >"$crate/stdout"
for name in $names; do
  if [ -s "$crate/stdout" ]; then echo; fi
  echo "== $name"
  cat "$(file_of "$name" out)"
  echo "status $(status_of "$name")"
done >>"$crate/stdout"
