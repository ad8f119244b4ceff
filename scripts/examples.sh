#!/bin/sh
# Runs every session of examples/ and compares what it prints with the file beside it, and the session with its copy that the
# gate runs. Ends with the number that differ.
top=$(cd "$(dirname "$0")/.." && pwd) || exit 70
wrong=0
for session in "$top"/examples/*.gql; do
  wanted=${session%.gql}.out
  if cmp -s "$session" "$top/crates/gql_cases/data/${session##*/}" && "$top/gql" run "$session" 2>/dev/null | cmp -s - "$wanted"; then
    echo "same: ${session##*/}"
  else
    echo "differs: ${session##*/}"
    wrong=$((wrong + 1))
  fi
done
exit "$wrong"
