# Says in one line how far `rt run` is: awk -f progress.awk crates.txt LOG, LOG being what rt has said so far.

# numbers the crates in the order in which rt builds them: each behind those that it uses
function number(crate, uses, count, i) {
  count = split(below[crate], uses, " ")
  for (i = 1; i <= count; i++)
    if (uses[i] in below && !(uses[i] in place)) number(uses[i])
  place[crate] = ++crates
}

FILENAME == ARGV[1] {
  sub(/#.*/, "")
  at = index($0, ":")
  if (at && split(substr($0, 1, at - 1), words, " ")) below[words[1]] = substr($0, at + 1)
  next
}

{ waits = /^rt: waiting for another rt/ }
/^rt: chose --jobs/ { crate = $NF; functions = "" }
# rt says this of a large crate, a batch at a time
/^so far: [0-9]+ of [0-9]+ functions/ { functions = ", functions " $3 " of " $5 }
/^logic=proved/ { functions = ", proved" }

END {
  number("gql")
  if (waits) printf "waiting for another run of rt in this clone"
  else if (crate == "") printf "reading the sources"
  else printf "crate %d of %d, %s%s", place[crate], crates, crate, functions
}
