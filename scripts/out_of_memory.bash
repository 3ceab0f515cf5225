#!/usr/bin/env bash
# Calls `command` with one allocation failing, for each allocation in turn, on five texts by one worker and by four (the
# trials of crates/out_of_memory, unproved), and counts the outcomes. A line for each trial has its number, the
# workers, the allocations of a call in which none failed, and the number of calls with each outcome:
#   nothing   out of memory, with nothing returned
#   part      out of memory, with a journal without an end, which `replay` accepts as far as it goes
#   whole     out of memory, with a journal that has an end, which `replay` accepts
#   unwritten a write fault, since the sink in memory couldn't allocate, with such a journal
#   answered  the answer that comes with memory to spare
#   before    the allocation failed before the call
#   unmet     the call was over before that allocation
#   wrong     anything else, a fault or no answer: there must be none
# The status is 0 if none was wrong. With four workers calls differ in their number of allocations, so some more are
# tried.
set -u
crate=out_of_memory
top=$(dirname "$(dirname "$(realpath "${BASH_SOURCE[0]}")")") || exit 1
. "$top/scripts/apart.bash"

# The number of the allocation that fails in the program as it is built.
refused=5000
# How many more calls are made than the first one made allocations.
more=32

# Runs the cases of a folder, and puts a line for each into a file: its name, its outcome, and its number.
run_cases() {
  (cd "$top/crates/$crate" && rt try --steps 1 --fail-alloc "$refused" --cases "$1") >"$room/said" 2>&1
  awk '/^== / { name = $2; getline; told[name] = $1 " " $2 }
    /^case=/ { split($1, at, "="); if ($2 != "run=ended" || $3 != "status=0") told[at[2]] = "wrong 0" }
    END { for (name in told) print name, told[name] }' "$room/said" >"$2"
  [ -s "$2" ]
}

make_room memory
mkdir "$room/first" "$room/all"
for workers in 1 4; do
  for trial in 1 2 3 4 5; do
    printf '%s %s %s\n' "$trial" "$workers" 4000 >"$room/first/$trial-$workers"
  done
done
say "building the program unproved, and counting the allocations of each call"
if ! run_apart run_cases "$room/first" "$room/counts"; then
  cat "$room/said" >&2
  exit 1
fi
while read -r name told count; do
  trial=${name%-*}
  workers=${name#*-}
  if [ "$told" != unmet ]; then
    say "trial $trial by $workers: $told"
    exit 1
  fi
  for at in $(seq 1 $((count + more))); do
    printf '%s %s %s\n' "$trial" "$workers" "$at" >"$room/all/$trial-$workers-$at"
  done
done <"$room/counts"
say "calling it $(find "$room/all" -type f | wc -l) times"
if ! run_apart run_cases "$room/all" "$room/results"; then
  cat "$room/said" >&2
  exit 1
fi
awk 'NR == FNR { count[$1] = $3; next }
  { split($1, at, "-"); name = at[1] "-" at[2]; sum[name, $2]++; all[$2]++ }
  END {
    split("nothing part whole unwritten answered before unmet wrong", words, " ")
    for (workers = 1; workers <= 4; workers += 3)
      for (trial = 1; trial <= 5; trial++) {
        name = trial "-" workers
        line = "trial " trial " workers " workers " allocations " count[name]
        for (k = 1; k <= 8; k++) line = line " " words[k] " " sum[name, words[k]] + 0
        print line
      }
    line = "all"
    for (k = 1; k <= 8; k++) line = line " " words[k] " " all[words[k]] + 0
    print line
    exit all["wrong"] > 0
  }' "$room/counts" "$room/results"
