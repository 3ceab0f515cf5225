#!/usr/bin/env bash
# test.bash [PROGRAM]    builds the tests with the recorder, runs them, and compares their logs and what a checker says.
#
# It needs gcc with OpenMP. PROGRAM is called as `PROGRAM check FILE..`; without one the unverified checker is built, if
# rustc is there. What is left out is reported. Each test names its words and statuses in comments; if a
# file .log is beside it, that is its log.
set -u
here=$(dirname "$(realpath "${BASH_SOURCE[0]}")")
room=$(mktemp -d) || exit 1
trap 'rm -rf "$room"' EXIT
failed=0
fail() {
  echo "$*" >&2
  failed=1
}
command -v gcc >/dev/null || { echo "left out: all, since gcc isn't there"; exit 0; }
checker=${1-}
if [ -z "$checker" ] && command -v rustc >/dev/null; then
  checker=$room/peer
  rustc -O --edition 2021 -o "$checker" "$here/../../bench/logs/peer.rs" || fail "the checker isn't built"
fi
[ -z "$checker" ] || checker=$(realpath "$checker")
[ -n "$checker" ] || echo "left out: what a checker says, since there is no PROGRAM and no rustc"

# What a test's comments say after a word.
said() { sed -n "s|^// $2: ||p" "$1"; }

# A log as it is compared: by tasks, each strand sorted, with names for sites. Compiler and library determine the
# numbers of blocks, places on stacks and of static data, births and releases, which are left out.
readable() {
  awk '
    FNR == 1 || $1 == "k" || $1 == "end" || $1 == "a" || $1 == "f" { next }
    $1 == "@" { name[$2] = $3; next }
    $1 == "s" { task = $2 }
    /^[-s+.]/ { print task, ++part, $0; part++; next }
    /^[rwRW]/ {
      if ($3 > 100000) next
      if ($2 == 1) $3 = ""
      $2 = $2 == 1 ? "static" : "heap"
      site = substr($NF, 2)
      $NF = (site in name) ? name[site] : "?"
      gsub(/  +/, " ")
    }
    { print task, part, $0 }' "$@" | LC_ALL=C sort -k1,1n -k2,2n -k3 | cut -d' ' -f3-
}

# check TEST STATUS WORDS..: builds it, runs it, and compares.
check() {
  local test=$1 status=$2 name ends is
  shift 2
  name=$(basename "$test")
  rm -f "$room"/log.*
  "$here/hhcc" "$@" "$test" -o "$room/program" 2>"$room/said" || { fail "$name: not built: $(cat "$room/said")"; return; }
  ends=$(said "$test" ends)
  { (cd "$room" && HHREC=log ./program) >/dev/null 2>"$room/said"; } 2>/dev/null
  is=$?
  [ "$is" = "${ends:-0}" ] || fail "$name $*: it ended by $is: $(cat "$room/said")"
  if [ "$status" = 11 ] && ! grep -q '^unsupported: ' "$room"/log.*; then
    fail "$name: nothing in its log says why it is refused"
  fi
  if [ -f "${test%.*}.log" ]; then
    readable "$room"/log.names "$room"/log.[0-9]* | diff "${test%.*}.log" - || fail "$name: its log"
  fi
  [ -n "$checker" ] || return
  "$checker" check "$room"/log.* >"$room/report"
  is=$?
  [ "$is" = "$status" ] || fail "$name $*: status $is, not $status: $(cat "$room/report")"
  said "$test" found | while IFS= read -r found; do
    grep -q "^end: .*\b$found\b" "$room/report" || echo "$found"
  done >"$room/missing"
  [ ! -s "$room/missing" ] || fail "$name: not reported: $(cat "$room/missing")"
}

count=1
check "$here/example/squares.c" 12 -fopenmp
for test in "$here"/tests/*.c "$here"/tests/*.cc; do
  read -ra words <<<"$(said "$test" words)"
  if [[ $test == *.cc ]] && ! command -v g++ >/dev/null; then
    echo "left out: $(basename "$test"), since g++ isn't there"
    continue
  fi
  if [[ " ${words[*]-} " == *' -mcx16 '* ]] && [ "$(uname -m)" != x86_64 ]; then
    echo "left out: $(basename "$test"), which is for another processor"
    continue
  fi
  check "$test" "$(said "$test" status)" ${words[@]+"${words[@]}"}
  count=$((count + 1))
  with=$(said "$test" 'status with -DRACE')
  [ -z "$with" ] || check "$test" "$with" -DRACE ${words[@]+"${words[@]}"}
done
[ "$failed" = 0 ] && echo "recorders/c: $count tests pass"
exit "$failed"
