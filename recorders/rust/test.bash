#!/usr/bin/env bash
# test.bash [PROGRAM]    builds the tests and the examples of the Rust recorder, runs them, and compares.
#
# It needs rustc; for rayon also cargo and Debian's package librust-rayon-dev. PROGRAM is called as `PROGRAM check FILE..`;
# without one the unverified checker is built. What is left out is reported. Each test names its statuses in comments;
# if a file .log is beside it, that is its log.
set -u
here=$(dirname "$(realpath "${BASH_SOURCE[0]}")")
room=$(mktemp -d) || exit 1
trap 'rm -rf "$room"' EXIT
failed=0
fail() {
  echo "$*" >&2
  failed=1
}
command -v rustc >/dev/null || { echo "left out: all, since rustc isn't there"; exit 0; }
checker=${1-}
if [ -z "$checker" ]; then
  checker=$room/peer
  rustc -O --edition 2021 -o "$checker" "$here/../../bench/logs/peer.rs" || exit 1
fi
checker=$(realpath "$checker")

said() { sed -n "s|^// $2: ||p" "$1"; }

# A log as it is compared: by tasks, each strand sorted, with names for sites.
readable() {
  awk '
    FNR == 1 || $1 == "k" || $1 == "end" { next }
    $1 == "@" { sub(".*/", "", $3); name[$2] = $3; next }
    $1 == "s" { task = $2 }
    /^[-s+.]/ { print task, ++part, $0; part++; next }
    $NF ~ /^@/ { $NF = name[substr($NF, 2)] }
    { print task, part, $0 }' "$@" | LC_ALL=C sort -k1,1n -k2,2n -k3 | cut -d' ' -f3-
}

# run NAME PROGRAM STATUS [SOURCE]: runs a built program, and compares.
run() {
  local name=$1 program=$2 status=$3 source=${4-/dev/null} ends is
  rm -f "$room"/log.*
  ends=$(said "$source" ends)
  { (cd "$room" && HHREC=log "$program") >/dev/null 2>"$room/said"; } 2>/dev/null
  is=$?
  [ "$is" = "${ends:-0}" ] || fail "$name: it ended by $is: $(cat "$room/said")"
  if [ -f "${source%.rs}.log" ]; then
    readable "$room"/log.* | diff "${source%.rs}.log" - || fail "$name: its log"
  fi
  "$checker" check "$room"/log.* >"$room/report"
  is=$?
  [ "$is" = "$status" ] || fail "$name: status $is, not $status: $(cat "$room/report")"
  said "$source" found | while IFS= read -r found; do
    grep -q "^end: .*\b$found\b" "$room/report" || echo "$found"
  done >"$room/missing"
  [ ! -s "$room/missing" ] || fail "$name: not reported: $(cat "$room/missing")"
}

rustc -O --edition 2021 --crate-type rlib --crate-name hhrec -D warnings -o "$room/libhhrec.rlib" "$here/src/lib.rs" || exit 1
count=0
for source in "$here"/tests/*.rs "$here"/examples/*.rs; do
  name=$(basename "$source" .rs)
  rustc -O --edition 2021 --extern hhrec="$room/libhhrec.rlib" -o "$room/$name" "$source" || { fail "$name: not built"; continue; }
  status=$(said "$source" status)
  run "$name" "$room/$name" "${status:-12}" "$source"
  count=$((count + 1))
done

# rayon, from Debian's package: a copy, since cargo writes beside its manifests.
registry=/usr/share/cargo/registry
if command -v cargo >/dev/null && compgen -G "$registry/rayon-[0-9]*" >/dev/null; then
  cp -r "$here" "$room/crates"
  (cd "$room/crates/rayon" && cargo --quiet --config "source.crates-io.replace-with='debian'" \
    --config "source.debian.directory='$registry'" build --offline --release --example squares) || fail "rayon: not built"
  run rayon "$room/crates/rayon/target/release/examples/squares" 12
  count=$((count + 1))
else
  echo "left out: rayon, since cargo or librust-rayon-dev isn't there"
fi
[ "$failed" = 0 ] && echo "recorders/rust: $count tests pass"
exit "$failed"
