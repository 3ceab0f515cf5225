# Proves and builds the program, in a copy of its crates, by the gate's own command. So a kit that keeps proofs between
# runs proves nothing again that a run of the gate or of this has proved on the machine, even if that run was stopped or
# in another copy of the repository.

# By crate: its line in crates.txt, and the libraries that it names.
declare -A line_of=() libraries_of=()
# The program's crates, lowest first; those that are proved; how much there is to prove of each.
needed=()
declare -A is_proved=() work_of=()

read_crates() {
  local line name
  while IFS= read -r line; do
    line=${line%%#*}
    [[ $line == *:* ]] || continue
    name=${line%%[ :]*}
    line_of[$name]=$line
    libraries_of[$name]=${line#*:}
  done <"$top/crates.txt"
}

# Adds a crate and those below it.
need() {
  local name
  [[ -n ${line_of[$1]+x} && " ${needed[*]-} " != *" $1 "* ]] || return 0
  for name in ${libraries_of[$1]}; do
    need "$name"
  done
  needed+=("$1")
}

need_crates() {
  [ "${#line_of[@]}" != 0 ] || read_crates
  needed=()
  need "$crate"
}

# The checksum of all that is proved and built in this folder.
sum_of() {
  (
    cd "$1" || exit 1
    for name in "${needed[@]}"; do
      printf '%s\n' "${line_of[$name]}"
    done
    cat HANDLES
    find "${needed[@]/#/crates/}" \( -name out -o -name must-fail \) -prune -o -type f -print0 |
      LC_ALL=C sort -z | xargs -0 sha256sum
  ) | sha256sum | cut -c 1-32
}

# Copies all that the proof reads to this folder, which is then the top of a repository.
copy_to() {
  mkdir -p "$1/.git" && cp "$top/HANDLES" "$1" || return
  for name in "${needed[@]}"; do
    printf '%s\n' "${line_of[$name]}"
  done >"$1/crates.txt"
  tar -C "$top" --exclude=out --exclude=must-fail -cf - "${needed[@]/#/crates/}" | tar -C "$1" -xf -
}

# The crates that can be in proof now: those whose libraries are proved.
in_proof() {
  local name library found=
  for name in "${needed[@]}"; do
    [ -z "${is_proved[$name]+x}" ] || continue
    for library in ${libraries_of[$name]}; do
      [[ -z ${line_of[$library]+x} || -n ${is_proved[$library]+x} ]] || continue 2
    done
    found+=" $name"
  done
  printf '%s' "${found:- the program, built and run}"
}

# How much work each crate is: its bytes, 250,000 more for what each proof begins with, and 500,000 more for the
# program, which two compilers build.
weigh_crates() {
  local name bytes
  for name in "${needed[@]}"; do
    bytes=$(find "$top/crates/$name" \( -name out -o -name must-fail \) -prune -o -type f -print0 | xargs -0 cat | wc -c)
    work_of[$name]=$((bytes + 250000))
  done
  work_of[$crate]=$((work_of[$crate] + 500000))
}

# Sets `left` to the work left: the sum divided by the processors (at most four) or, if that is more, the longest chain
# of crates that wait for one another.
sum_left() {
  local name library above longest=0 sum=0
  local -A chain
  for name in "${needed[@]}"; do
    above=0
    for library in ${libraries_of[$name]}; do
      ((${chain[$library]-0} <= above)) || above=${chain[$library]}
    done
    if [ -z "${is_proved[$name]+x}" ]; then
      above=$((above + work_of[$name]))
      sum=$((sum + work_of[$name]))
    fi
    chain[$name]=$above
    ((above <= longest)) || longest=$above
  done
  left=$((sum / lanes))
  ((left >= longest)) || left=$longest
}

# How long the rest of the proof takes: by the pace so far, once a tenth is done.
time_left() {
  local seconds
  if ((10 * (whole - left) < whole || whole == left || SECONDS == 0)); then
    printf '%s in all' "$(proof_time)"
  else
    seconds=$((left * SECONDS / (whole - left)))
    if ((seconds < 90)); then
      printf 'about a minute left'
    else
      printf 'about %s minutes left' $(((seconds + 30) / 60))
    fi
  fi
}

# Keeps the output of the proof, and reports how far it is. (What is kept from before takes no time, so it doesn't count
# as work.)
report_progress() {
  local line count=0 of=${#needed[@]} left whole before lanes
  lanes=$(nproc 2>/dev/null || echo 4)
  ((lanes <= 4)) || lanes=4
  weigh_crates
  sum_left
  whole=$left
  say "proving $crate: $of crates, $(proof_time) if nothing is proved yet; first$(in_proof)"
  while IFS= read -r line; do
    printf '%s\n' "$line" >>"$top/out/proof.log"
    [[ $line != rt:\ *waiting* && $line != rt:\ note:* ]] || say "${line#rt: }"
    [[ $line =~ ^rt:\ ([a-z0-9_]+)\ (proved$|is\ kept:) ]] || continue
    is_proved[${BASH_REMATCH[1]}]=1
    count=$((count + 1))
    before=$left
    sum_left
    if [ "${BASH_REMATCH[2]}" = proved ]; then
      say "$count of $of: ${BASH_REMATCH[1]} proved after $SECONDS s, $(time_left); now$(in_proof)"
    else
      whole=$((whole - before + left))
      say "$count of $of: ${BASH_REMATCH[1]} was proved earlier"
    fi
  done
}

prove_in() {
  set -o pipefail
  cd "$1" && rt ci 2>&1 | report_progress
}

# Proves the program and sets `program` to it, one call at a time in this copy of the repository.
prove_program() {
  need_kit
  lock_out ""
  [ -x "$program" ] || prove_copy
  exec 9>&-
}

prove_copy() {
  local old
  # (a call that was killed left its folder)
  old=$(cat "$top/out/proving" 2>/dev/null)
  [[ $old != */hheap-proof-* ]] || rm -rf "$old"
  make_room proof
  printf '%s\n' "$room" >"$top/out/proving"
  : >"$top/out/proof.log"
  copy_to "$room" || exit 1
  program=$top/out/$crate-$(sum_of "$room")
  parting="stopped; $called prove goes on from there if the kit keeps proofs between runs"
  if ! run_apart prove_in "$room" </dev/null >&2 9>&-; then
    grep -E '^rt: .*(NOT PROVED|FAILED|refused)|error' "$top/out/proof.log" | tail -n 20 >&2
    say "the program could not be proved and built; the whole output is in $top/out/proof.log"
    exit 1
  fi
  parting=
  rt version >"$program.kit" 2>/dev/null
  put_program "$room/crates/$crate/out/$crate"
  leave_room
  rm -f "$top/out/proving"
}

# The command: proves the program, if its sources aren't proved as they stand.
prove() {
  [ $# = 0 ] || refuse_words "prove takes no arguments, and '$1' is one"
  if is_installed; then
    say "an installed program can't be proved: ./hheap prove works in a copy of the repository"
    exit 1
  fi
  place_program
  if [ -x "$program" ]; then
    say "proved already, as its sources stand"
  else
    prove_program
    say "proved in $SECONDS s: $called answers by it from now on"
  fi
  exit 0
}
