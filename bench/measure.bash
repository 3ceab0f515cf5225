#!/usr/bin/env bash
# measure.bash PROGRAM [--smoke] [TABLE..]    measures a built program on the texts and programs beside this script, and
# prints tables.
#
# The tables: steps entries workers turns collections forks reports tasks growth programs grains instructions
# program_instructions; without words all of them. A time is the least of REPEAT calls (10 if it isn't set), in seconds
# of processors, user and system together, if nothing else is said. Memory is the greatest resident size of a call. If
# rustc is there, the peer is built and measured beside it, and so is turns/turns.rs, which the table `turns` alone
# needs. With --smoke the programs have their small sizes, small tasks are few, and each call is made once: so one sees
# whether the tables can be made. The status is 1 if a program writes anything but its answer. It needs /usr/bin/time;
# the tables of instructions need valgrind, count the same whatever else runs, and take some minutes.
set -u
here=$(dirname "$(realpath "${BASH_SOURCE[0]}")") || exit 1
program=$(realpath "${1:?the built program}") || exit 1
shift
repeat=${REPEAT:-10}
smoke=
if [ "${1-}" = --smoke ]; then
  smoke=1
  repeat=1
  shift
fi
room=$(mktemp -d) || exit 1
trap 'rm -rf "$room"' EXIT
peer=
if command -v rustc >/dev/null && rustc --edition 2021 -O -o "$room/peer" "$here/peer/peer.rs" 2>/dev/null; then
  peer=$room/peer
fi

# The place of a text or of a program.
source_of() {
  echo "$here"/*/"$1.hh"
}

# The place of its copy, in which its number N is another one if one is given.
text() {
  local name=$1 number=${2-}
  if [ -z "$number" ]; then
    cp "$(source_of "$name")" "$room/$name.hh"
  else
    sed "s/^\( *set i[0-9]* \)[0-9]*\( # N\)\$/\1$number\2/" "$(source_of "$name")" >"$room/$name.hh"
  fi
  printf '%s' "$room/$name.hh"
}

number_in() {
  sed -n 's/^ *set i[0-9]* \([0-9]*\) # N$/\1/p' "$(source_of "$1")"
}

# The options of a run that stand in it.
options() {
  sed -n 's/^# words: run//p' "$(source_of "$1")"
}

# Calls a command: seconds elapsed, of the user and of the system, and KiB. Its output is left in `written`.
time_call() {
  local TIMEFORMAT='%3R %3U %3S'
  {
    time /usr/bin/time -o "$room/most" -f %M "$@" >"$room/written" 2>&3 || [ $? -lt 128 ] || echo "$* was stopped" >&3
  } 3>&2 2>"$room/time"
  echo "$(cat "$room/time") $(tail -n 1 "$room/most")"
}

# Calls a command `repeat` times: the least elapsed seconds, the least processor seconds, the most KiB.
measure() {
  local number
  for ((number = 0; number < repeat; number++)); do
    time_call "$@"
  done | awk '
    NR == 1 || $1 < elapsed { elapsed = $1 }
    NR == 1 || $2 + $3 < used { used = $2 + $3 }
    $4 > most { most = $4 }
    END { printf "%.3f %.3f %d\n", elapsed, used, most }'
}

# Measures a run of a text, with further options.
measure_run() {
  local name=$1 file=$2
  shift 2
  # shellcheck disable=SC2046
  measure "$program" run $(options "$name") "$@" "$file"
}

# The tasks, steps and turns of a run.
counts() {
  # shellcheck disable=SC2046
  "$program" run $(options "$1") --report "$2" | sed -n 's/^report tasks \([0-9]*\) steps \([0-9]*\) turns \([0-9]*\)$/\1 \2 \3/p'
}

# The trace of a run, with further options.
trace_of() {
  local name=$1 file=$2
  shift 2
  # shellcheck disable=SC2046
  "$program" run $(options "$name") "$@" --trace "$file" | sed -n '/^trace 2$/,$p' | sed '$d'
}

# A file with a text and the trace of its run by one worker.
record() {
  cat "$2"
  trace_of "$1" "$2"
}

# `used` divided by `count`, times `scale`, to three digits.
each() {
  awk -v used="$1" -v count="$2" -v scale="$3" 'BEGIN {
    each = used * scale / count
    printf each < 1000 ? "%.3g" : "%.0f", each
  }'
}

used() {
  cut -d ' ' -f 2
}

row() {
  local cell
  printf '|'
  for cell in "$@"; do
    printf ' %s |' "$cell"
  done
  echo
}

head_of() {
  local cell
  echo
  row "$@"
  printf '|'
  for cell in "$@"; do
    printf -- '---|'
  done
  echo
}

# A row of a table of costs: of `run`, `replay`, `model` and the peer, each divided by the count.
cost_row() {
  local name=$1 count=$2 scale=$3 file peers=
  file=$(text "$name")
  record "$name" "$file" >"$room/$name.trace"
  [ -z "$peer" ] || peers=$(each "$(measure "$peer" "$file" | used)" "$count" "$scale")
  # shellcheck disable=SC2046
  row "$name" "$count" \
    "$(each "$(measure_run "$name" "$file" | used)" "$count" "$scale")" \
    "$(each "$(measure "$program" replay $(options "$name") "$room/$name.trace" | used)" "$count" "$scale")" \
    "$(each "$(measure "$program" model $(options "$name") "$room/$name.trace" | used)" "$count" "$scale")" \
    "$peers"
}

steps_table() {
  local name
  echo "Private steps by one worker, nanoseconds a step."
  head_of text steps run replay model peer
  for name in arithmetic allocation own_fields reads_own reads_above; do
    cost_row "$name" "$(counts "$name" "$(text "$name")" | cut -d ' ' -f 2)" 1e9
  done
}

entries_table() {
  echo "An entry that prints, by one worker, microseconds an entry."
  head_of text entries run replay model peer
  cost_row prints "$(counts prints "$(text prints)" | cut -d ' ' -f 3)" 1e6
}

workers_table() {
  local name workers file cells
  echo "Runs by workers: seconds elapsed, and of processors."
  head_of text turns "1 worker" 2 4 64
  for name in private_work private_objects fork_tree; do
    file=$(text "$name")
    cells=()
    for workers in 1 2 4 64; do
      cells+=("$(measure "$program" run --fuel 1000000000 --workers "$workers" "$file" | awk '{ print $1 ", " $2 }')")
    done
    row "$name" "$(counts "$name" "$file" | cut -d ' ' -f 3)" "${cells[@]}"
  done
}

turns_table() {
  local lines rounds private
  echo "From one entry to the next by a lock alone, nanoseconds: bench/turns, which has no heaps and no journal."
  head_of lock "rounds outside" "lines written" "1 thread" 2 4
  rustc --edition 2021 -O -o "$room/turns" "$here/turns/turns.rs" || return 1
  for rounds in 400 1200; do
    for lines in 0 3 8; do
      while read -r private; do
        # shellcheck disable=SC2086
        set -- $private
        row "$1" "$rounds" "$lines" "$2" "$3" "$4"
      done < <("$room/turns" "$rounds" "$lines")
    done
  done
}

collections_table() {
  local number with without
  echo "A leaf collection of N survivors of 11 words: a hundredth of what a hundred of them take, and for each survivor."
  head_of N "milliseconds a collection" "nanoseconds a survivor"
  for number in 20000 40000 80000 160000; do
    with=$(measure_run survivors "$(text survivors "$number")" | used)
    text survivors "$number" >/dev/null
    sed -i 's/set i2 595800/set i2 0/' "$room/survivors.hh"
    without=$(measure_run survivors "$room/survivors.hh" | used)
    row "$number" "$(awk -v a="$with" -v b="$without" 'BEGIN { printf "%.3g", (a - b) * 10 }')" \
      "$(awk -v a="$with" -v b="$without" -v n="$number" 'BEGIN { printf "%.3g", (a - b) * 1e7 / n }')"
  done
}

# Rows for N, twice and four times as much: seconds of processors and memory.
growth_row() {
  local name=$1 number cells=() times
  for times in 1 2 4; do
    number=$(($(number_in "$name") * times))
    cells+=("$(measure_run "$name" "$(text "$name" "$number")" | awk '{ printf "%s s, %.1f MiB", $2, $3 / 1024 }')")
  done
  row "$name" "$(number_in "$name")" "${cells[@]}"
}

forks_table() {
  local name
  echo "Forks: of N, twice and four times as many; beside heaps of N, twice and four times as many objects."
  head_of text N "of N" "of 2 N" "of 4 N"
  for name in forks_that_leave forks_beside_heap forks_beside_table; do
    growth_row "$name"
  done
}

reports_table() {
  local name file
  echo "A run with its report."
  head_of text run "run --report"
  for name in arithmetic prints join_loop fork_tree; do
    file=$(text "$name")
    row "$name" "$(measure_run "$name" "$file" | awk '{ printf "%s s, %.1f MiB", $2, $3 / 1024 }')" \
      "$(measure_run "$name" "$file" --report | awk '{ printf "%s s, %.1f MiB", $2, $3 / 1024 }')"
  done
}

tasks_table() {
  local name few many
  echo "What a task costs that has joined: bytes of the greatest resident size, from twice as many tasks."
  head_of text N "MiB of N" "MiB of 2 N" "bytes a task"
  for name in join_loop parallel_loop; do
    few=$(measure_run "$name" "$(text "$name")" | cut -d ' ' -f 3)
    many=$(measure_run "$name" "$(text "$name" $((2 * $(number_in "$name"))))" | cut -d ' ' -f 3)
    row "$name" "$(number_in "$name")" "$(awk -v k="$few" 'BEGIN { printf "%.1f", k / 1024 }')" \
      "$(awk -v k="$many" 'BEGIN { printf "%.1f", k / 1024 }')" \
      "$(awk -v a="$few" -v b="$many" -v n="$(number_in "$name")" 'BEGIN { printf "%.0f", (b - a) * 1024 / (2 * n) }')"
  done
}

# A call that the table of programs compares: the peer, a replay, or a run by that number of workers. Its caller has set
# `file` and `words`, the options.
time_program() {
  case $1 in
    peer) time_call "$peer" "$file" ;;
    replay) time_call "$program" replay "${words[@]}" "$room/program.trace" ;;
    *) time_call "$program" run "${words[@]}" --workers "$1" "$file" ;;
  esac
}

# Makes each call once in each turn, and compares what it writes with the answer: for each call the least elapsed
# seconds, the least processor seconds, the most KiB.
time_in_turns() {
  local answer=$1 number call
  shift
  for ((number = 0; number < repeat; number++)); do
    for call; do
      printf '%s ' "$call"
      time_program "$call"
      [ "$(sed '$d' "$room/written" | tr '\n' ' ')" = "$answer " ] ||
        echo "$name: $call writes another answer" | tee -a "$room/wrong" >&2
    done
  done | awk '
    !($1 in most) { order[++calls] = $1; elapsed[$1] = $2; used[$1] = $3 + $4 }
    $2 < elapsed[$1] { elapsed[$1] = $2 }
    $3 + $4 < used[$1] { used[$1] = $3 + $4 }
    $5 > most[$1] { most[$1] = $5 }
    END {
      for (call = 1; call <= calls; call++)
        print order[call], elapsed[order[call]], used[order[call]], most[order[call]]
    }'
}

# The row of a program, from what `time_in_turns` prints; and a line with its ratios for the means.
program_row() {
  awk -v name="$1" -v size="$2" -v tasks="$3" -v turns="$4" -v ratios="$room/ratios" '
    { elapsed[$1] = $2; used[$1] = $3; most[$1] = $4 }
    function ratio(a, b) { return b > 0 && a > 0 ? sprintf("%.2f", a / b) : "" }
    END {
      peers = ("peer" in used) ? sprintf("%.3f", used["peer"]) : ""
      cell[1] = ratio(used[1], used["peer"]); cell[2] = ratio(elapsed[1], elapsed[2])
      cell[3] = ratio(elapsed[1], elapsed[4]); cell[4] = ratio(used["replay"], used["peer"])
      printf "| %s | %d | %d | %d | %s | %.3f | %s ", name, size, tasks, turns, peers, used[1], cell[1]
      printf "| %.3f | %s | %.3f | %s ", elapsed[2], cell[2], elapsed[4], cell[3]
      printf "| %.3f | %s | %.1f | %.1f |\n", used["replay"], cell[4], most[1] / 1024, most[4] / 1024
      print cell[1] "," cell[2] "," cell[3] "," cell[4] >> ratios
    }'
}

# The geometric means of the ratios of all programs.
means_row() {
  awk -F , '
    { for (cell = 1; cell <= 4; cell++) if ($cell > 0) { sum[cell] += log($cell); count[cell]++ } }
    function mean(cell) { return count[cell] ? sprintf("%.2f", exp(sum[cell] / count[cell])) : "" }
    END {
      printf "| geometric mean | | | | | | %s | | %s | | %s | | %s | | |\n", mean(1), mean(2), mean(3), mean(4)
    }' "$room/ratios"
}

# The load of the machine, if it can be read.
load() {
  [ ! -r /proc/loadavg ] || echo "Load of the last minute $1: $(cut -d ' ' -f 1 /proc/loadavg), on $(nproc) processors."
}

# The answers are those of the programs in plain Rust, if rustc is there.
check_answers() {
  local stored=$here/programs/answers.txt
  command -v rustc >/dev/null || return
  rustc --edition 2021 -O -o "$room/answers" "$here/programs/answers.rs" &&
    "$room/answers" "$stored" | cmp -s - "$stored" ||
    echo "programs/answers.txt isn't what programs/answers.rs writes" | tee -a "$room/wrong" >&2
}

programs_table() {
  local name size answer file words calls
  echo "Real programs. Seconds of processors of the peer, of a run by one worker and of a replay; elapsed seconds by two"
  echo "and four workers, and how many times as fast they are as one; memory of the runs by one and by four."
  load before
  head_of program N tasks turns peer "1 worker" "times the peer" "2 workers" gain "4 workers" gain \
    replay "times the peer" "MiB by 1" "MiB by 4"
  : >"$room/ratios"
  check_answers
  calls=(1 2 4 replay)
  [ -z "$peer" ] || calls=(peer "${calls[@]}")
  while read -r name size answer; do
    file=$(text "$name" "$size")
    read -ra words <<<"$(options "$name")"
    record "$name" "$file" >"$room/program.trace"
    # shellcheck disable=SC2046
    set -- $(counts "$name" "$file")
    time_in_turns "$answer" "${calls[@]}" | program_row "$name" "$size" "$1" "$3"
  done < <(sizes)
  means_row
  load after
  [ ! -s "$room/wrong" ]
}

# How many tasks were taken by another worker than the one that put them, in a trace: the first task is put by worker 0,
# a fork's two tasks by the worker that forked, and a parent by the worker that ended its second child.
thefts() {
  awk '
    { at++ }
    $2 == "took" {
      takes++
      taken[takes] = $3
      taker[takes] = $1
      if ($3 in last) { fork_of[takes] = last[$3]; forks[last[$3]] }
    }
    $2 == "ran" { last[$3] = at; by[at] = $1 }
    END {
      for (entry = 1; entry <= at; entry++)
        if (entry in forks) { right[entry] = 2 * ++count; maker[2 * count - 1] = maker[2 * count] = by[entry] }
      maker[0] = 0
      for (take = 1; take <= takes; take++) {
        putter = maker[taken[take]]
        if (take in fork_of) {
          child = right[fork_of[take]]
          putter = by[last[child] > last[child - 1] ? last[child] : last[child - 1]]
        }
        stolen += putter != taker[take]
      }
      print stolen + 0
    }'
}

# A row of tasks with n private steps.
grain_row() {
  local steps=$1 name=$2 file=$3 workers gain cells=() least=()
  for workers in 1 2 4; do
    least+=("$(measure_run "$name" "$file" --workers "$workers" | cut -d ' ' -f 1)")
  done
  for workers in 2 4; do
    cells+=("$(trace_of "$name" "$file" --workers "$workers" | thefts)")
  done
  gain=$(awk -v a="${least[0]}" -v b="${least[2]}" 'BEGIN { if (b > 0) printf "%.2f", a / b }')
  row "$steps" "${least[@]}" "$gain" "${cells[@]}"
}

# The place of a text of small tasks; the tree has 6 levels, instead of 14, if it is only tried.
grain_text() {
  local file
  file=$(text "$@")
  [ -z "$smoke" ] || sed -i 's/^  set i0 14$/  set i0 6/' "$file"
  printf '%s' "$file"
}

grains_table() {
  echo "Small tasks: a tree of 32,767 tasks, whose 16,384 leaves have that many private steps. Elapsed seconds, how many"
  echo "times as fast four workers are as one, and how many tasks another worker took than the one that put them."
  load before
  head_of "private steps" "1 worker" "2 workers" "4 workers" "gain by 4" "thefts by 2" "thefts by 4"
  grain_row 1 bare_tasks "$(grain_text bare_tasks)"
  grain_row 10 small_tasks "$(grain_text small_tasks 2)"
  grain_row 100 small_tasks "$(grain_text small_tasks 32)"
  grain_row 1000 small_tasks "$(grain_text small_tasks 332)"
  load after
}

# The instructions that a command takes.
instructions() {
  valgrind --tool=callgrind --callgrind-out-file=/dev/null "$@" 2>&1 >/dev/null |
    sed -n 's/^==[0-9]*== Collected : \([0-9]*\)$/\1/p'
}

# Instructions of a run and of the peer, as the difference of two lengths, for each of N.
instructions_row() {
  local name=$1 few=$2 many=$3 number mine=() peers=()
  for number in "$few" "$many"; do
    # shellcheck disable=SC2046
    mine+=("$(instructions "$program" run $(options "$name") "$(text "$name" "$number")")")
    [ -z "$peer" ] || peers+=("$(instructions "$peer" "$room/$name.hh")")
  done
  row "$name" "$few, $many" "$(each "$((mine[1] - mine[0]))" "$((many - few))" 1)" \
    "${peer:+$(each "$((peers[1] - peers[0]))" "$((many - few))" 1)}"
}

has_valgrind() {
  command -v valgrind >/dev/null || { echo "Instructions are left out: valgrind isn't there." && return 1; }
}

instructions_table() {
  local name
  has_valgrind || return 0
  echo "Instructions for each of N, as the difference of two lengths."
  head_of text N run peer
  for name in arithmetic allocation own_fields prints; do
    instructions_row "$name" 2000 12000
  done
  for name in join_loop parallel_loop; do
    instructions_row "$name" 4000 8000
  done
}

# The programs of the table `programs`: a line with the name, N and the answer of each.
sizes() {
  # (of the two answers of a program the first is of its small size, the second of the size in its text)
  awk -v small="${smoke:-0}" 'NR % 2 == small' "$here/programs/answers.txt"
}

program_instructions_table() {
  local name size answer mine peers
  has_valgrind || return 0
  echo "Instructions of the real programs, in millions, by one worker."
  head_of program N run peer "times the peer"
  # shellcheck disable=SC2034
  while read -r name size answer; do
    # shellcheck disable=SC2046
    mine=$(instructions "$program" run $(options "$name") "$(text "$name" "$size")")
    peers=
    [ -z "$peer" ] || peers=$(instructions "$peer" "$room/$name.hh")
    row "$name" "$size" "$(each "$mine" 1000000 1)" "${peers:+$(each "$peers" 1000000 1)}" \
      "${peers:+$(each "$mine" "$peers" 1)}"
  done < <(sizes)
}

growth_table() {
  local name
  echo "Growth: N, twice and four times as many."
  head_of text N "of N" "of 2 N" "of 4 N"
  for name in join_loop parallel_loop chunks objects remembered_fields kept_references frames prints; do
    growth_row "$name"
  done
}

[ $# -gt 0 ] || set -- steps entries workers turns collections forks reports tasks growth programs grains \
  instructions program_instructions
for table in "$@"; do
  "${table}_table" || exit 1
  echo
done
