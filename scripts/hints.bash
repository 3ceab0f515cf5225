# What the user can do after a call, by its status, on standard error.

# Whether nothing is added to what the program writes.
is_quiet() {
  [[ -n $quiet || ${HHEAP_HINTS-} = 0 ]]
}

wants_hints() {
  ! is_quiet && [[ ${HHEAP_HINTS-} = 1 || -t 2 ]]
}

# The file that a call reads, if it can be read again.
input_of() {
  if [[ ${#operands[@]} -gt 0 && ${operands[0]} != - ]]; then
    printf '%s' "${operands[0]}"
  elif [ -n "$kept_input" ]; then
    printf '%s' "$kept_input"
  elif [ -f /dev/stdin ]; then
    printf '/dev/stdin'
  fi
}

# The last line of the same call made again, from either stream.
refused_line() {
  local file
  file=$(input_of)
  [ -z "$file" ] || "$program" "$1" "${settings[@]}" -- "$file" 2>&1 | tail -n 1
}

meaning_of() {
  case $1 in
    toolong) echo "the input has more bytes than the command takes" ;;
    notutf8) echo "the line isn't UTF-8" ;;
    word) echo "the first word can't stand there: it isn't an instruction, or is outside a function" ;;
    operand) echo "an operand is missing, extra, of the wrong kind, or out of range" ;;
    noend) echo "a function has no line \`end\` before the next function or the end of the text" ;;
    twonames) echo "two functions, or two labels in one function, have the same name" ;;
    noname) echo "no function has the name that is called" ;;
    nolabel) echo "this function has no such label" ;;
    nomain) echo "there is no function \`main\`" ;;
    toomany) echo "there are more than 1,024 functions or 65,536 instructions" ;;
    line) echo "the line isn't of the form of an image line, or is out of place" ;;
    twice) echo "an object of this birth is on an earlier line" ;;
    notask) echo "no earlier line has this task" ;;
    nochunk) echo "no line has the chunk of this address" ;;
    place) echo "the object leaves its chunk, or overlaps the one before" ;;
    running) echo "the chunk's owner is running" ;;
    ref) echo "a reference leads to no object" ;;
    cross) echo "a reference leads to a heap that is neither above nor below" ;;
    down) echo "a reference leads down, and no line remembers it" ;;
    field) echo "the remembered field isn't a reference field of an ancestor's object" ;;
    count) echo "the number of objects isn't the number of their lines" ;;
  esac
}

# hint_refused COMMAND PAGE: what the cause of a refusal means, and the page that has all causes.
hint_refused() {
  local line meaning
  line=$(refused_line "$1")
  meaning=$(meaning_of "${line##* }")
  if [[ $line != end:*refused\ line\ * || -z $meaning ]]; then
    meaning="the end line has the first line with a fault, and its cause"
  fi
  say "$meaning (all causes: $2)"
}

# What a status of hhlog means.
hint_of_log() {
  case $1 in
    10) say "out of memory" ;;
    11) say "the log is refused: the end line has the place and the cause (docs/LOGS.md)" ;;
    12) say "no fork or join orders the two accesses of a race, nor a birth and a read or use (docs/LOGS.md)" ;;
    14) say "the log is cut off, and nothing was found in what is left of it" ;;
  esac
}

hint() {
  local status=$1 command=$2
  if [[ $crate = hhlog && $status -ge 10 ]]; then
    hint_of_log "$status"
    return
  fi
  case $status in
    2) say "invalid arguments: $called help shows the commands and their options" ;;
    3) hint_refused "$command" docs/USAGE.md ;;
    13) hint_refused "$command" docs/IMAGES.md ;;
    4) say "a step trapped; the end line has the cause, the task and the line (traps: docs/LANGUAGE.md)" ;;
    5) say "a task read what a concurrent one allocated; \`races\` of a trace file ($called record) reports both lines" ;;
    6) say "the steps have reached the fuel: --fuel N gives more (default 1000000, at most 1000000000)" ;;
    7) say "too few chunks were free: --chunks N gives more (default 4096, at most 65536)" ;;
    8) say "${operands[0]:-standard input} can't be read" ;;
    9) say "standard output can't be written, or the output is truncated" ;;
    10) say "out of memory; fewer --chunks, fewer workers, or a run without --report need less" ;;
    11) say "the trace isn't one of this program under these options: are they those of the run? $called record keeps them" ;;
    12) say "of each field, two accesses are unordered: a join between them orders them (docs/RACES.md)" ;;
  esac
}

# The most lines of faults that are shown.
shown=20

# Sets `viewer` to the program hhview, proved or not, if it is built.
find_viewer() {
  viewer=$(
    crate=hhview
    place_program
    [ -x "$program" ] || program=$tried
    [ ! -x "$program" ] || printf '%s' "$program"
  )
  [ -n "$viewer" ]
}

# Whether some hhview is built. (Whether it is that of these sources is checked when it is needed.)
has_viewer() {
  local file
  ! is_installed || return 0
  for file in "$top"/out/*hhview-*; do
    [ ! -x "$file" ] || return 0
  done
  return 1
}

# Whether the faults of a refused program can be shown after this command.
shows_faults() {
  ! is_quiet && [ "$crate" = hheap ] && has_command hhview faults && has_viewer &&
    case $1 in check | run | replay | model | races | image | record) true ;; *) false ;; esac
}

# The program of a call's input: what stands before the trace, if the command takes one.
program_of() {
  case $1 in
    check | run | record) cat -- "$2" ;;
    *) sed '/^[[:blank:]]*trace\([[:blank:]]\|$\)/,$d' -- "$2" ;;
  esac
}

# Shows the faults of a program, as the second program reports them, on standard error.
show_faults() {
  local text more
  text=$(program_of "$1" "$2" | "$viewer" faults 2>/dev/null)
  [ -n "$text" ] || return
  printf '%s\n' "$text" | head -n "$shown" >&2
  more=$(($(printf '%s\n' "$text" | wc -l) - shown))
  ((more <= 0)) || say "and $more more lines: ./hhview faults FILE shows them all"
}

# Says what the user can do after a call.
explain() {
  local status=$1 command=$2 file
  if [ "$status" = 3 ] && shows_faults "$command" && find_viewer; then
    file=$(input_of)
    [ -z "$file" ] || { show_faults "$command" "$file" && return; }
  fi
  ! wants_hints || hint "$status" "$command"
}
