# Calls of the program, and the scripts' own commands `record`, `again`, `example`.

# A copy of standard input, if one was made.
kept_input=

# Refuses invalid arguments by the program or, if it isn't built yet, as it would, and says what is wrong.
refuse_call() {
  local status=2
  if is_there; then
    "$program" "$@" </dev/null
    status=$?
  elif [ "${stream_of[$crate]}" = out ]; then
    write 'end: words refused'
  else
    echo 'end: words refused' >&2
  fi
  is_quiet || [ "$status" != 2 ] || say "$fault"
  exit "$status"
}

# Keeps standard input, if the program reads it and it can't be read again.
keep_input() {
  [[ ${operands_of[$crate $1]} = *FILE* && (${#operands[@]} = 0 || ${operands[0]} = -) && ! -f /dev/stdin ]] || return
  make_room call
  copy_input - "$room/input"
  kept_input=$room/input
}

# Runs the program with arguments that were read: in place of the script, if nothing is to be said after it.
run_program() {
  local status command=$1
  if ! wants_hints && ! shows_faults "$command"; then
    leave_room
    exec "$program" "${passed[@]}"
  fi
  if keep_input "$command"; then
    run_below "$program" "${passed[@]}" <"$kept_input"
  else
    run_below "$program" "${passed[@]}"
  fi
  status=$?
  explain "$status" "$command"
  exit "$status"
}

# Answers a command of the program.
answer() {
  if ! has_command "$crate" "$1"; then
    fault_of_command "$1"
  else
    read_words "$@"
  fi
  [ -z "$fault" ] || refuse_call "$@"
  "$find"
  run_program "$1"
}

# Writes a trace file: the program, a comment with the options, and the trace of a run.
record() {
  local status
  read_words record "$@"
  [ -z "$fault" ] || refuse_words "$fault"
  "$find"
  make_room record
  copy_input "${operands[0]}" "$room/text"
  run_below "$program" run --trace "${settings[@]}" <"$room/text" >"$room/written"
  status=$?
  case $status in
    0 | 4 | 5 | 6 | 7)
      trace_file >"$room/trace" 2>/dev/null || fail_room
      write_file "$room/trace"
      [ "$status" = 0 ] || is_quiet || say "the recorded run ended with: $(tail -n 1 "$room/written")"
      ;;
    9) fail_room ;;
    *)
      tail -n 1 "$room/written" >&2
      kept_input=$room/text operands=()
      explain "$status" record
      ;;
  esac
  exit "$status"
}

fail_room() {
  say "no space for the run's trace among the temporary files"
  exit 9
}

trace_file() {
  cat "$room/text" || return
  [ -z "$(tail -c 1 "$room/text")" ] || echo || return
  printf '# options:%s\n' "${settings[*]:+ ${settings[*]}}" || return
  sed -n '/^trace 2$/,$p' "$room/written" | sed '$d'
}

# The options in a trace file, on the last such line before the trace.
options_in() {
  sed '/^[[:blank:]]*trace[[:blank:]]/,$d' <"$1" | sed -n 's/^# options://p' | tail -n 1
}

# The commands that take a trace file again, in the order of the table, and a command that takes just the options of a
# recorded run.
read_commands_of_traces() {
  case $crate in
    hheap) commands=(replay model races image) limited=record ;;
    hhview) commands=(page timeline tasks schedules races log) limited=timeline ;;
  esac
}

# Gives a command a trace file with the options in it.
again() {
  local command=${1-} file options given limited names
  local -a commands
  read_commands_of_traces
  if [[ -z $command || " ${commands[*]} " != *" $command "* ]]; then
    printf -v names '%s, ' "${commands[@]::${#commands[@]}-1}"
    refuse_words "again takes ${names%, } or ${commands[-1]}, and the FILE of a trace that ./hheap record wrote"
  fi
  shift
  read_words "$command" "$@"
  [[ -n $fault || ${#operands[@]} = 1 ]] || find_fault "again $command takes the FILE of a trace that ./hheap record wrote"
  [ -z "$fault" ] || refuse_words "$fault"
  file=${operands[0]}
  given=("${settings[@]}")
  make_room again
  copy_input "$file" "$room/trace"
  read -ra options <<<"$(options_in "$room/trace")"
  read_words "$limited" "${options[@]}" -- "$file"
  [ -z "$fault" ] || refuse_words "the line # options: of $file has other words than options: $fault"
  read_words "$command" "${options[@]}" "${given[@]}" -- "$file"
  [ -z "$fault" ] || refuse_words "$fault ($file has ${options[*]} on its line # options:)"
  "$find"
  kept_input=$room/trace operands=() passed=("$command" "${settings[@]}")
  # (the program reads a copy, so a page gets its file's name here)
  [[ $command != page || " ${settings[*]} " = *' --title '* || $file = - ]] || passed+=(--title "${file##*/}")
  run_below "$program" "${passed[@]}" <"$room/trace"
  status=$?
  explain "$status" "$command"
  exit "$status"
}

# The files of the examples.
example_files() {
  find "$top/examples/" -maxdepth 1 \( -name '*.hh' -o -name '*.trace' -o -name '*.image' \) | LC_ALL=C sort
}

# Lists the examples, each with its first sentence.
list_examples() {
  local file about
  while IFS= read -r file; do
    about=$(sed -n '1,/^# words:/s/^# //p' "$file" | tr '\n' ' ')
    file=${file##*/}
    printf '%-18s %s\n' "${file%.*}" "${about%%[.:] *}"
  done < <(example_files)
}

# Lists the examples; or shows one, runs it and shows what it writes.
example() {
  local file name words
  if [ $# = 0 ]; then
    show list_examples
    exit 0
  fi
  [ $# = 1 ] || refuse_words "example takes one NAME, and '$2' is a word too many"
  file=$(example_files | while IFS= read -r it; do
    name=${it##*/}
    [ "${name%.*}" != "$1" ] || printf '%s' "$it"
  done)
  [ -n "$file" ] || refuse_example "$1"
  words=$(sed -n 's/^# words: //p' "$file")
  "$find"
  write_file "$file"
  write "
\$ $called $words < examples/${file##*/}"
  read -ra words <<<"$words"
  read_words "${words[@]}"
  run_program "${words[0]}" <"$file"
}

refuse_example() {
  local names near
  mapfile -t names < <(example_files | sed 's|.*/||; s|\.[a-z]*$||')
  near=$(nearest "$1" "${names[@]}")
  refuse_words "there is no example '$1'; ${near:+the nearest is $near, and }$called example lists them"
}
