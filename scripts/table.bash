# The table of commands and options, read.

# By program and command, as "hheap run": operands, options, what it does, samples (a line each), whether it is the
# script's own; and the commands of each program, in the order of the table.
declare -A operands_of=() options_of=() does_of=() samples_of=() is_own=()
declare -A commands_of=()
# By option: its value's name, range, default, what it is. By operand: its range, what it is.
declare -A value_of=() least_of=() most_of=() default_of=() about_option=() about_operand=()
# By program: a command that reads a file, the stream on which it refuses arguments, what it is, its statuses (a line
# each). By switch and by variable what it is; the values.
declare -A reader_of=() stream_of=() about_program=() statuses_of=() about_switch=() about_variable=() text_of=()
programs=()
switches=()
variables=()

add_program() {
  programs+=("$1")
  reader_of[$1]=$2
  stream_of[$1]=$3
  about_program[$1]=$4
}

# Adds a row of a command for the programs that have it.
add_command() {
  local kind=$1 program key
  for program in "${programs[@]}"; do
    [[ $2 = all || $2 = "$program" ]] || continue
    key="$program $3"
    commands_of[$program]+="${commands_of[$program]:+ }$3"
    operands_of[$key]=$4
    options_of[$key]=$5
    does_of[$key]=$6
    [ "$kind" = command ] || is_own[$key]=1
  done
}

add_status() {
  local program
  for program in "${programs[@]}"; do
    [[ $1 != all && $1 != "$program" ]] || statuses_of[$program]+="$2 $3"$'\n'
  done
}

add_option() {
  value_of[$1]=$2
  least_of[$1]=$3
  most_of[$1]=$4
  default_of[$1]=$5
  about_option[$1]=$6
}

add_operand() {
  least_of[$1]=$2
  most_of[$1]=$3
  about_operand[$1]=$4
}

# (a sample may have a `|`, so its row is cut by hand)
add_row() {
  local row=$1 rest
  local -a field
  IFS='|' read -ra field <<<"$row|end"
  case ${field[0]} in
    program) add_program "${field[@]:1:4}" ;;
    command | script) add_command "${field[@]:0:6}" ;;
    operand) add_operand "${field[@]:1:4}" ;;
    option) add_option "${field[@]:1:6}" ;;
    switch) switches+=("${field[1]}") && about_switch[${field[1]}]=${field[2]} ;;
    status) add_status "${field[@]:1:3}" ;;
    variable) variables+=("${field[1]}") && about_variable[${field[1]}]=${field[2]} ;;
    value) text_of[${field[1]}]=${field[2]} ;;
    sample)
      rest=${row#sample|*|*|}
      samples_of[${field[1]} ${field[2]}]+=$rest$'\n'
      ;;
  esac
}

read_table() {
  local row
  while IFS= read -r row; do
    [[ -z $row || $row == '#'* ]] || add_row "$row"
  done <"$top/scripts/words.table"
}

# How long the proof of the program takes.
proof_time() {
  printf '%s' "${text_of[$crate proof]:-${text_of[proof]}}"
}

# Whether this program or its script has this command.
has_command() {
  [ -n "${does_of[$1 $2]+x}" ]
}

# The commands of a program that take this option, as a list.
commands_with() {
  local name list=
  for name in ${commands_of[$1]}; do
    [[ " ${options_of[$1 $name]} " != *" $2 "* ]] || list+="${list:+, }$name"
  done
  printf '%s' "$list"
}

# A command with its operands and a word for its options.
form_of() {
  local options=${options_of[$crate $1]} form="$1 ${operands_of[$crate $1]}"
  form=${form% }
  case $options in
    '') ;;
    *' '*) form+=' OPTIONS' ;;
    *) form+=" [--$options]" ;;
  esac
  printf '%s' "$form"
}
