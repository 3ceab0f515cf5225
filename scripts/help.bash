# Help, by the table of commands and options.

# An option with its value, its range and its default, and what it is.
option_line() {
  local name=$1 range=
  if [ -n "${least_of[$name]}" ]; then
    range="${least_of[$name]} to ${most_of[$name]}${default_of[$name]:+, ${default_of[$name]}}"
  fi
  printf '  %-14s %-24s %s\n' "--$name ${value_of[$name]}" "$range" "${about_option[$name]}"
}

operand_line() {
  printf '  %-14s %-24s %s\n' "$1" "${least_of[$1]} to ${most_of[$1]}" "${about_operand[$1]}"
}

# The lines of the commands of the program, or of those of its script.
command_lines() {
  local own=$1 name
  for name in ${commands_of[$crate]}; do
    [ "${is_own[$crate $name]-}" = "$own" ] || continue
    printf '  %-26s %s\n' "$(form_of "$name")" "${does_of[$crate $name]}"
  done
}

# The options of the program's commands, each once.
all_options() {
  local name option seen=' '
  for name in ${commands_of[$crate]}; do
    for option in ${options_of[$crate $name]}; do
      [[ $seen != *" $option "* ]] || continue
      seen+="$option "
      printf '%s\n' "$option"
    done
  done
}

usage() {
  local name
  printf '%s: %s\n\n' "$crate" "${about_program[$crate]}"
  printf 'usage: %s [--proved] [--quiet] COMMAND ..\n\ncommands:\n' "$called"
  command_lines ''
  printf '\ncommands of the script:\n'
  command_lines 1
  printf '\noptions, each with its range and its default:\n'
  while IFS= read -r name; do
    option_line "$name"
  done < <(all_options)
  printf '\nbefore the command:\n'
  for name in "${switches[@]}"; do
    printf '  %-14s %s\n' "--$name" "${about_switch[$name]}"
  done
  if [ "$crate" = hhlog ]; then
    printf '\n%s help COMMAND explains one command; docs/LOGS.md says what a log is, and how to get one.\n' "$called"
    return
  fi
  printf '\nWithout FILE, or if it is -, standard input is read. %s help COMMAND explains one command;\n' "$called"
  printf 'README.md is the first page, and docs/USAGE.md has all of this with examples.\n'
}

# The usage of one command.
usage_of() {
  local name=$1 word samples
  printf 'usage: %s %s\n\n' "$called" "$(form_of "$name")"
  printf '%s: %s.\n' "$name" "${does_of[$crate $name]}"
  [[ ! ${operands_of[$crate $name]} =~ FILE\]?$ ]] || printf 'FILE may be -, which is standard input.\n'
  for word in ${operands_of[$crate $name]}; do
    [ -z "${about_operand[$word]+x}" ] || operand_line "$word"
  done
  if [ -n "${options_of[$crate $name]}" ]; then
    printf '\noptions, each with its range and its default:\n'
    for word in ${options_of[$crate $name]}; do option_line "$word"; done
  fi
  samples=${samples_of[$crate $name]-}
  [ -z "$samples" ] || { printf '\nfor example:\n' && printf '%s' "$samples" | sed "s|^|  $called |"; }
}

# Writes the whole output of a function, or ends with 9.
show() {
  local text
  text=$("$@") && write "$text"
}

# Answers a call for help, of all or of one command.
show_help() {
  if [ $# -gt 1 ]; then
    refuse_words "help takes one COMMAND, and '$2' is a word too many"
  elif [ $# = 0 ]; then
    show usage
  elif has_command "$crate" "$1"; then
    show usage_of "$1"
  else
    fault_of_command "$1"
    refuse_words "$fault"
  fi
  exit 0
}

# The commit of these sources, and whether they were changed since.
commit_of() {
  local commit
  if ! commit=$(git -C "$top" rev-parse --short=8 HEAD 2>/dev/null); then
    printf 'unknown'
  elif [ -n "$(git -C "$top" status --porcelain 2>/dev/null | head -n 1)" ]; then
    printf '%s, changed since' "$commit"
  else
    printf '%s' "$commit"
  fi
}

kit_line() {
  rt version 2>/dev/null || printf 'unknown: its command rt is not on the path'
}

version() {
  local commit kit state
  state="not proved; $called prove proves it, $(proof_time)"
  if is_installed; then
    { read -r commit && read -r kit && read -r state; } < <(installed_lines)
  else
    commit=$(commit_of)
    place_program
    if [ -x "$program" ]; then
      state=proved
      kit=$(cat "$program.kit" 2>/dev/null)
    fi
    kit=${kit:-$(kit_line)}
  fi
  printf '%s\ncommit: %s\nkit: %s\n%s\n' "$crate" "$commit" "$kit" "$state"
}

# Refuses arguments of the scripts' own commands.
refuse_words() {
  say "$1"
  exit 2
}
