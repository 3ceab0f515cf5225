# A manual page, by the table of commands and options.

# A text escaped for roff: hyphens, backslashes, and a dot or a quote that begins a line.
roff() {
  sed -e 's/\\/\\e/g' -e 's/-/\\-/g' -e "s/^[.']/\\\\\&&/"
}

# A paragraph with a tag.
tagged() {
  printf '.TP\n.B %s\n' "$(roff <<<"$1")"
  roff <<<"$2"
}

manual_commands() {
  local name
  for name in ${commands_of[$crate]}; do
    tagged "$(form_of "$name")" "${does_of[$crate $name]}."
  done
}

manual_options() {
  local name range
  while IFS= read -r name; do
    range=
    if [ -n "${least_of[$name]}" ]; then
      range=" (${least_of[$name]} to ${most_of[$name]}${default_of[$name]:+; by default ${default_of[$name]}})"
    fi
    tagged "--$name${value_of[$name]:+ ${value_of[$name]}}" "${about_option[$name]}$range; for $(commands_with "$crate" "$name")."
  done < <(all_options)
  for name in "${switches[@]}"; do
    tagged "--$name" "${about_switch[$name]}; stands before the command."
  done
}

manual_rest() {
  local number text name line
  printf '.SH EXIT STATUS\n'
  while read -r number text; do
    tagged "$number" "$text."
  done < <(printf '%s' "${statuses_of[$crate]}")
  printf '.SH ENVIRONMENT\n'
  for name in "${variables[@]}"; do
    tagged "$name" "${about_variable[$name]}."
  done
  printf '.SH EXAMPLES\n.nf\n'
  for name in ${commands_of[$crate]}; do
    while IFS= read -r line; do
      [ -z "$line" ] || printf '%s %s\n' "$crate" "$line" | roff
    done <<<"${samples_of[$crate $name]-}"
  done
  printf '.fi\n.SH SEE ALSO\n'
  for name in "${programs[@]}"; do
    [ "$name" = "$crate" ] || printf '.BR %s (1)\n' "$name"
  done
}

manual() {
  printf '.TH %s 1\n.SH NAME\n' "${crate^^}"
  printf '%s \\- %s\n' "$crate" "$(roff <<<"${about_program[$crate]}")"
  printf '.SH SYNOPSIS\n.B %s\n[\\fB\\-\\-proved\\fR] [\\fB\\-\\-quiet\\fR] \\fICOMMAND\\fR ..\n' "$crate"
  printf '.SH DESCRIPTION\n'
  if [ "$crate" = hhlog ]; then
    roff <<<'A log is one file or several, each a text of lines.'
  else
    roff <<<'Without FILE, or if it is -, standard input is read. A number is written in decimal digits.'
  fi
  printf '.SH COMMANDS\n'
  manual_commands
  printf '.SH OPTIONS\n'
  manual_options
  manual_rest
}
