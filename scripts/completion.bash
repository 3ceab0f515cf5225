# Completions for bash and zsh, by the table of commands and options.
# shellcheck disable=SC2016

# The options of a command, as words.
dashed() {
  local name words=
  for name in ${options_of[$crate $1]}; do
    words+="${words:+ }--$name"
  done
  printf '%s' "$words"
}

# For bash: a command, its options, the names of examples, else files.
bash_completion() {
  local name
  printf '_%s() {\n  local word=$2 command=${COMP_WORDS[1]-}\n' "$crate"
  printf '  if [ "$COMP_CWORD" = 1 ]; then\n    mapfile -t COMPREPLY < <(compgen -W "%s --%s" -- "$word")\n    return\n  fi\n' \
    "${commands_of[$crate]}" "${switches[0]} --${switches[1]} --${switches[2]} --help"
  printf '  case $command in\n'
  for name in ${commands_of[$crate]}; do
    case $name in
      help | try) printf '    %s) mapfile -t COMPREPLY < <(compgen -W "%s" -- "$word") ;;\n' "$name" "${commands_of[$crate]}" ;;
      example) printf '    %s) mapfile -t COMPREPLY < <(compgen -W "$(%s example | cut -d " " -f 1)" -- "$word") ;;\n' "$name" "$crate" ;;
      *) printf '    %s) mapfile -t COMPREPLY < <(compgen -W "%s" -- "$word") ;;\n' "$name" "$(dashed "$name")" ;;
    esac
  done
  printf '  esac\n}\ncomplete -o default -F _%s %s\n' "$crate" "$crate"
}

# A text escaped for a description of zsh, between single quotes: colons and brackets.
zsh_text() {
  sed -e "s/'/'\\\\''/g" -e 's/[]:[]/\\&/g' <<<"$1"
}

zsh_options() {
  local option
  for option in ${options_of[$crate $1]}; do
    printf " '--%s[%s]%s'" "$option" "$(zsh_text "${about_option[$option]}")" "${value_of[$option]:+:${value_of[$option]}:}"
  done
}

zsh_completion() {
  local name
  printf '#compdef %s\n_%s() {\n  local -a commands=(\n' "$crate" "$crate"
  for name in ${commands_of[$crate]}; do
    printf "    '%s:%s'\n" "$name" "$(zsh_text "${does_of[$crate $name]}")"
  done
  printf '  )\n  if (( CURRENT == 2 )); then\n    _describe command commands\n    return\n  fi\n  case $words[2] in\n'
  for name in ${commands_of[$crate]}; do
    case $name in
      help | try) printf '    %s) (( CURRENT == 3 )) && _describe command commands || _files ;;\n' "$name" ;;
      example) printf '    %s) compadd -- $(%s example | cut -d " " -f 1) ;;\n' "$name" "$crate" ;;
      *) printf "    %s) shift words; (( CURRENT-- )); _arguments%s '*:file:_files' ;;\n" "$name" "$(zsh_options "$name")" ;;
    esac
  done
  printf '  esac\n}\n_%s "$@"\n' "$crate"
}
