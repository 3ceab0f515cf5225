# Installs the programs with their scripts, manual pages, completions, examples and pages.

# Writes the output of a function to a file.
make_file() {
  mkdir -p "${1%/*}" && "$2" >"$1"
}

# Installs one program with its files; `find` finds it.
install_program() {
  local prefix=$2 share=$2/share/hheap state=proved
  crate=$1
  called=./$1
  "$find"
  [[ ${program##*/} != tried-* ]] || state=unproved
  mkdir -p "$prefix/libexec/hheap" "$prefix/bin" && cp "$program" "$prefix/libexec/hheap/$crate.new" &&
    mv -f "$prefix/libexec/hheap/$crate.new" "$prefix/libexec/hheap/$crate" &&
    cp "$top/$crate" "$share/$crate" && ln -sfn "../share/hheap/$crate" "$prefix/bin/$crate" &&
    printf '%s: %s\n' "$crate" "$state" >>"$share/installed" &&
    make_file "$prefix/share/man/man1/$crate.1" manual &&
    make_file "$prefix/share/bash-completion/completions/$crate" bash_completion &&
    make_file "$prefix/share/zsh/site-functions/_$crate" zsh_completion
}

install_programs() {
  local name
  for name in "${programs[@]}"; do
    install_program "$name" "$1" || return
  done
}

# The command: `install PREFIX`.
install() {
  local prefix share
  read_words install "$@"
  [ -z "$fault" ] || refuse_words "$fault"
  if is_installed; then
    say "this is installed already: ./hheap install works in a copy of the repository"
    exit 1
  fi
  mkdir -p -- "${operands[0]}" 2>/dev/null && prefix=$(cd -- "${operands[0]}" && pwd) && share=$prefix/share/hheap &&
    mkdir -p "$share" 2>/dev/null && rm -rf "$share/scripts" "$share/examples" "$share/docs" &&
    cp -r "$top/scripts" "$top/examples" "$top/docs" "$top/README.md" "$share" &&
    printf 'commit: %s\nkit: %s\n' "$(commit_of)" "$(kit_line)" >"$share/installed" &&
    install_programs "$prefix" && write "installed below $prefix: ${programs[*]/#/bin/} libexec/hheap
share/hheap (with examples and docs) share/man/man1 share/bash-completion/completions share/zsh/site-functions" && exit 0
  say "not installed below ${operands[0]}"
  exit 1
}
