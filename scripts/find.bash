# Which program answers: the proved one if it is there, else the unproved build.

# Whether these scripts were installed, so that there are no sources.
is_installed() {
  [ -f "$top/installed" ]
}

# What was noted when they were installed: the commit, the kit, and whether this program is proved.
installed_lines() {
  sed -n "s/^commit: //p; s/^kit: //p; s/^$crate: //p" "$top/installed"
}

is_installed_proved() {
  [ "$(installed_lines | tail -n 1)" = proved ]
}

# Sets `program` to the path of the proved program, and `tried` to that of the unproved one.
place_program() {
  local sum
  if is_installed; then
    program=$top/../../libexec/hheap/$crate
    tried=$program
    return
  fi
  need_crates
  sum=$(sum_of "$top")
  program=$top/out/$crate-$sum
  tried=$top/out/tried-$crate-$sum
}

say_unproved() {
  if is_installed; then
    say "answered by an unproved build"
  else
    say "answered by the unproved build; $called prove proves it, $(proof_time)"
  fi
}

# Sets `program` to the unproved build, which is made if it isn't there.
use_tried() {
  program=$tried
  [ -x "$program" ] || build_unproved
  say_unproved
}

# Each of these sets `program` to the program that answers.

find_proved() {
  place_program
  if is_installed && ! is_installed_proved; then
    say "the program installed here isn't proved; in a copy of the repository, ./hheap --proved install proves it first"
    exit 1
  fi
  [ -x "$program" ] || prove_program
}

find_tried() {
  if is_installed; then
    find_any
  else
    place_program
    use_tried
  fi
}

find_any() {
  place_program
  if is_installed; then
    is_installed_proved || say_unproved
  elif [ ! -x "$program" ]; then
    use_tried
  fi
}

# Whether the program that `find` would find is there already: then `program` is set to it.
is_there() {
  place_program
  if [[ $find = find_tried || ($find = find_any && ! -x $program) ]]; then
    program=$tried
  fi
  [ -x "$program" ]
}
