# What the scripts share: messages and output, a temporary folder, and processes that end with the script.

# The folder, if there is one; the running process, or its process group as a negative number; what is said when a
# signal ends it.
room=
job=
parting=

say() {
  printf '%s: %s\n' "$crate" "$*" >&2
}

# Ends the script if standard output doesn't take all.
fail_write() {
  say "standard output can't be written, or the output is truncated"
  exit 9
}

# Writes a text and the end of its line.
write() {
  printf '%s\n' "$1" 2>/dev/null || fail_write
}

# Writes a file.
write_file() {
  cat -- "$1" 2>/dev/null || fail_write
}

# One byte more than the program reads.
limit=16777217

# Copies a file (standard input if it is -) to another, as far as the program would read it.
copy_input() {
  if [ "$1" = - ]; then
    head -c "$limit"
  else
    head -c "$limit" <"$1"
  fi >"$2" 2>/dev/null || fail_read "$1"
}

fail_read() {
  local name=$1
  [ "$name" != - ] || name="standard input"
  say "$name can't be read"
  exit 8
}

# Makes the folder.
make_room() {
  if ! room=$(mktemp -d "${TMPDIR:-/tmp}/hheap-$1-XXXXXX"); then
    say "can't make a temporary folder"
    exit 1
  fi
}

leave_room() {
  [ -z "$room" ] || rm -rf "$room"
  room=
}

need_kit() {
  if ! command -v rt >/dev/null; then
    say "the kit's command rt isn't on the path, so nothing can be proved or built"
    exit 1
  fi
}

# Ends the running process, and the script with this status.
stop() {
  trap '' HUP INT TERM
  if [ -n "$job" ]; then
    kill -TERM -- "$job"
    wait "${job#-}"
  fi 2>/dev/null
  [ -z "$parting" ] || say "$parting"
  exit "$1"
}

# Waits for the running process, and returns its status.
wait_job() {
  local status
  wait "${job#-}"
  status=$?
  job=
  return "$status"
}

# Runs a command in a process group of its own.
run_apart() {
  set -m
  "$@" &
  job=-$!
  set +m
  wait_job
}

# Runs a command on standard input below the script. (One in the foreground wouldn't end with the script.)
run_below() {
  "$@" <&0 &
  job=$!
  wait_job
}

# out/ at the top has what was built. One call at a time proves, and one builds unproved.
lock_out() {
  if ! mkdir -p "$top/out" 2>/dev/null || ! { : >>"$top/out/lock$1"; } 2>/dev/null; then
    say "can't write to $top/out, where built programs are kept"
    exit 1
  fi
  exec 9>>"$top/out/lock$1"
  if ! flock -n 9; then
    say "another call is building the program: waiting for it"
    flock 9
  fi
}

# Puts a program there under its name, and removes those of its kind that are older than a day.
put_program() {
  local kind=${program##*/}
  cp "$1" "$program.new" && mv -f "$program.new" "$program" || exit 1
  find "$top/out" -maxdepth 1 -name "${kind%-*}-*" -mmin +1440 ! -path "$program*" -delete
}

trap leave_room EXIT
trap 'stop 129' HUP
trap 'stop 130' INT
trap 'stop 143' TERM
