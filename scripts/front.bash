# What ./hheap, ./hhview and ./hhlog do. They have set `top`, the folder in which they are, and `crate`, the program's name.

for part in apart table words help hints find prove try calls manual completion install; do
  . "$top/scripts/$part.bash"
done

# How the script is called, what finds the program, and whether it adds nothing to the program's output.
called=./$crate
find=find_any
quiet=

# Whether a word before `--` asks for help.
asks_for_help() {
  local word
  for word; do
    case $word in
      --) return 1 ;;
      -h | --help) return 0 ;;
    esac
  done
  return 1
}

# Reads the switches before the command: sets how the program is found, and `taken` to their number.
read_switches() {
  local word
  taken=0
  [ "${HHEAP_PROVED-}" != 1 ] || find=find_proved
  for word; do
    case $word in
      --proved) find=find_proved ;;
      --quiet) quiet=1 ;;
      try) find=find_tried ;;
      *) return ;;
    esac
    taken=$((taken + 1))
  done
}

# Refuses a word before the command that isn't a switch.
refuse_switch() {
  local near
  near=$(nearest "$1" "${switches[@]/#/--}" --help)
  fault="$1 is no option before the command; ${near:+the nearest is $near, and }$called help shows them"
  refuse_call "$@"
}

front() {
  local taken
  ! is_installed || called=$crate
  read_table
  read_switches "$@"
  shift "$taken"
  case ${1-} in
    '' | help | --help | -h) show_help "${@:2}" ;;
    --version | -V) show version && exit 0 ;;
    -*) refuse_switch "$@" ;;
  esac
  if has_command "$crate" "$1" && asks_for_help "${@:2}"; then
    show_help "$1"
  fi
  case $crate-$1 in
    hheap-record | *-again | hheap-example | hheap-install | *-prove) "$1" "${@:2}" ;;
    *) answer "$@" ;;
  esac
}
