# What is wrong with the arguments of a call, by the table of commands and options.

# Of the arguments that were read last: the operands; the options as they stand; all that the program gets (without `-`,
# which is standard input); and the first fault, if any.
operands=()
settings=()
passed=()
fault=

# The least of three numbers.
least() {
  local number=$1
  [ "$2" -ge "$number" ] || number=$2
  [ "$3" -ge "$number" ] || number=$3
  printf '%s' "$number"
}

# How many letters have to be added, left out, changed or swapped with the next one to turn the first word into the
# second.
distance() {
  local a=$1 b=$2 i j same
  local -A row
  for ((i = 0; i <= ${#a}; i++)); do row[$i,0]=$i; done
  for ((j = 0; j <= ${#b}; j++)); do row[0,$j]=$j; done
  for ((i = 1; i <= ${#a}; i++)); do
    for ((j = 1; j <= ${#b}; j++)); do
      same=1
      [ "${a:i-1:1}" != "${b:j-1:1}" ] || same=0
      row[$i,$j]=$(least $((row[$((i - 1)),$j] + 1)) $((row[$i,$((j - 1))] + 1)) $((row[$((i - 1)),$((j - 1))] + same)))
      if ((i > 1 && j > 1)) && [[ ${a:i-1:1} = "${b:j-2:1}" && ${a:i-2:1} = "${b:j-1:1}" ]]; then
        row[$i,$j]=$(least "${row[$i,$j]}" $((row[$((i - 2)),$((j - 2))] + 1)) 99)
      fi
    done
  done
  printf '%s' "${row[${#a},${#b}]}"
}

# nearest WORD OTHER ..: the other word that is most likely meant, if one is near: the word is a prefix of it, or at
# most two letters are wrong, and fewer than half of its letters.
nearest() {
  local word=${1:0:32} other best='' most=3 far
  shift
  for other; do
    far=1
    [[ ${#word} -ge 2 && $other = "$word"* ]] || far=$(distance "$word" "$other")
    if ((far < most && 2 * far <= ${#other})); then
      best=$other
      most=$far
    fi
  done
  printf '%s' "$best"
}

# Sets the fault, if none was found before.
find_fault() {
  [ -n "$fault" ] || fault=$*
}

# Whether an option takes one number or more.
takes_numbers() {
  [[ ${value_of[$1]} = *.. ]]
}

# Whether an option takes a text.
takes_text() {
  [[ -n ${value_of[$1]} && -z ${least_of[$1]} ]]
}

range_of() {
  printf 'a number from %s to %s' "${least_of[$1]}" "${most_of[$1]}"
}

# Whether a word is a number in the range of this option or operand.
is_in_range() {
  local digits
  [[ $2 =~ ^\+?0*([0-9]{1,10})$ ]] || return
  digits=$((10#${BASH_REMATCH[1]}))
  ((least_of[$1] <= digits && digits <= most_of[$1]))
}

# What is wrong with a word that is no option of a command.
fault_of_option() {
  local command=$1 word=$2 name=${2#--} near others option dashed=()
  others=$(commands_with "$crate" "$name")
  for option in ${options_of[$crate $command]}; do dashed+=("--$option"); done
  near=$(nearest "$word" "${dashed[@]}")
  if [ -n "${about_switch[$name]+x}" ]; then
    find_fault "$word stands before the command: $called $word $command .."
  elif [ -n "$others" ]; then
    find_fault "$word is no option of $command; it goes with $others"
  elif [ -n "$near" ]; then
    find_fault "$word is no option of $command; the nearest is $near"
  else
    find_fault "$word is no option of $command: its options are ${dashed[*]:-none}"
  fi
}

# Reads an option that takes a text, which is the next word.
read_text_option() {
  local name=$1 word=$2
  if [[ $word = *=* ]]; then
    find_fault "--$name and its text are separate words: --$name '${word#*=}'"
  elif [ $# -lt 3 ]; then
    find_fault "--$name takes a text, and none follows"
  else
    taken=2
  fi
}

# Reads an option that takes one number or more, which are the next words: numbers as they are in a log.
read_numbers_option() {
  local name=$1
  shift 2
  while [[ ${1-} =~ ^(0|[1-9][0-9]{0,17})$ ]]; do
    taken=$((taken + 1))
    shift
  done
  [ "$taken" != 1 ] || find_fault "--$name takes numbers below 10^18, each a word, and none follows"
}

# Reads an option; `set_before` has those before it. From the third argument on stand the next words, which may be its
# numbers; `taken` is set to how many words it takes.
read_option() {
  local command=$1 word=$2 name=${2#--} number
  name=${name%%=*}
  taken=1
  if [[ " ${options_of[$crate $command]} " != *" $name "* ]]; then
    fault_of_option "$command" "${word%%=*}"
    return
  fi
  [ -z "${set_before[$name]+x}" ] || find_fault "--$name is given twice"
  set_before[$name]=1
  if [ -z "${value_of[$name]}" ]; then
    [ "$word" = "--$name" ] || find_fault "--$name takes no value, and '${word#*=}' is one"
    return
  fi
  if takes_numbers "$name"; then
    read_numbers_option "$name" "${@:2}"
    return
  fi
  if takes_text "$name"; then
    read_text_option "$name" "${@:2}"
    return
  fi
  if [[ $word == *=* ]]; then
    number=${word#*=}
  elif [[ $# -lt 3 || $3 = --* ]]; then
    find_fault "--$name takes $(range_of "$name"), and none follows"
    return
  else
    number=$3
    taken=2
  fi
  is_in_range "$name" "$number" || find_fault "--$name takes $(range_of "$name"), and '$number' is none"
}

# Of a command that takes one file or more: none is standard input, and they stand side by side.
check_files() {
  local word
  local -a words=()
  for word in "${passed[@]}"; do
    [ "$word" = -- ] || words+=("$word")
  done
  passed=("${words[@]}")
  [[ " ${operands[*]} " != *' - '* ]] || find_fault "$1 reads files, and - is standard input"
  [[ " ${passed[*]} " = *" ${operands[*]} "* ]] || find_fault "the files stand side by side, and options before or behind them"
}

# Says which operand is wrong, missing or extra.
check_operands() {
  local command=$1 place=0 name
  local -a names
  read -ra names <<<"${operands_of[$crate $command]}"
  for name in "${names[@]}"; do
    if [ "$place" -ge "${#operands[@]}" ]; then
      [[ $name = \[* ]] || find_fault "$command takes ${names[*]}, and $name is missing"
    elif [ -n "${about_operand[$name]+x}" ]; then
      is_in_range "$name" "${operands[place]}" || find_fault "$name is $(range_of "$name"), and '${operands[place]}' is none"
    fi
    place=$((place + 1))
  done
  if [[ ${name-} = *.. ]]; then
    check_files "$command"
    return
  elif [ "${#operands[@]}" -le "$place" ]; then
    return
  elif [[ ${name-} = *FILE* ]]; then
    find_fault "'${operands[place]}' is a second FILE, and $command takes one"
  else
    find_fault "'${operands[place]}' is a word too many: $command takes ${names[*]:-no operand}"
  fi
}

# Reads the arguments after a command.
read_words() {
  local command=$1 taken word
  local -A set_before=()
  operands=() settings=() passed=("$1") fault=
  shift
  while [ $# -gt 0 ]; do
    word=$1
    taken=1
    case $word in
      --)
        operands+=("${@:2}")
        taken=$#
        ;;
      --*)
        read_option "$command" "$@"
        settings+=("${@:1:taken}")
        ;;
      -?*) find_fault "$word is no option: options begin with --" ;;
      *) operands+=("$word") ;;
    esac
    [ "$word" != - ] && { [[ $word != -- || ${2-} != - ]] && passed+=("${@:1:taken}"); }
    shift "$taken"
  done
  check_operands "$command"
}

# Says that a word is no command, and which one may be meant.
fault_of_command() {
  local near
  # (names of commands are words without blanks)
  # shellcheck disable=SC2086
  near=$(nearest "$1" ${commands_of[$crate]})
  fault="'$1' is no command; ${near:+the nearest is $near, and }$called help lists them all"
}
