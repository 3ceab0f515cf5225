#!/usr/bin/env bash
# keep.bash          prints a checksum of the sources of each program
# keep.bash SUM ..   after the gate: keeps the programs that it proved and built, if their checksums are still these, so
#                    that ./hheap, ./hhview and ./hhlog answer by them
set -u
top=$(dirname "$(dirname "$(realpath "${BASH_SOURCE[0]}")")") || exit 1
crate=hheap
for part in apart table find prove; do
  . "$top/scripts/$part.bash"
done

read_table
for crate in "${programs[@]}"; do
  place_program
  if [ $# = 0 ]; then
    printf '%s\n' "${program##*/}"
  elif [[ " $* " == *" ${program##*/} "* && -x $top/crates/$crate/out/$crate ]]; then
    mkdir -p "$top/out" && rt version >"$program.kit" && put_program "$top/crates/$crate/out/$crate"
  fi
done
