#!/usr/bin/env bash
# pages.bash HHEAP HHVIEW HHLOG    types the commands of the pages, with three built programs, and compares what they
# write with the pages.
set -u
top=$(dirname "$(dirname "$(realpath "${BASH_SOURCE[0]}")")") || exit 1
if [ ! -x "${1-}" ] || [ ! -x "${2-}" ] || [ ! -x "${3-}" ]; then
  echo "usage: bash scripts/pages.bash HHEAP HHVIEW HHLOG, three built programs" >&2
  exit 1
fi
hheap=$(realpath "$1")
hhview=$(realpath "$2")
hhlog=$(realpath "$3")
. "$top/scripts/room.bash"
copy_top && put_built hheap "$hheap" && put_built hhview "$hhview" && put_built hhlog "$hhlog" || exit 1
# (without Graphviz, `dot` passes its input on)
mkdir "$room/bin" || exit 1
command -v dot >/dev/null || { printf '#!/usr/bin/env bash\ncat\n' >"$room/bin/dot" && chmod +x "$room/bin/dot"; }
use_just awk dot
cd "$room" || exit 1
unset HHEAP_HINTS
: >typed

# typed PAGE STATUS [SAID ..] reads commands, types them in turn as they stand on the page, and compares the last one's
# status, and the whole output with the lines SAID, each of which has to stand on the page; `..` stands for any lines.
# Without SAID the output isn't compared.
typed() {
  local page=$1 status=$2 command
  shift 2
  : >script
  while IFS= read -r command; do
    grep -qxF -e "    $command" <(sed 's/  *# .*//' "$page") || grep -qF -e "\`$command\`" "$page" ||
      fail "$page doesn't say: $command"
    printf '%s\n' "$command" >>script
    printf '%s\n' "$command" >>typed
  done
  bash script >written 2>said </dev/null
  local is=$?
  [ "$is" = "$status" ] || fail "$page: $(tail -n 1 script): status $is, not $status: $(cat said)"
  [ "$#" = 0 ] || compare "$page" written "$@"
}

# compare PAGE FILE LINE ..: the lines of a file are these, `..` standing for any; each stands on the page.
compare() {
  local page=$1 file=$2 line said
  shift 2
  for line; do
    [ "$line" = .. ] || grep -qF -e "$line" "$page" || fail "$page doesn't say that it writes: $line"
  done
  said=$(printf '%s\n' "$@")
  # shellcheck disable=SC2053
  [[ $(cat "$file") == ${said//../*} ]] || fail "$page: $(tail -n 1 script): wrote $(cat "$file")"
}

typed README.md 0 1 'report tasks 3 steps 55 turns 17' .. 'end: done' <<'END'
./hheap run --report examples/board.hh
END
typed README.md 0 <<'END'
./hheap example squares
END
cmp -s <(tail -n 1 written) <(echo 'end: done') || fail "README.md: the example"
typed README.md 0 <<'END'
./hheap record examples/squares.hh > squares.trace
./hhview schedules squares.trace
END
grep -qx 'end: every schedule agrees' written || fail "README.md: its schedules"
typed README.md 5 <<'END'
./hheap run examples/peeked.hh
END
typed README.md 12 <<'END'
./hheap record examples/peeked.hh > peeked.trace; ./hhview races peeked.trace
END
typed README.md 12 <<'END'
./hhlog check examples/squares.log
END

usage=docs/USAGE.md
typed $usage 0 13 23 'report tasks 3 steps 11 turns 10' 'report leaf 0 putoff 0 freed 0' 'report inner 0 freed 0' \
  'report chunks 0 peak 0' 'report held 0 words 0' 'trace 2' '0 took 0' '0 ran 0 2' '0 took 1' '0 ran 1 3' '0 took 2' \
  '0 ran 2 3' '0 took 0' '0 ran 0 1' '0 ran 0 1' '0 ran 0 1' 'end: done' <<'END'
./hheap run --report --trace examples/fork.hh
END
typed $usage 0 13 23 .. 'end: done' <<'END'
./hheap record examples/fork.hh --workers 2 > fork.trace
./hheap again replay fork.trace --report
END
typed $usage 5 'end: entangled reader 2 owner 1' <<'END'
./hheap run examples/peeked.hh
END
typed $usage 12 'race 0 0 ref 0 tasks 1 2 lines 10 15' 'end: races 1' <<'END'
./hheap record examples/peeked.hh > peeked.trace
./hheap again races peeked.trace
END
typed $usage 0 <<'END'
./hheap record examples/squares.hh > squares.trace
sed '/^0 ran 1 1$/q' squares.trace > cut.trace
awk '$2 == "ran" { steps += $4 } END { print steps }' cut.trace
END
cmp -s written <(echo 59) || fail "$usage: the steps of the cut trace"
typed $usage 0 <<'END'
echo '0 fuel' >> cut.trace
./hheap again image cut.trace --fuel 59
END
cmp -s written examples/heaps.out || fail "$usage: the image of the cut trace"
typed $usage 0 <<'END'
cmp <(./hheap again replay squares.trace --report --trace) <(./hheap again model squares.trace --report --trace)
END
[ ! -s written ] || fail "$usage: replay and model differ"
typed $usage 0 91 9 .. 'end: done' <<'END'
awk '$2 == "ran" { for (i = 0; i < $4; i++) print $1, "ran", $3, 1; next } { print }' squares.trace > single.trace
./hheap again replay single.trace --report
END
grep -q '^report tasks .* steps 121 turns 128$' written || fail "$usage: the report of single entries"
typed $usage 7 'end: pool 32' <<'END'
./hheap run --chunks 32 examples/no_chunks.hh
END
typed $usage 0 780 'end: done' <<'END'
./hheap run --chunks 40 examples/no_chunks.hh
END
typed $usage 0 <<'END'
./hheap run --chunks 32 examples/fewer_tasks.hh
END

printf '%s\n' 'fn main' 'ad i0 i0 i0' 'set i16 1' 'jmp lop' 'lab loop' 'end' >bad.hh
typed $usage 0 'line 2, column 1: "ad": expected an instruction, lab or end; did you mean "add"?' \
  'line 3, column 5: "i16": expected an int register i0 to i15' \
  'line 4, column 5: "lop": expected a label of this function; did you mean "loop"?' <<'END'
./hhview faults bad.hh
END
typed $usage 0 <<'END'
./hhview faults bad.hh --json
END
grep -q '"cause":"word","expected":"an instruction, lab or end","near":"add"},$' written || fail "$usage: faults as JSON"
typed $usage 12 <<'END'
./hhview races peeked.trace
END

typed docs/TUTORIAL.md 0 91 9 .. <<'END'
./hheap run --report --trace examples/squares.hh
END
typed docs/TUTORIAL.md 0 91 9 .. <<'END'
./hheap record examples/squares.hh > squares.trace
./hheap again replay squares.trace
END
typed README.md 0 <<'END'
./hhview again page squares.trace > squares.html
END
typed docs/TUTORIAL.md 0 'prints ordered' 'end: every schedule agrees' <<'END'
./hhview schedules squares.trace
END
typed docs/TUTORIAL.md 0 'image 1' 'task 0 - waiting' 'task 1 0 ended' 'task 2 0 running' 'chunk 0 0 1024' 'chunk 1 1 1024' \
  'object 1 0 0 mut 2 0 1033 0' 'object 1025 1 0 mut 1 1 0 1' 'object 1029 1 1 mut 1 1 1025 4' \
  'object 1033 1 2 mut 1 1 1029 9' 'remembered 1 1 0' 'end: image 4' <<'END'
./hheap image --fuel 59 examples/heaps.trace
END
typed docs/TUTORIAL.md 0 <<'END'
./hhview heaps examples/heaps.out | dot -Tsvg > squares.svg
END
typed docs/TUTORIAL.md 5 'end: entangled reader 2 owner 1' <<'END'
./hheap run examples/peeked.hh
END

typed docs/RACES.md 12 'race 0 0 ref 0 tasks 1 2 lines 9 14' 'end: races 1' <<'END'
./hheap races examples/race.trace
END
typed docs/RACES.md 12 'swap 0 0 ref 0 tasks 1 2 lines 11 11' 'prints ordered' 'end: schedules may differ 1' <<'END'
./hheap record examples/cas.hh > cas.trace
./hhview schedules cas.trace
END
typed docs/RACES.md 12 'lines 14 and 8: 1 field' '  14: putr r0 i0 r2' '  8: cas i3 r0 i0 r2 r1' \
  '  example: ref 0 of object 0 0, task 1 on line 14, later task 2 on line 8' \
  '  cas races with other accesses; only two cas never race' 'lines 13 and 10: 1 field' '  13: puti r0 i0 i4' \
  '  10: geti i4 r0 i0' '  example: num 0 of object 0 0, task 1 on line 13, later task 2 on line 10' \
  "note: only forks and joins put accesses in order, and cas doesn't. So accesses that a lock by cas guards" \
  '      are races: which task gets the lock first differs from schedule to schedule.' \
  'end: races 2 on 2 pairs of lines' <<'END'
./hheap record examples/spin_lock.hh > lock.trace
./hhview races lock.trace
END
typed docs/RACES.md 12 'race 1 0 1: write left:9 line 1:16, read right:14 line 1:22; locations 1' \
  'entangled read 1000000001: read right:14 line 1:22, born line 1:15; lines 1' \
  'work 11 span 9 parallelism 1.22' 'end: races 1 reads 1 uses 0 stale 0 cut 0' <<'END'
./hhview log examples/race.trace > race.log
./hhlog check race.log
END
typed docs/IMAGES.md 0 'end: verified 2' <<'END'
./hheap verify examples/two_objects.image
END
typed docs/IMAGES.md 0 <<'END'
./hheap image examples/race.trace
END
typed docs/IMAGES.md 0 'end: verified 2' <<'END'
./hheap image examples/race.trace | ./hheap verify
END
typed docs/TUTORIAL.md 0 <<'END'
./hhview again page squares.trace --title squares > squares.html
END
typed docs/PICTURES.md 0 <<'END'
./hheap record examples/sort.hh > sort.trace
./hhview again page sort.trace --title "A sort" > sort.html
END
typed docs/PICTURES.md 0 <<'END'
./hhview page examples/race.trace --title "A stopped read" > race.html
END
for page in squares sort race; do
  cmp -s $page.html docs/pages/$page.html || fail "docs/pages/$page.html isn't what its page says how to write"
done
typed docs/PICTURES.md 0 <<'END'
./hheap image examples/race.trace > race.image
./hhview heaps race.image | dot -Tsvg > race.svg
./hheap image examples/race.trace | ./hhview heaps | dot -Tsvg > docs/pictures/race.svg
./hheap record examples/down_pointer.hh --fuel 13 > down.trace
./hheap again image down.trace | ./hhview heaps | dot -Tsvg > docs/pictures/down_pointer.svg
./hhview heaps examples/two_objects.image | dot -Tsvg > docs/pictures/two_objects.svg
END
for picture in race.svg docs/pictures/race.svg docs/pictures/down_pointer.svg docs/pictures/two_objects.svg squares.svg; do
  [ -s $picture ] || fail "$picture is empty"
done

typed docs/LANGUAGE.md 0 <<'END'
for n in 5 10 20; do
  sed "s/^  set i0 20\$/  set i0 $n/" examples/recursion.hh | ./hheap run
done
END
cmp -s written <(printf '%s\nend: done\n' 120 3628800 2432902008176640000) || fail "docs/LANGUAGE.md: the factorials"
typed docs/LANGUAGE.md 0 <<'END'
{ echo 'fn data'; for n in 5 41 17; do echo "set i0 $n"; echo 'call push'; done; echo 'end'; sed '/^fn data/,/^end/d' examples/data.hh; } > other.hh
./hheap run other.hh
END
cmp -s written <(printf '41\nend: done\n') || fail "docs/LANGUAGE.md: other data"

# (the log that the recorder leaves of the page's program)
printf '%s\n' 'hhlog 1' 's 0 0' '+ 1' '+ 2' 's 1 0' 'w 1 53696 2004 @9700' 'k 501' . 's 0 2' '- 2' '- 1' 'r 1 55696 4 @9802' \
  'k 1' . end >hhrec.0
printf '%s\n' 'hhlog 1' 's 2 0' 'w 1 55696 2004 @9700' 'k 501' . end >hhrec.1
printf '%s\n' 'hhlog 1' '@ 9700 squares.c:7' '@ 9802 squares.c:8' end >hhrec.names
typed docs/LOGS.md 12 'race 1 55696 4: write squares.c:7 line 1:6, write squares.c:7 line 2:3; locations 4' \
  'work 1003 span 502 parallelism 2.00' 'end: races 4 reads 0 uses 0 stale 0' <<'END'
./hhlog check hhrec.*
END
typed docs/LOGS.md 12 'race 1 0 1: write add_one:14 line 1:26, atomic write add_one:8 line 1:32; locations 1' \
  'race 1 1 1: write add_one:13 line 1:23, read add_one:10 line 1:35; locations 1' \
  'work 29 span 19 parallelism 1.53' 'end: races 2 reads 0 uses 0 stale 0' <<'END'
./hheap record examples/spin_lock.hh > lock.trace
./hhview log lock.trace > lock.log
./hhlog check lock.log
END
typed docs/LOGS.md 0 .. 'heaps depth 0 blocks 2 words 4 own 2' 'heaps depth 1 blocks 3 words 72 own 64' \
  'heaps stores 4 down 2' .. <<'END'
./hhlog check examples/tree.log --heaps
END

# The page of options has the ranges and defaults of the table.
while IFS='|' read -r _ name value least most default _; do
  grep -qF "| \`--$name $value\` | $least to $most | $default |" docs/USAGE.md || fail "docs/USAGE.md has no row of --$name like the table's"
done < <(grep -E '^option\|(workers|fuel|chunks|leaf|inner)\|' scripts/words.table)

# Each sample in the table works.
for program in hheap hhview hhlog; do
  sed -n "s/^sample|$program|[a-z]*|/.\/$program /p" scripts/words.table
done >samples
while IFS= read -r command; do
  HOME=$room bash -c "$command" >written 2>said </dev/null
  is=$?
  [ "$is" = 0 ] || [[ $is = 12 && $command =~ ' races '|hhlog ]] || fail "$command: status $is: $(cat said)"
done <samples

# Each piece of a program on these pages stands in an example, which has a stored output, but for indentation. A piece
# ends at a line without words, or at a line `..`.
for page in README.md docs/LANGUAGE.md docs/TUTORIAL.md; do
  awk '
    function words(line) { sub(/^ */, "", line); return line "\n" }
    FILENAME != page { if (FNR == 1) text = text "\n\n"; text = text words($0); next }
    /^    / && !/^ *\.\.$/ { piece = piece words($0); next }
    { told() }
    END { told() }
    function told() {
      if (piece ~ /^(fn|set|add|lt|eq|nil|same|newm|par|pfor|call|geti) / && !index(text, "\n" piece)) print page ": " piece
      piece = ""
    }' page="$page" examples/*.hh "$page"
done >pieces
[ ! -s pieces ] || fail "no example has: $(cat pieces)"

# Each command on a page was typed.
for page in README.md docs/*.md; do
  case $page in docs/WORKING.md | docs/BENCHMARKS.md) continue ;; esac
  sed -n 's/  *# .*//; s/^    \(\(\.\/hh\|cmp \|sed \|awk \|echo .* >\|{ cat\|{ echo\|for \|(cat\).*\)$/\1/p' "$page" |
    while IFS= read -r command; do
      grep -qxF -e "$command" typed || echo "$page: $command"
    done
done >untyped
[ ! -s untyped ] || fail "not typed: $(cat untyped)"

# No page has words for which the field has plainer ones, except in a program or in what a program writes.
plainer='want of memory|memory (is|was|were) wanting|hand(s|ed)? (it |them |that |this )?back|what it comes to'
plainer+='|\bcomes? of it|an (end|answer) of its own|exactly where|in no order|behind (an|the|each|that) entry|that many'
plainer+='|so many (words|bytes|entries|tasks|chunks|steps)|words of a call|without looking at|no time to speak of'
plainer+='|no place has it|such a one|what is said of'
plainer+='|for want of|(is|are) told\b|\btells? (a|the|of|all)\b|\bamid\b|the last value stays|\b(desk|bell)s?\b'
for page in README.md docs/*.md; do
  # shellcheck disable=SC2016
  sed '/^    /d; s/`[^`]*`//g' "$page" | grep -niE -e "$plainer" | sed "s|^|$page: |"
done >words
[ ! -s words ] || fail "say it in plainer words: $(cat words)"

[ "$failed" = 0 ] || exit 1
echo "the commands of the pages, $(wc -l <typed): passed"
