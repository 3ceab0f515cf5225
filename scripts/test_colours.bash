#!/usr/bin/env bash
# Compares the colours of references in pages, graphs and the figure of the README with the table page/colours.table.
cd "$(dirname "$0")/.." || exit 1
failed=0

# has FILE TEXT WHAT: whether a file has a text.
has() {
  grep -qF -e "$2" "$1" && return
  echo "$1 doesn't have the colour of $3 in page/colours.table: $2"
  failed=1
}

declare -A relations=([inside]=Own [up]=Above [down]=Below [cross]=Apart)
while IFS='|' read -r kind colour; do
  has page/page.html "--$kind: $colour;" "$kind"
  has crates/heap_graph/specs/Kinds.antt "colour_of ${relations[$kind]} = codes \"$colour\"" "$kind"
  [ "$kind" = inside ] || has docs/pictures/heaps.svg "stroke=\"$colour\"" "$kind"
done < <(grep -v '^#' page/colours.table)
exit $failed
