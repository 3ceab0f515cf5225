# For tests of the scripts at the top: a folder in which they find built programs, and prove nothing. The caller has set
# `top`.

room=$(mktemp -d) || exit 1
trap 'rm -rf "$room"' EXIT
failed=0

fail() {
  echo "FAILED: $*" >&2
  failed=$((failed + 1))
}

# use_just TOOL ..: has the shell find only these tools and those in the room's bin. So the kit isn't found, and a call
# that would prove or build ends with 1.
use_just() {
  local tool
  mkdir -p "$room/bin" || exit 1
  for tool in bash cat chmod cmp cp cut dirname find flock grep head ln mkdir mkfifo mktemp mv nproc realpath rm sed \
    sha256sum sleep sort tail tar tr wc xargs "$@"; do
    [ -e "$room/bin/$tool" ] || ln -s "$(command -v "$tool")" "$room/bin/$tool" || exit 1
  done
  PATH=$room/bin
}

# Makes a copy of the top of the repository in the room, with crates that are nearly empty, so that checksums are quick.
copy_top() {
  local name
  cp -r "$top/hheap" "$top/hhview" "$top/hhlog" "$top/scripts" "$top/examples" "$top/docs" "$top/README.md" "$top/crates.txt" \
    "$top/HANDLES" "$room" && mkdir "$room/out" || return
  sed -n 's/^\([a-z][a-z_]*\).*:.*/\1/p' "$top/crates.txt" >"$room/names"
  while read -r name; do
    mkdir -p "$room/crates/$name/src" && echo "// $name" >"$room/crates/$name/src/lib.rt" || return
  done <"$room/names"
}

# put_built CRATE PROGRAM: has the copy's scripts find that program as the proved one, and as the unproved build.
put_built() {
  local sum
  sum=$(
    top=$room
    crate=$1
    . "$room/scripts/prove.bash"
    need_crates
    sum_of "$room"
  )
  cp "$2" "$room/out/$1-$sum" && cp "$2" "$room/out/tried-$1-$sum"
}
