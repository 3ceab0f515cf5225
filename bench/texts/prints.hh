# An entry that prints: each turn of the loop writes and reads a field of its own and prints it, which is an entry.
# words: run --fuel 1000000000
fn main
  set i1 1
  newm r0 i3 i1
  set i0 500000 # N
  set i2 1
  lab next
  jz i0 done
  puti r0 i3 i0
  geti i5 r0 i3
  out i5
  sub i0 i0 i2
  jmp next
  lab done
end
