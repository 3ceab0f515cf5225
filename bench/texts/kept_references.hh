# A child overwrites N references into the heap of its parent, which waits and keeps them for its marking.
# words: run --fuel 1000000000 --chunks 65536 --leaf 1000000 --inner 16
fn writes
  set i2 1
  lab next
  jz i1 done
  putr r0 i4 r1
  putr r0 i4 r2
  sub i1 i1 i2
  jmp next
  lab done
end
fn nothing
end
fn main
  set i2 1
  set i3 20
  newm r0 i2 i3
  newm r1 i2 i3
  newm r2 i2 i3
  set i1 100000 # N
  par writes nothing
  out i1
end
