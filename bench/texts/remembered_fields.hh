# A child writes N down-pointers into the fields of an object above, and then collects its heap.
# words: run --fuel 1000000000 --chunks 65536 --leaf 4096
fn writes
  set i0 0
  set i2 1
  lab next
  lt i3 i0 i1
  jz i3 done
  newm r1 i4 i2
  putr r0 i0 r1
  add i0 i0 i2
  jmp next
  lab done
end
fn nothing
end
fn main
  set i1 40000 # N
  set i4 0
  newm r0 i1 i4
  par writes nothing
  out i1
end
