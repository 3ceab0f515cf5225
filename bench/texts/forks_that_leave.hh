# N forks one after the other, each of which leaves a chunk with an object that its parent keeps in a list.
# words: run --fuel 1000000000 --chunks 65536 --leaf 1000000
fn left
  set i1 1
  newm r1 i1 i1
  putr r1 i0 r0
  movr r0 r1
end
fn right
end
fn main
  set i9 10000 # N
  set i8 1
  lab next
  jz i9 done
  set i0 0
  par left right
  sub i9 i9 i8
  jmp next
  lab done
  out i9
end
