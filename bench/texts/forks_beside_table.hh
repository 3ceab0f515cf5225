# A thousand forks beside N immutable objects of 1,000 words, of which each child reads one number.
# words: run --fuel 1000000000 --chunks 65536 --leaf 1000000 --inner 1000000
fn read
  set i1 0
  geti i0 r0 i1
end
fn nothing
end
fn main
  set i0 1
  set i1 997
  set i2 1000 # N
  set i3 1
  set i5 0
  lab more
  jz i2 made
  newm r1 i0 i1
  putr r1 i5 r0
  freeze r1
  movr r0 r1
  sub i2 i2 i3
  jmp more
  lab made
  movr r5 r0
  set i9 1000
  lab next
  jz i9 done
  movr r0 r5
  par read nothing
  sub i9 i9 i3
  jmp next
  lab done
  out i9
end
