# Leaf collections: a list of N objects of 11 words stays, 595,800 such objects are dropped, in a hundred collections.
# words: run --leaf 65536 --fuel 1000000000 --chunks 65536
fn main
  set i0 1
  set i1 8
  set i2 80000 # N
  set i3 1
  set i5 0
  lab more
  jz i2 made
  newm r1 i0 i1
  putr r1 i5 r0
  movr r0 r1
  sub i2 i2 i3
  jmp more
  lab made
  set i2 595800
  lab waste
  jz i2 done
  newm r1 i0 i1
  sub i2 i2 i3
  jmp waste
  lab done
  out i2
end
