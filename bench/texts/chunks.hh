# N objects of 1,000 words, each of which takes a chunk, in a list that stays.
# words: run --fuel 1000000000 --chunks 65536 --leaf 1000000
fn main
  set i0 1
  set i1 997
  set i2 8000 # N
  set i3 1
  set i5 0
  lab more
  jz i2 made
  newm r1 i0 i1
  putr r1 i5 r0
  movr r0 r1
  sub i2 i2 i3
  jmp more
  lab made
  out i2
end
