# A thousand forks beside a list of N mutable objects of 100 words.
# words: run --fuel 1000000000 --chunks 65536 --leaf 1000000 --inner 1000000
fn nothing
end
fn main
  set i0 1
  set i1 97
  set i2 2000 # N
  set i3 1
  set i5 0
  lab more
  jz i2 made
  newm r1 i0 i1
  putr r1 i5 r0
  movr r0 r1
  sub i2 i2 i3
  jmp more
  lab made
  set i9 1000
  lab next
  jz i9 done
  par nothing nothing
  sub i9 i9 i3
  jmp next
  lab done
  out i9
end
