# Allocation and writes: each turn makes an object, writes its number and lets it refer to itself.
# words: run --fuel 1000000000
fn main
  set i0 4000000 # N
  set i2 1
  set i3 2
  lab next
  jz i0 done
  newm r0 i2 i3
  puti r0 i4 i0
  putr r0 i4 r0
  sub i0 i0 i2
  jmp next
  lab done
  out i0
end
