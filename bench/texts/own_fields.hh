# Reads and writes of the fields of an object of the task's own.
# words: run --fuel 1000000000
fn main
  set i0 10000000 # N
  set i2 1
  set i3 2
  newm r0 i2 i3
  lab next
  jz i0 done
  puti r0 i4 i0
  geti i5 r0 i4
  putr r0 i4 r0
  getr r1 r0 i4
  sub i0 i0 i2
  jmp next
  lab done
  out i0
end
