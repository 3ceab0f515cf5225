# Eight tasks that read and write fields of their own object, four at a time: what workers gain when a step costs more.
# words: run --fuel 1000000000 --workers 4
fn work
  set i0 500000 # N
  set i2 1
  set i3 2
  newm r0 i2 i3
  lab next
  jz i0 done
  puti r0 i4 i0
  geti i5 r0 i4
  putr r0 i4 r0
  getr r1 r0 i4
  sub i0 i0 i2
  jmp next
  lab done
  ret
end
fn quad
  par work work
end
fn main
  par quad quad
  par quad quad
end
