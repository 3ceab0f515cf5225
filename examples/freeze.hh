# Freezing: an object is filled and then made immutable for good. Its reference may then be read by both children
# without a check, since what it refers to was there before.
# words: run
fn kid
  set i1 0
  getr r1 r0 i1
  geti i0 r1 i1
end

fn main
  set i0 0
  set i1 1
  newm r1 i0 i1
  set i2 9
  puti r1 i0 i2
  newm r0 i1 i0
  putr r0 i0 r1
  freeze r0        # only the task that owns it may do so
  par kid kid
  add i0 i0 i1
  out i0           # writes 18
end
