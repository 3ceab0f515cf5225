# A remembered field lifted by a join: `store` puts its object into the root's. The field is remembered for the heap of
# `store`, and after the join of `mid` for that of `mid`. So the leaf collection that `mid` makes then keeps the object,
# although no register of `mid` leads to it.
# words: run --leaf 16 --report
fn nop
end

fn store
  set i0 0
  set i1 1
  newm r1 i0 i1
  set i2 7
  puti r1 i0 i2
  putr r0 i0 r1    # a down-pointer: r0 is the root's object
end

fn mid
  par nop store
  nil r0
  nil r1           # now only the root's object leads to it
  set i2 0
  set i3 18
  newm r2 i2 i3    # 20 words
  nil r2           # dropped
  newm r2 i2 i3    # 16 words or more since the start: a collection comes first
end

fn main
  set i0 1
  set i1 0
  newm r0 i0 i1
  movr r5 r0
  par mid nop
  set i2 0
  getr r3 r5 i2
  geti i4 r3 i2
  out i4           # writes 7
end
