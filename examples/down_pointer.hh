# A down-pointer: a child puts an object of its own into its parent's object. Reading it there is no entanglement for
# the child, nor for the parent after the join.
# words: run --report
fn left
  set i0 0
  set i1 1
  newm r1 i0 i1    # an object with no reference and one number
  set i2 42
  puti r1 i0 i2
  putr r0 i0 r1    # r0 is the parent's object
  getr r2 r0 i0
  geti i0 r2 i0
end

fn right
  set i0 0
end

fn main
  set i0 1
  set i1 0
  newm r0 i0 i1    # an object with one reference and no number
  par left right
  out i0           # writes 42
end
