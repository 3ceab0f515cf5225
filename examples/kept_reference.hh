# An overwritten reference that the snapshot keeps: the waiting heap of `main` is marked while its children run. `left`
# takes the object into a register and then overwrites the only field that led to it. Since it was reachable at the
# fork, the overwritten reference is kept for the marking, the sweep leaves the object, and `left` still reads it.
# words: run --inner 16 --report --trace
fn left
  set i0 0
  getr r1 r0 i0    # the object
  nil r2
  putr r0 i0 r2    # overwrites the reference to it
  geti i0 r1 i0
end

fn right
end

fn main
  set i0 1
  set i1 0
  newm r0 i0 i1
  set i0 0
  set i1 14
  newm r1 i0 i1
  set i2 5
  puti r1 i0 i2
  putr r0 i0 r1
  nil r1
  par left right
  out i0           # writes 5
end
