# A tree built in parallel: `grow` makes a node with the number i0 and, down to the depth i1, forks for its two
# subtrees. What the children return in r0 and r1 may be put into the parent's new object, since they have joined.
# words: run --report
fn grow
  set i2 1
  set i3 2
  set i4 0
  jz i1 leaf
  mov i5 i0        # this node's number
  sub i1 i1 i2
  par grow_left grow_right
  newm r2 i3 i2    # two references, one number
  puti r2 i4 i5
  putr r2 i4 r0
  putr r2 i2 r1
  movr r0 r2
  ret
lab leaf
  newm r0 i3 i2
  puti r0 i4 i0
end

fn grow_left
  mul i0 i0 i3     # the left subtree has the number 2n
  call grow
end

fn grow_right
  mul i0 i0 i3     # the right one 2n + 1
  add i0 i0 i2
  call grow
end

fn sum
  nil r1
  same i7 r0 r1
  set i0 0
  jz i7 node
  ret
lab node
  set i4 0
  set i2 1
  geti i5 r0 i4
  movr r5 r0
  getr r0 r5 i4
  call sum
  mov i6 i0
  getr r0 r5 i2
  call sum
  add i0 i0 i6
  add i0 i0 i5
  nil r0
end

fn main
  set i0 1
  set i1 3         # depth 3: the numbers 1 to 15
  call grow
  call sum
  out i0           # writes 120
end
