# A reduction over a tree: 31 numbers stand in a tree that was built in parallel, and the sum and the greatest of them
# are found in parallel. Each task returns two results in one immutable object.
# words: run --workers 4
fn grow            # i0: the number of a node, i1: how many levels are below it; returns the tree
  set i2 1
  set i3 2
  set i4 0
  mov i5 i0
  nil r0
  nil r1
  jz i1 node
  sub i1 i1 i2
  par grow_first grow_second
lab node
  newm r2 i3 i2    # two references, one number
  set i6 1664525
  mul i6 i6 i5
  set i7 1013904223
  add i6 i6 i7
  set i7 1000
  rem i6 i6 i7     # the node's value: some number below 1000
  puti r2 i4 i6
  putr r2 i4 r0
  putr r2 i2 r1
  movr r0 r2
end

fn grow_first
  mul i0 i0 i3
  call grow
end

fn grow_second
  mul i0 i0 i3
  add i0 i0 i2
  call grow
end

fn reduce          # r0: a tree; returns an object of two numbers: the sum and the greatest
  set i2 1
  set i4 0
  nil r1
  same i7 r0 r1
  jz i7 node
  set i0 0         # of an empty tree both are 0
  set i1 0
  pack r0 0 2
  ret
lab node
  movr r5 r0
  par reduce_first reduce_second
  call combine
  movr r1 r0
  geti i0 r5 i4    # the node's own value is its sum and its greatest
  mov i1 i0
  pack r0 0 2
  call combine
end

fn reduce_first
  getr r0 r5 i4
  call reduce
end

fn reduce_second
  getr r0 r5 i2
  call reduce
end

fn combine         # two such objects, r0 and r1, become one
  geti i0 r0 i4
  geti i5 r1 i4
  add i0 i0 i5
  geti i1 r0 i2
  geti i5 r1 i2
  lt i6 i1 i5
  jz i6 pair
  mov i1 i5
lab pair
  pack r0 0 2
end

fn main
  set i0 1
  set i1 4
  call grow
  call reduce
  set i4 0
  set i2 1
  geti i0 r0 i4
  out i0           # writes 17313
  geti i0 r0 i2
  out i0           # writes 998
end
