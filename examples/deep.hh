# A walk over a tree that is 2,000 nodes deep, where a task has at most 1,000 frames: the nodes still to be visited are
# in a list, instead of a frame for each.
# words: run
fn grow            # returns a tree of i0 nodes, each of which has a first child alone
  set i1 1
  set i2 2
  set i4 0
  nil r0
lab more
  jz i0 grown
  newm r1 i2 i1    # a node: two children, one number
  putr r1 i4 r0
  puti r1 i4 i1    # the number 1
  movr r0 r1
  sub i0 i0 i1
  jmp more
lab grown
end

fn push            # returns the list r3 with the node r0 in front, or as it is if r0 is nil
  set i2 2
  set i4 0
  nil r1
  same i7 r0 r1
  jz i7 node
  movr r0 r3
  ret
lab node
  newm r1 i2 i4    # a cell: a node and the rest
  putr r1 i4 r0
  set i1 1
  putr r1 i1 r3
  movr r0 r1
end

fn sum             # returns the sum of the numbers of the tree r0
  set i1 1
  set i4 0
  set i5 0
  nil r3
  nil r4
  call push
  movr r3 r0       # the nodes still to be visited
lab next
  same i7 r3 r4
  eq i7 i7 i4
  jz i7 done
  getr r5 r3 i4    # a node
  getr r3 r3 i1    # the others
  geti i6 r5 i4
  add i5 i5 i6
  getr r0 r5 i4    # its first child
  call push
  movr r3 r0
  getr r0 r5 i1    # its second
  call push
  movr r3 r0
  jmp next
lab done
  mov i0 i5
  nil r0
end

fn main
  set i0 2000
  call grow
  call sum
  out i0           # writes 2000
end
