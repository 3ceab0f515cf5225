# Breadth-first search: how far each of N nodes is from node 0, where 8 edges lead to each node. The nodes lie in blocks
# of 500; a block's edges and its nodes' distances are frozen arrays, in tables of the root. Round by round, a parallel
# loop goes over the blocks: each call looks for nodes without a distance to which an edge leads from a node of the
# round before, and puts a new array of distances into the next table, a down-pointer. Nothing that a call reads is
# written in that round, so no read takes a turn. The checksum adds up the distances, each times its node's number.
# words: run --fuel 1000000000 --chunks 65536 --leaf 1000000 --inner 1000000
fn main
  set i9 40000 # N
  set i10 500      # the nodes of a block
  set i2 1         # (i2 and i4 are 1 and 0 everywhere)
  set i4 0
  set i12 8        # the edges to a node
  sub i11 i9 i2
  div i11 i11 i10
  add i11 i11 i2   # how many blocks there are
  newm r6 i11 i4   # the table of edges
  newm r7 i11 i4   # the table of distances
  set i0 0
  mov i1 i11
  pfor first_block
  freeze r6
  freeze r7
  set i8 0         # the distance of the round before
lab round
  newm r8 i11 i4   # the next table of distances
  set i0 0
  mov i1 i11
  pfor next_block
  freeze r8
  movr r7 r8
  add i8 i8 i2
  eq i5 i0 i4      # 1 if no node was found
  jz i5 round
  out i8
  call checksum
  out i0
end

fn block           # returns how many nodes the block i0 has; all have i10 but the last one
  mul i5 i0 i10
  sub i0 i9 i5
  lt i5 i0 i10
  jz i5 whole
  ret
lab whole
  mov i0 i10
end

fn first_block     # puts the edges to the nodes of the block i0, and their distances: 0 of node 0, else -1
  mov i7 i0
  call block
  mov i15 i0
  newm r0 i4 i15
  sub i8 i4 i2
  set i5 0
lab distance
  puti r0 i5 i8
  add i5 i5 i2
  eq i6 i5 i15
  jz i6 distance
  eq i6 i7 i4
  jz i6 edges
  puti r0 i4 i4
lab edges
  freeze r0
  putr r7 i7 r0
  mul i15 i15 i12
  newm r0 i4 i15   # the nodes from which the edges come
  set i1 48271
  set i8 2147483647
  mul i13 i7 i10
  mul i13 i13 i12  # the number of the block's first edge
  set i5 0
lab edge
  mul i6 i13 i13   # the edge e comes from the node 48271 e e modulo 2147483647, modulo N
  mul i6 i6 i1
  rem i6 i6 i8
  rem i6 i6 i9
  puti r0 i5 i6
  add i13 i13 i2
  add i5 i5 i2
  eq i6 i5 i15
  jz i6 edge
  freeze r0
  putr r6 i7 r0
  set i0 0
end

fn next_block      # puts the distances of the block i0 after a round; returns how many nodes it found
  mov i7 i0
  getr r1 r6 i7    # the edges
  getr r2 r7 i7    # the distances before
  cnti i15 r2
  newm r0 i4 i15
  set i0 0
  set i5 0         # the node in its block
  set i13 0        # its next edge
lab node
  add i14 i13 i12  # the first edge after its own
  geti i6 r2 i5
  lt i1 i6 i4
  jz i1 known
lab edge
  geti i1 r1 i13
  div i3 i1 i10
  getr r3 r7 i3    # the distances of the other node's block
  rem i1 i1 i10
  geti i1 r3 i1
  eq i1 i1 i8
  jz i1 next
  add i6 i8 i2     # it was reached in the round before
  add i0 i0 i2
  jmp known
lab next
  add i13 i13 i2
  eq i1 i13 i14
  jz i1 edge
lab known
  mov i13 i14
  puti r0 i5 i6
  add i5 i5 i2
  eq i1 i5 i15
  jz i1 node
  freeze r0
  putr r8 i7 r0
end

fn checksum        # of the distances in r7
  set i0 0
  set i5 0         # the block
  set i8 0         # the node
lab block
  getr r1 r7 i5
  cnti i15 r1
  set i6 0
lab next
  geti i7 r1 i6
  mul i7 i7 i8
  add i0 i0 i7
  add i8 i8 i2
  add i6 i6 i2
  eq i7 i6 i15
  jz i7 next
  add i5 i5 i2
  eq i7 i5 i11
  jz i7 block
end
