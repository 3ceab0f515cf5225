# A search over a graph: each of 24 nodes has two edges, from n to 5n + 2 and to 7n + 4, modulo 24. A task visits a node
# if its `cas` is the first to claim it, and forks for the two edges; another task that comes there later goes back.
# Which task visits which node depends on the schedule, which nodes are visited doesn't.
# words: run --workers 4
fn visit           # r0: a node, r1: the mark of claimed nodes; returns how many nodes were visited from here
  set i2 0
  nil r2
  cas i0 r0 i2 r2 r1
  jz i0 visited
  movr r5 r0
  par visit_first visit_second
  add i0 i0 i1
  set i2 1
  add i0 i0 i2
lab visited
  nil r0           # nothing is returned in r0
end

fn visit_first
  set i2 1
  getr r0 r5 i2
  call visit
end

fn visit_second
  set i2 2
  getr r0 r5 i2
  call visit
end

fn link            # gives the node i5 of the table r3 its edges to i6 and i7
  getr r4 r3 i5
  getr r5 r3 i6
  set i0 1
  putr r4 i0 r5
  getr r5 r3 i7
  set i0 2
  putr r4 i0 r5
end

fn main
  set i1 1
  set i2 0
  set i3 3
  set i9 24
  newm r1 i2 i2    # the mark
  newm r3 i9 i2    # the table of nodes
lab make
  newm r4 i3 i1    # a node: its claim, two edges, its number
  puti r4 i2 i5
  putr r3 i5 r4
  add i5 i5 i1
  lt i8 i5 i9
  jz i8 made
  jmp make
lab made
  set i5 0
lab edges
  set i6 5
  mul i6 i6 i5
  set i8 2
  add i6 i6 i8
  rem i6 i6 i9
  set i7 7
  mul i7 i7 i5
  set i8 4
  add i7 i7 i8
  rem i7 i7 i9
  call link
  add i5 i5 i1
  lt i8 i5 i9
  jz i8 linked
  jmp edges
lab linked
  set i5 0
  getr r0 r3 i5
  movr r7 r3
  movr r8 r1
  call visit
  out i0           # how many nodes were visited
  set i5 0
  set i1 1
lab claims
  getr r4 r7 i5
  set i2 0
  getr r5 r4 i2
  same i8 r5 r8    # 1 if the node was claimed
  jz i8 skip
  out i5           # the number of a visited node
lab skip
  add i5 i5 i1
  lt i8 i5 i9
  jz i8 done
  jmp claims
lab done
end
