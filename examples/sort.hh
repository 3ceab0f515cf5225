# A sort: a list of 12 numbers is cut into halves, two tasks sort them, and the parent merges what they return. The
# children read the parent's cells and make new ones; after the join the new cells are the parent's, which links them
# anew. What is written doesn't depend on how many workers there are.
# words: run --workers 4
fn sort            # r0: a list, i0: how many cells; returns a sorted list of new cells
  set i1 1
  set i4 0
  jz i0 none
  eq i7 i0 i1
  jz i7 many
  geti i6 r0 i4
  newm r0 i1 i1
  puti r0 i4 i6
  ret
lab none
  nil r0
  ret
lab many
  set i3 2
  div i2 i0 i3     # how many cells the first half has
  sub i3 i0 i2     # and the second
  movr r1 r0
  mov i6 i2
lab skip
  jz i6 halves
  getr r1 r1 i4
  sub i6 i6 i1
  jmp skip
lab halves
  par sort_first sort_second
  call merge
end

fn sort_first
  mov i0 i2
  call sort
end

fn sort_second
  mov i0 i3
  movr r0 r1
  call sort
end

fn merge           # two sorted lists, r0 and r1, become one
  set i1 1
  set i4 0
  nil r4
  newm r2 i1 i1    # a cell before the first
  movr r3 r2       # the last cell so far
lab next
  same i7 r0 r4
  eq i7 i7 i4
  jz i7 rest_is_second
  same i7 r1 r4
  eq i7 i7 i4
  jz i7 rest_is_first
  geti i5 r0 i4
  geti i6 r1 i4
  lt i7 i6 i5
  jz i7 take_first
  putr r3 i4 r1
  movr r3 r1
  getr r1 r1 i4
  jmp next
lab take_first
  putr r3 i4 r0
  movr r3 r0
  getr r0 r0 i4
  jmp next
lab rest_is_first
  putr r3 i4 r0
  jmp merged
lab rest_is_second
  putr r3 i4 r1
lab merged
  getr r0 r2 i4
end

fn main
  set i1 1
  set i4 0
  set i8 37
  set i9 101
  set i6 5         # the numbers: each is 37 times the one before and 11, modulo 101
  set i5 12
lab more
  jz i5 made
  newm r1 i1 i1
  putr r1 i4 r0
  puti r1 i4 i6
  movr r0 r1
  mul i6 i6 i8
  set i7 11
  add i6 i6 i7
  rem i6 i6 i9
  sub i5 i5 i1
  jmp more
lab made
  set i0 12
  call sort
  nil r4
lab print
  same i7 r0 r4
  eq i7 i7 i4
  jz i7 printed
  geti i6 r0 i4
  out i6
  getr r0 r0 i4
  jmp print
lab printed
end
