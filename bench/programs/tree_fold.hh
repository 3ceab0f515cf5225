# Trees: eight times a tree of N levels is grown and folded, both in parallel down to the subtrees of at most 9 levels,
# which one task grows or folds alone, by calls. Nodes are immutable, so a task that folds reads them without a turn.
# The fold of a node is its number, 3 times the fold of its first child and 5 times that of its second; the output is
# the sum.
# words: run --fuel 1000000000 --chunks 65536 --leaf 1000000 --inner 1000000
fn main
  set i9 15 # N
  set i10 9        # the grain
  set i2 1         # (i2, i3 and i4 are 1, 2 and 0 everywhere)
  set i3 2
  set i4 0
  set i15 3
  set i14 5
  set i11 8        # how many trees are left
  set i12 0
lab next
  mov i5 i11       # the number of the root
  mov i6 i9
  call grow
  call fold
  nil r0
  add i12 i12 i0
  sub i11 i11 i2
  eq i7 i11 i4
  jz i7 next
  out i12
end

fn grow            # returns a tree of i6 levels, whose root has the number i5
  jz i6 empty
  lt i7 i10 i6     # 1 if the levels are more than the grain
  sub i6 i6 i2
  jz i7 alone
  par grow_first grow_second
  mov i0 i5
  pack r0 2 1      # a node: two children and a number
  ret
lab alone
  call grow_first
  movr r5 r0
  call grow_second
  movr r1 r0
  movr r0 r5
  mov i0 i5
  pack r0 2 1
  ret
lab empty
  nil r0
end

fn grow_first      # the children of the node n have the numbers 2n and 2n + 1
  mul i5 i5 i3
  call grow
end

fn grow_second
  mul i5 i5 i3
  add i5 i5 i2
  call grow
end

fn fold            # returns the fold of the tree r0, which has i6 levels: 0 if it is empty
  set i0 0
  jz i6 done
  lt i7 i10 i6
  sub i6 i6 i2
  movr r5 r0
  geti i5 r5 i4
  jz i7 alone
  par fold_first fold_second
  jmp both
lab alone
  call fold_first
  mov i8 i0
  call fold_second
  mov i1 i0
  mov i0 i8
lab both
  mul i0 i0 i15
  mul i1 i1 i14
  add i0 i0 i1
  add i0 i0 i5
lab done
  nil r0
end

fn fold_first
  getr r0 r5 i4
  call fold
end

fn fold_second
  getr r0 r5 i2
  call fold
end
