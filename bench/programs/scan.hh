# Prefix sums of N numbers, by two passes over a tree. The first makes the numbers, in frozen arrays of at most 2,000 at
# the leaves, and each node has the sum of those below it. The second goes down with the sum of all numbers to the left,
# and makes an array of prefix sums for each leaf. A third adds up the prefix sums, each times its place, for a
# checksum.
# words: run --fuel 1000000000 --chunks 65536 --leaf 1000000 --inner 1000000
fn main
  set i9 1000000 # N
  set i10 2000     # the grain
  set i2 1         # (i2, i3 and i4 are 1, 2 and 0 everywhere)
  set i3 2
  set i4 0
  set i8 0
  call numbers
  set i11 0
  call scan
  call checksum
  out i0
end

fn numbers         # returns a tree of the numbers at the places i8 up to i9 - 1, and their sum
  sub i5 i9 i8
  lt i6 i10 i5     # 1 if they are more than the grain
  jz i6 few
  div i5 i5 i3
  add i5 i5 i8     # the middle
  par numbers_first numbers_second
  add i0 i0 i1
  pack r0 2 1      # a node: two halves and their sum
  ret
lab few
  newm r0 i4 i5
  mov i11 i5
  set i5 48271
  set i6 1009
  set i7 0
  set i0 0         # the sum
lab next
  mul i12 i8 i8    # the number at the place i is 48271 i i modulo 1009
  mul i12 i12 i5
  rem i12 i12 i6
  puti r0 i7 i12
  add i0 i0 i12
  add i8 i8 i2
  add i7 i7 i2
  eq i12 i7 i11
  jz i12 next
  freeze r0
  pack r0 1 1      # a leaf: its numbers and their sum
end

fn numbers_first
  mov i9 i5
  call numbers
end

fn numbers_second
  mov i8 i5
  call numbers
end

fn scan            # returns a tree of prefix sums; r0: a tree of numbers, i11: the sum of all numbers to the left
  cntr i5 r0
  eq i5 i5 i3      # 1 if it is a node
  jz i5 leaf
  movr r5 r0
  par scan_first scan_second
  pack r0 2 0
  ret
lab leaf
  getr r1 r0 i4
  cnti i5 r1
  newm r0 i4 i5
  set i6 0
lab next
  geti i7 r1 i6
  add i11 i11 i7
  puti r0 i6 i11
  add i6 i6 i2
  eq i7 i6 i5
  jz i7 next
  freeze r0
  pack r0 1 0
end

fn scan_first
  getr r0 r5 i4
  call scan
end

fn scan_second
  getr r0 r5 i4
  geti i5 r0 i4
  add i11 i11 i5   # the sum of the first half lies to the left too
  getr r0 r5 i2
  call scan
end

fn checksum        # of the tree r0, whose numbers have the places i8 up to i9 - 1, counted from 0
  cntr i5 r0
  eq i5 i5 i3
  jz i5 leaf
  sub i5 i9 i8
  div i5 i5 i3
  add i5 i5 i8
  movr r5 r0
  par checksum_first checksum_second
  add i0 i0 i1
  ret
lab leaf
  getr r1 r0 i4
  cnti i5 r1
  set i6 0
  set i0 0
lab next
  geti i7 r1 i6
  add i6 i6 i2
  add i8 i8 i2
  mul i7 i7 i8
  add i0 i0 i7
  eq i7 i6 i5
  jz i7 next
  nil r0
end

fn checksum_first
  mov i9 i5
  getr r0 r5 i4
  call checksum
end

fn checksum_second
  mov i8 i5
  getr r0 r5 i2
  call checksum
end
