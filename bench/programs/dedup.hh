# Duplicates removed: how many different keys there are among N, and their sum. Keys are immutable objects with a
# number, made in parallel in frozen blocks of 2,000. A parallel loop goes over the blocks. Each call puts those keys of
# its block that it hasn't met before into a hash set of its own, and into the one set that all share, an object of the
# root whose empty fields are nil: there `cas` decides which task is the first. What a task reads in the shared set is a
# key that was there before the loop, so no read is entangled. Few keys are frequent and many are rare, as words in a
# text are.
# words: run --fuel 1000000000 --chunks 65536 --leaf 1000000 --inner 1000000
fn main
  set i9 240000 # N
  set i10 2000     # the keys of a block
  set i2 1         # (i2, i3 and i4 are 1, 2 and 0 everywhere)
  set i3 2
  set i4 0
  set i11 4093     # the fields of a task's own set
  set i12 8191     # those of the shared set
  set i15 4000     # there are fewer different keys than this
  sub i1 i9 i2
  div i1 i1 i10
  add i1 i1 i2     # how many blocks there are
  newm r5 i1 i4
  newm r6 i12 i4   # the shared set
  set i0 0
  pfor make_keys
  freeze r5
  set i0 0
  pfor put_keys
  out i0
  call sum
  out i0
end

fn make_keys       # puts the block i0 of keys into the table
  mov i8 i0
  mul i5 i8 i10    # the number of its first key
  sub i6 i9 i5     # how many keys are left
  lt i7 i10 i6
  jz i7 last
  mov i6 i10
lab last
  newm r1 i6 i4
  set i7 0
  set i1 48271
  set i13 2147483647
lab next
  mul i14 i5 i5    # of the number 48271 i i modulo 2147483647,
  mul i14 i14 i1
  rem i14 i14 i13
  rem i0 i14 i15   # two digits to the base 4,000: their product through 4,000 is mostly small
  div i14 i14 i15
  rem i14 i14 i15
  mul i0 i0 i14
  div i0 i0 i15
  mul i14 i0 i0    # the key: k 48271 k and 1
  mul i0 i14 i1
  add i0 i0 i2
  pack r0 0 1
  putr r1 i7 r0
  add i5 i5 i2
  add i7 i7 i2
  eq i14 i7 i6
  jz i14 next
  freeze r1
  putr r5 i8 r1
  set i0 0
end

fn put_keys        # puts the keys of the block i0 into the sets; returns how many of them are new in the shared one
  getr r1 r5 i0
  cntr i15 r1
  newm r2 i11 i4   # the task's own set
  nil r3
  set i0 0
  set i1 0
lab next
  getr r4 r1 i1
  geti i5 r4 i4
  rem i6 i5 i11
lab own
  getr r7 r2 i6
  same i7 r7 r3
  eq i7 i7 i4
  jz i7 new
  geti i8 r7 i4
  eq i8 i8 i5
  eq i8 i8 i4
  jz i8 put        # the key was there before
  add i6 i6 i2
  rem i6 i6 i11
  jmp own
lab new
  putr r2 i6 r4
  rem i6 i5 i12
lab shared
  getr r7 r6 i6    # (takes a turn, and so does the cas)
  same i7 r7 r3
  eq i7 i7 i4
  jz i7 claim
  geti i8 r7 i4
  eq i8 i8 i5
  eq i8 i8 i4
  jz i8 put
  add i6 i6 i2
  rem i6 i6 i12
  jmp shared
lab claim
  cas i7 r6 i6 r3 r4
  jz i7 shared     # another task has put a key there
  add i0 i0 i2
lab put
  add i1 i1 i2
  eq i7 i1 i15
  jz i7 next
  nil r0
end

fn sum             # returns the sum of the keys in the shared set
  set i0 0
  set i5 0
  nil r3
lab next
  getr r1 r6 i5
  same i6 r1 r3
  eq i6 i6 i4
  jz i6 empty
  geti i7 r1 i4
  add i0 i0 i7
lab empty
  add i5 i5 i2
  eq i6 i5 i12
  jz i6 next
end
