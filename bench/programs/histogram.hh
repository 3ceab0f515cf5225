# A histogram of N numbers in 100 bins by compare-and-swap. Each bin is a reference field of an object of the root, and
# refers to one of the immutable objects that stand for 0, 1, 2 and so on. A task can't put an object of its own there,
# since a concurrent one that read it would be entangled: so the root makes these objects first, in a frozen table. A
# parallel loop goes over blocks of 10,000 numbers. Each call counts its block alone, and adds its counts to the bins:
# it reads a bin, finds the object for the sum, and puts that by `cas`, again and again until no other task was faster.
# No bin may get more than twice its share, else the table is too short (trap range). The output is the number of all,
# and the counts, each times its bin's number.
# words: run --fuel 1000000000 --chunks 65536 --leaf 1000000 --inner 1000000
fn main
  set i9 2000000 # N
  set i10 10000    # the numbers of a block
  set i2 1         # (i2, i3 and i4 are 1, 2 and 0 everywhere)
  set i3 2
  set i4 0
  set i11 100      # the bins
  call count_objects
  movr r6 r0
  call empty_bins
  movr r5 r0
  sub i1 i9 i2
  div i1 i1 i10
  add i1 i1 i2     # how many blocks there are
  set i0 0
  pfor block
  out i0
  call checksum
  out i0
end

fn count_objects   # returns a frozen table of the objects for 0 up to twice a bin's share
  mul i12 i9 i3
  div i12 i12 i11
  add i12 i12 i2
  newm r1 i12 i4
  set i0 0
lab next
  pack r0 0 1
  putr r1 i0 r0
  add i0 i0 i2
  eq i5 i0 i12
  jz i5 next
  freeze r1
  movr r0 r1
end

fn empty_bins      # returns the bins, each of which refers to the object for 0
  newm r0 i11 i4
  getr r1 r6 i4
  set i5 0
lab next
  putr r0 i5 r1
  add i5 i5 i2
  eq i6 i5 i11
  jz i6 next
end

fn block           # counts the block i0; returns how many numbers it has
  mul i8 i0 i10
  add i15 i8 i10   # where it ends
  lt i5 i15 i9
  eq i5 i5 i4
  jz i5 count
  mov i15 i9
lab count
  sub i0 i15 i8
  newm r1 i4 i11   # the task's own counts
  set i6 48271
  set i7 2147483647
lab next
  mul i5 i8 i8     # the number i is 48271 i i modulo 2147483647; its bin is the number modulo 100
  mul i5 i5 i6
  rem i5 i5 i7
  rem i5 i5 i11
  geti i12 r1 i5
  add i12 i12 i2
  puti r1 i5 i12
  add i8 i8 i2
  eq i5 i8 i15
  jz i5 next
  call add_counts
end

fn add_counts      # adds the counts r1 to the bins; returns i0 as it is
  set i5 0
lab bin
  geti i12 r1 i5
  eq i6 i12 i4
  jz i6 add
  jmp next
lab add
  getr r2 r5 i5    # (takes a turn, and so does the cas)
  geti i6 r2 i4
  add i6 i6 i12
  getr r3 r6 i6    # the object for the sum
  cas i6 r5 i5 r2 r3
  jz i6 add        # another task was faster
lab next
  add i5 i5 i2
  eq i6 i5 i11
  jz i6 bin
  nil r0
end

fn checksum        # of the bins
  set i0 0
  set i5 0
lab next
  getr r1 r5 i5
  geti i6 r1 i4
  add i5 i5 i2
  mul i6 i6 i5
  add i0 i0 i6
  eq i6 i5 i11
  jz i6 next
end
