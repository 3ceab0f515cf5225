# Merge sort. A task cuts its part of N numbers into halves, and merges the sorted arrays that its two children return.
# A task with at most 2,000 numbers goes on alone, by calls, and sorts 12 numbers or fewer by insertion. The numbers to
# be sorted are a frozen array, which all tasks read without a turn. For the checksum, 31 times what it was is added to
# each number of the result, in order.
# words: run --fuel 1000000000 --chunks 65536 --leaf 1000000 --inner 1000000
fn main
  set i9 200000 # N
  set i10 2000     # the grain
  set i2 1         # (i2, i3 and i4 are 1, 2 and 0 everywhere)
  set i3 2
  set i4 0
  call data
  movr r7 r0
  set i8 0
  call sort
  call checksum
  out i0
end

fn data            # returns i9 numbers, frozen: the one at the place i is 48271 i i modulo 2147483647
  set i5 48271
  set i6 2147483647
  newm r0 i4 i9
  set i0 0
lab next
  mul i7 i0 i0
  mul i7 i7 i5
  rem i7 i7 i6
  puti r0 i0 i7
  add i0 i0 i2
  eq i7 i0 i9
  jz i7 next
  freeze r0
end

fn sort            # returns the numbers of r7 at the places i8 up to i9 - 1, sorted, in an array of the task's own
  sub i5 i9 i8
  lt i6 i10 i5     # 1 if they are more than the grain
  jz i6 few
  div i5 i5 i3
  add i5 i5 i8     # the middle
  par sort_first sort_second
  call merge
  ret
lab few
  call sort_alone
end

fn sort_first
  mov i9 i5
  call sort
end

fn sort_second
  mov i8 i5
  call sort
end

fn sort_alone      # the same without forks
  sub i5 i9 i8
  set i6 12
  lt i6 i6 i5
  jz i6 few
  div i5 i5 i3
  add i5 i5 i8
  call alone_first
  movr r5 r0
  call alone_second
  movr r1 r0
  movr r0 r5
  call merge
  ret
lab few
  call insert
end

fn alone_first
  mov i9 i5
  call sort_alone
end

fn alone_second
  mov i8 i5
  call sort_alone
end

fn insert          # the same by insertion
  sub i5 i9 i8
  newm r0 i4 i5
  set i5 0         # how many are sorted
lab next
  geti i6 r7 i8
  mov i11 i5       # the place where the number would stand
lab shift
  jz i11 found
  sub i12 i11 i2
  geti i13 r0 i12
  lt i14 i6 i13    # 1 if the number before that place is greater
  jz i14 found
  puti r0 i11 i13
  mov i11 i12
  jmp shift
lab found
  puti r0 i11 i6
  add i5 i5 i2
  add i8 i8 i2
  eq i14 i8 i9
  jz i14 next
end

fn merge           # returns the numbers of the sorted arrays r0 and r1, sorted, in a new array
  cnti i5 r0
  cnti i6 r1
  add i7 i5 i6
  newm r2 i4 i7
  set i8 0         # the places in r0, in r1 and in the new array
  set i9 0
  set i10 0
  geti i11 r0 i8   # the numbers at the first two
  geti i12 r1 i9
lab next
  lt i13 i12 i11   # 1 if the one of r1 is less
  jz i13 take_first
  puti r2 i10 i12
  add i10 i10 i2
  add i9 i9 i2
  lt i13 i9 i6
  jz i13 rest_of_first
  geti i12 r1 i9
  jmp next
lab take_first
  puti r2 i10 i11
  add i10 i10 i2
  add i8 i8 i2
  lt i13 i8 i5
  jz i13 rest_of_second
  geti i11 r0 i8
  jmp next
lab rest_of_first
  geti i11 r0 i8
  puti r2 i10 i11
  add i10 i10 i2
  add i8 i8 i2
  eq i13 i8 i5
  jz i13 rest_of_first
  movr r0 r2
  ret
lab rest_of_second
  geti i12 r1 i9
  puti r2 i10 i12
  add i10 i10 i2
  add i9 i9 i2
  eq i13 i9 i6
  jz i13 rest_of_second
  movr r0 r2
end

fn checksum        # of the array r0
  cnti i5 r0
  set i6 0
  set i7 31
  set i0 0
lab next
  mul i0 i0 i7
  geti i8 r0 i6
  add i0 i0 i8
  add i6 i6 i2
  eq i8 i6 i5
  jz i8 next
end
