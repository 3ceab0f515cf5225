# A frozen table that all tasks read: 20,000 numbers in order, in one frozen array of the root, are searched for N
# queries by bisection. Tasks halve the queries until at most 1,000 are left. Reads of the table take no turn. The
# output adds up the places, counted from 1, at which the queries stand that are in the table.
# words: run --fuel 1000000000 --chunks 65536 --leaf 1000000 --inner 1000000
fn main
  set i9 200000 # N
  set i10 1000     # the grain
  set i11 20000    # the numbers of the table
  set i2 1         # (i2, i3 and i4 are 1, 2 and 0 everywhere)
  set i3 2
  set i4 0
  call table
  movr r7 r0
  set i8 0
  call search
  out i0
end

fn table           # returns the table: each number is by 1 to 9 greater than the one before
  set i6 48271
  set i7 9
  newm r0 i4 i11
  set i5 0
  set i0 0
lab next
  puti r0 i5 i0
  add i5 i5 i2
  mul i12 i5 i5    # by 1, and 48271 i i modulo 9
  mul i12 i12 i6
  rem i12 i12 i7
  add i0 i0 i12
  add i0 i0 i2
  eq i12 i5 i11
  jz i12 next
  freeze r0
end

fn search          # returns the sum of the places of the queries i8 up to i9 - 1
  sub i5 i9 i8
  lt i6 i10 i5     # 1 if they are more than the grain
  jz i6 few
  div i5 i5 i3
  add i5 i5 i8     # the middle
  par search_first search_second
  add i0 i0 i1
  nil r0
  ret
lab few
  set i0 0
  set i14 48271
  set i15 2147483647
lab next
  mul i12 i8 i8    # the query i is 48271 i i modulo 2147483647, modulo 4 times the table's length
  mul i12 i12 i14
  rem i12 i12 i15
  mul i5 i11 i3
  mul i5 i5 i3
  rem i12 i12 i5
  set i5 0         # the query is at least the number at this place,
  mov i6 i11       # and less than the one at that place
lab halve
  add i7 i5 i6
  div i7 i7 i3
  eq i13 i7 i5
  eq i13 i13 i4
  jz i13 found     # there is no place between them
  geti i13 r7 i7
  lt i13 i12 i13
  jz i13 upper
  mov i6 i7
  jmp halve
lab upper
  mov i5 i7
  jmp halve
lab found
  geti i13 r7 i5
  eq i13 i13 i12
  jz i13 none      # the query isn't in the table
  add i0 i0 i5
  add i0 i0 i2
lab none
  add i8 i8 i2
  eq i13 i8 i9
  jz i13 next
  nil r0
end

fn search_first
  mov i9 i5
  call search
end

fn search_second
  mov i8 i5
  call search
end
