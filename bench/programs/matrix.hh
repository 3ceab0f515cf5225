# The product of two matrices of N rows and N columns. A parallel loop goes over the rows of the product. Each call
# makes its row as an object of its own and puts it into a table of the root, a down-pointer. Both factors are frozen
# arrays, the second one column by column. The checksum adds up the numbers of the product, each times its place.
# words: run --fuel 1000000000 --chunks 65536 --leaf 1000000 --inner 1000000
fn main
  set i9 160 # N
  set i2 1         # (i2 and i4 are 1 and 0 everywhere)
  set i4 0
  mul i10 i9 i9
  set i8 0
  call factor
  movr r7 r0
  mov i8 i10
  call factor
  movr r8 r0
  newm r6 i9 i4    # the product: a reference for each row
  set i0 0
  mov i1 i9
  pfor row
  call checksum
  out i0
end

fn factor          # returns N N numbers, frozen: the one at the place i - i8 is 48271 i i modulo 2003, less 1000
  set i5 48271
  set i6 2003
  set i7 1000
  newm r0 i4 i10
  set i0 0
lab next
  mul i11 i8 i8
  mul i11 i11 i5
  rem i11 i11 i6
  sub i11 i11 i7
  puti r0 i0 i11
  add i8 i8 i2
  add i0 i0 i2
  eq i11 i0 i10
  jz i11 next
  freeze r0
end

fn row             # makes the row i0 of the product
  newm r0 i4 i9
  mul i5 i0 i9     # where the row of the first factor begins and ends
  add i6 i5 i9
  set i7 0         # the place in the second factor
  set i8 0         # the column
lab column
  mov i11 i5
  set i10 0
lab next
  geti i12 r7 i11
  geti i15 r8 i7
  mul i12 i12 i15
  add i10 i10 i12
  add i11 i11 i2
  add i7 i7 i2
  eq i12 i11 i6
  jz i12 next
  puti r0 i8 i10
  add i8 i8 i2
  eq i12 i8 i9
  jz i12 column
  putr r6 i0 r0
  set i0 0
end

fn checksum        # of the product r6
  set i5 0         # the row
  set i8 0         # the place, counted from 1
  set i0 0
lab row
  getr r1 r6 i5
  set i6 0
lab next
  geti i7 r1 i6
  add i8 i8 i2
  mul i7 i7 i8
  add i0 i0 i7
  add i6 i6 i2
  eq i7 i6 i9
  jz i7 next
  add i5 i5 i2
  eq i7 i5 i9
  jz i7 row
end
