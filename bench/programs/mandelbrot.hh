# The Mandelbrot set in fixed point, with 24 binary digits after the point: N rows of 3 N / 2 pixels, from -2 - i to 1 +
# i, at most 200 iterations each. A parallel loop goes over the rows. The checksum adds up the iterations of each pixel,
# times its place.
# words: run --fuel 1000000000
fn main
  set i9 120 # N
  set i2 1         # (i2, i3 and i4 are 1, 2 and 0 everywhere)
  set i3 2
  set i4 0
  set i5 3
  mul i10 i9 i5
  div i10 i10 i3   # the pixels of a row
  set i11 16777216 # the number 1
  div i12 i11 i3   # a half
  set i0 0
  mov i1 i9
  pfor row
  out i0
end

fn row             # returns the checksum of the row i0
  mul i13 i0 i10   # the place of its first pixel
  mul i5 i0 i11    # the imaginary part: -1, and 2 times the row through N
  mul i5 i5 i3
  div i5 i5 i9
  sub i5 i5 i11
  set i0 0
  set i14 0        # the column
lab pixel
  call iterate
  add i14 i14 i2
  eq i7 i14 i10
  jz i7 pixel
end

fn iterate         # returns i0 and the iterations of the pixel in the column i14, times its place
  set i15 3
  mul i15 i15 i11  # the real part: -2, and 3 times the column through the pixels of a row
  mul i15 i15 i14
  div i15 i15 i10
  sub i15 i15 i11
  sub i15 i15 i11
  add i13 i13 i14
  add i13 i13 i2   # the place, counted from 1
  set i14 200
  set i10 4
  mul i10 i10 i11
  add i10 i10 i2   # what is more than 4 has escaped
  set i6 0         # z = i6 + i i7
  set i7 0
  set i8 0         # the iterations
lab next
  mul i1 i6 i6
  div i1 i1 i11
  mul i9 i7 i7
  div i9 i9 i11
  add i3 i1 i9
  lt i3 i3 i10
  jz i3 escaped
  mul i7 i6 i7
  div i7 i7 i12    # twice the product
  add i7 i7 i5
  sub i6 i1 i9
  add i6 i6 i15
  add i8 i8 i2
  eq i3 i8 i14
  jz i3 next
lab escaped
  mul i8 i8 i13
  add i0 i0 i8
end
