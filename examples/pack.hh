# Immutable objects: `pack` makes one of the references r0 to r(R-1) and the numbers i0 to i(I-1). Its fields are never
# written, so it can be read everywhere: both children read it. Each child returns two results in another one.
# words: run
fn sum
  set i5 0
  set i6 1
  geti i0 r0 i5
  geti i1 r0 i6
  add i2 i0 i1
  mul i1 i0 i1
  mov i0 i2
  pack r0 0 2      # two results: the sum and the product
end

fn main
  set i0 6
  set i1 7
  pack r0 0 2
  par sum sum
  set i5 0
  set i6 1
  geti i2 r0 i5
  geti i3 r1 i6
  out i2           # writes 13
  out i3           # writes 42
end
