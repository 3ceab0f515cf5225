# The trap range: the object has the number fields 0 and 1, and field 2 is read.
# words: run
fn main
  set i0 0
  set i1 2
  newm r0 i0 i1
  geti i2 r0 i1
end
