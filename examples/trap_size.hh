# The trap size: an object has at most 1,000,000 fields.
# words: run
fn main
  set i0 0
  set i1 1000001
  newm r0 i0 i1
end
