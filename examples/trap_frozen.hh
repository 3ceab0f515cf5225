# The trap frozen: what `pack` makes is immutable.
# words: run
fn main
  set i0 5
  pack r1 0 1      # an immutable object with the number 5
  set i1 0
  geti i2 r1 i1
  out i2           # writes 5
  puti r1 i1 i2
end
