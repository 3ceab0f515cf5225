# Compare and swap: two tasks try to set a field from nil to an object of their own. However they are scheduled, exactly
# one `cas` yields 1, and what the winner brought stays.
# words: run --workers 2
fn try
  set i0 0
  set i1 1
  newm r1 i0 i1
  set i2 7
  puti r1 i0 i2
  nil r2
  cas i0 r0 i0 r2 r1
end

fn main
  set i0 1
  set i1 0
  newm r0 i0 i1
  movr r5 r0
  par try try
  add i0 i0 i1
  out i0           # writes 1: one of the two has won
  set i1 0
  getr r1 r5 i1
  geti i2 r1 i1
  out i2           # writes 7
end
