# A lock by compare and swap: two tasks add 1 to a number while they hold it. In every schedule both are counted. But
# their accesses race: only forks and joins put accesses in order, and which task takes the lock first is open.
# words: run --workers 2
fn add_one            # r0 has the lock, a reference that is nil while it is free, and the number
  set i0 0
  nil r2
  lab wait
  cas i3 r0 i0 r2 r1  # takes the lock
  jz i3 wait
  geti i4 r0 i0
  set i5 1
  add i4 i4 i5
  puti r0 i0 i4
  putr r0 i0 r2       # gives it back
end

fn main
  set i1 1
  newm r0 i1 i1
  newm r1 i0 i0       # what the lock refers to while it is taken
  movr r5 r0
  par add_one add_one
  set i1 0
  geti i4 r5 i1
  out i4              # writes 2
end
