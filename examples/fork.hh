# A fork: two tasks run side by side. The left one's i0 comes back in i0, the right one's in i1. Two results of a task
# are returned in i0 and in an object in r0.
# words: run
fn left
  set i1 10
  add i0 i1 i2
end

fn right
  set i1 20
  add i0 i1 i2
end

fn main
  set i2 3
  par left right
  out i0           # writes 13
  out i1           # writes 23
end
