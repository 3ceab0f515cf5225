# An entangled read: the right task reads what the concurrent left task allocated. If the left task has written
# before, as it has with one worker, the run is stopped.
# words: run
fn left
  set i0 0
  set i1 1
  newm r1 i0 i1
  putr r0 i0 r1
end

fn right
  set i0 0
  getr r1 r0 i0
end

fn main
  set i0 1
  set i1 0
  newm r0 i0 i1
  par left right
end
