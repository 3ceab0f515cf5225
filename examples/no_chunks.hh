# An end for too few chunks: a parallel loop over n calls that allocate needs n chunks, since each task that allocates
# takes at least one chunk, and keeps it until its parent collects. Here 40 calls don't fit in 32 chunks.
# words: run --chunks 32
fn cell
  set i2 0
  set i3 1
  newm r1 i2 i3
end

fn main
  set i0 0
  set i1 40
  pfor cell
  out i0
end
