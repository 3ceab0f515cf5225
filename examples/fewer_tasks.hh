# The same 40 objects in 4 chunks: a parallel loop over 4 blocks, each of which makes 10 objects in one task. Fewer
# tasks that allocate need fewer chunks.
# words: run --chunks 32 --report
fn block
  set i2 0
  set i3 1
  set i4 10
lab more
  jz i4 done
  newm r1 i2 i3
  sub i4 i4 i3
  jmp more
lab done
  set i0 10        # returned: how many were made
end

fn main
  set i0 0
  set i1 4
  pfor block
  out i0           # writes 40
end
