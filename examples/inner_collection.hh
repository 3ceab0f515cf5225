# An inner collection while children run: `main` has dropped 1,002 words when it forks, so its waiting heap is
# marked and swept while its children run. What the children hold of it, the object in r1, was reachable at the fork and
# stays where it is.
# words: run --inner 512 --report --trace
fn kid
  set i0 0
  geti i0 r1 i0
  out i0
end

fn main
  set i0 0
  set i1 1000
  newm r0 i0 i1
  nil r0           # dropped
  set i1 1
  newm r1 i0 i1
  set i2 5
  puti r1 i0 i2
  par kid kid      # each writes 5
end
