# An entangled read, as in docs/TUTORIAL.md: the second task looks into the board for what the first one has put there.
# `joined.hh` is the cure.
# words: run
fn first_half
  set i0 0
  set i1 1
  newm r0 i0 i1    # what it has found
  set i2 14
  puti r0 i0 i2
  putr r5 i0 r0    # into the board
end

fn second_half
  set i4 0
  getr r0 r5 i4    # what the task beside it has allocated
  geti i0 r0 i4
end

fn main
  set i0 2
  set i1 0
  newm r5 i0 i1    # the board
  par first_half second_half
  out i1
end
