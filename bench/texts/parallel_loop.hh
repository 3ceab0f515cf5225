# A parallel loop over N numbers.
# words: run --fuel 1000000000
fn double
  add i0 i0 i0
end
fn main
  set i0 0
  set i1 200000 # N
  pfor double
  out i0
end
