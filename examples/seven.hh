# The first program: one number is set and written.
# words: run
fn main
  set i0 7
  out i0           # writes 7
end
