# Recursion: the factorial of 20, the greatest that 63 bits hold. Each call has registers of its own, so i5 keeps the
# number over the call. A task has at most 1,000 frames.
# words: run
fn factorial
  jz i0 one
  mov i5 i0
  set i1 1
  sub i0 i0 i1
  call factorial   # i0 becomes the factorial of the number below
  mul i0 i0 i5
  ret
lab one
  set i0 1
end

fn main
  set i0 20
  call factorial
  out i0           # writes 2432902008176640000
end
