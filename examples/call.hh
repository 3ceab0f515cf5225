# A call: the callee has a copy of all registers, and returns its i0 and r0.
# words: run
fn square
  mul i0 i0 i0
  set i5 99        # the caller's i5 stays as it is
end

fn main
  set i0 12
  set i5 1
  call square
  out i0           # writes 144
  out i5           # writes 1
end
