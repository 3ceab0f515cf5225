# N times a recursion to a depth of 900 frames.
# words: run --fuel 1000000000
fn down
  jz i0 done
  sub i0 i0 i2
  call down
  lab done
end
fn main
  set i2 1
  set i9 2000 # N
  lab next
  jz i9 done
  set i0 900
  call down
  sub i9 i9 i2
  jmp next
  lab done
  out i9
end
