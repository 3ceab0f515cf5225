# Private arithmetic: five steps a turn of the loop, none of them shared.
# words: run --fuel 1000000000
fn main
  set i0 20000000 # N
  set i2 1
  set i3 3
  lab next
  jz i0 done
  add i1 i1 i0
  mul i1 i1 i3
  sub i0 i0 i2
  jmp next
  lab done
  out i1
end
