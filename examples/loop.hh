# A loop: adds the numbers from 10 down to 1.
# words: run
fn main
  set i0 10        # what is still to be added
  set i1 0         # the sum
  set i2 1
lab next
  jz i0 done       # goes to `done` if i0 is 0
  add i1 i1 i0
  sub i0 i0 i2
  jmp next
lab done
  out i1           # writes 55
end
