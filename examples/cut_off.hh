# A cut-off of parallelism: the sum of the numbers from i0 up to i1 - 1 is split by forks as long as there are more than
# 250 of them, and added in a loop below that. So 1,000 numbers take 3 forks instead of 999.
# words: run --report
fn sum
  sub i2 i1 i0     # how many
  set i3 250
  lt i4 i3 i2      # 1 if they are more than 250
  jz i4 few
  set i3 2
  div i2 i2 i3
  add i2 i2 i0     # the middle
  par first second
  add i0 i0 i1
  ret
lab few            # a loop adds the rest
  set i5 0
  set i6 1
lab next
  lt i4 i0 i1
  jz i4 done
  add i5 i5 i0
  add i0 i0 i6
  jmp next
lab done
  mov i0 i5
end

fn first
  mov i1 i2
  call sum
end

fn second
  mov i0 i2
  call sum
end

fn main
  set i0 0
  set i1 1000
  call sum
  out i0           # writes 499500
end
