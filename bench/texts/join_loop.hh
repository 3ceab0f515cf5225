# N forks of two tasks that do nothing: three tasks are alive at most, all others have joined.
# words: run --fuel 1000000000
fn nothing
end
fn main
  set i9 160000 # N
  set i8 1
  lab next
  jz i9 done
  par nothing nothing
  sub i9 i9 i8
  jmp next
  lab done
  out i9
end
