# Eight tasks of private arithmetic, four at a time: what workers gain when tasks work on their own data.
# words: run --fuel 1000000000 --workers 4
fn work
  set i1 2000000 # N
  set i2 1
  lab next
  jz i1 done
  sub i1 i1 i2
  jmp next
  lab done
end
fn quad
  par work work
end
fn main
  par quad quad
  par quad quad
end
