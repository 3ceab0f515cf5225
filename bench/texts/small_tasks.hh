# A tree of tasks, whose 16,384 leaves take 4 private steps and 3 in each of N turns of a loop. Compare bare_tasks.
# words: run --fuel 1000000000
fn tree
  jz i0 leaf
  sub i0 i0 i2
  par tree tree
  ret
lab leaf
  set i1 32 # N
  set i5 0
  set i6 0
lab next
  sub i1 i1 i2
  eq i3 i1 i4
  jz i3 next
end
fn main
  set i0 14
  set i2 1
  call tree
end
