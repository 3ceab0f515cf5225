# A tree of tasks, whose 16,384 leaves take one private step each. Compare small_tasks.
# words: run --fuel 1000000000
fn tree
  jz i0 leaf       # the private step of a leaf
  sub i0 i0 i2
  par tree tree
lab leaf
end
fn main
  set i0 14
  set i2 1
  call tree
end
