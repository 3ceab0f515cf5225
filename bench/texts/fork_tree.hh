# A tree of tasks, which fork at every tenth step or so: nearly each step needs a turn.
# words: run --fuel 1000000000 --workers 4
fn leaf
  set i1 1
  set i1 1
  set i1 1
  set i1 1
end
fn tree
  jz i0 done
  set i2 1
  sub i0 i0 i2
  par tree tree
  ret
  lab done
  call leaf
end
fn main
  set i0 13 # N
  call tree
end
